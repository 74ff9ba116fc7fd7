"""Finds the tools of a folder, the files that each of them reaches, and how many lines are a tool's own.

A tool is a program that lies in the folder itself. A Python program reaches the modules that it imports, at the top or within a function,
and what these import; and of a package that it reaches, the files other than modules whose names stand in a module that it reaches, as that
of a page's script. What one tool alone reaches is its own, and what several reach is a library.
"""
from __future__ import annotations

import ast
import os
from typing import Dict, Iterator, List, NamedTuple, Set


class Tool(NamedTuple):
    name: str
    lines: int  # of its own
    files: List[str]  # of its own, the program first


class Library(NamedTuple):
    """The shared modules of a package, and the tools that reach some of them."""

    name: str
    lines: int
    tools: List[str]


def read(path: str) -> str:
    with open(path, encoding="utf-8") as file:
        return file.read()


def lines_of(path: str) -> int:
    return len(read(path).splitlines())


def programs(folder: str) -> List[str]:
    """The programs of a folder, by their first lines."""
    names = [name for name in sorted(os.listdir(folder)) if os.path.isfile(os.path.join(folder, name))]
    return [name for name in names if read(os.path.join(folder, name)).startswith("#!")]


def imported(tree: ast.AST) -> Iterator[str]:
    """The modules that a program or a module names in its imports, with dots."""
    for node in ast.walk(tree):
        if isinstance(node, ast.Import):
            yield from (alias.name for alias in node.names)
        elif isinstance(node, ast.ImportFrom) and node.module:
            yield node.module
            yield from (f"{node.module}.{alias.name}" for alias in node.names)


def named_files(tree: ast.AST, package: str) -> Iterator[str]:
    """The files of a package, other than modules, whose names stand in a text of a module."""
    for node in ast.walk(tree):
        if isinstance(node, ast.Constant) and isinstance(node.value, str) and not node.value.endswith(".py"):
            path = os.path.join(package, node.value)
            if "/" not in node.value and os.path.isfile(path):
                yield path


def reached(folder: str, program: str) -> Set[str]:
    """The files that a program reaches, without itself."""
    found: Set[str] = set()
    waiting = [os.path.join(folder, program)]
    while waiting:
        path = waiting.pop()
        text = read(path)
        if not (path.endswith(".py") or "python" in text.partition("\n")[0]):
            continue
        tree = ast.parse(text)
        if path.endswith(".py"):
            found.update(named_files(tree, os.path.dirname(path)))
        for module in imported(tree):
            parts = module.split(".")
            heads = [os.path.join(folder, *parts[:count], "__init__.py") for count in range(1, len(parts) + 1)]
            for file in [*heads, os.path.join(folder, *parts) + ".py"]:
                if os.path.isfile(file) and file not in found:
                    found.add(file)
                    waiting.append(file)
    return found


def users(folder: str) -> Dict[str, List[str]]:
    """The files that tools reach, each with these tools."""
    found: Dict[str, List[str]] = {}
    for name in programs(folder):
        for file in reached(folder, name):
            found.setdefault(file, []).append(name)
    return found


def tools(folder: str) -> List[Tool]:
    by_file = users(folder)
    found = []
    for name in programs(folder):
        own = [os.path.join(folder, name), *sorted(file for file, names in by_file.items() if names == [name])]
        found.append(Tool(name, sum(map(lines_of, own)), [os.path.relpath(file, folder) for file in own]))
    return found


def libraries(folder: str) -> List[Library]:
    by_package: Dict[str, List[str]] = {}
    by_file = users(folder)
    for file, names in by_file.items():
        if len(names) > 1:
            by_package.setdefault(os.path.relpath(os.path.dirname(file), folder), []).append(file)
    return [Library(package, sum(map(lines_of, files)), sorted({name for file in files for name in by_file[file]}))
            for package, files in sorted(by_package.items())]


def unreached(folder: str) -> List[str]:
    """The files of packages that no tool reaches."""
    by_file = users(folder)
    packages = {os.path.dirname(file) for file in by_file}
    files = [os.path.join(package, name) for package in packages for name in os.listdir(package)]
    return sorted(os.path.relpath(file, folder) for file in files if os.path.isfile(file) and file not in by_file)

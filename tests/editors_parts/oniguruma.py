"""Searches lines by Oniguruma, the engine that VS Code has for the patterns of a grammar, where its library is installed."""
from __future__ import annotations

import ctypes
import ctypes.util
from functools import lru_cache
from typing import Any, List, Optional, Tuple

CAPTURE_GROUP = 1 << 8  # the option with which VS Code makes patterns


class Region(ctypes.Structure):
    """Where a match and its groups begin and end, in bytes."""

    _fields_ = [("allocated", ctypes.c_int), ("count", ctypes.c_int), ("begins", ctypes.POINTER(ctypes.c_int)),
                ("ends", ctypes.POINTER(ctypes.c_int)), ("history", ctypes.c_void_p)]


class Match:
    """What is asked of a match of the module re."""

    def __init__(self, spans: List[Tuple[int, int]]) -> None:
        self.spans = spans

    def span(self, group: int = 0) -> Tuple[int, int]:
        return self.spans[group]

    def start(self) -> int:
        return self.spans[0][0]

    def end(self) -> int:
        return self.spans[0][1]


class Oniguruma:
    """The library, with UTF-8 and its own syntax of patterns."""

    def __init__(self, name: str) -> None:
        self.library = ctypes.CDLL(name)
        self.library.onig_region_new.restype = ctypes.POINTER(Region)
        self.encoding = ctypes.byref(ctypes.c_char.in_dll(self.library, "OnigEncodingUTF8"))
        self.syntax = ctypes.byref(ctypes.c_char.in_dll(self.library, "OnigSyntaxOniguruma"))
        encodings = (ctypes.c_void_p * 1)(ctypes.addressof(ctypes.c_char.in_dll(self.library, "OnigEncodingUTF8")))
        self.library.onig_initialize(encodings, 1)
        self.compiled = lru_cache(maxsize=None)(self.compile)

    def compile(self, pattern: str) -> ctypes.c_void_p:
        made, begin, end, _ = ctypes.c_void_p(), *memory(pattern.encode())
        status = self.library.onig_new(ctypes.byref(made), begin, end, ctypes.c_uint(CAPTURE_GROUP), self.encoding, self.syntax, None)
        if status:
            raise ValueError(f"Oniguruma refuses {pattern!r}, with {status}")
        return made

    def search(self, pattern: str, line: str, at: int) -> Optional[Match]:
        """The first match from a place on. As in VS Code the line has its line feed, which no span counts."""
        data = f"{line}\n".encode("utf-8", "replace")
        begin, end, _ = memory(data)
        start = ctypes.c_void_p((begin.value or 0) + len(line[:at].encode("utf-8", "replace")))
        region = self.library.onig_region_new()
        found = self.library.onig_search(self.compiled(pattern), begin, end, start, end, region, ctypes.c_uint(0))
        groups = range(region.contents.count if found >= 0 else 0)

        def place(byte: int) -> int:
            return min(len(data[:byte].decode("utf-8", "replace")), len(line)) if byte >= 0 else -1

        spans = [(place(region.contents.begins[group]), place(region.contents.ends[group])) for group in groups]
        self.library.onig_region_free(region, 1)
        return Match(spans) if spans else None


def memory(data: bytes) -> Tuple[ctypes.c_void_p, ctypes.c_void_p, Any]:
    """Where bytes begin and end, and what holds them there."""
    held = ctypes.create_string_buffer(data, max(1, len(data)))
    begin = ctypes.addressof(held)
    return ctypes.c_void_p(begin), ctypes.c_void_p(begin + len(data)), held


def load() -> Optional[Oniguruma]:
    name = ctypes.util.find_library("onig")
    return Oniguruma(name) if name else None

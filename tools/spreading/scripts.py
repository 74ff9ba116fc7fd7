"""Prints a script that runs the logs of a batch on several machines: by GNU parallel, or as an array of jobs of Slurm."""
from __future__ import annotations

import os
import shlex
from typing import List, NamedTuple

MOST_TASKS = 1000
MOST_JOBS = 200  # where there are more logs, a job has several: it costs less to start
MOST_TOGETHER = 50


class Job(NamedTuple):
    """What the script is to run: the options of each call, the specification, the folder, and how many logs are left."""

    options: List[str]
    specification: str
    results: str
    left_file: str
    left: int

    def call(self) -> List[str]:
        return ["lolamon-batch", "--part", *self.options, "--results", self.results]


def quoted(words: List[str]) -> str:
    return " ".join(map(shlex.quote, words))


def parallel_script(job: Job) -> str:
    specification, results = shlex.quote(job.specification), shlex.quote(job.results + "/{}")
    together = max(1, min(MOST_TOGETHER, job.left // MOST_JOBS))
    call = quoted([*job.call(), "--jobs", "1", "--", job.specification])
    return f"""\
#!/bin/sh
# Runs the logs of {job.left_file} by GNU parallel on all of HOSTS, such as HOSTS=one,two; ":" is this machine.
# On each host lolamon-batch is installed, and this folder is there under the same path. Where hosts see no common folder,
# take paths below this one, and set TRANSFER to yes: then files are copied there, and results back.
cd {shlex.quote(os.getcwd())} || exit
if [ "${{TRANSFER:-}}" = yes ]; then
    set -- --workdir ... --cleanup --transferfile {specification} --transferfile {{}} --return {results}
else
    set -- --workdir . --max-args {together}
fi
parallel --sshlogin "${{HOSTS:-:}}" --joblog {shlex.quote(job.results + "/jobs.txt")} --quote "$@" \\
    {call} {{}} :::: {shlex.quote(job.left_file)}
lolamon-batch --collect {shlex.quote(job.results)}
"""


def slurm_script(job: Job) -> str:
    """Slurm reads quotes in its lines as a shell does, and takes %% for % in the name of an output."""
    tasks = max(1, min(MOST_TASKS, job.left))
    pick = f"NR % {tasks} == task % {tasks}"
    output = os.path.join(job.results.replace("%", "%%"), "slurm-%a.txt")
    return f"""\
#!/bin/sh
# Give this to sbatch. On each node lolamon-batch is installed, and this folder is there under the same path.
# Afterwards: lolamon-batch --collect {shlex.quote(job.results)}
#SBATCH --job-name=lolamon
#SBATCH --array=1-{tasks}
#SBATCH --cpus-per-task=1
#SBATCH --chdir={shlex.quote(os.getcwd())}
#SBATCH --output={shlex.quote(output)}
cd {shlex.quote(os.getcwd())} || exit
awk -v task="$SLURM_ARRAY_TASK_ID" {shlex.quote(pick)} {shlex.quote(job.left_file)} |
    {quoted([*job.call(), "--jobs", "1", "--", job.specification])} -
"""


SCRIPTS = {"parallel": parallel_script, "slurm": slurm_script}  # by their engines

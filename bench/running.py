"""Runs a program and measures it; a module of the other scripts. It puts the module pairmd on their path."""

import os
import subprocess
import sys

sys.path.insert(1, os.path.join(os.path.dirname(os.path.realpath(__file__)), "..", "python"))
import pairmd  # noqa: E402

# A child's peak memory includes its parent's memory at the start, so a small process starts the program.
LAUNCHER = """
import os, sys, time
out, words = sys.argv[1], sys.argv[2:]
before = time.perf_counter()
child = os.posix_spawn(words[0], words, os.environ, file_actions=[
    (os.POSIX_SPAWN_OPEN, 1, out, os.O_WRONLY | os.O_CREAT | os.O_TRUNC, 0o644)])
_, status, usage = os.wait4(child, 0)
print(os.waitstatus_to_exitcode(status), time.perf_counter() - before, usage.ru_utime + usage.ru_stime, usage.ru_maxrss)
"""


def program():
    """The path of the program, which PAIRMD names. The script exits if there is none."""
    try:
        return os.path.abspath(pairmd.find_program())
    except pairmd.ProgramNotFound as error:
        sys.exit(str(error))


def write(room, name, text):
    """Writes a text to a file of a directory, and returns the file's path."""
    path = os.path.join(room, name)
    with open(path, "w", encoding="ascii") as file:
        file.write(text)
    return path


class Ran:
    """The cost of a run: wall time and CPU time in seconds, and peak memory in MB."""

    def __init__(self, wall, processor, memory):
        self.wall, self.processor, self.memory = wall, processor, memory


def run(words, out=os.devnull, err=None):
    """Runs a program with its standard output in the file `out`. The script exits if the status isn't 0."""
    if not os.access(words[0], os.X_OK):
        sys.exit(f"no program at {words[0]}")
    launcher = [sys.executable, "-I", "-S", "-c", LAUNCHER, out, *words]
    figures = subprocess.run(launcher, stdout=subprocess.PIPE, stderr=err, check=True, text=True).stdout.split()
    if figures[0] != "0":
        sys.exit(f"status {figures[0]} of: {' '.join(words)}")
    return Ran(float(figures[1]), float(figures[2]), int(figures[3]) / 1024)


def least_memory():
    """The peak memory of a program that does nothing, in MB: the lower limit of all figures."""
    return run(["/bin/true"]).memory


class Steps:
    """The cost of one step: the minimum of several runs of many steps, minus that of runs of few steps."""

    def __init__(self, few, many):
        self.few, self.many = few, many
        self.runs = {few: [], many: []}

    def take(self, words, option="--steps", err=None):
        """Runs both numbers of steps once more."""
        for steps in (self.few, self.many):
            self.runs[steps].append(run([*words, option, str(steps)], err=err))

    def seconds(self, of):
        """The seconds of one step; `of` selects the time of a run."""
        least = {steps: min(map(of, runs)) for steps, runs in self.runs.items()}
        return (least[self.many] - least[self.few]) / (self.many - self.few)

    def wall(self):
        return self.seconds(lambda ran: ran.wall)

    def processor(self):
        return self.seconds(lambda ran: ran.processor)

    def memory(self):
        """The peak memory of all runs, in MB."""
        return max(ran.memory for runs in self.runs.values() for ran in runs)

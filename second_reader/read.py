#!/usr/bin/env python3
"""Prints the text of a run, computed only from the run specification.

  read.py JOB STATE forward|back N

The exit status is 0 with a text; 1 if the specification has no text, with the fields of `IsLevesqueVerletRun` that
don't exist; 99 if the run is beyond the limits of this program.
"""
import sys
import threading

from run_specification import NoText, TooMuchWork, levesque_verlet_run
from steps import Direction


def with_deep_stack(function):
    """The result of a function, called with room for the deepest trees of energies."""
    given = []
    sys.setrecursionlimit(1_000_000)
    threading.stack_size(512 * 2**20)
    thread = threading.Thread(target=lambda: given.append(function()))
    thread.start()
    thread.join()
    return given[0] if given else 1


def bytes_of(path):
    """The bytes of a file."""
    with open(path, "rb") as it:
        return it.read()


def main():
    if len(sys.argv) != 5 or sys.argv[3] not in ("forward", "back") or not sys.argv[4].isdecimal():
        print(__doc__, file=sys.stderr)
        return 2
    job, state = bytes_of(sys.argv[1]), bytes_of(sys.argv[2])
    try:
        sys.stdout.buffer.write(levesque_verlet_run(job, state, Direction(sys.argv[3]), int(sys.argv[4])))
    except NoText as it:
        print("none:", it, file=sys.stderr)
        return 1
    except TooMuchWork as it:
        print("too much work:", it, file=sys.stderr)
        return 99
    return 0


if __name__ == "__main__":
    sys.exit(with_deep_stack(main))

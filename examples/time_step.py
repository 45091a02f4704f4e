#!/usr/bin/env python3
"""Converts a state to another time step: prints the state with the same velocities for a job with another `dt`.

  examples/time_step.py JOB STATE NEW_JOB [NEXT] > new_state

The two frames of a state are one time step of its job apart, so its velocities are their difference over that step. The
script moves each atom's previous coordinates. On each axis, their distance from the current ones is multiplied by the
new step over the old one, to the nearest grid unit (halves upward, minimum image). It uses only integers, so the
output has the same bytes on every machine. On standard error it prints the temperature under both jobs.

Kept: all current coordinates, box, title, step counter, names and the order of atoms; each velocity, within half a grid
unit per new step.

NEXT is the state one step later, `pairmd run JOB STATE --steps 1`. With NEXT the velocities also move to the new time.
With m the move of the last step, n the move of the next one, and f the new step over the old one, the previous
coordinate becomes (m+n) f/2 - (n-m) f^2/2 before the current one, to the nearest grid unit. This is the parabola
through the three frames, taken at the new time. If the steps are equal, nothing changes.

Not kept without NEXT: the time of the velocities. They belonged to half an old step before the current frame, and now
belong to half a new step before it, so the total energy changes (docs/GUIDE.md: by how much). A state converted to a
longer step and back without NEXT has its bytes again; one converted to a shorter step and back has them only within
that rounding.

Never kept: the way back, since steps back from the new state don't lead to the old one's past; and the times that
`pairmd trajectory` prints, which are counter times `dt`, since the step counter stays.

Both jobs must have the state's bits and the state's types. `pairmd run` tests this, and this script doesn't.
"""
import os
import sys

sys.path.insert(1, os.path.join(os.path.dirname(os.path.realpath(__file__)), "..", "python"))
import pairmd  # noqa: E402


def main():
    if len(sys.argv) not in (4, 5):
        sys.exit("usage: time_step.py JOB STATE NEW_JOB [NEXT]")
    old, new = pairmd.Job.read(sys.argv[1]), pairmd.Job.read(sys.argv[3])
    state, *following = map(pairmd.State.read, [sys.argv[2], *sys.argv[4:]])
    if following and following[0].previous != state.current:
        sys.exit("NEXT isn't the state one step on: its earlier frame isn't the current one of STATE")
    print(f"{float(pairmd.temperature(state, old)):.2f} K at {old.dt} fs", file=sys.stderr)
    try:
        made = pairmd.at_time_step(state, old.dt, new.dt, *following)
    except ValueError as error:
        sys.exit(f"{error}: the new time step is too long")
    print(f"{float(pairmd.temperature(made, new)):.2f} K at {new.dt} fs", file=sys.stderr)
    made.write(sys.stdout)


if __name__ == "__main__":
    main()

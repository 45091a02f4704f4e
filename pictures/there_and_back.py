#!/usr/bin/env python3
"""Draws there-and-back.svg: the distance of 500 argon atoms from their start, 30 ps forward and 30 ps back.

  PAIRMD=./pairmd pictures/there_and_back.py        runs the program and a leap-frog, some minutes, and draws
  pictures/there_and_back.py --draw                 draws the table of an earlier run

The picture compares the program with a floating-point leap-frog under the same forces.
"""

import liquid

STEP, STEPS, EVERY = 10, 3_000, 30
SIGMA, EPSILON, CUTOFF, SKIN, RENEW = 0.34, 0.996, 0.9, 0.15, 5


class LeapFrog:
    """A leap-frog in doubles: positions, and velocities half a step before. The list of pairs is renewed every 5 steps.
    """

    def __init__(self, places, moves, side):
        import numpy

        self.numpy, self.side, self.step, self.age = numpy, side, STEP / 1000, 0
        self.start = numpy.array(places) / liquid.PLACES * side
        self.x, self.v = self.start.copy(), numpy.array(moves) / liquid.PLACES * side / self.step
        self.one, self.other = numpy.triu_indices(len(places), 1)
        y = (SIGMA / CUTOFF) ** 6
        self.shift = 24 * EPSILON * (y - 2 * y * y) / CUTOFF

    def lines(self, one, other):
        """The vectors between pairs of atoms, minimum image."""
        line = self.x[one] - self.x[other]
        return line - self.side * self.numpy.round(line / self.side)

    def accelerations(self):
        if self.age % RENEW == 0:
            near = (self.lines(self.one, self.other) ** 2).sum(axis=1) < (CUTOFF + SKIN) ** 2
            self.listed = self.one[near], self.other[near]
        self.age += 1
        one, other = self.listed
        line = self.lines(one, other)
        square = (line**2).sum(axis=1)
        acts = square < CUTOFF**2
        one, other, line, r = one[acts], other[acts], line[acts], square[acts] ** 0.5
        x = (SIGMA / r) ** 6
        force = line * ((24 * EPSILON * (2 * x * x - x) / r + self.shift) / r)[:, None]
        count = len(self.x)
        by_axis = [self.numpy.bincount(one, f, count) - self.numpy.bincount(other, f, count) for f in force.T]
        return self.numpy.stack(by_axis, axis=1) / liquid.MASS

    def go(self, steps):
        for _ in range(steps):
            self.v += self.step * self.accelerations()
            self.x += self.step * self.v

    def turn(self):
        """Reverses the velocities: those half a step after the positions become those half a step before."""
        self.v = -(self.v + self.step * self.accelerations())

    def away(self):
        """The root mean square distance of the atoms from their start in nm."""
        return float((((self.x - self.start) ** 2).sum(axis=1).mean()) ** 0.5)


class Walk:
    """The program's run with its distance from the start: exact moves between samples, added up as integers."""

    def __init__(self, path):
        self.path, self.walk, self.start = path, liquid.pairmd.Unwrapper(), path.state.current
        self.now = self.walk.add(path.state).tolist()

    def go(self, steps, back):
        self.now = self.walk.add(self.path.go(steps, back)).tolist()

    def away(self):
        """The root mean square distance of the atoms from their start in nm."""
        moves = [[x - was for x, was in zip(*both)] for both in zip(self.now, self.start)]
        squares = [sum(move[axis] ** 2 for move in moves) for axis in range(3)]
        return sum(it * (side / liquid.PLACES) ** 2 for it, side in zip(squares, self.path.state.sides)) ** 0.5 / len(moves) ** 0.5


def run():
    path = liquid.Path(STEP)
    begun, rows = path.state, []
    walk, frog = Walk(path), LeapFrog(path.state.current, path.state.moves(), path.state.sides[0])
    for sample in range(2 * STEPS // EVERY + 1):
        if sample:
            back = sample > STEPS // EVERY
            walk.go(EVERY, back)
            frog.go(EVERY)
        if sample == STEPS // EVERY:
            frog.turn()
        rows.append([sample * EVERY * STEP / 1000, repr(walk.away()), repr(frog.away())])
    print("the starting bytes came back" if path.state == begun else "ANOTHER STATE CAME BACK")
    liquid.write_table("there-and-back", ["ps", "pairmd_nm", "leap_frog_nm"], rows)


def draw():
    rows = liquid.read_table("there-and-back")
    time, own, frog = ([float(row[name]) for row in rows] for name in ("ps", "pairmd_nm", "leap_frog_nm"))
    made, axes = liquid.figure(7.2, 3.4)
    turned = STEP * STEPS / 1000
    axes.axvline(turned, color=liquid.INK, linewidth=0.8, linestyle=":")
    axes.plot(time, frog, color=liquid.ORANGE, linewidth=1.8)
    axes.plot(time, own, color=liquid.BLUE, linewidth=1.8)
    axes.plot(time[-1:], own[-1:], "o", color=liquid.BLUE, clip_on=False, zorder=5)
    axes.set_xlim(0, time[-1])
    axes.set_ylim(0, 1.12 * max(frog))
    axes.set_xlabel("time run, ps")
    axes.set_ylabel("distance from the start, nm")
    axes.text(turned - 0.4, 1.06 * max(frog), "there", ha="right")
    axes.text(turned + 0.4, 1.06 * max(frog), "and back", ha="left")
    axes.plot(time[-1:], frog[-1:], "o", color=liquid.ORANGE, clip_on=False, zorder=5)
    off = "offset points"
    axes.annotate(f"leap-frog in doubles: {frog[-1]:.2f} nm off", (time[-1], frog[-1]), (-2, 9), textcoords=off, color=liquid.ORANGE, ha="right")
    axes.annotate("pairmd: exactly 0", (time[-1], own[-1]), (-14, 4), textcoords=off, color=liquid.BLUE, ha="right")
    liquid.save(made, "there-and-back.svg")


if __name__ == "__main__":
    if liquid.wants_run():
        run()
    draw()

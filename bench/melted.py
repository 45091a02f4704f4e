"""Melted liquid argon: the lattice of argon.py after two picoseconds under the program, with its velocities; a module.

The lattice has a fifth more interacting pairs than the liquid. An engine that is timed over hundreds of steps would be
credited with pairs that no longer exist. The program's promise makes the liquid the same bytes each time.
"""

import os

from argon import CUTOFF, LENNARD_JONES, PLACES, argon, job, state
from running import pairmd, run, write

MELTING_STEP, MELTING_STEPS = 10, 200  # fs
STEP = 2  # fs, of every job


class Melted:
    """Moving argon: the sides in 10^-5 nm, each atom's grid coordinates, and its moves in a melting step, in grid
    units.
    """

    def __init__(self, program, atoms, grid, room):
        self.sides, places = argon(atoms, grid)
        files = [write(room, "grid.job", job(LENNARD_JONES, CUTOFF, step=MELTING_STEP)), write(room, "grid.state", state(self.sides, places))]
        end = os.path.join(room, "melted.state")
        run([program, "run", *files, "--steps", str(MELTING_STEPS), "--workers", str(min(64, os.cpu_count()))], end)
        melted = pairmd.State.read(end)
        self.places, self.moves = melted.current, melted.moves()

    def state(self):
        """The text of its state for a job with the time step STEP."""
        before = [[(x - round(move * STEP / MELTING_STEP)) % PLACES for x, move in zip(at, by)] for at, by in zip(self.places, self.moves)]
        return state(self.sides, self.places, before=before)

    def box(self):
        """The sides in nm."""
        return [side / 100_000 for side in self.sides]

    def positions(self):
        """The positions in nm."""
        return self.scaled(self.places, 1)

    def velocities(self):
        """The velocities in nm/ps."""
        return self.scaled(self.moves, MELTING_STEP / 1000)

    def scaled(self, rows, by):
        """Rows of grid units as nm, divided by a number."""
        return [[x / PLACES * side / by for x, side in zip(row, self.box())] for row in rows]

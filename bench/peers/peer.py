"""The liquid for other engines, and reports of returns to the start; a module of the scripts beside it."""

import argparse
import hashlib
import os
import struct
import sys

ROOT = os.path.dirname(os.path.dirname(os.path.dirname(os.path.realpath(__file__))))
sys.path.insert(1, f"{ROOT}/python")
import pairmd  # noqa: E402

MASS, SIGMA, EPSILON, CUTOFF, STEP = 39.948, 0.34, 0.996, 0.9, 0.002  # u, nm, kJ/mol, nm, ps


class Liquid:
    """Argon from a GRO file: sides in nm, positions in nm, velocities in nm/ps."""

    def __init__(self, path):
        frame = next(pairmd.read_gro(path))
        self.sides = list(frame.sides)
        self.positions = [[x / 1000 for x in at] for at in frame.positions]
        self.velocities = [[v / 10_000 for v in velocity] for velocity in frame.velocities]


def arguments(doc, *more):
    """The parsed arguments: the GRO file, the numbers of steps, and the numbers of threads."""
    parser = argparse.ArgumentParser(description=doc, formatter_class=argparse.RawDescriptionHelpFormatter)
    parser.add_argument("--gro", default=f"{ROOT}/examples/argon.gro")
    parser.add_argument("--steps", type=int, nargs="+", default=[500, 1000, 4000])
    parser.add_argument("--threads", type=int, nargs="+", default=[1, 2, 4])
    for name, default in more:
        parser.add_argument(name, default=default)
    return parser.parse_args()


def energy():
    """The formula and the globals of examples/argon.job, for OpenMM's CustomNonbondedForce."""
    job = pairmd.Job.read(f"{ROOT}/examples/argon.job")
    return job.energy, {name: float(value) for name, value in job.globals.items()}


def digest(positions):
    """The first digits of a checksum of the positions' bytes."""
    return hashlib.sha256(b"".join(struct.pack("<3d", *at) for at in positions)).hexdigest()[:12]


def returned(start, back, sides):
    """A sentence: the number of coordinates that came back exactly, and the greatest difference in nm."""
    off = [abs(x - y - side * round((x - y) / side)) for one, other in zip(start, back) for x, y, side in zip(one, other, sides)]
    return f"{sum(it == 0 for it in off)} of {len(off)} coordinates are as they were, at most {max(off):.1e} nm off"

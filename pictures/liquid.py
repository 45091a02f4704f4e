"""Runs the program on liquid argon, and styles the pictures; a module of the scripts beside it.

PAIRMD names the program. Drawing needs matplotlib, and the leap-frog numpy: Debian's python3-matplotlib has both.
"""

import os
import sys

HERE = os.path.dirname(os.path.realpath(__file__))
EXAMPLES = os.path.join(os.path.dirname(HERE), "examples")
sys.path.insert(1, os.path.join(os.path.dirname(HERE), "python"))
import pairmd  # noqa: E402
from pairmd import PLACES  # noqa: E402, F401

MASS = 39.948  # u

# Colours of medium lightness, legible on white and on black.
INK, BLUE, ORANGE, GREEN = "#808890", "#3b82f6", "#f0822d", "#22a565"


class Path:
    """A run in parts: a job, and a state that a later one replaces."""

    def __init__(self, step, bits=32):
        self.job = pairmd.Job.read(f"{EXAMPLES}/argon.job").replaced(dt=step, bits=bits)
        self.state = pairmd.start(self.job, f"{EXAMPLES}/argon.gro")

    def ahead(self, steps, back=False):
        """The state after this many steps. The path stays at its own state."""
        return (pairmd.back if back else pairmd.run)(self.job, self.state, steps)

    def go(self, steps, back=False):
        """Moves the path by this many steps, and returns its new state."""
        self.state = self.ahead(steps, back)
        return self.state


def table(name):
    return os.path.join(HERE, f"{name}.tsv")


def write_table(name, head, rows):
    with open(table(name), "w", encoding="ascii") as it:
        for row in [head, *rows]:
            print(*row, sep="\t", file=it)


def read_table(name):
    with open(table(name), encoding="ascii") as it:
        head, *rows = [line.rstrip("\n").split("\t") for line in it if not line.startswith("# ")]
    return [dict(zip(head, row)) for row in rows]


def figure(width, height, **how):
    """A picture and its axes, with a transparent background."""
    import matplotlib

    matplotlib.use("Agg")
    plain = {"font.size": 10, "font.family": "DejaVu Sans", "svg.hashsalt": "pairmd", "axes.spines.top": False, "axes.spines.right": False}
    for part in ("text.color", "axes.labelcolor", "axes.edgecolor", "xtick.color", "ytick.color"):
        plain[part] = INK
    matplotlib.rcParams.update(plain)
    from matplotlib import pyplot

    return pyplot.subplots(figsize=(width, height), layout="constrained", **how)


def save(made, name):
    """Saves a picture beside the script: as SVG, or as PNG with 128 colours, according to its name."""
    to = os.path.join(HERE, name)
    if name.endswith("svg"):
        made.savefig(to, transparent=True, metadata={"Date": None})
        return
    from PIL import Image

    made.savefig(to, transparent=True, dpi=140)
    with Image.open(to) as it:
        it.quantize(128, Image.Quantize.FASTOCTREE).save(to, optimize=True)


def wants_run():
    """Whether to run the program. With --draw a script only draws the table of an earlier run."""
    return "--draw" not in sys.argv[1:]

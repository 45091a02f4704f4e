#!/usr/bin/env python3
"""Draws energies.svg: the total energy of 500 atoms of liquid argon over 20 ps, at time steps of 1, 2, 5 and 10 fs.

  PAIRMD=./pairmd pictures/energies.py        runs the program, 36,000 steps, and draws
  pictures/energies.py --draw                 draws the table of an earlier run

Both print the fluctuations of the total energy. `pairmd observe` prints the total: the potential energy at a step, plus
the mean of the kinetic energies half a step before and half a step after. The short steps have a panel of their own,
with a finer scale.
"""

import liquid
from liquid import pairmd

TIME, SAMPLES = 20_000, 100  # fs
STEPS = {1: liquid.INK, 2: liquid.GREEN, 5: liquid.BLUE, 10: liquid.ORANGE}
PANELS = [(5, 10), (1, 2)]


def run():
    rows = []
    for step in STEPS:
        path = liquid.Path(step)
        table = pairmd.observe(path.job, path.state, TIME // step, TIME // SAMPLES // step)
        columns = (table.exact_column(name) for name in ("time", "total", "kinetic"))
        rows += [[step, float(time), total, kinetic] for time, total, kinetic in zip(*columns)]
    liquid.write_table("energies", ["fs", "ps", "total", "kinetic"], rows)


def columns_of(rows, step):
    """The times, total energies and kinetic energies of one time step."""
    return zip(*[[float(row[name]) for name in ("ps", "total", "kinetic")] for row in rows if int(row["fs"]) == step])


def report(step, energy, kinetic):
    """Prints the fluctuations of the total energy, and returns its mean."""
    mean, warm = sum(energy) / len(energy), sum(kinetic) / len(kinetic)
    strays = (sum((it - mean) ** 2 for it in energy) / len(energy)) ** 0.5
    around = f"standard deviation {strays:.3f} ({strays / warm:.1e} of the kinetic energy, {warm:.0f})"
    print(f"{step} fs: mean {mean:.3f} kJ/mol, {around}, change from start to end {energy[-1] - energy[0]:+.3f}")
    return mean


def draw():
    rows = liquid.read_table("energies")
    made, panels = liquid.figure(7.2, 4.2, nrows=len(PANELS), sharex=True)
    for step, color in STEPS.items():
        time, energy, kinetic = columns_of(rows, step)
        mean = report(step, energy, kinetic)
        axes = next(axes for axes, steps in zip(panels, PANELS) if step in steps)
        less_mean = [it - mean for it in energy]
        axes.plot(time, less_mean, color=color, linewidth=1.5, label=f"{step} fs", zorder=3 - step / 10)
    place = {"loc": "upper right", "bbox_to_anchor": (1, 1.16), "borderpad": 0}
    for axes in panels:
        axes.legend(frameon=False, ncol=2, labelcolor="linecolor", **place)
    panels[-1].set_xlim(0, TIME / 1000)
    panels[-1].set_xticks(range(0, TIME // 1000 + 1, 5))
    panels[-1].set_xlabel("time, ps")
    made.supylabel("total energy, less its mean, kJ/mol", fontsize=10)
    liquid.save(made, "energies.svg")


if __name__ == "__main__":
    if liquid.wants_run():
        run()
    draw()

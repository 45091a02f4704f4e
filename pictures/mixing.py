#!/usr/bin/env python3
"""Draws mixing.png: 500 atoms of liquid argon at the start, after 100 ps, and 100 ps back.

  PAIRMD=./pairmd pictures/mixing.py        runs the program, 20,000 steps of 10 fs, and draws
  pictures/mixing.py --draw                 draws the table of an earlier run

The atoms of the left half are coloured.
"""

import liquid

STEP, STEPS = 10, 10_000


def run():
    path = liquid.Path(STEP)
    frames, begun = [path.state.current], path.state
    for back in (False, True):
        frames.append(path.go(STEPS, back).current)
    print("the starting bytes came back" if path.state == begun else "ANOTHER STATE CAME BACK")
    # 2^-12 of the side is fine enough for a picture
    rows = [[x >> 20 for frame in frames for x in frame[number]] for number in range(len(begun))]
    liquid.write_table("mixing", [f"{axis}{number}" for number in range(3) for axis in "xyz"], rows)


def draw():
    rows = [[int(word) / 4096 for word in row.values()] for row in liquid.read_table("mixing")]
    side = 2.877
    made, panels = liquid.figure(7.2, 2.75, ncols=3)
    titles = ("start", f"{STEPS:,} steps on: {STEP * STEPS / 1000:.0f} ps", f"{STEPS:,} steps back: the start")
    for number, (axes, title) in enumerate(zip(panels, titles)):
        # atoms in front are drawn last
        for row in sorted(rows, key=lambda row: row[3 * number + 2]):
            x, y, z = row[3 * number : 3 * number + 3]
            color = liquid.BLUE if row[0] < 0.5 else liquid.ORANGE
            axes.plot(x * side, y * side, "o", markersize=7.2, color=color, markeredgecolor="white", markeredgewidth=0.4, alpha=0.35 + 0.65 * z)
        axes.set_title(title, fontsize=10)
        axes.set(xlim=(0, side), ylim=(0, side), xticks=[], yticks=[], aspect="equal")
        for spine in axes.spines.values():
            spine.set_visible(True)
    liquid.save(made, "mixing.png")


if __name__ == "__main__":
    if liquid.wants_run():
        run()
    draw()

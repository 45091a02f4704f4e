#!/usr/bin/env python3
"""Runs every command of the README, the guides and the examples' page, and compares its output with the page. Fails if
one differs.

  tools/guide.py [--over FOLDER] [--write] [PAGE ..]

The program is the environment's PAIRMD, or ./pairmd. --over takes pages, examples and program from another folder, such
as an unpacked package of `tools/dist.py`.

A command is a line that begins with `$ ` in a block fenced as `console`. The lines up to the next command are its
output, standard output and standard error together. Blocks fenced as `sh` aren't run: they build, install or measure.
The commands of a page run in order in a new folder that has ./pairmd and copies of examples/, crates/pairmd/data/ and
python/. PAIRMD names ./pairmd, and PYTHONPATH has python/.
A line that ends in <<END takes the lines down to END as its input. --write puts the output into the page.
"""
import argparse
import difflib
import os
import shutil
import subprocess
import sys
import tempfile

ROOT = os.path.dirname(os.path.dirname(os.path.realpath(__file__)))
PAGES = ["README.md", "docs/GUIDE.md", "docs/ACCURACY.md", "examples/README.md"]
LAID_OUT = ["examples", "crates/pairmd/data", "python/pairmd"]
FENCE = "```"


def cut(page):
    """The parts of a page: its lines of text, and each command of a console block with its output."""
    parts, fence, end = [], None, None
    for line in page.splitlines(keepends=True):
        if end is not None:
            parts[-1][0].append(line)
            end = None if line.strip() == end else end
        elif fence == "console" and line.startswith("$ "):
            parts.append(([line], []))
            end = line.rstrip().rpartition("<<")[2] if "<<" in line else None
        elif line.startswith(FENCE):
            fence = line[len(FENCE) :].strip() or "text" if fence is None else None
            parts.append(line)
        elif fence == "console" and isinstance(parts[-1], tuple):
            parts[-1][1].append(line)
        elif fence == "console":
            sys.exit(f"a console block begins with no command: {line}")
        else:
            parts.append(line)
    return parts


def ran(command, folder):
    """The output of a command, standard output and standard error in order."""
    words = ["bash", "-c", "".join(command)[2:]]
    how = {"stdin": subprocess.DEVNULL, "stdout": subprocess.PIPE, "stderr": subprocess.STDOUT, "errors": "replace"}
    named = {**os.environ, "PAIRMD": f"{folder}/pairmd", "PYTHONPATH": f"{folder}/python", "PYTHONDONTWRITEBYTECODE": "1"}
    return subprocess.run(words, cwd=folder, env=named, **how).stdout.splitlines(keepends=True)


def laid_out(root, folder, program):
    """Fills a folder with the files that the commands of a page expect."""
    for part in LAID_OUT:
        shutil.copytree(f"{root}/{part}", f"{folder}/{part}")
    os.symlink(program, f"{folder}/pairmd")
    return folder


def play(root, page, program, write):
    """Runs the commands of a page, and returns the number of outputs that agree and the number that differ."""
    with open(os.path.join(root, page), encoding="utf-8") as it:
        parts = cut(it.read())
    same, other = 0, 0
    with tempfile.TemporaryDirectory(prefix="guide-") as folder:
        laid_out(root, folder, program)
        for at, (command, stands) in [(at, part) for at, part in enumerate(parts) if isinstance(part, tuple)]:
            printed = ran(command, folder)
            same, other = same + (printed == stands), other + (printed != stands)
            if printed != stands:
                print(f"{page}: {''.join(command)}{''.join(difflib.ndiff(stands, printed))}", flush=True)
            parts[at] = command, printed
    if write and other:
        with open(os.path.join(root, page), "w", encoding="utf-8") as it:
            it.write("".join(part if isinstance(part, str) else "".join(part[0] + part[1]) for part in parts))
    return same, other


def main():
    parser = argparse.ArgumentParser(description=__doc__, formatter_class=argparse.RawDescriptionHelpFormatter)
    parser.add_argument("pages", nargs="*", metavar="PAGE")
    parser.add_argument("--over", default=ROOT, metavar="FOLDER")
    parser.add_argument("--write", action="store_true", help="put the output into the pages")
    given = parser.parse_args()
    root = os.path.realpath(given.over)
    program = os.path.realpath(os.environ.get("PAIRMD") or f"{root}/pairmd")
    if not os.access(program, os.X_OK):
        sys.exit(f"no program at {program}: `make pairmd` proves and builds it, or use `make try` and PROGRAM=./pairmd-unproved")
    passed, failed = 0, 0
    for page in given.pages or PAGES:
        same, other = play(root, page, program, given.write)
        print(f"{page}: {same} outputs as on the page, {other} differ", flush=True)
        passed, failed = passed + same, failed + other
    return 1 if failed or not passed else 0


if __name__ == "__main__":
    sys.exit(main())

#!/usr/bin/env python3
"""Starts each script with --help, and fails if one doesn't print its help and end with status 0.

  tools/scripts.py

So a script whose imports are gone doesn't stay unseen, though no check runs it. Modules of scripts have no `__main__`.
"""
import argparse
import glob
import os
import subprocess
import sys
from concurrent.futures import ThreadPoolExecutor

ROOT = os.path.dirname(os.path.dirname(os.path.realpath(__file__)))
FOLDERS = ["bench", "bench/peers", "examples", "pictures", "second_reader", "tools"]


def scripts():
    """The paths of all scripts that read their arguments."""
    for path in sorted(it for folder in FOLDERS for it in glob.glob(f"{folder}/*.py", root_dir=ROOT)):
        with open(f"{ROOT}/{path}", encoding="utf-8") as it:
            text = it.read()
        if "__main__" in text and "argparse" in text:
            yield path


def fault(path):
    """What is wrong with the script's help; None if it is printed."""
    ran = subprocess.run([sys.executable, "-B", f"{ROOT}/{path}", "--help"], capture_output=True, text=True, check=False, timeout=60)
    if ran.returncode == 0 and ran.stdout.startswith("usage:"):
        return None
    return f"{path}: status {ran.returncode}, {(ran.stderr.strip().splitlines() or ['no help'])[-1]}"


def main():
    argparse.ArgumentParser(description=__doc__, formatter_class=argparse.RawDescriptionHelpFormatter).parse_args()
    found = list(scripts())
    with ThreadPoolExecutor(2) as pool:
        faults = [it for it in pool.map(fault, found) if it]
    print("".join(f"{it}\n" for it in faults) + f"{len(found)} scripts print their help: {len(faults)} faults")
    return 1 if faults else 0


if __name__ == "__main__":
    sys.exit(main())

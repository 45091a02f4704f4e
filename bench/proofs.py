#!/usr/bin/env python3
"""Measures the CPU time of proofs, crate by crate and function by function, over built libraries.

  bench/proofs.py [CRATE ..] [--jobs N] [--most N] [--keep FILE]      all crates by default; `make pairmd` builds their libraries
  bench/proofs.py --kept FILE [--most N]                              shows what an earlier run kept

Each crate is proved from nothing by one copy of the prover; nothing is kept in crates/*/out. For each function the prover
checks modules: `Lts` and `Tie` are what it makes of the code, `Proof` has its search, `Answers` what is written. It saves a
module once the module is checked, and the script reads when. It also reads the prover's CPU time, 20 times per second. So a
module has the CPU time since the one before it, also beside other work. Structs and drops are among the functions. `start`
is the time before the first module: the compiler's front end, and loaded libraries. `lemmas` are the files of proofs/ that
belong to no function.

The script prints a table of crates, the longest chain of crates, and the dearest functions (40, or --most N) with their
dearest modules. A chain is a list of crates, each of which depends on the one before; no build is shorter.
"""
import argparse
import bisect
import os
import re
import subprocess
import sys
import tempfile
import time
from concurrent.futures import ThreadPoolExecutor
from typing import NamedTuple

ROOT = os.path.dirname(os.path.dirname(os.path.realpath(__file__)))
sys.path.insert(1, f"{ROOT}/tools")
import kit  # noqa: E402

# A saved module's name: the crate's library, then the path of the function and the part of its proof.
MODULE = re.compile(r"Rattle-(\w+?)-(specs|proofs)(?:\.(.*?))?(?:\.decls)?\.oantt")
PART = re.compile(
    r"(?:^|\.)(Answers|Carried|Code|Given|Goals|Invariants|Kinds|Layout|Lts|Met|Named|Proof|Reads|Statement|Symbol|The[A-Z]\w*|Tie)\b"
)


class Proof(NamedTuple):
    """A function's proof: seconds of CPU time in the modules of one kind. The name `start` stands for all before the first
    module, `specs` for definitions and contracts, `lemmas` for lemmas, and `end` for all after the last module.
    """

    crate: str
    name: str
    kind: str
    seconds: float


def proof_of(path):
    """Returns the function that a saved module belongs to, and the kind of the module."""
    named = MODULE.match(os.path.basename(path))
    if not named or named[2] == "specs":
        return "specs", "specs"
    part = PART.search(named[3] or "")
    if not part:
        return "lemmas", "lemmas"
    return named[3][: part.start()].replace(".", "::"), part[1]


def saved(folder):
    """Returns when each module in the directory was saved, in this order, and the module's file."""
    files = [os.path.join(place, name) for place, _, names in os.walk(folder) for name in names if name.endswith(".oantt")]
    return sorted((os.stat(it).st_mtime_ns / 1e9, it) for it in files)


def used_by(process):
    """Waits for a process, and returns its status, and its CPU time at some times: two lists of seconds."""
    times, used = [time.time()], [0.0]
    while True:
        ended, status, all_used = os.wait4(process.pid, os.WNOHANG)
        if ended:
            return status, [*times, time.time()], [*used, all_used.ru_utime + all_used.ru_stime]
        with open(f"/proc/{process.pid}/stat", encoding="utf-8") as file:
            fields = file.read().rpartition(")")[2].split()
        times.append(time.time())
        used.append((int(fields[11]) + int(fields[12])) / os.sysconf("SC_CLK_TCK"))
        time.sleep(0.05)


def used_at(when, times, used):
    """Returns the CPU time at a time, between those at the times read before and after it."""
    after = min(max(bisect.bisect_left(times, when), 1), len(times) - 1)
    share = (when - times[after - 1]) / (times[after] - times[after - 1])
    return used[after - 1] + min(max(share, 0.0), 1.0) * (used[after] - used[after - 1])


def proofs_of(rtlib, crate):
    """Proves a crate from nothing, and returns its proofs, or none if the prover rejects it."""
    with tempfile.TemporaryDirectory(prefix="proofs-") as folder:
        words = [rtlib.RATTLE, "check", *crate.words(["--jobs", "1"], keeps=False), "--incremental", folder]
        prover = subprocess.Popen(words, cwd=crate.folder, stdin=subprocess.DEVNULL, stdout=subprocess.DEVNULL, stderr=subprocess.STDOUT)
        status, times, used = used_by(prover)
        modules = [(used_at(when, times, used), path) for when, path in saved(folder)]
    if status or not modules:
        return []
    sums, before = {}, modules[0][0]
    for now, path in modules:
        key = proof_of(path)
        sums[key] = sums.get(key, 0.0) + now - before
        before = now
    rows = [("start", "start", modules[0][0]), *((*key, spent) for key, spent in sums.items()), ("end", "end", used[-1] - before)]
    return [Proof(crate.name, name, kind, spent) for name, kind, spent in rows]


def seconds_by_crate(proofs):
    """Returns the seconds of each crate."""
    sums = {}
    for it in proofs:
        sums[it.crate] = sums.get(it.crate, 0.0) + it.seconds
    return sums


def longest_chain(crates, seconds):
    """Returns the crates of the chain that takes longest, lowest first."""
    best = {}
    for crate in sorted(crates, key=lambda it: len(it.below())):
        below = max((best[dep.name] for dep in crate.below() if dep.name in best), default=(0.0, []))
        best[crate.name] = (below[0] + seconds.get(crate.name, 0.0), [*below[1], crate.name])
    return max(best.values())


def show(crates, proofs, most):
    """Prints the crates' times, the longest chain and the dearest functions."""
    seconds = seconds_by_crate(proofs)
    print(f"{len(seconds)} crates, {sum(seconds.values()) / 60:.1f} minutes of CPU time")
    for name, spent in sorted(seconds.items(), key=lambda it: -it[1]):
        first = sum(it.seconds for it in proofs if it.crate == name and it.name == "start")
        print(f"  {name:18} {spent:6.1f} s, of which {first:5.1f} before the first module")
    whole, chain = longest_chain(crates, seconds)
    print(f"the longest chain takes {whole / 60:.1f} minutes:")
    print("  " + " ".join(f"{name} {seconds.get(name, 0):.0f}" for name in chain))
    kinds = {}
    for it in proofs:
        if it.name not in ("start", "end"):
            kinds.setdefault((it.crate, it.name), {})[it.kind] = it.seconds
    dearest = sorted(kinds.items(), key=lambda it: -sum(it[1].values()))[:most]
    print(f"the {most} dearest functions take {sum(sum(it.values()) for _, it in dearest):.0f} s:")
    for (crate, name), spent in dearest:
        parts = " ".join(f"{kind} {value:.1f}" for kind, value in sorted(spent.items(), key=lambda it: -it[1])[:3])
        print(f"  {sum(spent.values()):6.1f} s  {crate}::{name}: {parts}")


def keep(path, proofs):
    """Writes the proofs to a file, a line for each."""
    with open(path, "w", encoding="utf-8") as file:
        for it in proofs:
            print(it.crate, it.name, it.kind, f"{it.seconds:.2f}", sep="\t", file=file)


def kept(path):
    """Reads what `keep` wrote."""
    with open(path, encoding="utf-8") as file:
        rows = [line.rstrip("\n").split("\t") for line in file]
    return [Proof(crate, name, kind, float(seconds)) for crate, name, kind, seconds in rows]


def measured(rtlib, crates, lanes):
    """Proves crates side by side, and returns all proofs; ends with an error if a library isn't built or a crate isn't proved."""
    lacking = sorted({dep.name for it in crates for dep in it.below() if not dep.is_built()})
    if lacking:
        sys.exit(f"not built: {', '.join(lacking)}. `make pairmd` builds the libraries")
    with ThreadPoolExecutor(lanes) as pool:
        found = list(pool.map(lambda it: proofs_of(rtlib, it), crates))
    refused = [it.name for it, proofs in zip(crates, found) if not proofs]
    if refused:
        sys.exit(f"not proved: {', '.join(refused)}")
    return [it for proofs in found for it in proofs]


def main():
    parser = argparse.ArgumentParser(description=__doc__, formatter_class=argparse.RawDescriptionHelpFormatter)
    parser.add_argument("names", nargs="*", metavar="CRATE")
    parser.add_argument("--jobs", type=int, default=1, help="crates to prove at a time; 1 is the most exact")
    parser.add_argument("--most", type=int, default=40)
    parser.add_argument("--keep", metavar="FILE")
    parser.add_argument("--kept", metavar="FILE")
    given = parser.parse_args()
    rtlib = kit.module("rtlib.py")
    kit.sums_once(rtlib)
    os.chdir(ROOT)
    crates = rtlib.crates_below(ROOT)
    unknown = sorted({*given.names} - {it.name for it in crates})
    if unknown:
        sys.exit(f"crates.txt names no crate {', '.join(unknown)}")
    named = [it for it in crates if not given.names or it.name in given.names]
    proofs = kept(given.kept) if given.kept else measured(rtlib, named, given.jobs)
    if given.keep:
        keep(given.keep, proofs)
    show(crates, proofs, given.most)


if __name__ == "__main__":
    main()

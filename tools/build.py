#!/usr/bin/env python3
"""Proves the libraries that a crate depends on, several at a time, then proves and links the program.

  tools/build.py [CRATE] [--jobs N]     CRATE is pairmd by default

The script prints a line per crate. Proofs are kept in crates/*/out, so a later build proves only the crates that
changed and those above them, reusing the work of `rt check`. If a crate is proved from scratch, only its statements
are kept, as in the CI gate: the crates above load less, and the directory stays small. The first line of output names
a log with the prover's messages. Crates that the named one doesn't depend on, such as those of tests, aren't built.
"""
import argparse
import os
import shutil
import subprocess
import sys
import threading
import time
from concurrent.futures import FIRST_COMPLETED, ThreadPoolExecutor, wait

import kit

BYTES_OF_A_CHECK = 4 << 30


def jobs():
    """Returns the number of crates to prove at a time: one for each processor and each 4 GB of free memory."""
    with open("/proc/meminfo", encoding="ascii") as lines:
        free = next(int(line.split()[1]) << 10 for line in lines if line.startswith("MemAvailable"))
    return max(1, min(len(os.sched_getaffinity(0)), free // BYTES_OF_A_CHECK))


def longest_chains(crates):
    """Returns for each crate the lines of the longest chain of crates from it to the top. Crates with long chains are
    proved first.
    """
    own = {it: it.count(rb"\n") for it in crates}
    behind = dict(own)
    for it in reversed(crates):
        for dep in own.keys() & {*it.below()}:
            behind[dep] = max(behind[dep], behind[it] + own[dep])
    return behind


def prove(rtlib, crate, copies):
    """Proves and builds a library with some copies of the prover, and returns the exit status."""
    flags = ["--jobs", str(copies)]
    if crate.has_kept() or "--statements" not in rtlib.help_of("build"):
        return crate.build_rlib(flags, anew=False)
    stamp = crate.stamp()
    folder = os.path.dirname(crate.rlib)
    shutil.rmtree(folder, ignore_errors=True)
    os.makedirs(folder)
    status = crate.call(rtlib.RATTLE, "build", *crate.words(flags, keeps=False), "--statements", "-o", crate.rlib)
    if status == 0 and stamp == crate.stamp():
        with open(f"{folder}/stamp", "w", encoding="utf-8") as kept:
            kept.write(stamp)
    return status


class Build:
    """Proves libraries several at a time, prints a line for each, and writes the prover's messages to a log."""

    def __init__(self, rtlib, crates, log):
        self.rtlib, self.crates, self.log = rtlib, crates, log
        self.began, self.done, self.printing = time.monotonic(), 0, threading.Lock()

    def prove(self, crate, copies):
        """Returns whether the library was proved and built."""
        began = time.monotonic()
        crate.out = open(f"{self.log}.{crate.name}", "w+", encoding="utf-8", errors="replace")
        with crate.out:
            status = prove(self.rtlib, crate, copies)
            crate.out.seek(0)
            said = crate.out.read()
        os.remove(f"{self.log}.{crate.name}")
        self.tell(crate, status, said, time.monotonic() - began)
        return not status

    def tell(self, crate, status, said, seconds):
        """Prints the result of a crate, and appends the prover's messages to the log."""
        with self.printing:
            self.done += 1
            with open(self.log, "a", encoding="utf-8") as log:
                log.write(f"== {crate.name}\n{said}")
            minutes = (time.monotonic() - self.began) / 60
            word = "NOT proved" if status else "proved"
            print(f"{self.done:3} of {len(self.crates)}  {minutes:5.1f} min  {crate.name} {word} in {seconds:.0f} s", flush=True)
            if status:
                print("".join(line for line in said.splitlines(True) if ": error" in line)[:4000], end="", flush=True)

    def run(self, lanes):
        """Proves each crate once those below it are proved, and returns whether all were proved. A crate gets the lanes that no
        other crate waits for, as many copies of the prover: the last crates come one after another.
        """
        behind = longest_chains(self.crates)
        left, running = sorted(self.crates, key=lambda it: -behind[it]), {}
        proved = {dep for it in left for dep in it.below()} - set(left)
        with ThreadPoolExecutor(lanes) as pool:
            while left or running:
                idle = lanes - sum(copies for _, copies in running.values())
                ready = [it for it in left if proved.issuperset(it.below())][:idle]
                for at, it in enumerate(ready):
                    copies = idle // (len(ready) - at)
                    idle -= copies
                    left.remove(it)
                    running[pool.submit(self.prove, it, copies)] = it, copies
                if not running:
                    return False
                for it in wait(running, return_when=FIRST_COMPLETED).done:
                    crate, _ = running.pop(it)
                    proved |= {crate} if it.result() else set()
        return True


def libraries_below(named):
    return sorted(named.below(), key=lambda it: len(it.below()))


def not_built(crates):
    """Returns the crates whose current form isn't built."""
    return [it for it in crates if not it.is_built()]


def build(rtlib, named, lanes):
    """Proves and builds the libraries below a crate that aren't up to date, and returns whether all are now."""
    wanted = not_built(libraries_below(named))
    os.makedirs(f"{named.folder}/out", exist_ok=True)
    if not wanted:
        return True
    held = rtlib.lock([*named.below(), named])
    log = log_of(named)
    open(log, "w", encoding="utf-8").close()
    counted = f"{len(wanted)} of {len(named.below())} libraries to prove, {lanes} at a time"
    print(f"{counted}; the prover's messages are in {os.path.relpath(log)}", flush=True)
    built = Build(rtlib, wanted, log).run(lanes)
    for it in held:
        os.close(it)
    return built


def log_of(named):
    return f"{named.folder}/out/build.log"


def link(named, lanes):
    """Proves and links a program whose libraries are built, and returns whether that succeeded."""
    began, program = time.monotonic(), f"{named.folder}/out/{named.name}"
    was = os.stat(program).st_mtime_ns if os.path.exists(program) else None
    with open(log_of(named), "ab") as log:
        ran = subprocess.run([f"{kit.ROOT}/tools/rt.py", "run", "--jobs", str(lanes), "--", "--help"], cwd=named.folder, stdin=subprocess.DEVNULL, stdout=log, stderr=log)
    if ran.returncode:
        print(f"{named.name} was NOT proved and linked: see {os.path.relpath(log_of(named))}")
    elif os.stat(program).st_mtime_ns != was:
        print(f"{named.name} proved and linked in {time.monotonic() - began:.0f} s", flush=True)
    return ran.returncode == 0


def main():
    parser = argparse.ArgumentParser(description=__doc__, formatter_class=argparse.RawDescriptionHelpFormatter)
    parser.add_argument("crate", nargs="?", default="pairmd")
    parser.add_argument("--jobs", type=int, default=jobs(), help="copies of the prover at a time")
    parser.add_argument("--count", action="store_true", help="print the default of --jobs, and exit")
    given = parser.parse_args()
    if given.count:
        print(jobs())
        return 0
    rtlib = kit.module("rtlib.py")
    kit.sums_once(rtlib)
    rtlib.guarded()
    os.chdir(kit.ROOT)
    named = next((it for it in rtlib.crates_below(kit.ROOT) if it.name == given.crate), None)
    if named is None:
        sys.exit(f"crates.txt names no crate {given.crate}")
    return 0 if build(rtlib, named, given.jobs) and (not named.is_program or link(named, given.jobs)) else 1


if __name__ == "__main__":
    sys.exit(main())

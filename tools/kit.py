"""Loads the toolchain's own modules, so that the scripts call the prover with the same arguments as the command `rt`.
"""
import importlib.machinery
import importlib.util
import os
import shutil
import subprocess
import sys
import tempfile
import threading

sys.dont_write_bytecode = True
ROOT = os.path.dirname(os.path.dirname(os.path.realpath(__file__)))
# how often a mutant is tried at most, until a trial has a verdict
TRIALS = 2


def module(name):
    """Returns the file of this name in the directory of the command `rt`, loaded as a module."""
    command = shutil.which("rt") or sys.exit("the toolchain's command rt is not on PATH")
    file = os.path.join(os.path.dirname(os.path.realpath(command)), name)
    loader = importlib.machinery.SourceFileLoader(name.partition(".")[0].replace("-", "_"), file)
    made = importlib.util.module_from_spec(importlib.util.spec_from_loader(loader.name, loader))
    sys.modules[loader.name] = made
    loader.exec_module(made)
    return made


def sums_once(rtlib):
    """Has the toolchain compute each crate's checksum once per question. `Crate.stamp` computes the checksums of all crates
    below, and those of the crates below them, on each way down: 6,607 for one of `pairmd`, which has 35 crates below.
    Nothing is remembered from one question to the next, so a file that changes in between is seen.
    """
    whole, known = rtlib.Crate.stamp, threading.local()

    def stamp(crate):
        is_outer = not hasattr(known, "sums")
        if is_outer:
            known.sums = {}
        try:
            if crate.folder not in known.sums:
                known.sums[crate.folder] = whole(crate)
            return known.sums[crate.folder]
        finally:
            if is_outer:
                del known.sums

    rtlib.Crate.stamp = stamp


def spent_by_crate():
    """Returns a dictionary that gets the CPU seconds of each crate's runs of the prover from now on, as they end. Python tells
    the time of all ended children only together, so this has it wait for each with `os.wait4`.
    """
    spent, guard = {}, threading.Lock()

    def try_wait(process, flags):
        try:
            pid, status, used = os.wait4(process.pid, flags)
        except ChildProcessError:
            return process.pid, 0
        words = process.args if isinstance(process.args, list) else []
        if pid and "--crate-name" in words:
            name = words[words.index("--crate-name") + 1]
            with guard:
                spent[name] = spent.get(name, 0.0) + used.ru_utime + used.ru_stime
        return pid, status

    subprocess.Popen._try_wait = try_wait
    return spent


class Trial:
    """Tries mutants as `rt` does.

    Since the toolchain's kit 13f, `rt` makes seeds and links of its own, and returns a word for the end of a trial.
    Earlier kits returned only whether the mutant was rejected.
    """

    FLAGS = ["--jobs", "1"]

    def __init__(self):
        self.rt = module("rt")
        sums_once(self.rt.rtlib)
        self.rt.rtlib.guarded()

    def seeded(self, crate, begun):
        """Returns a directory with the results of a check of the crate, begun with those that an earlier check kept;
        None if the crate isn't proved.
        """
        if hasattr(self.rt, "seeded"):
            return self.rt.seeded(crate, self.FLAGS, begun)
        room = tempfile.mkdtemp(prefix="edits-")
        if begun:
            shutil.copytree(begun, f"{room}/seed")
        if self.rt.checked(crate, {}, self.FLAGS, f"{room}/seed").returncode:
            shutil.rmtree(room)
            return None
        return room

    def errors(self, crate):
        """Returns the prover's errors about a crate that isn't proved."""
        said = self.rt.checked(crate, {}, self.FLAGS, None).stdout
        return "\n".join(it for it in said.splitlines() if " error" in it or "not proved" in it)

    def refused(self, crate, edit, room):
        """Returns whether the prover rejected the mutant, tried over a copy of the directory's results, and the message
        of `rt`. A trial that ends without a verdict, because its process was killed say, is made once more.
        """
        over = f"{room}/{os.path.basename(edit)}"
        for _ in range(TRIALS):
            if hasattr(self.rt, "linked"):
                self.rt.linked(f"{room}/seed", over)
            else:
                shutil.copytree(f"{room}/seed", over)
            ended, said = self.rt.must_fail(crate, edit, self.FLAGS, over)
            shutil.rmtree(over, ignore_errors=True)
            if isinstance(ended, bool) or ended != self.rt.UNSURE:
                break
        return ended if isinstance(ended, bool) else ended in (self.rt.REFUSED, self.rt.AT_LIMIT), said

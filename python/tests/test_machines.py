"""Tests of replays and runs over processes that may be lost, Dask, xargs, GNU parallel and Slurm's array jobs."""

import functools
import multiprocessing
import os
import signal
import subprocess
import sys
import tempfile
import unittest
from concurrent.futures import BrokenExecutor, ProcessPoolExecutor, ThreadPoolExecutor

import pairmd

from . import example, needs, needs_program
from .test_archive import PYTHON

JOB = pairmd.Job.read(example("lennard-jones.job"))
STATE = pairmd.State.read(example("mixture.state"))


def pool_of(count):
    """A pool of processes that begin anew, whatever threads this one has."""
    return ProcessPoolExecutor(count, mp_context=multiprocessing.get_context("spawn"))


def killed_once(flag, function, call):
    """Makes a call; the first time, kills its own process instead."""
    try:
        os.close(os.open(flag, os.O_CREAT | os.O_EXCL))
    except FileExistsError:
        return function(call)
    return os.kill(os.getpid(), signal.SIGKILL)


def wrong_stream():
    """The states of a run, one of which is wrong."""
    return [it.shifted(3, 0, 1) if it.step == 30 else it for it in pairmd.states(JOB, STATE, 80, 10)]


@needs_program
class Spread(unittest.TestCase):
    def setUp(self):
        made = tempfile.TemporaryDirectory()
        self.addCleanup(made.cleanup)
        self.folder = made.name

    def losing(self, over):
        """A map over another one, a process of which is killed at the first call."""
        self.flag = os.path.join(tempfile.mkdtemp(dir=self.folder), "flag")
        return lambda function, calls: over(functools.partial(killed_once, self.flag, function), calls)

    def check(self, way):
        """A map gives the answers of one call of the program: of a replay, and of runs."""
        self.assertEqual(pairmd.replay(JOB, wrong_stream(), way), pairmd.replay(JOB, wrong_stream()))
        hot = JOB.replaced(globals={}, dt=1)
        tasks = [(JOB, STATE, 30), (hot, STATE, 30), (JOB, STATE, 5), pairmd.Task(JOB, STATE, 20, every=10, back=True)]
        outcomes = pairmd.runs([*tasks, (JOB.replaced(core=0), STATE, 1)], way)
        self.assertEqual([it.state for it in outcomes[:3]], [pairmd.run(*it) for it in tasks[:3]])
        self.assertEqual(outcomes[3].states(), list(pairmd.states(JOB, STATE, 20, 10, back=True)))
        self.assertEqual(outcomes[0].sha256, pairmd.spread.sha256(outcomes[0].text))
        with self.assertRaises(pairmd.Refusal) as caught:
            outcomes[4].state
        self.assertEqual((caught.exception.code, caught.exception.status), ("V2", 3))

    def test_maps_of_python(self):
        self.check(map)
        with ThreadPoolExecutor(3) as threads, pool_of(2) as processes:
            self.check(threads.map)
            self.check(processes.map)

    def test_runs_without_a_map(self):
        self.assertEqual(pairmd.runs([(JOB, STATE, 1e1)], workers=2)[0].state, pairmd.run(JOB, STATE, 10))
        self.assertEqual(pairmd.runs([]), [])

    def test_lost_runs(self):
        with self.assertRaises(pairmd.AnswerError):
            pairmd.runs([(JOB, STATE, 1), (JOB, STATE, 2)], lambda function, calls: [function(calls[0])])

    def test_a_killed_process_of_a_pool(self):
        """A pool that loses a process is an error; `restarting` has the answers nevertheless."""
        with self.assertRaises(BrokenExecutor), pool_of(2) as pool:
            pairmd.replay(JOB, wrong_stream(), self.losing(pool.map))
        self.check(self.losing(pairmd.restarting(lambda: pool_of(2))))
        self.assertTrue(os.path.exists(self.flag))

    def test_executors_that_all_break(self):
        way = pairmd.restarting(lambda: pool_of(1), tries=2)
        with self.assertRaisesRegex(BrokenExecutor, "2 executors broke, and 1 calls are left"):
            way(dies, [None])

    def test_a_killed_program(self):
        """A program that a signal ended gave no answer, so it is an error and no difference."""
        path = os.path.join(self.folder, "program")
        with open(path, "w", encoding="ascii") as file:
            file.write("#!/bin/sh\nkill -9 $$\n")
        os.chmod(path, 0o755)
        for way in (None, map):
            with self.assertRaises(pairmd.Refusal) as caught:
                pairmd.replay(JOB, wrong_stream(), way, program=path)
            self.assertEqual(caught.exception.status, -9)

    @needs("distributed")
    def test_dask(self):
        from dask.distributed import Client

        with Client(n_workers=2, threads_per_worker=1, dashboard_address=None) as client:
            self.check(client.map)
            self.check(self.losing(client.map))
            self.assertTrue(os.path.exists(self.flag))


def dies(_):
    """Kills its own process."""
    os.kill(os.getpid(), signal.SIGKILL)


@needs_program
class Recipes(unittest.TestCase):
    """The scripts and lines of docs/GUIDE.md, on an archive that is good, and on one with a wrong state."""

    @classmethod
    def setUpClass(cls):
        made = tempfile.TemporaryDirectory()
        cls.addClassCleanup(made.cleanup)
        cls.folder = made.name
        pairmd.write_archive(f"{cls.folder}/good", JOB, pairmd.states(JOB, STATE, 80, 10), xz=True)
        pairmd.write_archive(f"{cls.folder}/wrong", JOB, wrong_stream(), xz=True)

    def ran(self, *words, **variables):
        """Runs a command beside both archives, and returns its status and its lines, sorted."""
        bin_folder = os.path.dirname(sys.executable)
        named = {"PAIRMD": os.path.abspath(pairmd.find_program()), "PYTHONPATH": PYTHON, "PATH": f"{bin_folder}:{os.environ['PATH']}"}
        ran = subprocess.run(words, cwd=self.folder, env={**os.environ, **named, **variables}, capture_output=True, text=True, check=False)
        return ran.returncode, sorted(ran.stdout.splitlines(), key=lambda it: int(it.split()[0])), ran.stderr

    def check(self, run):
        """A recipe prints the line of each segment once, and fails for the wrong archive only."""
        lines = [f"{step} {step + 10} same" for step in range(0, 80, 10)]
        status, output, errors = run("good")
        self.assertEqual((status, output), (0, lines), errors)
        lines[2:4] = ["20 30 differs: atom 4 previous x", "30 40 differs: atom "]
        status, output, errors = run("wrong")
        self.assertNotEqual(status, 0)
        self.assertEqual([it[: len(line)] for it, line in zip(output, lines, strict=True)], lines, errors)

    def test_xargs(self):
        self.check(lambda name: self.ran("sh", "-c", f"seq 3 | xargs -P 3 -I {{}} python3 -m pairmd verify {name} --part {{}}/3"))

    @needs("$parallel")
    def test_parallel(self):
        self.check(lambda name: self.ran("sh", "-c", f"parallel -j 2 python3 -m pairmd verify {name} --part {{}}/4 ::: 1 2 3 4"))

    def test_slurm_array(self):
        """Each job of the array runs with the variables that Slurm sets."""

        def array(name):
            status, lines, errors = 0, [], ""
            for number in range(1, 4):
                variables = {"SLURM_ARRAY_TASK_ID": str(number), "SLURM_ARRAY_TASK_COUNT": "3"}
                ended, output, text = self.ran(example("verify_array.sh"), name, **variables)
                status, lines, errors = max(status, ended), lines + output, errors + text
            return status, sorted(lines, key=lambda it: int(it.split()[0])), errors

        self.check(array)

    @needs("distributed")
    def test_dask_script(self):
        self.check(lambda name: self.ran(sys.executable, "-B", example("verify_dask.py"), name, "--processes", "2"))


if __name__ == "__main__":
    unittest.main()

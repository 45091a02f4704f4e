"""Tests of archives: what they keep, states in between, and what is wrong with a bad one."""

import os
import shutil
import subprocess
import sys
import tempfile
import unittest

import pairmd
from pairmd.archive import MANIFEST, file_sha256

from . import example, needs_program
from .test_replays import written

JOB_FILE = example("lennard-jones.job")
JOB = pairmd.Job.read(JOB_FILE)
STATE = pairmd.State.read(example("mixture.state"))
PYTHON = os.path.dirname(os.path.dirname(os.path.realpath(pairmd.__file__)))


def command(*words):
    """Runs a command of the module, and returns its status, output and errors."""
    ran = subprocess.run(
        [sys.executable, "-B", "-m", "pairmd", *words],
        capture_output=True,
        text=True,
        check=False,
        env={**os.environ, "PYTHONPATH": PYTHON, "PAIRMD": os.path.abspath(pairmd.find_program())},
    )
    return ran.returncode, ran.stdout, ran.stderr


@needs_program
class Archives(unittest.TestCase):
    def setUp(self):
        made = tempfile.TemporaryDirectory()
        self.addCleanup(made.cleanup)
        self.folder = made.name
        self.states = list(pairmd.states(JOB, STATE, 60, 20))

    def path(self, *names):
        return os.path.join(self.folder, *names)

    def kept(self, name="archive", **options):
        """An archive of the run."""
        return pairmd.write_archive(self.path(name), JOB_FILE, self.states, **options)

    def test_what_is_kept(self):
        run = self.kept()
        self.assertEqual(sorted(os.listdir(run.folder)), ["job", "manifest", "states"])
        with open(self.path("archive", MANIFEST), encoding="ascii") as file:
            lines = file.read().splitlines()
        head = ["pairmd archive 1", f"version {pairmd.version()}", "dt 2", "bits 32", "steps 0 20 40 60"]
        self.assertEqual(lines[:5], head)
        self.assertEqual(lines[5:], [f"{file_sha256(self.path('archive', it))}  {it}" for it in ("job", "states")])
        self.assertEqual((run.steps, run.dt, run.bits, run.version), ((0, 20, 40, 60), 2, 32, pairmd.version()))
        self.assertEqual(list(run.states()), self.states)
        self.assertEqual(run.job, JOB)
        with open(JOB_FILE, "rb") as one, open(self.path("archive", "job"), "rb") as other:
            self.assertEqual(one.read(), other.read())
        self.assertEqual([it for it in os.listdir(self.folder) if it != "archive"], [])

    def test_compressed(self):
        run = self.kept(xz=True)
        self.assertEqual((run.states_file, list(run.states())), ("states.xz", self.states))
        again = pairmd.write_archive(self.path("again"), JOB, run.states_path)
        self.assertEqual(file_sha256(again.states_path), file_sha256(run.states_path))
        self.assertTrue(again.replay().same)
        self.assertTrue(again.replay(map, segments=2).same)

    def test_a_step_in_between(self):
        run = self.kept(xz=True)
        for step in (0, 1, 9, 10, 11, 20, 31, 5.9e1, 60):
            self.assertEqual(run.at(step), pairmd.run(JOB, STATE, step), step)
        for step in (-1, 61, 0.5):
            with self.assertRaises(ValueError):
                run.at(step)

    def test_a_run_back(self):
        states = list(pairmd.states(JOB, STATE, 40, 20, back=True))
        run = pairmd.write_archive(self.path("back"), JOB, states)
        self.assertEqual(run.steps, (0, -20, -40))
        self.assertTrue(run.replay().same)
        self.assertEqual(run.at(-33, workers=2), pairmd.back(JOB, STATE, 33))

    def test_nothing_is_overwritten(self):
        os.mkdir(self.path("taken"))
        with self.assertRaises(FileExistsError):
            self.kept("taken")
        written("", self.path("file"))
        with self.assertRaises(FileExistsError):
            self.kept("file")

    def test_bad_input_leaves_nothing(self):
        stream = self.path("stream")
        text = "".join(it.text() for it in self.states)
        cases = [
            (JOB, text[:-1], "S2", len(text.splitlines())),
            (JOB, "", "S2", 1),
            (JOB, text.replace("step 20", "step x"), "S1", len(STATE.text().splitlines()) + 3),
            (JOB.replaced(bits=24), text, "A6", None),
        ]
        for job, content, code, line in cases:
            with self.assertRaises(pairmd.FormatError) as caught:
                pairmd.write_archive(self.path("archive"), job, written(content, stream))
            self.assertEqual((caught.exception.code, caught.exception.line, caught.exception.name), (code, line, stream))
        with self.assertRaises(FileNotFoundError):
            pairmd.write_archive(self.path("archive"), JOB, self.path("missing"))
        written("pairmd job 2\n", self.path("job"))
        with self.assertRaises(pairmd.FormatError):
            pairmd.write_archive(self.path("archive"), self.path("job"), self.states)
        self.assertEqual(sorted(os.listdir(self.folder)), ["job", "stream"])

    def test_changed_files(self):
        run = self.kept()
        for name in ("job", "states"):
            with open(self.path("archive", name), "rb") as file:
                content = file.read()
            with open(self.path("archive", name), "wb") as file:
                file.write(content.replace(b"8", b"9", 1))
            with self.assertRaises(pairmd.FormatError) as caught:
                pairmd.Run.read(run.folder)
            self.assertEqual(caught.exception.name, self.path("archive", name))
            with open(self.path("archive", name), "wb") as file:
                file.write(content)
        pairmd.Run.read(run.folder)
        os.remove(self.path("archive", "job"))
        with self.assertRaises(FileNotFoundError):
            pairmd.Run.read(run.folder)

    def test_manifests(self):
        run = self.kept()
        path = self.path("archive", MANIFEST)
        with open(path, encoding="ascii") as file:
            text = file.read()
        lines = text.splitlines(keepends=True)
        for number, line in enumerate(lines, 1):
            for bad in ("", f" {line}", line[:-1] + "\r\n", line.upper() if number > 5 else line.replace(" ", "  ", 1)):
                written("".join([*lines[: number - 1], bad, *lines[number:]]), path)
                with self.assertRaises(pairmd.FormatError) as caught:
                    pairmd.Run.read(run.folder)
                self.assertEqual((caught.exception.line, caught.exception.name), (number, path), bad)
        others = [
            (text[:-1], 8),
            (text + "\n", 8),
            (text.replace("dt 2", "dt 3"), 3),
            (text.replace("bits 32", "bits 24"), 4),
            (text.replace("  states", "  ../states"), 7),
        ]
        for bad, line in others:
            written(bad, path)
            with self.assertRaises(pairmd.FormatError) as caught:
                pairmd.Run.read(run.folder)
            self.assertEqual(caught.exception.line, line, bad)
        for steps in ("0 20 40 61", "1 20 40 60", "0 20"):
            written(text.replace("0 20 40 60", steps), path)
            with self.assertRaises(pairmd.FormatError):
                pairmd.Run.read(run.folder).replay()
        written(text.replace("0 20 40 60", "0 20 40 61"), path)
        with self.assertRaises(pairmd.FormatError):
            pairmd.Run.read(run.folder).at(61)

    def test_another_version(self):
        """An archive of another version of the program is checked with this one, and a difference names both."""
        self.kept()
        self.states[1] = self.states[1].shifted(4, 2, 1)
        self.kept("wrong")
        for name in ("archive", "wrong"):
            path = self.path(name, MANIFEST)
            with open(path, encoding="ascii") as file:
                text = file.read()
            written(text.replace(f"version {pairmd.version()}", "version 0.9.12"), path)
        self.assertEqual(command("verify", self.path("archive"))[0], 0)
        self.assertEqual(pairmd.Run.read(self.path("archive")).version, "0.9.12")
        status, _, errors = command("verify", self.path("wrong"))
        self.assertEqual((status, errors.splitlines()[-1]), (1, f"(pairmd {pairmd.version()}; the archive was written with 0.9.12)"))

    def test_sums_are_those_of_sha256sum(self):
        if not shutil.which("sha256sum"):
            self.skipTest("no sha256sum")
        run = self.kept()
        ran = subprocess.run(["sha256sum", "-c", MANIFEST], cwd=run.folder, capture_output=True, text=True, check=False)
        self.assertEqual((ran.returncode, ran.stdout), (0, "job: OK\nstates: OK\n"))

    def test_commands(self):
        stream = written("".join(it.text() for it in self.states), self.path("stream"))
        folder = self.path("archive")
        status, output, errors = command("archive", folder, "--job", JOB_FILE, "--states", stream, "--xz")
        self.assertEqual((status, output, errors), (0, f"{file_sha256(os.path.join(folder, MANIFEST))}  {folder}/{MANIFEST}\n", ""))
        lines = "0 20 same\n20 40 same\n40 60 same\n"
        self.assertEqual(command("verify", folder, "--workers", "2"), (0, lines, "3 of 3 segments are the same\n"))
        parts = [command("verify", folder, "--part", f"{it}/2") for it in (1, 2)]
        self.assertEqual([it[1] for it in parts], ["0 20 same\n40 60 same\n", "20 40 same\n"])
        status, output, errors = command("archive", folder, "--job", JOB_FILE, "--states", stream)
        self.assertEqual((status, output), (1, ""))
        self.assertIn("exists", errors)

    def test_a_wrong_state(self):
        """A state that was wrong before the archive was written has the right sums, and is found by its replay."""
        self.states[1] = self.states[1].shifted(4, 2, 1)
        self.kept()
        status, output, errors = command("verify", self.path("archive"))
        self.assertEqual((status, output.splitlines()[2]), (1, "40 60 same"))
        self.assertIn("state 2 (step 20) isn't the run of state 1 (step 0): atom 5 previous z; state 3 isn't its run", errors)


if __name__ == "__main__":
    unittest.main()

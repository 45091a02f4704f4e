"""Tests of replays of streams: with one call and over maps, of streams that are good, wrong or malformed."""

import dataclasses
import gzip
import itertools
import lzma
import os
import random
import tempfile
import unittest
from concurrent.futures import ThreadPoolExecutor, as_completed

import pairmd

from . import example, needs_program

JOB = pairmd.Job.read(example("lennard-jones.job"))
STATE = pairmd.State.read(example("mixture.state"))


def run_text(steps=(0, 10, 20, 30, 40, 50)):
    """The states of a run after these steps, as one text."""
    kept = {it.step: it.text() for it in pairmd.states(JOB, STATE, max(steps), 10)}
    return "".join(kept[it] for it in steps)


def unordered(function, calls):
    """A map whose futures come as they are done."""
    with ThreadPoolExecutor(3) as pool:
        return list(as_completed([pool.submit(function, it) for it in reversed(calls)]))


def written(text, path):
    """A path, after the text is written there."""
    with open(path, "w", encoding="utf-8", errors="surrogateescape", newline="\n") as file:
        file.write(text)
    return path


class Stored(unittest.TestCase):
    """Has a directory for files, and replays a text in every way."""

    def setUp(self):
        folder = tempfile.TemporaryDirectory()
        self.addCleanup(folder.cleanup)
        self.folder = folder.name

    def outcome(self, text, **options):
        """What replays of a text lead to: lines, or the error of the program. All ways must agree."""
        path = written(text, os.path.join(self.folder, "stream"))
        found = []
        for way in ({}, {"map": map}, {"map": map, "segments": 2}, {"map": unordered, "segments": 100}):
            try:
                replay = pairmd.replay(options.get("job", JOB), path, **way, **{k: it for k, it in options.items() if k != "job"})
                found.append([*map(str, replay.segments), *replay.faults()])
            except pairmd.Refusal as error:
                found.append(error.line)
        for it in found[1:]:
            self.assertEqual(it, found[0])
        return found[0]


@needs_program
class Replays(Stored):
    def test_of_one_run(self):
        lines = ["0 10 same", "10 20 same", "20 30 same", "30 40 same", "40 50 same"]
        self.assertEqual(self.outcome(run_text()), lines)
        self.assertEqual(self.outcome(run_text(), workers=3), lines)
        replay = pairmd.replay(JOB, pairmd.states(JOB, STATE, 50, 10))
        self.assertTrue(replay.same)
        self.assertEqual([it.number for it in replay.segments], [1, 2, 3, 4, 5])
        self.assertEqual(str(replay), "5 of 5 segments are the same")

    def test_steps_back_and_none(self):
        text = run_text((0, 30, 30, 10, 50, 0))
        self.assertEqual(self.outcome(text), ["0 30 same", "30 30 same", "30 10 same", "10 50 same", "50 0 same"])

    def test_other_bits(self):
        for bits in (24, 40):
            job = JOB.replaced(bits=bits)
            states = list(pairmd.states(job, STATE.replaced(bits=bits), 20, 10))
            text = "".join(it.text() for it in states)
            self.assertEqual(self.outcome(text, job=job), ["0 10 same", "10 20 same"])
            self.assertEqual(self.outcome(text), "A6 BitsDiffer in state 1")

    def test_a_flipped_digit_is_found(self):
        states, numbers = list(pairmd.states(JOB, STATE, 50, 10)), random.Random(69)
        for number in range(6):
            atom, axis, frame = numbers.randrange(6), numbers.randrange(3), numbers.choice(["previous", "current"])
            changed = [list(it) for it in getattr(states[number], frame)]
            changed[atom][axis] = (changed[atom][axis] ^ 1 << numbers.randrange(32)) % pairmd.PLACES
            wrong = states[number].replaced(**{frame: [tuple(it) for it in changed]})
            replay = pairmd.replay(JOB, [*states[:number], wrong, *states[number + 1 :]])
            self.assertEqual([it.number for it in replay.differing], [it for it in (number, number + 1) if 1 <= it <= 5])
            (fault,) = replay.faults()
            where = f"atom {atom + 1} " + "previous " * (frame == "previous") + "xyz"[axis]
            begin = f"state {number + 1} (step {number * 10}) isn't the run of state {number} (step {number * 10 - 10}): {where}"
            if 1 <= number <= 4:
                self.assertEqual(fault, f"{begin}; state {number + 2} isn't its run")
            elif number == 5:
                self.assertEqual(fault, begin)

    def test_other_differences(self):
        text = run_text((0, 10, 20))
        second = text.index("step 10")
        for old, new, what in (("title ", "title a", "title"), ("    1AR", "    2AR", "atom 1 name"), ("box 2", "box 3", "box")):
            at = text.rindex(old, 0, second) if old == "title " else text.index(old, second)
            lines = self.outcome(text[:at] + new + text[at + len(old) :])
            self.assertEqual(lines[0], f"0 10 differs: {what}")
            self.assertTrue(lines[1].startswith("10 20 differs: "), lines)

    def test_faults_of_a_break_and_of_neighbours(self):
        """Two runs one after another break once; two wrong states in a row have one fault each."""
        other = STATE.shifted(0, 0, 1)
        kept = list(pairmd.states(JOB, STATE, 20, 10)), list(pairmd.states(JOB, other, 50, 10))
        replay = pairmd.replay(JOB, [*kept[0], *kept[1][3:]])
        self.assertEqual([it.number for it in replay.differing], [3])
        self.assertRegex("\n".join(replay.faults()), r"\Astate 4 \(step 30\) isn't the run of state 3 \(step 20\): [^;]*\Z")
        wrong = [it.shifted(number, 1, 7) if number in (2, 3) else it for number, it in enumerate(pairmd.states(JOB, STATE, 50, 10))]
        found = pairmd.replay(JOB, wrong).faults()
        self.assertEqual([it.split(" isn't")[0] for it in found], ["state 3 (step 20)", "state 4 (step 30)"])

    def test_range_and_parts(self):
        text = run_text()
        self.assertEqual(self.outcome(text, start=10, stop=3e1), ["10 20 same", "20 30 same"])
        self.assertEqual(self.outcome(text, stop=19), ["0 10 same"])
        path = os.path.join(self.folder, "stream")
        parts = [pairmd.replay(JOB, path, part=f"{it}/3").segments for it in (1, 2, 3)]
        self.assertEqual([[it.number for it in part] for part in parts], [[1, 4], [2, 5], [3]])
        self.assertEqual([it.number for it in pairmd.replay(JOB, path, part="2/2", start=20).segments], [4])
        self.assertEqual(pairmd.replay(JOB, path, part="9/9").segments, ())
        for options in ({"start": 51}, {"start": 20, "stop": 21, "map": map}):
            with self.assertRaisesRegex(ValueError, "no segment"):
                pairmd.replay(JOB, path, **options)
        for options in ({"part": "0/2"}, {"part": "3/2"}, {"part": "1"}, {"part": "1/1", "map": map}, {"map": map, "segments": 0}):
            with self.assertRaises(ValueError):
                pairmd.replay(JOB, path, **options)

    def test_lines_come_as_they_are_done(self):
        for way in (None, map):
            said = []
            replay = pairmd.replay(JOB, pairmd.states(JOB, STATE, 30, 10), way, say=said.append)
            self.assertEqual(said, [str(it) for it in replay.segments])

    def test_compressed(self):
        text = run_text((0, 10, 20))
        for name, opener in (("run.gz", gzip.open), ("run.xz", lzma.open)):
            path = os.path.join(self.folder, name)
            with opener(path, "wt", encoding="utf-8", newline="\n") as file:
                file.write(text)
            self.assertTrue(pairmd.replay(JOB, path).same)
            self.assertEqual([it.step for it in pairmd.read_states(path)], [0, 10, 20])
            self.assertEqual([step for step, _ in pairmd.energy_each(JOB, path)], [0, 10, 20])
            with open(path, "rb") as file:
                whole = file.read()
            for bad in (whole[:-9], b"not compressed", whole[:40] + bytes([whole[40] ^ 255]) + whole[41:]):
                with open(path, "wb") as file:
                    file.write(bad)
                for call in (lambda it: list(pairmd.read_states(it)), lambda it: pairmd.replay(JOB, it)):
                    with self.assertRaises(pairmd.FormatError) as caught:
                        call(path)
                    self.assertEqual(caught.exception.name, path)


@needs_program
class Malformed(Stored):
    """An error names the state of the whole stream, over a map too."""

    def test_empty_and_alone(self):
        self.assertEqual(self.outcome(""), "S2 Truncated in state 1")
        self.assertEqual(self.outcome(STATE.text()), [])
        self.assertEqual(self.outcome(STATE.text()[:-1]), "S2 Truncated in state 1")

    def test_states_that_cannot_be_read(self):
        text = run_text()
        starts = [at for at in range(len(text)) if text.startswith("pairmd state", at)]
        third = starts[2]
        cases = [
            (text[: starts[5] - 4], "S2 Truncated in state 5"),
            (text.replace("\n", "\r\n"), "S1 BadLine 1 in state 1"),
            (text[:third] + text[third:].replace("state 1", "state 3", 1), "S1 BadLine 1 in state 3"),
            (text[:third] + text[third:].replace("title", "titel", 1), "S1 BadLine 2 in state 3"),
            (text[:third] + text[third:].replace("step 20", "step 020", 1), "S1 BadLine 3 in state 3"),
            (text[:third] + text[third:].replace("atoms 6", "atoms six", 1), "S1 BadLine 4 in state 3"),
            (text[:third] + text[third:].replace("atoms 6", "atoms 5", 1), "S1 BadLine 1 in state 4"),
            (text[:third] + text[third:].replace("atoms 6", "atoms 7", 1), "S1 BadLine 12 in state 3"),
            (text[:third] + text[third:].replace("    1AR", "    1XX", 1), None),
            (text[:third] + text[third:].replace("      AR", "      XX", 1), "A1 UnknownType 1 in state 3"),
            (text + "\n", "S1 BadLine 1 in state 7"),
        ]
        for changed, line in cases:
            found = self.outcome(changed)
            if line:
                self.assertEqual(found, line)
            else:
                self.assertEqual(found[1], "10 20 differs: atom 1 name")

    def test_another_box(self):
        states = list(pairmd.states(JOB, STATE, 40, 10))
        states[3] = states[3].replaced(box=(100_000,) * 3)
        self.assertEqual(self.outcome("".join(it.text() for it in states)), "A2 CutoffTooLong in state 4")

    def test_job(self):
        error = self.outcome(run_text(), job=JOB.replaced(core=0))
        self.assertTrue(error.startswith("V2 Fault AR AR r 0 pc "), error)


@needs_program
class Lossy(unittest.TestCase):
    """A map that loses, repeats or mixes up answers is an error."""

    def test_answers_are_checked(self):
        states = list(pairmd.states(JOB, STATE, 40, 10))
        wrong = [*states[:2], states[2].shifted(3, 0, 1), *states[3:]]
        maps = {
            "lost": lambda function, calls: map(function, calls[:-1]),
            "none": lambda function, calls: [],
            "twice": lambda function, calls: map(function, [*calls, calls[0]]),
            "other": lambda function, calls: [function(calls[0])] * len(calls),
            "no answer": lambda function, calls: [None for _ in calls],
        }
        for name, way in maps.items():
            with self.subTest(name), self.assertRaises(pairmd.AnswerError):
                pairmd.replay(JOB, wrong, way)
        with self.assertRaisesRegex(pairmd.AnswerError, "lost 1 of 4 answers, to the calls 4"):
            pairmd.replay(JOB, states, maps["lost"])

    def test_answers_about_other_bytes(self):
        """An answer to a call of the same number but other files counts for nothing, nor does a changed output."""
        states = list(pairmd.states(JOB, STATE, 20, 10))
        kept = []
        pairmd.replay(JOB, states, lambda function, calls: kept.extend(map(function, calls)) or kept)
        wrong = [states[0], states[1].shifted(3, 0, 1), states[2]]
        for stale in (kept, [dataclasses.replace(it, output=b"0 10 same\n") for it in kept]):
            with self.assertRaisesRegex(pairmd.AnswerError, "SHA-256"):
                pairmd.replay(JOB, wrong, lambda function, calls, stale=stale: stale)

    def test_lines_are_checked(self):
        """A program that prints other lines, or lines that its status contradicts, isn't believed."""
        with tempfile.TemporaryDirectory() as folder:
            path = os.path.join(folder, "program")
            for script in ("echo 0 10 same", "echo 0 10 same; echo 10 21 same", "echo 0 10 same; echo '10 20 differs: title'"):
                written(f"#!/bin/sh\n{script}\n", path)
                os.chmod(path, 0o755)
                states = list(pairmd.states(JOB, STATE, 20, 10))
                for way, segments in itertools.product((None, map), (1, 2)):
                    with self.assertRaises(pairmd.AnswerError):
                        pairmd.replay(JOB, states, way, segments=segments, program=path)
            written("#!/bin/sh\nexit 0\n", path)
            bad = written(STATE.text().replace("atoms 6", "atoms six"), os.path.join(folder, "stream"))
            for way in (None, map):
                with self.assertRaisesRegex(pairmd.AnswerError, "accepted state 1"):
                    pairmd.replay(JOB, bad, way, program=path)

    def test_nothing_after_a_state_that_cannot_be_read(self):
        calls = []
        text = run_text((0, 10)) + run_text((20, 30, 40)).replace("\n", "\r\n")
        with tempfile.TemporaryDirectory() as folder, self.assertRaises(pairmd.Refusal) as caught:
            pairmd.replay(JOB, written(text, os.path.join(folder, "stream")), lambda function, it: map(function, calls.extend(it) or calls))
        self.assertEqual((len(calls), caught.exception.line), (2, "S1 BadLine 1 in state 3"))


if __name__ == "__main__":
    unittest.main()

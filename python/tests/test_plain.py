"""Tests of the module without numpy: files, states and their velocities work, and analysis says what to install."""

import os
import subprocess
import sys
import unittest
import unittest.mock

import pairmd
from pairmd import libraries

from . import ROOT, example, needs

PLAIN = """
import sys
sys.modules |= dict.fromkeys(("numpy", "scipy", "ase", "MDAnalysis", "matplotlib"))
import pairmd
states = [*pairmd.read_states(sys.argv[1])] * 2
job = pairmd.Job.read(sys.argv[2])
pairmd.write_states(states, sys.stdout)
print(states[0].moves()[3], pairmd.temperature(states[0], job), pairmd.distance(states[0], states[0].shifted(0, 0, 5)))
print(pairmd.GroFrame.of_state(states[0], 2).state(2) == states[0])
calls = [
    states[0].positions,
    lambda: pairmd.block_mean([1, 2, 3], 3),
    lambda: pairmd.radial_distribution(states),
    lambda: pairmd.State.from_arrays([], [], 1, [], 1),
    lambda: pairmd.to_ase(states[0]),
]
for call in calls:
    try:
        call()
    except ImportError as error:
        print(error)
"""


class Plain(unittest.TestCase):
    def test_without_numpy(self):
        words = [sys.executable, "-c", PLAIN, example("mixture.state"), example("lennard-jones.job")]
        named = {**os.environ, "PYTHONPATH": os.path.join(ROOT, "python")}
        output = subprocess.run(words, env=named, check=True, capture_output=True, text=True).stdout
        state, job = pairmd.State.read(example("mixture.state")), pairmd.Job.read(example("lennard-jones.job"))
        text, rest = output[: 2 * len(state.text())], output[2 * len(state.text()) :].splitlines()
        self.assertEqual(text, state.text() * 2)
        self.assertEqual(rest[:2], [f"{state.moves()[3]} {pairmd.temperature(state, job)} 5.0", "True"])
        for line in rest[2:]:
            self.assertRegex(line, "^this needs numpy, and .* has none: `apt install python3-numpy` installs it on Debian and Ubuntu, `pip")
        self.assertEqual(len(rest), 7)

    def test_libraries(self):
        with self.assertRaisesRegex(pairmd.LibraryMissing, "this needs no_such, and .* `apt install python3-no`"):
            libraries.Library("no_such.part", "python3-no", "no").thing
        self.assertEqual(libraries.Library("os.path", "", "").join("a", "b"), "a/b")

    @needs("numpy")
    def test_both_ways_of_reading(self):
        """States that are read line by line are those that are read as blocks."""
        text = pairmd.State.read(example("mixture.state")).text()
        states = [pairmd.State.parse(text)]
        with unittest.mock.patch("pairmd.state.has_numpy", lambda: False):
            states.append(pairmd.State.parse(text))
        self.assertEqual(states[0], states[1])


if __name__ == "__main__":
    unittest.main()

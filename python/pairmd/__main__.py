"""The module's own commands: starts of runs, archives, analysis of states and tables, and progress."""

from __future__ import annotations

import argparse
import sys
from fractions import Fraction

from .analysis_commands import add_commands as add_analysis
from .archive import add_commands as add_archives
from .equilibration import Schedule, equilibrate
from .errors import FormatError, LibraryMissing, ProgramNotFound, Refusal
from .job import Job
from .lattice import Component, fcc_lattice, kelvin_of
from .program import start
from .progress import rates
from .state import State
from .texts import put
from .units import exact

LATTICE = """Prints a GRO file of atoms on a lattice in a cube, a start of a run.

The sites are those of the smallest face-centred cubic lattice with enough of them; empty ones are spread evenly. The
types are shuffled. With --temperature the atoms have random velocities of that temperature, and a momentum as near to
0 as four decimals allow. As the lattice melts, half of the kinetic energy becomes potential energy: give twice the
temperature that you want. The same arguments give the same bytes on every machine."""
EQUILIBRATE = """Prints a state at a temperature: runs with the velocities scaled between them.

After each of --rounds runs of --steps steps, all velocities are scaled to the temperature, and the drift of the centre
of mass is removed. Then --settle runs of 20 steps follow without scaling, and a scaling by their mean, again and again
until the next runs have the temperature within a percent, but at most --trials times more. Each scaling starts a new
run: no step back leads past it. STATE is a state or a GRO file. PAIRMD names the program; by default it is `pairmd` on
PATH, or `./pairmd`. Progress appears on standard error."""

PROGRESS = """Adds rate and time left to what `--progress` reports, read from standard input:

  pairmd run JOB STATE --steps 1e6 --progress 2>&1 > END | python -m pairmd progress

At most one report a second is shown, and the last. Other lines, such as an error, are printed as they are."""


def fraction(word: str) -> Fraction:
    """Returns the number of a decimal or a quotient from 0 on. Raises argparse.ArgumentTypeError."""
    try:
        number = exact(word)
    except ValueError as error:
        raise argparse.ArgumentTypeError(str(error)) from None
    if number < 0:
        raise argparse.ArgumentTypeError(f"{word} is below 0")
    return number


def positive(word: str) -> Fraction:
    """Returns the number of a decimal or a quotient above 0. Raises argparse.ArgumentTypeError."""
    number = fraction(word)
    if not number:
        raise argparse.ArgumentTypeError(f"{word} isn't above 0")
    return number


def component(word: str) -> Component:
    """Returns the type of `NAME`, `NAME:PART` or `NAME:PART:MASS`. Raises argparse.ArgumentTypeError."""
    name, *numbers = word.split(":")
    if not 1 <= len(name) <= 5 or len(numbers) > 2 or not all("!" <= character <= "~" for character in name):
        raise argparse.ArgumentTypeError(f"{word} isn't NAME:PART or NAME:PART:MASS, with a name of 1 to 5 characters")
    made = Component(name, *map(fraction, numbers))
    try:
        _ = made.mass is None or made.mass_units
    except ValueError as error:
        raise argparse.ArgumentTypeError(str(error)) from None
    return made


def with_masses(mixture: list[Component], job: Job | None) -> list[Component]:
    """Returns the types with the masses of a job."""
    if job is None:
        return mixture
    return [Component(it.name, it.part, it.mass or job.type_of(it.name).mass) for it in mixture]


def print_lattice(given: argparse.Namespace) -> None:
    """Runs the command `lattice`."""
    density = given.density / given.sigma**3 if given.sigma else given.density
    mixture = with_masses(given.type, Job.read(given.job) if given.job else None)
    try:
        frame = fcc_lattice(given.atoms, density, mixture, given.temperature, given.seed)
        text = frame.text()
    except ValueError as error:
        given.usage_error(str(error))
    put(sys.stdout, [text])
    if frame.velocities:
        masses = {it.name: it.mass_units for it in mixture}
        kelvin = kelvin_of(frame.velocities, [masses[atom.name] for atom in frame.atoms])
        print(f"{float(kelvin):.2f} K", file=sys.stderr)


def print_equilibrated(given: argparse.Namespace) -> None:
    """Runs the command `equilibrate`."""
    job = Job.read(given.job)
    with open(given.state, "rb") as file:
        is_state = file.read(12) == b"pairmd state"
    state = State.read(given.state) if is_state else start(job, given.state)
    schedule = Schedule(given.rounds, given.steps, given.settle, trials=given.trials)
    say = lambda line: print(line, file=sys.stderr, flush=True)  # noqa: E731
    end = equilibrate(job, state, given.temperature, schedule, workers=given.workers, say=say)
    end.write(sys.stdout)


def print_rates(_: argparse.Namespace) -> None:
    """Runs the command `progress`."""
    for line in rates(sys.stdin):
        print(line, flush=True)


def arguments() -> argparse.ArgumentParser:
    """Returns the parser of the command line."""
    parser = argparse.ArgumentParser(prog="python -m pairmd", description=__doc__)
    commands = parser.add_subparsers(required=True, metavar="COMMAND")
    plain = argparse.RawDescriptionHelpFormatter
    made = commands.add_parser("lattice", description=LATTICE, formatter_class=plain, help="print a GRO file of atoms on a lattice")
    made.add_argument("--atoms", type=int, required=True, metavar="N")
    made.add_argument("--density", type=positive, required=True, metavar="D", help="in nm^-3; with --sigma in sigma^-3")
    made.add_argument("--sigma", type=positive, metavar="S", help="in nm: the density is reduced")
    parts = "the name of a type, its part of the atoms, its mass in u; repeat it for a mixture"
    made.add_argument("--type", type=component, action="append", required=True, metavar="NAME[:PART[:MASS]]", help=parts)
    made.add_argument("--job", metavar="JOB", help="the job with the masses of the types")
    made.add_argument("--temperature", type=fraction, metavar="K", help="of the velocities, in K; at rest without it")
    made.add_argument("--seed", type=int, default=1, metavar="N", help="of the random numbers (1)")
    made.set_defaults(command=print_lattice, usage_error=made.error)
    warm = commands.add_parser("equilibrate", description=EQUILIBRATE, formatter_class=plain, help="print a state at a temperature")
    warm.add_argument("job", metavar="JOB")
    warm.add_argument("state", metavar="STATE")
    warm.add_argument("--temperature", type=fraction, required=True, metavar="K", help="in K")
    counts = {"rounds": (100, "runs with scaling"), "steps": (50, "steps of such a run")}
    counts |= {"settle": (100, "runs of 20 steps without scaling"), "trials": (3, "further such runs"), "workers": (1, "threads")}
    for name, (default, text) in counts.items():
        warm.add_argument(f"--{name}", type=int, default=default, metavar="N", help=f"{text} ({default})")
    warm.set_defaults(command=print_equilibrated)
    add_archives(commands)
    add_analysis(commands)
    told = commands.add_parser("progress", description=PROGRESS, formatter_class=plain, help="add rate and time left to reports of progress")
    told.set_defaults(command=print_rates)
    return parser


def main() -> int:
    """Runs the command line, and returns the exit status: 1 for a bad file, the program's if it refuses. Bad arguments
    end it with status 2.
    """
    given = arguments().parse_args()
    try:
        given.command(given)
    except Refusal as error:
        print(f"pairmd: {error}", file=sys.stderr)
        return max(error.status, 1)
    except (FormatError, LibraryMissing, ProgramNotFound, ValueError, KeyError, OSError) as error:
        print(f"error: {error.args[0] if isinstance(error, KeyError) else error}", file=sys.stderr)
        return 1
    return 0


if __name__ == "__main__":
    sys.exit(main())

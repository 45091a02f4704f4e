"""The commands of the module that analyse files: `python -m pairmd rdf`, `sq`, `msd`, `vacf`, `fsq`, `alpha2`, `stress`,
`average` and `plot`.
"""

from __future__ import annotations

import argparse
import sys
from collections.abc import Callable, Iterable, Iterator
from typing import Any

from .averages import block_mean
from .job import Job
from .libraries import figures, np
from .motion import (
    Scattering,
    mean_square_displacement,
    non_gaussian_parameter,
    self_intermediate_scattering,
    velocity_autocorrelation,
)
from .state import State, read_states
from .stress import stress_autocorrelation, viscosity
from .structure import radial_distribution, structure_factor
from .table import Table
from .texts import Lines, put

STATES = """STATES are files of one state or more, as `pairmd states` prints them, one after another; `-` is standard input. If a
file begins with the last state of the one before, it counts once. The output is a table that gnuplot and
`numpy.loadtxt` read; `python -m pairmd plot` draws it."""
TIMES = """
Times come from the step counters, so the states may be equally far apart or not."""
TEXTS = {
    "rdf": "Prints g(r), and the mean number of atoms up to the end of each shell.\n\n" + STATES,
    "sq": "Prints the structure factor S(q), and the number of wave vectors.\n\n" + STATES,
    "msd": "Prints the mean square displacement by time.\n\n" + STATES + TIMES,
    "vacf": "Prints the velocity autocorrelation by time.\n\n" + STATES + TIMES,
    "fsq": "Prints the self-intermediate scattering function F_s(q, t).\n\n" + STATES + TIMES,
    "alpha2": "Prints the non-Gaussian parameter by time.\n\n" + STATES + TIMES,
    "stress": "Prints the stress autocorrelation of a table of `observe --tensor`, and the viscosity by the time up to which it is\n"
    "integrated.",
    "average": "Prints the mean of each column of tables of `observe`, with its standard error from the means of blocks.",
    "plot": "Draws columns of tables over their first column, as a picture whose format is that of the name's end, such as .png\n"
    "or .svg: tables of these commands or of `pairmd observe`; `-` is standard input. Needs matplotlib.\n\n"
    "  python -m pairmd rdf STATES | python -m pairmd plot - --output rdf.png",
}

HELP = {
    "rdf": "print g(r) of states",
    "sq": "print the structure factor of states",
    "msd": "print the mean square displacement by time",
    "vacf": "print the velocity autocorrelation by time",
    "fsq": "print F_s(q, t) by time",
    "alpha2": "print the non-Gaussian parameter by time",
    "stress": "print stress autocorrelation and viscosity by time",
    "average": "print means of a table's columns, with errors",
    "plot": "draw columns of tables",
}


def add_commands(commands: Any) -> None:
    """Adds the commands to the subparsers of a command line."""
    makers: dict[str, Callable[[argparse.ArgumentParser], None]] = {"rdf": _add_rdf, "sq": _add_sq}
    makers |= dict.fromkeys(("msd", "vacf", "fsq", "alpha2"), _add_motion)
    makers |= {"stress": _add_stress, "average": _add_average, "plot": _add_plot}
    for name, maker in makers.items():
        plain = argparse.RawDescriptionHelpFormatter
        made = commands.add_parser(name, description=TEXTS[name], formatter_class=plain, help=HELP[name])
        made.set_defaults(command=COMMANDS[name], kind=name)
        maker(made)


def _add_states(made: argparse.ArgumentParser, names: str) -> None:
    """Adds the streams, and the names of types."""
    made.add_argument("states", metavar="STATES", nargs="+")
    made.add_argument("--name", action="append", metavar="NAME", help=names)


def _add_rdf(made: argparse.ArgumentParser) -> None:
    """Adds the arguments of `rdf`."""
    _add_states(made, "the type of the atom in the middle; a second --name that of its neighbours")
    made.add_argument("--width", type=float, default=0.005, help="of a shell in nm (0.005)")
    made.add_argument("--limit", type=float, help="of the distance in nm (half the shortest side)")


def _add_sq(made: argparse.ArgumentParser) -> None:
    """Adds the arguments of `sq`."""
    _add_states(made, "a type; a second --name for the part of both")
    made.add_argument("--width", type=float, help="of a shell in nm^-1 (that of the least wave vector)")
    made.add_argument("--limit", type=float, default=30.0, help="of the wave number in nm^-1 (30)")


def _add_motion(made: argparse.ArgumentParser) -> None:
    """Adds the arguments of `msd`, `vacf`, `fsq` and `alpha2`."""
    _add_states(made, "a type that counts; repeat it for more")
    _add_times(made)
    made.add_argument("--most", type=int, metavar="N", help="the greatest number of intervals (half of them)")
    if made.get_default("kind") == "fsq":
        made.add_argument("--q", type=float, required=True, help="the wave number in nm^-1")
        made.add_argument("--vectors", type=int, default=12, metavar="N", help="the number of wave vectors (12)")


def _add_times(made: argparse.ArgumentParser) -> None:
    """Adds the time step."""
    times = made.add_mutually_exclusive_group(required=True)
    times.add_argument("--job", metavar="JOB", help="the job, whose time step counts")
    times.add_argument("--dt", type=float, metavar="FS", help="the time step in fs")


def _add_stress(made: argparse.ArgumentParser) -> None:
    """Adds the arguments of `stress`."""
    made.add_argument("table", metavar="TABLE")
    _add_times(made)
    made.add_argument("--volume", type=float, required=True, help="of the box in nm^3")
    made.add_argument("--temperature", type=float, metavar="K", help="in K (the table's mean)")
    made.add_argument("--most", type=int, metavar="N", help="the greatest number of rows between two (half of them)")


def _add_average(made: argparse.ArgumentParser) -> None:
    """Adds the arguments of `average`."""
    made.add_argument("tables", metavar="TABLE", nargs="+")
    made.add_argument("--column", action="append", metavar="NAME", help="with or without its unit; repeat it (all but step and time)")
    made.add_argument("--blocks", type=int, default=20, metavar="N", help="the number of blocks (20)")


def _add_plot(made: argparse.ArgumentParser) -> None:
    """Adds the arguments of `plot`."""
    made.add_argument("tables", metavar="TABLE", nargs="+")
    made.add_argument("--output", required=True, metavar="PICTURE")
    made.add_argument("--column", action="append", metavar="NAME", help="with or without its unit; repeat it (the second)")
    made.add_argument("--x", metavar="NAME", help="the column along x (the first)")
    made.add_argument("--log", choices=["x", "y", "xy"], default="", help="the axes with a logarithmic scale")


def states_of(paths: Iterable[str]) -> Iterator[State]:
    """Yields the states of files one after the other, without a first state that equals the last of the file before."""
    last: State | None = None
    for path in paths:
        for number, state in enumerate(read_states(sys.stdin if path == "-" else path)):
            if number or last is None or state.step != last.step or state != last:
                yield state
            last = state


def time_step(given: argparse.Namespace) -> float:
    """Returns the time step in fs that the arguments name."""
    return float(Job.read(given.job).dt) if given.job else float(given.dt)


def print_columns(heads: str, *columns: Any) -> None:
    """Prints columns of numbers below their heads."""
    rows = (" ".join(f"{it:.9g}" for it in row) + "\n" for row in zip(*columns))
    put(sys.stdout, [f"# {heads}\n", *rows])


def pair_of(names: list[str] | None) -> Any:
    """Returns one name or a pair of names, as g(r) takes them."""
    return names[0] if names and len(names) == 1 else names


def print_rdf(given: argparse.Namespace) -> None:
    """Runs the command `rdf`."""
    found = radial_distribution(states_of(given.states), given.width, given.limit, pair_of(given.name))
    print_columns("r/nm g number", found.r, found.g, found.number)


def print_sq(given: argparse.Namespace) -> None:
    """Runs the command `sq`."""
    found = structure_factor(states_of(given.states), given.limit, given.width, pair_of(given.name))
    print_columns("q/nm^-1 S vectors", found.q, found.s, found.vectors)


def print_motion(given: argparse.Namespace) -> None:
    """Runs the commands `msd`, `vacf`, `fsq` and `alpha2`."""
    dt, how = time_step(given), {"most": given.most, "names": given.name}
    states = states_of(given.states)
    if given.kind == "msd":
        head, found = "msd/nm^2", mean_square_displacement(states, dt=dt, **how)
    elif given.kind == "vacf":
        head, found = "vacf/(nm^2/ps^2)", velocity_autocorrelation(states, dt, **how)
    elif given.kind == "fsq":
        head, found = "Fs", self_intermediate_scattering(states, given.q, dt=dt, vectors=given.vectors, **how)
    else:
        head, found = "alpha2", non_gaussian_parameter(states, dt=dt, **how)
    print_columns(f"time/ps {head}", found.times, found.values)
    if isinstance(found, Scattering):
        put(sys.stdout, [f"# q {found.q:.6g} nm^-1, the mean of {found.vectors} wave vectors\n"])


def print_stress(given: argparse.Namespace) -> None:
    """Runs the command `stress`."""
    table = Table.read(sys.stdin if given.table == "-" else given.table)
    found = stress_autocorrelation(table, given.most, dt=time_step(given))
    kelvin = given.temperature or float(np.mean(table["temperature"]))
    print_columns("time/ps stress/bar^2 viscosity/(mPa.s)", found.times, found.values, viscosity(found, given.volume, kelvin).values)


def print_averages(given: argparse.Namespace) -> None:
    """Runs the command `average`."""
    for path in given.tables:
        table = Table.read(sys.stdin if path == "-" else path)
        names = given.column or [it for it in table.columns if it.partition("/")[0] not in ("step", "time")]
        for name in names:
            mean = block_mean(table[name], given.blocks)
            put(sys.stdout, [f"{name} {mean.value:.9g} {mean.error:.3g} {mean}\n"])


def columns_of(path: str) -> dict[str, Any]:
    """Returns the columns of a table with a head line `# NAME ..`, NaN for `-`. Raises ValueError if there is none."""
    with Lines(sys.stdin if path == "-" else path) as lines:
        heads, read = (lines.take() or "").split(), iter(lines.take, None)
        if heads[:2] == ["pairmd", "state"]:
            raise ValueError(f"{path} has states, not a table: give `python -m pairmd rdf {path}`, or another command, first")
        rows = [[float("nan") if word == "-" else float(word) for word in line.split()] for line in read if line[0] not in "#\n"]
    if heads[:1] != ["#"] or not rows or {len(row) for row in rows} != {len(heads) - 1}:
        raise ValueError(f"{path}: a table begins with `# NAME ..`, and each row has a number for each name")
    return dict(zip(heads[1:], np.array(rows).T))


def column(columns: dict[str, Any], name: str) -> str:
    """Returns the name of a column with its unit. Raises KeyError."""
    found = [it for it in columns if name in (it, it.partition("/")[0])]
    if not found:
        raise KeyError(f"no column {name}; there are {' '.join(columns)}")
    return found[0]


def draw(given: argparse.Namespace) -> None:
    """Runs the command `plot`."""
    figure = figures.Figure(figsize=(6.4, 4.2), layout="constrained")
    axes = figure.subplots()
    for path in given.tables:
        columns = columns_of(path)
        first, *others = columns
        x = column(columns, given.x) if given.x else first
        shown = [column(columns, it) for it in given.column or others[:1]]
        for name in shown:
            axes.plot(columns[x], columns[name], label=name if len(given.tables) == 1 else f"{path}: {name}")
        axes.set_xlabel(x)
        axes.set_ylabel(shown[0] if len(shown) == 1 else "")
    if len(given.tables) > 1 or len(given.column or []) > 1:
        axes.legend()
    axes.set_xscale("log" if "x" in given.log else "linear")
    axes.set_yscale("log" if "y" in given.log else "linear")
    figure.savefig(given.output, dpi=150)


COMMANDS: dict[str, Callable[[argparse.Namespace], None]] = {
    "rdf": print_rdf,
    "sq": print_sq,
    **dict.fromkeys(("msd", "vacf", "fsq", "alpha2"), print_motion),
    "stress": print_stress,
    "average": print_averages,
    "plot": draw,
}

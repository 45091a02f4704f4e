"""The jobs of a text: job/specs/Values and JobText."""
from dataclasses import dataclass
from itertools import product
from typing import List

from arithmetic import Frac
from job_lines import HEADER, GlobalValue, Says, TypeValue, line_values, lines_of, said
from library import all_apart

# ---- values


@dataclass
class JobValue:
    """job/specs/Values: JobValue, a job. Its numbers have the fraction bits `frac`: core and cutoff are in 2^-bits nm.
    The time step is in fs.
    """

    frac: Frac
    energy: bytes
    core: int
    cutoff: int
    time_step: int
    slices: int
    parameters: List[bytes]
    globals: List[GlobalValue]
    types: List[TypeValue]


@dataclass
class Counts:
    """job/specs/Values: Counts, the greatest numbers of lines with these keys in a job."""

    parameters: int
    globals: int
    types: int


# job/specs/JobText: limits.
LIMITS = Counts(parameters=8, globals=16, types=64)

# ---- the meaning of all lines


def are_apart(names):
    """job/specs/JobText: AreApart, no two names are equal."""
    return all_apart(names)


def has_names_once(job):
    """job/specs/JobText: HasNamesOnce"""
    lists = (job.parameters, [it.name for it in job.globals], [it.name for it in job.types])
    return all(are_apart(names) for names in lists)


def has_at_most(most, job):
    """job/specs/JobText: HasAtMost"""
    fits = len(job.parameters) <= most.parameters and len(job.globals) <= most.globals
    return fits and len(job.types) <= most.types


def said_or(default, values):
    """job/specs/JobText: IsSaidOr, the value of the only line with a key, or the default if there is none."""
    return [default] if values == [] else values if len(values) == 1 else []


def is_job(most, job):
    """The conditions of job/specs/JobText: SayJob, on the job itself. The core is below the cutoff, each type has a
    value for each parameter, names occur once, and the counts are within the limits.
    """
    whole = all(len(it.values) == len(job.parameters) for it in job.types)
    return job.core < job.cutoff and has_at_most(most, job) and has_names_once(job) and whole


def jobs_said(most, values):
    """job/specs/JobText: SayJob, every job that lines with these values describe."""
    once = [said(values, says) for says in (Says.ENERGY, Says.CORE, Says.CUTOFF, Says.TIME_STEP)]
    if not all(len(them) == 1 for them in once):
        return []
    energy, core, cutoff, time_step = (them[0] for them in once)
    jobs = [
        JobValue(
            frac=frac,
            energy=energy,
            core=core,
            cutoff=cutoff,
            time_step=time_step,
            slices=slices,
            parameters=said(values, Says.PARAMETER),
            globals=said(values, Says.GLOBAL),
            types=said(values, Says.TYPE),
        )
        for slices in said_or(64, said(values, Says.SLICES))
        for frac in said_or(Frac.F32, said(values, Says.BITS))
    ]
    return [job for job in jobs if is_job(most, job)]


# ---- the relation


def jobs_at(most, text, frac):
    """Every job of a text with these fraction bits, at which its numerals are read."""
    lines = lines_of(text)
    if lines[0] != HEADER:
        return []
    choices = product(*(line_values(frac, line) for line in lines[1:]))
    return [job for values in choices for job in jobs_said(most, values) if job.frac is frac]


def all_jobs(most, text):
    """job/specs/JobText: IsJobText, every job whose text this is, at any number of fraction bits."""
    return [job for frac in Frac for job in jobs_at(most, text, frac)]

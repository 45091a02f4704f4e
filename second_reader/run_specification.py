"""The run specification, in its order: engine/specs/RunSpecification."""
from dataclasses import replace

from arithmetic import bits_of
from energy import all_meanings
from job import LIMITS, all_jobs
from library import all_apart
from names import is_reserved, parameters_and_globals, variables_of
from places import NO_FORCE, Place3, RingBox, acting_distance_of, force_along_of, square_of
from slope import slope_of
from state import is_state, state_of, state_text
from steps import Direction, displacement_of, next_place_of, pairs_of, sums_of_shares

# More pairs than this over all steps, or more steps, would take plain Python too long.
MOST_PAIRS = 1_000_000
MOST_STEPS = 100_000


class NoText(Exception):
    """The specification has no text for these inputs, since some of its fields don't exist. `fields` has their names;
    if one depends on another that doesn't exist, only the latter is named.
    """

    def __init__(self, *fields):
        super().__init__(", ".join(fields))
        self.fields = fields


class TooMuchWork(Exception):
    """A run beyond the limits of this program."""


class TwoMeanings(Exception):
    """The specification relates two values where it must relate one."""


def the_only(found, field):
    """The one value of a relation."""
    if len(found) > 1:
        raise TwoMeanings(field)
    if not found:
        raise NoText(field)
    return found[0]


# ---- the meaning of texts


def global_names(j):
    """engine/specs/RunSpecification: global_names"""
    return [g.name for g in j.globals]


def energy_of(j):
    """engine/specs/RunSpecification: IsJobEnergy, the tree of a job's energy, with at most 64 open parentheses and minus signs,
    and the trees of its definitions. No two of its variables have the same name (job/specs/JobText: AreApart), and only
    the distance has a reserved one.
    """
    variables = variables_of(j.parameters, global_names(j))
    if not all_apart(variables):
        raise NoText("energy")
    if any(is_reserved(name) for name in parameters_and_globals(j.parameters, global_names(j))):
        raise NoText("energy")
    return the_only(all_meanings(bits_of(j.frac), variables, j.energy, 64), "energy")


def types_of(j, atoms):
    """engine/specs/RunSpecification: AreTypes and type_at. The number of the type with the atom's name, for each atom."""
    names = [it.name for it in j.types]
    if not all(atom.name in names for atom in atoms):
        return None
    return [names.index(atom.name) for atom in atoms]


def has_room(j, side):
    """engine/specs/RunSpecification: HasRoom, a side is at least two cutoffs long: the cutoff is in 2^-bits nm, the side in
    10^-5 nm.
    """
    return 200000 * abs(j.cutoff) <= side * 2 ** bits_of(j.frac)


def box_of(sides):
    """engine/specs/RunSpecification: box_of"""
    return RingBox(*sides)


# ---- the Levesque-Verlet rule


def numbers(constants):
    """engine/specs/RunSpecification: numbers, the numbers that were read."""
    return tuple(c.value for c in constants)


class Rule:
    """The rule with a job, the tree of its energy, a box with these sides, and the types of the atoms. A frame is a
    list with the grid coordinates of each atom.
    """

    def __init__(self, j, tree, sides, types):
        self.j = j
        self.tree = tree
        self.box = box_of(sides)
        self.types = [j.types[t] for t in types]
        self.slopes = {}

    def inputs(self, pair, r):
        """engine/specs/RunSpecification: inputs, the values of the variables for a pair of atoms at a distance."""
        first, second = self.types[pair[0]], self.types[pair[1]]
        return (r, *numbers(first.values), *numbers(second.values), *numbers(g.value for g in self.j.globals))

    def slope(self, pair, r):
        """derivative/specs/Slope: slope_of, computed once for the same inputs."""
        inputs = self.inputs(pair, r)
        if inputs not in self.slopes:
            self.slopes[inputs] = slope_of(bits_of(self.j.frac), inputs)(self.tree)
        return self.slopes[inputs]

    def pair_force(self, pair, a, b):
        """engine/specs/RunSpecification: IsPairForce, the force of two atoms at a and b on the first of them. It is along the
        line through both, of the size of minus the derivative of the energy at their distance, or at the core if the
        core is greater. The force is zero if the distance isn't below the cutoff, or if both atoms are at one point. If
        the derivative has no value, the pair has no force, and the specification no text.
        """
        j = self.j
        r = acting_distance_of(j.frac, self.box, j.core, j.cutoff, a, b)
        if r is None or square_of(self.box, a, b) == 0:
            return NO_FORCE
        slope = self.slope(pair, r)
        if slope is None:
            raise NoText("leads")
        return force_along_of(self.box, -slope, a, b)

    def next_of(self, mass, p, c, force):
        """engine/specs/RunSpecification: next_of, the next coordinates of an atom after p and c, with the force at c."""

        def moved(previous, current, component, side):
            displacement = displacement_of(self.j.frac, component, self.j.time_step, mass, side)
            return next_place_of(previous, current, displacement)

        return Place3(
            moved(p.x, c.x, force.x, self.box.x),
            moved(p.y, c.y, force.y, self.box.y),
            moved(p.z, c.z, force.z, self.box.z),
        )

    def follows(self, p, c):
        """engine/specs/RunSpecification: Follows, the frame that follows the frames p and c. Each pair of atoms has a force at
        c, and each atom moves on by the exact sum of its shares over all pairs. Look-ups outside a frame, for which the
        specification has ring_box/specs/Places: no_place, don't occur.
        """
        forces = {pair: self.pair_force(pair, c[pair[0]], c[pair[1]]) for pair in pairs_of(len(c))}
        sums = sums_of_shares(forces, len(c))
        return [self.next_of(self.types[a].mass, p[a], c[a], sums[a]) for a in range(len(c))]

    def lead(self, n, p, c):
        """engine/specs/RunSpecification: Lead, the last two of n + 2 frames that begin with p and c. Each later frame follows
        the two before it.
        """
        for _ in range(n):
            p, c = c, self.follows(p, c)
        return p, c


# ---- runs


def leads(direction, rule, n, s):
    """engine/specs/RunSpecification: Leads, previous, current and who. The state after n steps in a direction, with its counter
    n further. Back is forward with the frames exchanged. Only coordinates and counter change (the fields `same` and
    `kept`).
    """
    previous = [atom.previous for atom in s.atoms]
    current = [atom.current for atom in s.atoms]
    if direction is Direction.Forward:
        previous, current = rule.lead(n, previous, current)
        step = s.step + n
    else:
        current, previous = rule.lead(n, current, previous)
        step = s.step - n
    moved = zip(s.atoms, previous, current)
    return replace(s, step=step, atoms=[replace(atom, previous=p, current=c) for atom, p, c in moved])


def program_says(job):
    """The job of a text, the tree of its energy, and the trees of the definitions: the fields `job_text` and `energy` of
    engine/specs/RunSpecification: IsLevesqueVerletRun.
    """
    j = the_only(all_jobs(LIMITS, job), "job_text")
    return (j, *energy_of(j))


def job_says(job):
    """The job of a text, and the tree of its energy."""
    j, tree, _ = program_says(job)
    return j, tree


def texts_say(job, state):
    """The job, the tree of its energy, and the state of the texts: `job_says`, and the field `state_text'`."""
    lacking = []
    before = state_of(state)
    if before is None:
        lacking.append("state_text'")
    try:
        j, tree = job_says(job)
    except NoText as it:
        lacking += it.fields
    if lacking:
        raise NoText(*lacking)
    return j, tree, before


def levesque_verlet_run(job, state, direction, n):
    """engine/specs/RunSpecification: IsLevesqueVerletRun, the text of the state after n Levesque-Verlet steps in a direction,
    from the texts of a job and a state. NoText names the fields that don't exist.
    """
    j, tree, before = texts_say(job, state)
    types = types_of(j, before.atoms)
    counter = before.step + n if direction is Direction.Forward else before.step - n
    fields = {
        "alike": before.frac is j.frac,
        "typed": types is not None,
        "room": all(has_room(j, side) for side in before.sides),
        "after_text": is_state(replace(before, step=counter)),
    }
    if not all(fields.values()):
        raise NoText(*[name for name, is_had in fields.items() if not is_had])
    count = len(before.atoms)
    if count * (count - 1) // 2 * n > MOST_PAIRS or n > MOST_STEPS:
        raise TooMuchWork(f"{count} atoms over {n} steps")
    after = leads(direction, Rule(j, tree, before.sides, types), n, before)
    return state_text(after)

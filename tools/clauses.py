#!/usr/bin/env python3
"""Lists, crate by crate, the public functions with their clauses, and the mutants.

  tools/clauses.py [--write]     --write writes the lists; without it the script fails if one differs

docs/CLAUSES.md has for each crate its purpose and dependencies, then an entry for each public function with clauses: the
first sentence of its comment, the labels of its `ensures` clauses, and the definitions of crates/*/specs that each
clause cites. Mutants of bugs that once passed (ONCE_PASSED) are marked there. docs/PROOFS.md has between two markers a
table of the crates, with the numbers of such functions, the names of the public functions without a clause, and the
number of mutants. Tests are left out.
"""
import argparse
import glob
import os
import re
import sys
import textwrap
from collections.abc import Iterator

import crates

ROOT = os.path.dirname(os.path.dirname(os.path.realpath(__file__)))
PAGE, TABLE = "docs/CLAUSES.md", "docs/PROOFS.md"
BEGIN, END = "<!-- tools/clauses.py writes: crates -->\n", "<!-- so far -->\n"
HEAD = """# Clauses by crate

`tools/clauses.py` generates this page from the contracts and the mutants; `make guide` fails if it is out of date. Each
section begins with the first sentence of the crate's source, and its dependencies; those that another dependency
implies are left out. Each entry is a function marked `pub`, exported from its crate or not, with its file in `src/`:
what it returns, then the labels of its clauses with the definitions that they cite. A clause without a label is listed
as *result*. [MODEL](MODEL.md) explains the definitions, and [PROOFS](PROOFS.md) the promises that depend on them.

A mutant is an edit of the code that the prover must reject; its name says what goes wrong. The CI gate tries the
mutants in **bold**, `make edits` the others. A mutant with an asterisk is a bug that once met every contract and every
test. If a clause fixes the result exactly, no mutant is needed.
"""
# The mutants of bugs that once met every contract and every test.
ONCE_PASSED = set("""
bound_of_one_distance_too_great bound_zero counter_tested_after_a_step counter_tested_before_the_energy
counter_tested_up_to_the_last_text cut_once_more help_that_prints_nothing malformed_index_cut
memory_after_the_stretch_alone memory_behind_all_texts memory_where_the_counter_ends one_slice_for_all
other_kind_past_an_index progress_before_a_refusal refused_code_done_at_no_step refused_words_end_well
refused_words_on_standard_output short_write_taken_for_a_whole_one stop_where_values_are_great stopped_index_cut
told_before_the_counter_ends way_back_refused
""".split())
DEFINED = re.compile(r"^(?:(?:abbrev|unfoldable|record|data|pub)\s+)+([^\s({:]+)", re.MULTILINE)
FUNCTION = re.compile(r"^(\s*)(?:pub )?(?:const )?(?:unsafe )?fn (\w+)")
OWNER = re.compile(r"^(?:unsafe )?impl(?:<.*?>)?\s+(?:.* for )?(?:&(?:'\w+ )?)?(\w+)|^pub (?:unsafe )?trait (\w+)")


def read(path):
    with open(path, encoding="utf-8") as it:
        return it.read()


def definitions():
    """The names of all definitions of crates/*/specs."""
    found = set()
    for path in glob.glob(f"{ROOT}/crates/*/specs/**/*.antt", recursive=True):
        code = "\n".join(line for line in read(path).splitlines() if not line.startswith(("use ", "--")))
        found.update(DEFINED.findall(code))
    # a name of one word in small letters is a variable's too
    return {name for name in found if re.search(r"[A-Z_]", name)}


def sentence(comment):
    """The first sentence of a comment."""
    text = " ".join(comment).split("  ")[0]
    return re.split(r"(?<=[.:])\s+(?=[A-Z`])", text + " ")[0].strip().rstrip(":")


def clause_of(comment, text, names):
    """A clause: its label, the definitions that it cites, in order, and its comment."""
    label = re.match(r"ensures\s+(\w+)", text)
    cited = dict.fromkeys(word for word in re.findall(r"[\w'-]+", text.partition("{")[2]) if word in names)
    shown = f"`{label[1]}`" if label else "*result*"
    return shown + (f" ({', '.join(f'`{it}`' for it in cited)})" if cited else ""), " ".join(comment)


def clauses_of(lines, names):
    """The `ensures` clauses among the lines of a function's signature."""
    found, comment, text = [], [], None
    for line in [*map(str.strip, lines), "requires"]:
        if line.startswith("//"):
            comment.append(line[2:].strip())
        elif line.startswith(("ensures", "requires", "{", "measure")):
            if text:
                found.append(clause_of(held, text, names))
            held, comment, text = comment, [], line if line.startswith("ensures") else None
        elif text:
            text += " " + line
    return found


def ends(lines, begun, at):
    """Whether a function's signature, with its clauses, ends at this line: at its body, or at a semicolon without one."""
    line, clauses = lines[at].strip(), any(it.lstrip().startswith(("ensures", "requires")) for it in lines[begun : at + 1])
    return line in ("{", "{}") or line.endswith(";") or (not clauses and line.endswith(("{", "}")))


def functions(path: str, names: set[str]) -> Iterator[tuple]:
    """The public functions of a file: name, file, first sentence, clauses."""
    lines, comment, owner, trait = read(path).splitlines(), [], None, False
    at = 0
    while at < len(lines):
        line = lines[at]
        if found := OWNER.match(line):
            owner, trait = found[1] or found[2], bool(found[2])
        elif line == "}":
            owner, trait = None, False
        found = FUNCTION.match(line)
        if line.lstrip().startswith("///"):
            comment.append(line.lstrip()[3:].strip())
        elif found and (line.lstrip().startswith("pub ") or trait):
            begun = at
            while not ends(lines, begun, at):
                at += 1
            name = (f"{owner}::" if owner else "") + found[2]
            yield name, os.path.basename(path), sentence(comment), clauses_of(lines[begun : at + 1], names)
            comment = []
        elif line.strip() and not line.lstrip().startswith("#["):
            comment = []
        at += 1


def mutants(crate: str, folder: str) -> list[str]:
    return [os.path.basename(it)[:-5] for it in sorted(glob.glob(f"{ROOT}/crates/{crate}/{folder}/*.edit"))]


class Crate:
    """A crate with its public functions and its mutants."""

    def __init__(self, name: str, below: list[str], names: set[str]) -> None:
        self.name, self.below = name, below
        sources = sorted(glob.glob(f"{ROOT}/crates/{name}/src/**/*.rt", recursive=True))
        found = [it for path in sources if "/tests" not in path for it in functions(path, names)]
        self.proved = [it for it in found if it[3]]
        self.bare = [it[0] for it in found if not it[3]]
        self.of_gate, self.of_edits = mutants(name, "must-fail"), mutants(name, "edits")

    def mutants(self) -> str:
        """The names of the mutants, those of the CI gate first and in bold."""
        starred = {it: " \\*" if it in ONCE_PASSED else "" for it in self.of_gate + self.of_edits}
        return " ".join([f"**`{it}`**{starred[it]}" for it in self.of_gate] + [f"`{it}`{starred[it]}" for it in self.of_edits])

    def section(self) -> list[str]:
        depends = f" Depends on {', '.join(f'`{it}`' for it in self.below)}." if self.below else ""
        items = ["", *(line for it in self.proved for line in entry(*it))] if self.proved else []
        if self.of_gate or self.of_edits:
            items += ["", f"Mutants: {self.mutants()}."]
        return ["", f"## `{self.name}`", "", crates.sentence(self.name) + depends, *items]

    def row(self) -> str:
        bare = ", ".join(f"`{it}`" for it in self.bare)
        return f"| [`{self.name}`](CLAUSES.md#{self.name}) | {len(self.proved)} | {bare} | {len(self.of_gate + self.of_edits)} |\n"


def entry(name: str, file: str, said: str, clauses: list) -> Iterator[str]:
    """The lines of a function: clauses with comments have lines of their own."""
    plain = [shown for shown, comment in clauses if not comment]
    yield f"- `{name}` ({file}): {said}" + (f" {'; '.join(plain)}." if plain else "")
    for shown, comment in clauses:
        if comment:
            yield f"  - {shown}: {comment}"


def hanging(line):
    """The indent of an item's further lines."""
    return re.match(r"(?: *- )?", line)[0].replace("-", " ")


def page(listed: list[Crate]) -> str:
    lines = [line for crate in listed for line in crate.section()]
    wrapped = (textwrap.fill(it, 120, subsequent_indent=hanging(it), break_long_words=False, break_on_hyphens=False) for it in lines)
    return HEAD + "\n".join(wrapped) + "\n"


def table(listed: list[Crate]) -> str:
    return "| Crate | Functions with clauses | Public functions without a clause | Mutants |\n|---|---|---|---|\n" + "".join(map(Crate.row, listed))


def put(name: str, made: str, write: bool) -> bool:
    """Compares a page with the form that it should have, or writes it. Returns whether it has that form now."""
    if read(f"{ROOT}/{name}") == made:
        return True
    if write:
        with open(f"{ROOT}/{name}", "w", encoding="utf-8") as it:
            it.write(made)
    print(f"{name}: " + ("written" if write else "out of date: tools/clauses.py --write"))
    return write


def main() -> int:
    parser = argparse.ArgumentParser(description=__doc__, formatter_class=argparse.RawDescriptionHelpFormatter)
    parser.add_argument("--write", action="store_true", help="write the lists")
    given, names = parser.parse_args(), definitions()
    listed = [Crate(name, below, names) for name, below in crates.reduced(crates.dependencies()).items()]
    before, begun, rest = read(f"{ROOT}/{TABLE}").partition(BEGIN)
    _, ended, after = rest.partition(END)
    gone = ONCE_PASSED - {it for crate in listed for it in crate.of_gate + crate.of_edits}
    wrong = [f"tools/clauses.py: ONCE_PASSED: {it}: no such mutant" for it in sorted(gone)]
    if not begun or not ended:
        wrong.append(f"{TABLE}: the markers of the table of crates are missing")
    print("".join(f"{it}\n" for it in wrong), end="")
    pages = {PAGE: page(listed), TABLE: before + begun + (table(listed) if begun else rest) + ended + after}
    same = [put(name, made, given.write) for name, made in pages.items()]
    print(f"{sum(len(it.proved) for it in listed)} functions with clauses, {sum(len(it.bare) for it in listed)} without")
    return 0 if all(same) and not wrong else 1


if __name__ == "__main__":
    sys.exit(main())

#!/usr/bin/env python3
"""Writes the list of errors into docs/FORMATS.md and docs/pairmd.1, and checks the texts that `pairmd explain` prints.

  tools/explanations.py [--write]     --write puts the lists into the pages; without it a list that differs is an error

The source is crates/command_line/src/explanations: the tables of texts, one text for each code, and OVERVIEW, one line
for each code. A text has the forms of its error, a line each, then `Status N`, the meaning, an example and what to do.
The script checks that each text has these parts and the status of its letter, that no line is longer than 80 columns,
that the example's output occurs in a transcript, and that tables and OVERVIEW have the same codes in the same order. It
compares limits that texts state (LIMITS) with the definitions that the code is proved to meet. The transcript of
explanations follows advice, after a line `CODE: WORDS`; the script checks that the code's text advises these words. The
lists in the pages are between two comments; the first of them names this script.
"""
import argparse
import glob
import os
import re
import sys

ROOT = os.path.dirname(os.path.dirname(os.path.realpath(__file__)))
SOURCES = f"{ROOT}/crates/command_line/src/explanations"
TABLES = ["files", "jobs", "states", "gro_files", "energies", "codes", "runs"]
ENTRY = re.compile(r'^    \(\n        "(\w+)",\n        "\\\n(.*?)",\n    \),$', re.MULTILINE | re.DOTALL)
OVERVIEW = re.compile(r'OVERVIEW: &str = "\\\n(.*?)";\n', re.DOTALL)
PRINTED = re.compile(r"^  (?:[\d-]+: )?(?:a beginning, )?(pairmd: .*?)(?: \[\d\])?$", re.MULTILINE)
STATUSES = {"J": 1, "G": 1, "B": 1, "S": 1, "C": 1, "A": 1, "E": 3, "V": 3, "F": 3, "M": 4, "O": 5}
# Limits that texts state: the code, its words with `{}` for the limit, the file of the definition, a pattern for the
# number there, and what the text shows of the number (the number itself if that is left out).
grouped, in_units = "{:,}".format, lambda number: number // 10**5
RAW = "fixed/specs/Arithmetic.antt", r"in_range \(pos n\) = .*2 \^ (\d+)"
LIMITS = [
    ("J1", "more than {} digits after its point", "job/specs/JobLines.antt", r"with_point : .* decimals ≤ (\d+)"),
    ("J1", "a number with more than {} digits", "fixed/specs/Numerals.antt", r"digit_count n ≤ (\d+)"),
    ("J1", "a type's name with more than {} bytes", "job/specs/Forms.antt", r"nat_le \(length text\) (\d+)"),
    ("J4", "`dt` is from 1 to {},", "job/specs/JobLines.antt", r"says_time_step n\) = .*n ≤ (\d+)"),
    ("J4", "a cutoff at most {} nm", "job/specs/JobLines.antt", r"v ≤ℤ pos \((\d+) \* 2 \^ bits_of frac\)"),
    ("J4", "a mass from 0.00001 to {} u", "job/specs/JobLines.antt", r"most_mass : t\.mass ≤ (\d+)", in_units),
    ("G7", "more than {} atoms", "gro/specs/GroText.antt", r"few : count ≤ (\d+)", grouped),
    ("B2", "above {} nm", "ring_box/specs/Sides.antt", r"is_side \(pos n\) = .*nat_le n (\d+)", in_units),
    ("E02", "more than {} digits before its exponent", "fixed/specs/Numerals.antt", r"digit_count n ≤ (\d+)"),
    ("E02", "an exponent past {},", "fixed/specs/Numerals.antt", r"small_exponent : .* ≤ (\d+)$"),
    ("E06", "an integer from 1 to {},", "energy_program/specs/Tree.antt", r"is_whole n = .*nat_le n (\d+)"),
    ("E07", "it is 2^{} or more at 32 bits", *RAW, lambda n: n - 32),
    ("E07", "2^{} at 24", *RAW, lambda n: n - 24),
    ("E07", "2^{} at 40", *RAW, lambda n: n - 40),
    ("E10", "- {} tokens,", "expr/specs/Energy.antt", r"few : length tokens ≤ (\d+)", grouped),
    ("E10", "- {} open parentheses and minus signs", "expr/specs/Energy.antt", r"IsEnergy bits variables text (\d+) e"),
    ("E10", "- {} definitions.", "expr/specs/Energy.antt", r"few_definitions : .* ≤ (\d+)"),
    ("E10", "{} definitions for its slope", "derivative/specs/Derive.antt", r"if nat_lt (\d+) \(length"),
    ("E10", "or {} instructions", "kernel_code/specs/Code.antt", r"short : length code ≤ (\d+)", grouped),
    ("C3", "more than {} instructions", "kernel_code/specs/Code.antt", r"short : length code ≤ (\d+)", grouped),
    ("V3", "at most 2^{} distances", "potential/specs/Verdicts.antt", r"j\.slices (\d+)\) answer"),
    ("V4", "pushes a {}th value", "kernel_code/specs/Machine.antt", r"if nat_lt \(length stack\) (\d+)", lambda n: n + 1),
    ("F1", "its magnitude is 2^{} or more", *RAW, lambda n: n - 32),
    ("A3", "is 2^{} or more", "engine/specs/Ranges.antt", r"fits : .* < 2 \^ (\d+)"),
    ("A4", "would leave {} bits", "line_text/specs/Parts.antt", r"nat_lt \(mag z\) \(2 \^ (\d+)\)", lambda n: n + 1),
]
ADVICE = re.compile(r"^([A-Z]\w+): (.+)$", re.MULTILINE)
FORMATS, MANUAL = "docs/FORMATS.md", "docs/pairmd.1"
MARKS = {
    FORMATS: ("<!-- tools/explanations.py writes: errors -->\n", "<!-- so far -->\n"),
    MANUAL: ('.\\" tools/explanations.py writes: errors\n', '.\\" so far\n'),
}


def read(path):
    with open(path, encoding="utf-8") as it:
        return it.read()


def explained():
    """The codes with their texts, in the order of the program's tables."""
    return [entry for name in TABLES for entry in ENTRY.findall(read(f"{SOURCES}/{name}.rt"))]


def overview():
    """The text of OVERVIEW, and its codes with their short meanings."""
    text = OVERVIEW.search(read(f"{SOURCES}/overview.rt")).group(1)
    return text, re.findall(r"^(?=.{8}\S)(\w+) +(.*)$", text.partition("\n\n")[2], re.MULTILINE)


def transcripts():
    """The errors that commands print in the transcripts, without what a player adds before and after."""
    return {line for path in glob.glob(f"{ROOT}/transcripts/*.t") for line in PRINTED.findall(read(path))}


def head(text):
    """The forms of an error, and its status; no forms if the text doesn't begin with them."""
    found = re.match(r"((?:.+\n)+?)Status (\d)", text)
    return (found.group(1).splitlines(), int(found.group(2))) if found else ([], None)


def faults(code, text, played):
    """The faults of the text of a code."""
    forms, status = head(text)
    examples = re.findall(r"^    (pairmd: .*)$", text, re.MULTILINE)
    if not forms or any(form.split()[0] != code for form in forms):
        yield f"it must begin with its forms, and has {forms}"
    if status != STATUSES[code[0]]:
        yield f"its status is {status}, and that of its letter {STATUSES[code[0]]}"
    if not examples or not all(line in played and code in line.split() for line in examples):
        yield f"no transcript prints its example: {examples}"
    if "\n\nExample:" not in text or "\n\nWhat to do: " not in text:
        yield "it lacks the example, or what to do"
    if any(len(line) > 80 for line in text.splitlines()):
        yield "a line is longer than 80 columns"


def limits(texts):
    """The faults of the limits that texts state."""
    for code, words, name, pattern, *shown in LIMITS:
        found = set(re.findall(pattern, read(f"{ROOT}/crates/{name}"), re.MULTILINE))
        if len(found) != 1:
            yield f"{code}: {name} has {len(found)} numbers for {pattern}"
            continue
        number = int(found.pop())
        stated = words.format(shown[0](number) if shown else number)
        if stated not in " ".join(texts.get(code, "").split()):
            yield f"{code}: it doesn't state: {stated}"


def advice(texts):
    """The codes and words of advice that the transcript of explanations follows, and the faults of these."""
    followed = ADVICE.findall(read(f"{ROOT}/transcripts/explanations.t").partition("\n## Advice\n")[2])
    advised = {code: " ".join(text.partition("What to do: ")[2].split()) for code, text in texts.items()}
    missing = [(code, words) for code, words in followed if words not in advised.get(code, "")]
    return followed, [f"{code}: it doesn't advise: {words}" for code, words in missing]


def as_table(texts, meanings):
    """The table of FORMATS."""
    lines = ["Error | Status | Meaning", "---|---|---"]
    for code, meaning in meanings:
        forms, status = head(dict(texts).get(code, ""))
        lines.append(f"{', '.join(f'`{form}`' for form in forms)} | {status} | {meaning}")
    return "".join(f"{line}\n" for line in lines)


def as_manual(meanings):
    """The list of the man page, as lines that aren't filled."""
    lines = "".join(f"{code:8}{meaning}\n" for code, meaning in meanings)
    return ".PP\n.nf\n" + lines.replace("\\", "\\e").replace("-", "\\-") + ".fi\n"


def put(name, generated, write):
    """Compares the list in a page with the generated one, or writes it; returns the fault, if there is one."""
    page, (first, last) = read(f"{ROOT}/{name}"), MARKS[name]
    before, begun, rest = page.partition(first)
    written, ended, after = rest.partition(last)
    if not begun or not ended:
        return f"{name}: the comments around the list of errors are missing"
    if written == generated:
        return None
    if not write:
        return f"{name}: the list of errors differs; `tools/explanations.py --write` writes it"
    with open(f"{ROOT}/{name}", "w", encoding="utf-8") as it:
        it.write(before + first + generated + last + after)
    return None


def main():
    parser = argparse.ArgumentParser(description=__doc__, formatter_class=argparse.RawDescriptionHelpFormatter)
    parser.add_argument("--write", action="store_true", help="put the lists into the pages")
    given = parser.parse_args()
    texts, (listed, meanings), played = explained(), overview(), transcripts()
    codes, named = [code for code, _ in texts], [code for code, _ in meanings]
    wrong = [f"{code}: {fault}" for code, text in texts for fault in faults(code, text, played)]
    wrong += [f"{code}: it has a text, and no line of OVERVIEW" for code in codes if code not in named]
    wrong += [f"{code}: OVERVIEW has a line, and there is no text" for code in named if code not in codes]
    wrong += [f"{code}: it occurs twice" for each in (codes, named) for code in sorted(set(each)) if each.count(code) > 1]
    followed, unadvised = advice(dict(texts))
    wrong += [*limits(dict(texts)), *unadvised]
    if sorted(codes) == sorted(named) and codes != named:
        wrong.append("OVERVIEW has another order than the tables")
    if any(len(line) > 80 for line in listed.splitlines()) or len(named) + 2 != len(listed.splitlines()):
        wrong.append("OVERVIEW: a line is malformed, or longer than 80 columns")
    pages = {FORMATS: as_table(texts, meanings), MANUAL: as_manual(meanings)}
    wrong += [fault for name, text in pages.items() if (fault := put(name, text, given.write))]
    print("".join(f"{fault}\n" for fault in wrong), end="")
    print(f"{len(texts)} explanations, {len(LIMITS)} limits, {len(followed)} pieces of advice, {len(wrong)} faults")
    return 1 if wrong or not texts or not followed else 0


if __name__ == "__main__":
    sys.exit(main())

#!/usr/bin/env python3
"""Writes the completions of pairmd for bash, zsh and fish, or tries those for bash.

  tools/completions.py bash|zsh|fish     prints the script of a shell
  tools/completions.py --test            compares the completions of some command lines in bash

The program is the environment's PAIRMD, or ./pairmd. The source is its own help: the commands, their operands and
options, and the list of errors that `pairmd explain` prints.
"""
import argparse
import os
import re
import shlex
import subprocess
import sys
import tempfile
from dataclasses import dataclass

ROOT = os.path.dirname(os.path.dirname(os.path.realpath(__file__)))
FILES = ("JOB", "GRO", "STATE", "STATES", "LISTING")
COMMAND = re.compile(r"^  (\w+) +(\S.*)$", re.MULTILINE)
OPERAND = re.compile(r"^  [<\[](\w+)[>\]](?:\.\.\.)? +(\S.*)$", re.MULTILINE)
OPTION = re.compile(r"^  (?:(-\w), |    )(--[\w-]+)((?: <[\w/]+>)*) +(\S.*?)(?: \[default: .*\])?$", re.MULTILINE)
CODE = re.compile(r"^([A-Z]\d+|Memory) ", re.MULTILINE)


def printed(*words):
    """The output of the program."""
    program = os.path.realpath(os.environ.get("PAIRMD") or f"{ROOT}/pairmd")
    return subprocess.run([program, *words], stdout=subprocess.PIPE, check=True, text=True).stdout


def part(text, head):
    """The lines below a head, up to an empty line."""
    return text.partition(f"\n{head}:\n")[2].partition("\n\n")[0]


@dataclass
class Option:
    """An option of a command: its names, the names of its values, and what it does."""

    short: str
    long: str
    values: list
    about: str

    def names(self):
        return [name for name in (self.short, self.long) if name]

    def is_file(self):
        return self.values[:1] and self.values[0] in FILES


@dataclass
class Command:
    """A command: its name, what it does, its operands and its options."""

    name: str
    about: str
    operands: list
    options: list


def command(name, about):
    text = printed(name, "--help")
    options = [
        Option(short, long, re.findall(r"<([\w/]+)>", values), what)
        for short, long, values, what in OPTION.findall(part(text, "Options"))
    ]
    return Command(name, about, OPERAND.findall(part(text, "Arguments")), options)


def commands():
    """The program's commands, except `help`."""
    found = COMMAND.findall(part(printed("--help"), "Commands"))
    return [command(name, about) for name, about in found if name != "help"]


def codes():
    """The codes of errors."""
    return CODE.findall(printed("explain"))


# ---- bash


def bash(every):
    cases = []
    for it in every:
        words = shlex.quote(" ".join(name for option in it.options for name in option.names()))
        values = "|".join(name for option in it.options if option.values for name in option.names())
        files = "|".join(name for option in it.options if option.is_file() for name in option.names())
        operands = "files" if it.operands[0][0] in FILES else shlex.quote(" ".join(codes()))
        values, files = shlex.quote(values), shlex.quote(files)
        cases.append(f"        {it.name}) options={words} values={values} files={files} operands={operands} ;;")
    names = " ".join(it.name for it in every)
    return BASH.replace("NAMES", names).replace("CASES", "\n".join(cases))


BASH = """\
# completions of pairmd for bash
_pairmd() {
    local current=${COMP_WORDS[COMP_CWORD]} previous=${COMP_WORDS[COMP_CWORD-1]}
    local options= values= files= operands=
    if ((COMP_CWORD == 1)); then
        mapfile -t COMPREPLY < <(compgen -W "NAMES --help --version" -- "$current")
        return
    fi
    case ${COMP_WORDS[1]} in
CASES
        help) operands="NAMES" ;;
    esac
    if [[ -n $files && "|$files|" == *"|$previous|"* ]]; then
        operands=files
    elif [[ -n $values && "|$values|" == *"|$previous|"* ]]; then
        COMPREPLY=()
        return
    elif [[ $current == -* ]]; then
        operands=$options
    fi
    if [[ $operands == files ]]; then
        # bash quotes blanks and adds the slash of a directory
        compopt -o filenames 2> /dev/null
        mapfile -t COMPREPLY < <(compgen -f -- "$current")
    else
        mapfile -t COMPREPLY < <(compgen -W "$operands" -- "$current")
    fi
}
complete -F _pairmd pairmd
"""

# ---- zsh


def zsh_text(text):
    """A text inside the brackets or between the colons of a specification."""
    return re.sub(r"([\[\]:\\])", r"\\\1", text)


def zsh_option(option):
    names = option.names()
    action = "_files" if option.is_file() else " "
    values = "".join(f":{zsh_text(value)}:{action}" for value in option.values)
    shown = zsh_text(option.about)
    before = f"({' '.join(names)})" if len(names) > 1 else ""
    # a value may be the next word, or follow `-n` or `--steps=` in the same word
    joined = {1: "+", 2: "="} if len(option.values) == 1 else {}
    marks = [joined.get(len(name) - len(name.lstrip("-")), "") for name in names]
    return [shlex.quote(f"{before}{name}{mark}[{shown}]{values}") for name, mark in zip(names, marks)]


def zsh(every):
    names = "\n".join(f"    {shlex.quote(f'{it.name}:{zsh_text(it.about)}')}" for it in every)
    cases = []
    for it in every:
        words = [word for option in it.options for word in zsh_option(option)]
        if it.operands[0][0] in FILES:
            words += [shlex.quote(f"{number}:{name}:_files") for number, (name, _) in enumerate(it.operands, 1)]
        else:
            words += [shlex.quote(f"*:{it.operands[0][0]}:({' '.join(codes())})")]
        cases.append(f"        ({it.name}) _arguments {' '.join(words)} ;;")
    return ZSH.replace("NAMES", names).replace("CASES", "\n".join(cases))


ZSH = """\
#compdef pairmd
# completions of pairmd for zsh
_pairmd() {
  local state line
  local -a commands
  commands=(
NAMES
  )
  _arguments -C '(- *)'{-h,--help}'[Print help]' '(- *)'{-V,--version}'[Print version]' \\
    '1:command:->command' '*::argument:->argument'
  case $state in
    (command) _describe command commands ;;
    (argument)
      case $words[1] in
CASES
        (help) _describe command commands ;;
      esac ;;
  esac
}
_pairmd "$@"
"""


# ---- fish


def fish_option(command, option):
    words = ["complete", "-c", "pairmd", "-n", shlex.quote(f"__fish_seen_subcommand_from {command.name}")]
    words += ["-s", option.short[1:]] if option.short else []
    words += ["-l", option.long[2:]]
    words += ["-r", "-F"] if option.is_file() else ["-x"] if option.values else []
    return " ".join([*words, "-d", shlex.quote(option.about)])


def fish(every):
    lines = ["# completions of pairmd for fish"]
    for it in every:
        lines.append(f"complete -c pairmd -n __fish_use_subcommand -f -a {it.name} -d {shlex.quote(it.about)}")
    lines.append("complete -c pairmd -n __fish_use_subcommand -f -a help -d 'Print help'")
    for it in every:
        lines += [fish_option(it, option) for option in it.options]
        if it.operands[0][0] not in FILES:
            known = shlex.quote(" ".join(codes()))
            lines.append(f"complete -c pairmd -n '__fish_seen_subcommand_from {it.name}' -f -a {known}")
    return "\n".join(lines) + "\n"


# ---- a test

# files of the directory in which bash runs, one of them in a directory
NAMES = ("argon.job", "two words.job", "two more/state")
# a command line, and the completions of its last word
LINES = {
    "pairmd st": ["start", "states"],
    "pairmd back job state --ste": ["--steps"],
    "pairmd back job state -n ": [],
    "pairmd replay job states --": ["--workers", "--from", "--to", "--part", "--progress", "--help"],
    "pairmd replay job states --part ": [],
    "pairmd observe job state --e": ["--every", "--exact", "--each"],
    "pairmd observe job state --te": ["--tensor"],
    "pairmd explain V": ["V1", "V2", "V3", "V4"],
    "pairmd check arg": ["argon.job"],
    "pairmd check job --code arg": ["argon.job"],
    "pairmd check tw": ["two more", "two words.job"],
    "pairmd frame --each tw": ["two more", "two words.job"],
    "pairmd check none": [],
}


def completed(script, line, folder):
    """The completions of a line's last word, in bash."""
    words = line.split(" ")
    array = " ".join(map(shlex.quote, words))
    text = f"{script}\nCOMP_WORDS=({array}); COMP_CWORD={len(words) - 1}; _pairmd; printf '%s\\n' \"${{COMPREPLY[@]}}\""
    found = subprocess.run(["bash", "-c", text], stdout=subprocess.PIPE, check=True, text=True, cwd=folder).stdout
    return [it for it in found.split("\n") if it]


def differing(script):
    """The lines of LINES that bash completes in another way, each with what was found. Files come in any order."""
    with tempfile.TemporaryDirectory(prefix="completions-") as folder:
        for name in NAMES:
            os.makedirs(os.path.dirname(f"{folder}/{name}"), exist_ok=True)
            with open(f"{folder}/{name}", "w", encoding="ascii"):
                pass
        for line, wanted in LINES.items():
            found = completed(script, line, folder)
            if sorted(found) != sorted(wanted):
                yield f"{line}: {found} in place of {wanted}"


def test(every):
    """Compares the completions of LINES. Returns the exit status."""
    status = 0
    for fault in differing(bash(every)):
        print(fault, file=sys.stderr)
        status = 1
    lacking = [it.name for it in every if not it.operands or not it.options]
    if lacking or len(every) < 10:
        print(f"the help of these commands wasn't read: {lacking or 'all'}", file=sys.stderr)
        status = 1
    print(f"{len(LINES)} command lines are completed as wanted" if status == 0 else "completions differ")
    return status


def main():
    parser = argparse.ArgumentParser(description=__doc__.split("\n")[0])
    parser.add_argument("shell", nargs="?", choices=("bash", "zsh", "fish"))
    parser.add_argument("--test", action="store_true")
    given = parser.parse_args()
    if not given.test and given.shell is None:
        parser.error("name a shell")
    every = commands()
    if given.test:
        return test(every)
    print({"bash": bash, "zsh": zsh, "fish": fish}[given.shell](every), end="")
    return 0


if __name__ == "__main__":
    sys.exit(main())

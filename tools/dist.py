#!/usr/bin/env python3
"""Packs the proved program for machines without the toolchain.

  tools/dist.py [--to FOLDER]     writes FOLDER/pairmd-VERSION-x86_64-linux.tar.xz; FOLDER is . by default

The package has ./pairmd, its man page, README, CHANGELOG, the pages of docs/ with their pictures, the examples, the
Python module, and the run specification. It also has PACKAGE.md, with the program's commit, the toolchain that proved and built it, the
libraries that it needs, the promise, and the checksums of all files. The same commit and program give the same bytes.
If the tree has uncommitted changes, the script fails: the program would belong to no commit.
"""
import argparse
import hashlib
import io
import lzma
import os
import re
import subprocess
import sys
import tarfile

ROOT = os.path.dirname(os.path.dirname(os.path.realpath(__file__)))
PACKED = ["README.md", "CHANGELOG.md", "docs/", "pictures/", "examples/", "python/pairmd/", "python/pyproject.toml", "crates/pairmd/data/", "crates/engine/specs/RunSpecification.antt"]
PROGRAM = "pairmd"


def said(*words):
    """The output of a command, without blanks at its ends."""
    return subprocess.run(words, cwd=ROOT, check=True, stdout=subprocess.PIPE, text=True).stdout.strip()


def packed_files():
    """The names of the commit's files that the package includes."""
    return [name for name in said("git", "ls-files", *PACKED).splitlines() if not name.endswith(".py") or name.startswith(("examples/", "python/"))]


def needed():
    """The shared libraries that the program needs, and the newest version of the C library among its symbols."""
    libraries = re.findall(r"\(NEEDED\).*\[(.*)\]", said("readelf", "-d", PROGRAM))
    versions = re.findall(r"GLIBC_([0-9.]+)", said("readelf", "-V", PROGRAM))
    newest = max(versions, key=lambda it: [int(part) for part in it.split(".")])
    return f"{', '.join(libraries)}, of glibc {newest} or later"


def promise():
    """The text of the README's section on the promise, up to the contract."""
    with open(f"{ROOT}/README.md", encoding="utf-8") as page:
        return "".join(line for line in page.read().partition("## The promise\n")[2].partition("\nThis is the contract")[0])


def contents():
    """The bytes of the package's files by name, except PACKAGE.md."""
    files = {}
    for name in [PROGRAM, *packed_files()]:
        with open(f"{ROOT}/{name}", "rb") as it:
            files[name] = it.read()
    return files


def page(version, files):
    """The text of PACKAGE.md."""
    sums = "".join(f"{hashlib.sha256(files[name]).hexdigest()}  {name}\n" for name in sorted(files))
    return f"""# pairmd {version} for x86-64 Linux

`./pairmd` is the program of commit `{said("git", "rev-parse", "HEAD")}`,
{said("git", "show", "-s", "--format=%cs", "HEAD")}, proved and built by `{said("rt", "version")}`.
It needs these shared libraries: {needed()}.

`docs/pairmd.1` is the man page (`man ./docs/pairmd.1`). [docs/GUIDE.md](docs/GUIDE.md) begins with a first liquid. The
commands of the [README](README.md) and the guide run in this directory, after `export PAIRMD=./pairmd`. Files of
`crates/` and commands of `make` that the pages name are in the repository. Of `crates/`, the package has only the run specification
(`crates/engine/specs/RunSpecification.antt`) and the stored example (`crates/pairmd/data/`).

## The promise
{promise()}
The [README](README.md) lists the properties that are only tested, and whom to trust.

## Checksums

`sha256sum -c` accepts these lines.

```
{sums}```
"""


def executable(name):
    return name == PROGRAM or name.startswith("examples/") and name.endswith((".py", ".sh"))


def packed(version, files):
    """The package's name and bytes."""
    top, when = f"pairmd-{version}-x86_64-linux", int(said("git", "show", "-s", "--format=%ct", "HEAD"))
    tar = io.BytesIO()
    with tarfile.open(fileobj=tar, mode="w", format=tarfile.PAX_FORMAT) as archive:
        for name in sorted(files):
            entry = tarfile.TarInfo(f"{top}/{name}")
            entry.size, entry.mtime, entry.mode = len(files[name]), when, 0o755 if executable(name) else 0o644
            archive.addfile(entry, io.BytesIO(files[name]))
    return f"{top}.tar.xz", lzma.compress(tar.getvalue(), preset=9)


def main():
    parser = argparse.ArgumentParser(description=__doc__, formatter_class=argparse.RawDescriptionHelpFormatter)
    parser.add_argument("--to", default=".", metavar="FOLDER", help="the directory of the package")
    given = parser.parse_args()
    os.makedirs(given.to, exist_ok=True)
    to = os.path.realpath(given.to)
    os.chdir(ROOT)
    if not os.access(PROGRAM, os.X_OK):
        sys.exit("no program at ./pairmd: `make dist` proves and builds it first")
    if said("git", "status", "--porcelain"):
        sys.exit("the tree has uncommitted changes, so the program would belong to no commit: commit them first")
    version = said(f"./{PROGRAM}", "--version").split()[-1]
    files = contents()
    files["PACKAGE.md"] = page(version, files).encode()
    name, package = packed(version, files)
    with open(f"{to}/{name}", "wb") as it:
        it.write(package)
    print(f"{name}: {len(files)} files, {len(package)} bytes, sha256 {hashlib.sha256(package).hexdigest()}")
    return 0


if __name__ == "__main__":
    sys.exit(main())

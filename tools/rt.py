#!/usr/bin/env python3
"""The toolchain's command `rt`, with the same arguments and status, except for two things.

- It computes each crate's checksum once per question. A question is whether a crate's library is up to date.
- After `ci` it prints the CPU time of the prover in this run, beside the gate's budget, and the crates that took most.
"""
import sys

import kit

BUDGET = 100  # minutes of CPU time, if everything is proved
SHOWN = 10


def summary(seconds: dict[str, float]) -> str:
    """Returns a line on the CPU time of crates, each with its tests and mutants."""
    minutes = sum(seconds.values()) / 60
    dearest = sorted(seconds.items(), key=lambda it: -it[1])[:SHOWN]
    over = "" if minutes <= BUDGET else ", which it exceeds"
    return f"CPU time of the prover: {minutes:.1f} minutes; the budget of a whole gate is {BUDGET}{over}. Most: " + ", ".join(
        f"{name} {spent:.0f} s" for name, spent in dearest
    )


def main() -> int:
    rt = kit.module("rt")
    kit.sums_once(rt.rtlib)
    is_gate = sys.argv[1:2] == ["ci"]
    spent = kit.spent_by_crate() if is_gate else {}
    try:
        return rt.main(sys.argv[1:])
    finally:
        if is_gate:
            print(summary(spent), flush=True)


if __name__ == "__main__":
    sys.exit(main())

#!/usr/bin/env python3
"""Checks an archive of `python -m pairmd archive` with Dask, which gives a lost worker's segments to another.

  examples/verify_dask.py DIR [--processes n]                    processes of this machine
  examples/verify_dask.py DIR --scheduler tcp://HOST:8786        workers of other machines (`dask worker tcp://HOST:8786`)

The directory is read here. Each segment travels as bytes, so a worker needs only this module and, on its PATH or named
by its PAIRMD, the program. The lines are those of `pairmd replay`, in the end; progress is on standard error. The status
is 1 if a segment differs.
"""
import argparse
import os
import sys

sys.path.insert(1, os.path.join(os.path.dirname(os.path.realpath(__file__)), "..", "python"))
import pairmd  # noqa: E402


def main():
    parser = argparse.ArgumentParser(description=__doc__, formatter_class=argparse.RawDescriptionHelpFormatter)
    parser.add_argument("folder", metavar="DIR")
    parser.add_argument("--processes", type=int, default=os.cpu_count(), metavar="N")
    parser.add_argument("--scheduler", metavar="ADDRESS")
    given = parser.parse_args()
    run = pairmd.Run.read(given.folder)

    from dask.distributed import Client, as_completed

    here = {"n_workers": given.processes, "threads_per_worker": 1, "dashboard_address": ":0"}
    with Client(given.scheduler) if given.scheduler else Client(**here) as client:

        def spread(function, calls):
            futures = client.map(function, calls)
            for done, _ in enumerate(as_completed(futures), 1):
                print(f"pairmd: {done} of {len(futures)} segments", file=sys.stderr)
            return futures

        replay = run.replay(spread, say=print)
    print(replay, file=sys.stderr)
    return 0 if replay.same else 1


if __name__ == "__main__":
    sys.exit(main())

#!/usr/bin/env python3
"""Holds the instructions of six workloads to those of the file bench/guard.json.

    python3 bench/guard.py SDJWT            status 1 if a workload takes over 3 % more, or over 3 % less
    python3 bench/guard.py SDJWT --write    writes the file anew, after a change that is meant

SDJWT is a built sdjwt. callgrind counts, without the instructions of a run that only says `usage`. So the counts do not
depend on what else the machine does; they do depend on the C library. A count that is lower is told too, so that the
file stays true.
"""
import argparse
import json
import sys
import tempfile
from pathlib import Path

import workloads
from machine import Skipped, instructions

FILE = Path(__file__).resolve().parent / "guard.json"
MOST = 0.03
GUARDED = ("verify small", "verify flat 4,096", "issue flat 1,000", "present flat 1,000", "show lists 1,000",
           "issue plain 1 MB")


def counted(program):
    """The instructions of the guarded workloads."""
    counts, start = {}, instructions(program, [])
    with tempfile.TemporaryDirectory() as folder:
        for shape in {name.split(" ", 1)[1] for name in GUARDED}:
            files = workloads.Files(folder, shape, workloads.SHAPES[shape], program)
            for name in GUARDED:
                if name.split(" ", 1)[1] == shape:
                    counts[name] = instructions(program, files.words(name.split(" ", 1)[0])) - start
    return {name: counts[name] for name in GUARDED}


def judged(kept, counts):
    """A line for each workload, and whether none is further off than allowed."""
    lines, holds = [], True
    for name, count in counts.items():
        before = kept.get(name)
        change = count / before - 1 if before else float("inf")
        within = abs(change) <= MOST
        holds = holds and within
        lines.append(f"{name}: {count:,}, {change:+.1%} of {before or 0:,}{'' if within else ': TOO FAR'}")
    return lines, holds


def main():
    parser = argparse.ArgumentParser(description=__doc__, formatter_class=argparse.RawDescriptionHelpFormatter)
    parser.add_argument("sdjwt")
    parser.add_argument("--write", action="store_true")
    given = parser.parse_args()
    try:
        counts = counted(given.sdjwt)
    except Skipped as word:
        print(f"guard.py: skipped: {word}")
        return 0
    if given.write:
        FILE.write_text(json.dumps(counts, indent=1) + "\n", encoding="utf-8")
        print(f"guard.py: wrote {len(counts)} counts")
        return 0
    if not FILE.exists():
        print("guard.py: there is no bench/guard.json: write it by --write over a proved program", file=sys.stderr)
        return 1
    lines, holds = judged(json.loads(FILE.read_text(encoding="utf-8")), counts)
    print("\n".join(lines))
    print(f"guard.py: each workload is within {MOST:.0%}" if holds else "guard.py: FAILED", file=sys.stderr)
    return 0 if holds else 1


if __name__ == "__main__":
    sys.exit(main())

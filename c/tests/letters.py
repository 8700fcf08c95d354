#!/usr/bin/env python3
"""Runs c/examples/public.c, which checks signatures by OpenSSL: letters.py [--step N] PROGRAM FOLDER

FOLDER has the presentation of RFC 9901 with its claims. As it stands it is accepted, with these claims; with a letter changed
it is refused. With --step only each Nth letter is changed.
"""
import argparse
import json
import subprocess
from pathlib import Path

# when the presentation was made
MOMENT = "1748537244"


def ran(program, text):
    """The status, the claims and the line."""
    run = subprocess.run([program, MOMENT], input=text.encode(), capture_output=True, check=False)
    return run.returncode, run.stdout.decode(), run.stderr.decode()


def main():
    parser = argparse.ArgumentParser(description=__doc__, formatter_class=argparse.RawDescriptionHelpFormatter)
    parser.add_argument("--step", type=int, default=1)
    parser.add_argument("program")
    parser.add_argument("folder", type=Path)
    words = parser.parse_args()
    presented = (words.folder / "presented.txt").read_text(encoding="utf-8").strip()
    status, claims, line = ran(words.program, presented)
    assert (status, line) == (0, ""), (status, line)
    assert json.loads(claims) == json.loads((words.folder / "claims.json").read_text(encoding="utf-8")), claims
    places = range(0, len(presented), words.step)
    for at in places:
        changed = presented[:at] + ("A" if presented[at] != "A" else "B") + presented[at + 1:]
        status, claims, line = ran(words.program, changed)
        assert (status, claims) == (1, "") and line.startswith("refused "), (at, status, claims, line)
    print(f"the presentation of RFC 9901 is accepted, and refused with any of {len(places)} letters changed")


if __name__ == "__main__":
    main()

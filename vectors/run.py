#!/usr/bin/env python3
"""Runs the vectors of this folder over a program with the words of sdjwt, and tells each that left something else.

    python3 vectors/run.py sdjwt                    over the program sdjwt on the path
    python3 vectors/run.py ./mine 'conditions*'     only the tables whose names fit
    python3 vectors/run.py ./mine --at 'env NOW={moment}'

A vector with a run that names its moment is skipped, unless --at says how the program is run at that moment: the
words are put before the program, with the moment in seconds since 1970 for {moment}. README.md of this folder has the
words for a program that asks the system for the time. The vectors of clock.py, a table `clock`, are made for the time
that it really is, and are run with nothing put before the program.
"""
import argparse
import fnmatch
import json
import shlex
import shutil
import subprocess
import sys
import tempfile
import time
from concurrent.futures import ThreadPoolExecutor
from pathlib import Path

# nothing is written beside the vectors
sys.dont_write_bytecode = True
import clock  # noqa: E402

HERE = Path(__file__).resolve().parent
SHOWN = 300
# the latest moment that the clock of a system can show
LATEST = 2**62


def program_of(text):
    """The words of the program, with the whole path of the first."""
    words = shlex.split(text)
    found = shutil.which(words[0])
    if found is None:
        sys.exit(f"run.py: there is no program {words[0]}")
    return [str(Path(found).resolve()), *words[1:]]


def left_by(program, asked, vector, folder):
    """What the last run of a vector leaves: the status, the output and the line."""
    for name, text in vector["files"].items():
        (folder / name).write_bytes(text.encode())
    done = None
    for run in vector["runs"]:
        first = shlex.split(asked.at.replace("{moment}", str(run["moment"]))) if "moment" in run else []
        words = first + program + run["words"]
        done = subprocess.run(words, cwd=folder, capture_output=True, timeout=asked.seconds, check=False)
        if "kept_as" in run:
            (folder / run["kept_as"]).write_bytes(done.stdout)
    return done.returncode, done.stdout, done.stderr


def due_of(vector, folder):
    """What is due of the last run."""
    if "output_of_file" in vector:
        output = (folder / vector["output_of_file"]).read_bytes() + b"\n"
    else:
        output = vector["output"].encode()
    line = vector["line"].encode() + b"\n" if vector["line"] else b""
    return vector["status"], output, line


def difference(program, asked, vector):
    """What came and what was due, where they differ."""
    with tempfile.TemporaryDirectory() as made:
        folder = Path(made)
        try:
            came = left_by(program, asked, vector, folder)
        except subprocess.TimeoutExpired:
            return f"{vector['name']}\n    came nothing in {asked.seconds} seconds"
        due = due_of(vector, folder)
    if came == due:
        return None
    return f"{vector['name']}\n    came {str(came)[:SHOWN]}\n    due  {str(due)[:SHOWN]}"


def chosen(patterns):
    """The vectors of the tables whose names fit one of the patterns, or of all tables.

    Those of the clock come first, since they are not true for ever.
    """
    if not patterns or any(fnmatch.fnmatch("clock", pattern) for pattern in patterns):
        yield from clock.vectors(int(time.time()))
    for path in sorted(HERE.glob("*.json")):
        if not patterns or any(fnmatch.fnmatch(path.stem, pattern) for pattern in patterns):
            yield from json.loads(path.read_text(encoding="utf-8"))


def main():
    parser = argparse.ArgumentParser(description=__doc__, formatter_class=argparse.RawDescriptionHelpFormatter)
    parser.add_argument("program", help="the program, or a command line that ends in it")
    parser.add_argument("--at", metavar="WORDS", default="", help="how it is run at a moment")
    parser.add_argument("--seconds", type=int, default=60, help="how long a run may take; 60 where it is not named")
    parser.add_argument("tables", nargs="*", help="names of tables, with * and ?")
    asked = parser.parse_intermixed_args()
    program = program_of(asked.program)
    vectors = list(chosen(asked.tables))
    latest = LATEST if asked.at else -1
    work = [vector for vector in vectors if all(run.get("moment", -1) <= latest for run in vector["runs"])]
    with ThreadPoolExecutor() as pool:
        told = [text for text in pool.map(lambda vector: difference(program, asked, vector), work) if text]
    for text in told:
        print(text)
    print(f"{len(work)} run, {len(told)} differ, {len(vectors) - len(work)} skipped for want of their moment")
    return 1 if told else 0


if __name__ == "__main__":
    sys.exit(main())

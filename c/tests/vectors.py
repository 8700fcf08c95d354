#!/usr/bin/env python3
"""Writes vectors as one file of bytes, for calls.c: python3 vectors.py FILE

They are those of vectors/, and those of the tables of the audit and the wallet.

Numbers have eight bytes, lowest first, and a text has its length before it. The file has the number of vectors, and of
each: its name; its files, each a text; its runs, each with the number of its command, its form or 0, the numbers of its
files with how many they are before them, that of the file that keeps its output, and its moment; the status of the last
run; and its text.

A run that no call of the library says is left out, with its vector: of no command, of the command gen, and of a file
that is not there.
"""
import json
import sys
from pathlib import Path

VECTORS = Path(__file__).resolve().parent.parent.parent / "vectors"
sys.dont_write_bytecode = True
sys.path.insert(0, str(VECTORS))
import write  # noqa: E402

COMMANDS = {"issue": 0, "present": 1, "verify": 2, "show": 3, "split": 4, "convert": 5, "audit": 6, "wallet": 7}
FILES = {"show": (1, 1), "split": (1, 1), "wallet": (2, 65)}
FORMS = {"compact": 0, "flat": 1, "general": 2}
NO_FILE = 2**64 - 1
SOME_MOMENT = 1_800_000_000


def number(value):
    return value.to_bytes(8, "little")


def text(value):
    return number(len(value)) + value


def run_of(run, files):
    """The bytes of a run, where it is a call. A file that keeps its output is added to the files."""
    command, *words = run["words"] or [""]
    least, most = FILES.get(command, (2, 2))
    if command not in COMMANDS or not least <= len(words) <= most:
        return None
    form = 0
    if command == "convert":
        if words[0] not in FORMS:
            return None
        form = FORMS[words.pop(0)]
    if any(word not in files for word in words):
        return None
    names = list(files)
    read = [names.index(word) for word in words]
    kept = NO_FILE
    if "kept_as" in run:
        files.setdefault(run["kept_as"], b"")
        kept = list(files).index(run["kept_as"])
    return b"".join(map(number, (COMMANDS[command], form, len(read), *read, kept, run.get("moment", SOME_MOMENT))))


def vector_of(vector):
    """The bytes of a vector, where each of its runs is a call."""
    files = {name: content.encode() for name, content in vector["files"].items()}
    runs = [run_of(run, files) for run in vector["runs"]]
    if None in runs:
        return None
    # an output that a run keeps, and that the last run is to write again, is known once it runs
    due = NO_FILE
    written = b""
    if "output_of_file" in vector:
        due = list(files).index(vector["output_of_file"])
    else:
        written = vector["output"].encode() or (vector["line"] + "\n").encode()
    return b"".join([text(vector["name"].encode()), number(len(files)), *map(text, files.values()), number(len(runs)), *runs,
                     number(vector["status"]), number(due), text(written)])


def main():
    found = [v for path in sorted(VECTORS.glob("*.json")) for v in json.loads(path.read_text(encoding="utf-8"))] + write.of_tools()
    made = [made for made in map(vector_of, found) if made is not None]
    Path(sys.argv[1]).write_bytes(b"".join([number(len(made)), *made]))
    print(f"{len(made)} vectors of {len(found)}: the others are of words, of files that are not there, or of gen")


if __name__ == "__main__":
    main()

#!/usr/bin/env python3
"""Tests bench itself.

    python3 bench/check.py SDJWT        SDJWT is a built sdjwt

Both programs answer the same, and a program that answers otherwise in one thing is noticed; a count that is off is
noticed; and the report writes between its markers alone. If cargo or its crates are missing, the comparison is skipped.
"""
import contextlib
import io
import subprocess
import sys
import tempfile
import types
import unittest.mock
from pathlib import Path
from xml.dom import minidom

import guard
import limits
import pictures
import programs
import report
from machine import HERE, Skipped, plain_folder

# What a wrong program does to the right answer, and the word of the run that shows it.
WRONG = {
    "another claim": ('out=$("$right" "$@") && printf "%s\\n" "$out" | sed "s/Ada/Eve/"', "verify small"),
    "another number": ('"$right" "$@" 2>"$said"; status=$?; sed "s/refused 17/refused 18/" "$said" >&2; exit $status',
                       "verify: a stranger"),
    "another status": ('"$right" "$@"; [ $? -eq 0 ] || exit 1', "issue: a short seed"),
    "one line end more": ('"$right" "$@" && echo', "split small"),
}


def fails(call, word):
    """Whether a call ends the program with a line that has a word."""
    try:
        with contextlib.redirect_stderr(io.StringIO()):
            call()
    except SystemExit as end:
        return word in str(end.code)
    return False


def check_answers(sdjwt, plain, folder):
    runs = programs.compared(sdjwt, plain, folder, "small")
    assert [name for name, _ in runs][0] == "issue small", runs
    for number, (what, (lines, word)) in enumerate(WRONG.items()):
        wrong = Path(folder) / f"wrong{number}"
        wrong.write_text(f"#!/bin/sh\nright='{plain}'\nsaid='{folder}/said'\n{lines}\n", encoding="utf-8")
        wrong.chmod(0o755)
        assert fails(lambda: programs.compared(sdjwt, str(wrong), folder, "small"), word), f"not noticed: {what}"
    print(f"check.py: both answer the same, and {len(WRONG)} wrong programs are noticed")


def check_guard():
    kept = {"one": 1000, "two": 1000}
    assert guard.judged(kept, {"one": 1029, "two": 971})[1]
    assert not guard.judged(kept, {"one": 1031, "two": 1000})[1]
    assert not guard.judged(kept, {"one": 1000, "two": 960})[1]
    assert not guard.judged(kept, {"three": 1000})[1]
    print("check.py: the guard takes 2.9 %, and refuses 3.1 %, 4 % less, and a workload that it does not know")


def check_pictures():
    drawn = [pictures.curves("a < b", "size", "ms", {"one": [(1, 0.5), (10, 7)], "two": [(1, 1), (10, 10)]}),
             pictures.bars("shares", "million", {"floor": {"hash": 2.0}, "sdjwt": {"hash": 2.0, "JSON": 0.5}})]
    for text in drawn:
        minidom.parseString(text)
    assert drawn[1].count("<rect") == 1 + 3 + 2, drawn[1]
    print("check.py: the pictures are XML")


def check_sections(folder):
    document = Path(folder) / "SCALE.md"
    document.write_text("a\n<!-- bench: x -->\nold\n<!-- end of bench: x -->\nz\n", encoding="utf-8")
    own = types.SimpleNamespace(document=document)
    report.Report.put(own, "x", "new\n")
    assert document.read_text(encoding="utf-8") == "a\n<!-- bench: x -->\nnew\n<!-- end of bench: x -->\nz\n"
    assert fails(lambda: report.Report.put(own, "y", "new"), "needs <!-- bench: y -->")
    text = (HERE.parent / "docs/SCALE.md").read_text(encoding="utf-8")
    for name in report.SECTIONS:
        assert text.count(f"<!-- bench: {name} -->") == text.count(f"<!-- end of bench: {name} -->") == 1, name
    print("check.py: the report writes between its markers, and docs/SCALE.md has them all")


def check_limits():
    line = f"{'header: deep lists':34}" + "".join(f"{megabytes:>9,.0f} {2.5:>5.2f}s" for megabytes in (1415, 2, 3, 804))
    said = subprocess.CompletedProcess([], 0, stdout=f"heads\n{line}  refused 10 badSignature\n")
    with unittest.mock.patch("subprocess.run", return_value=said):
        found = limits.worst("program")
    assert found == {"header: deep lists": [(1415, 2.5), (2, 2.5), (3, 2.5), (804, 2.5)]}, found
    rows = "| Command | What is at its limit |\n|---|---|\n| `issue` | `hide` |"
    said = subprocess.CompletedProcess([], 0, stdout=f"{rows}\neach run took at most 2 seconds\n")
    with unittest.mock.patch("subprocess.run", return_value=said):
        assert limits.files("sdjwt", "tools") == rows
    print("check.py: the lines of tests/worst_json.py and tests/limits.py are read")


def main():
    if len(sys.argv) != 2:
        sys.exit(__doc__.strip())
    with tempfile.TemporaryDirectory() as folder:
        check_guard()
        check_pictures()
        check_sections(folder)
        check_limits()
        try:
            check_answers(sys.argv[1], str(plain_folder() / "plain"), folder)
        except Skipped as word:
            print(f"check.py: skipped: {word}")
    print("check.py: passed")


if __name__ == "__main__":
    main()

#!/usr/bin/env python3
"""Checks that the picture of docs/ARCHITECTURE.md agrees with crates.txt.

    python3 tools/picture.py        prints what differs; status 1 where something does

The picture has each crate but those that the text below it says are left out, and no other. A crate that another stands
on is further down, or beside it.
"""
import re
import sys
from pathlib import Path

TOP = Path(__file__).resolve().parent.parent


def read_crates():
    """Each crate of the repository, lowest first, with those that it stands on, the kit's too."""
    lines = (TOP / "crates.txt").read_text(encoding="utf-8").split("\n")
    return {name: words.split() for name, words in re.findall(r"^(\w+)(?: staticlib)?:(.*)$", "\n".join(lines), re.M)}


def check_picture(text, stands_on):
    picture = re.search(r"^```text\n(.*?)^```", text, re.M | re.S).group(1)
    said = re.search(r"that the picture leaves out:\n\n(.*?)\n\n", text, re.S).group(1)
    left_out = set(re.findall(r"`(\w+)`", said)) & set(stands_on)
    line_of = {}
    for number, line in enumerate(picture.split("\n")):
        for word in re.findall(r"\w+", line):
            if word in stands_on:
                line_of.setdefault(word, number)
            elif re.fullmatch(r"[a-z0-9]+_\w+", word):
                yield f"the picture has {word}, which is no crate"
    for name in stands_on:
        if name in line_of and name in left_out:
            yield f"{name} is in the picture, and is said to be left out"
        if name not in line_of and name not in left_out:
            yield f"{name} is not in the picture"
        for other in stands_on[name]:
            if name in line_of and other in line_of and line_of[other] < line_of[name]:
                yield f"{name} stands on {other}, which is above it"


def main():
    stands_on = read_crates()
    text = (TOP / "docs/ARCHITECTURE.md").read_text(encoding="utf-8")
    wrong = list(check_picture(text, stands_on))
    for line in wrong:
        print(line)
    if not wrong:
        print(f"the picture of docs/ARCHITECTURE.md agrees with crates.txt: {len(stands_on)} crates")
    sys.exit(bool(wrong))


main()

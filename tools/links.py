#!/usr/bin/env python3
"""Checks that each link in a page (*.md) of the repository leads to a file that exists, and to an anchor of that file.

    python3 tools/links.py        status 1 if a link leads nowhere, or no page has a link

An anchor is a heading, as web pages of repositories name it, or `<a id="..">`. Links to the web are not followed. A
page of docs/ may link only to a file that a release has too.
"""
import re
import sys
from pathlib import Path

TOP = Path(__file__).resolve().parent.parent
# The files outside docs/ that a release has.
RELEASED = {"../CHANGELOG.md", "../c/sdjwt.h", "../python/README.md", "../vectors/README.md"}
RELEASED |= {"../c/examples/public.c", "../c/examples/signed.c", "../rust/README.md", "../node/README.md"}
# Code is not prose: blocks between fences, and spans.
FENCED = re.compile(r"^ *(```+).*?^ *\1 *$", re.M | re.S)
SPAN = re.compile(r"(`+)(?!`).*?(?<!`)\1(?!`)", re.S)
# Where a link leads, in its own parentheses or in a line that defines its name.
TARGET = re.compile(r"\]\(<?([^()\s<>]+)>?(?: \"[^\"]*\")?\)|^\[[^\]]+\]: +(\S+)", re.M)
WEB = re.compile(r"[a-z]+:")


def pages():
    """The pages of the repository, without those that are built or hidden."""
    for page in sorted(TOP.rglob("*.md")):
        folders = page.relative_to(TOP).parts[:-1]
        if "out" not in folders and not any(name.startswith(".") for name in folders):
            yield page


def slug(heading):
    """The anchor of a heading: its letters in lower case, with a hyphen for each blank."""
    shown = re.sub(r"<[^>]*>", "", re.sub(r"\[([^\]]*)\]\([^)]*\)", r"\1", heading)).strip()
    return re.sub(r"[^\w\- ]", "", shown.lower()).replace(" ", "-")


def anchors(page):
    text = FENCED.sub("", page.read_text(encoding="utf-8"))
    found = set(re.findall(r'<a id="([^"]+)">', text))
    count = {}
    for heading in re.findall(r"^#+ +(.*?) *#*$", text, re.M):
        name = slug(heading)
        again = count[name] = count.get(name, -1) + 1
        found.add(f"{name}-{again}" if again else name)
    return found


def links(page):
    """Where each link of a page leads: a file, or nothing for the page itself, and an anchor or nothing."""
    text = SPAN.sub("", FENCED.sub("", page.read_text(encoding="utf-8")))
    for found in TARGET.finditer(text):
        file, _, anchor = (found[1] or found[2]).partition("#")
        if not WEB.match(file):
            yield file, anchor


def fault(page, file, anchor):
    """Why a link is wrong, or nothing."""
    target = page.parent / file if file else page
    if not target.exists():
        return "there is no such file"
    if anchor and (target.suffix != ".md" or anchor not in anchors(target)):
        return "the page has no such heading"
    if page.parent == TOP / "docs" and file.startswith("../") and file not in RELEASED:
        return "no release has this file"
    return ""


def main():
    found = [(page, file, anchor) for page in pages() for file, anchor in links(page)]
    wrong = [(link, why) for link in found for why in [fault(*link)] if why]
    for (page, file, anchor), why in wrong:
        print(f"{page.relative_to(TOP)}: {file}{'#' * bool(anchor)}{anchor}: {why}")
    print(f"{len(found)} links, {len(wrong)} wrong")
    return bool(wrong) or not found


if __name__ == "__main__":
    sys.exit(main())

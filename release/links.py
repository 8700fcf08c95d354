#!/usr/bin/env python3
"""Looks whether the relative links of the pages below folders lead to files that are there.

    python3 release/links.py FOLDER..                  says which do not, with status 1
    python3 release/links.py --move FOLDER FROM=TO..   lets each link that is written FROM lead to TO
    python3 release/links.py --mend FOLDER             puts its text in the place of a link that leads nowhere

The last is for a package, which has some of the repository's pages, and not those to which they lead.
"""
import re
import sys
from pathlib import Path

# A link, or a picture: its text, and where it leads, without the heading in that page.
LINK = re.compile(r"!?\[((?:[^\[\]]|\[[^\]]*\])*)\]\(([^)#\s]+)(?:#[^)\s]*)?\)")
ELSEWHERE = re.compile(r"[a-z]+:")


def pages(top):
    return sorted(top.rglob("*.md"))


def is_dead(page, link):
    return not ELSEWHERE.match(link) and not (page.parent / link).exists()


def change(top, changed):
    """Writes each link of each page as `changed` has it, which is given the page and what was found."""
    for page in pages(top):
        text = page.read_text(encoding="utf-8")
        page.write_text(LINK.sub(lambda found: changed(page, found), text), encoding="utf-8")


def move(top, moves):
    to = dict(word.split("=", 1) for word in moves)
    change(top, lambda page, found: found[0].replace(f"]({found[2]}", f"]({to.get(found[2], found[2])}"))


def mend(top):
    change(top, lambda page, found: found[1] if is_dead(page, found[2]) else found[0])


def look(tops):
    """Prints what leads nowhere, and answers whether anything does, or nothing is a link."""
    links = [(top, page, link) for top in tops for page in pages(top)
             for _, link in LINK.findall(page.read_text(encoding="utf-8")) if not ELSEWHERE.match(link)]
    wrong = [f"{page.relative_to(top)}: {link}" for top, page, link in links if is_dead(page, link)]
    print("\n".join([*wrong, f"{len(links)} links, {len(wrong)} lead nowhere"]))
    return bool(wrong) or not links


def main(words):
    if words[:1] == ["--move"] and len(words) > 2:
        move(Path(words[1]), words[2:])
    elif words[:1] == ["--mend"] and len(words) == 2:
        mend(Path(words[1]))
    elif words and not words[0].startswith("-"):
        return look([Path(word) for word in words])
    else:
        sys.exit(__doc__)
    return 0


if __name__ == "__main__":
    sys.exit(main(sys.argv[1:]))

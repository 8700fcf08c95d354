#!/usr/bin/env python3
"""Explains the lines with which sdjwt refuses, from docs/REFUSALS.md. install.sh installs it as sdjwt-explain.

    sdjwt-explain 17                                   the entry of a number
    sdjwt-explain wrong binding                        the entry of a name or a reason
    sdjwt-explain usage                                the commands of sdjwt and sdjwt_tools
    sdjwt-explain refused 73                           the entry of the front of a line
    sdjwt-explain refused 73 consentRefused at 0       the entry of a whole line
    sdjwt-explain unreadable 1 notJson policy.json     the same, and where this file is wrong
    sdjwt verify p.json t.txt 2>&1 | sdjwt-explain     each refusal as JSON, all other lines as they are

Quotes around a line make no difference. In a pipe the status is that of the refusal, and 0 where there is none. Else it
is 0 where there is an entry, 1 where there is none or the file could not be read, and 2 where the words are wrong. It
is 4 where the answer could not be written; a reader who wants no more of it ends it by SIGPIPE, as other programs. It
judges nothing: what the file has in it is compared with the line, and where it has no such fault this is said.
"""
import json
import os
import re
import signal
import sys
import textwrap
from pathlib import Path

HERE = Path(__file__).resolve().parent
# In the repository, and below the folder into which it was installed.
INSTALLED = HERE.parent / "share/sdjwt"
IS_INSTALLED = INSTALLED.is_dir() and HERE.name == "bin"
PAGE = INSTALLED / "REFUSALS.md" if IS_INSTALLED else HERE.parent / "docs/REFUSALS.md"
CASES = HERE.parent / "examples/refusals/cases.txt"
# An entry of the page: a heading with the lines below it, or a row of a table. Then the marks between its parts, and
# what is dropped from them: the mark of an element of a list, and the target of a link.
ENTRY = r"^### ([\w ]+?)(?: <a .*)?\n((?:(?!#).*\n)*)|^\| `([A-Za-z_ ]+)` \| ([^|]+) \| ([^|]+) \| ([^|]+) \|$"
MARKS = r"\n- \*(?:Cause|Remedy):\* "
DROPPED = r"^ +- |\[([^]]*)\]\([^)]*\)"
# A row of the table of the commands: its words, and what is printed.
COMMAND = r"^\| `(sdjwt\w* [\w .]+)` \| ([^|\n]+) \|$"

# nothing is written beside what was installed
sys.dont_write_bytecode = True
sys.path.insert(0, str(INSTALLED if IS_INSTALLED else HERE / "src/sdjwt"))
import _detail  # noqa: E402
from _lines import PARTS, found, line_of, object_of  # noqa: E402


class Unread(Exception):
    """What could not be read, and why."""

    def __init__(self, name, fault):
        super().__init__(f"{name} could not be read: {fault.strerror}")


def content_of(name, most=-1):
    """The first bytes of a file, or all of them."""
    try:
        with open(name, "rb") as file:
            return file.read(most)
    except OSError as fault:
        raise Unread(name, fault) from None


def lines_of(stream):
    """The lines of standard input."""
    try:
        yield from stream
    except OSError as fault:
        raise Unread("standard input", fault) from None


def sections(page):
    """What each entry says, each part in one line, by what it explains: `refused 10 badSignature`, `unreadable notJson`
    or `usage`. An entry is a heading with the lines below it, or a row of the table of the reasons why a file is
    unreadable."""
    found = {}
    for heading, body, reason, *cells in re.findall(ENTRY, page, re.M):
        lines = re.sub(DROPPED, r"\1", body, flags=re.M)
        parts = [f"{cell[0].upper()}{cell[1:]}." for cell in cells] if reason else re.split(MARKS, lines)
        found[heading or "unreadable " + reason] = {
            of: " ".join(part.split()) for of, part in zip(PARTS.values(), parts)
        }
    return found


def as_json(line, entries):
    """The status and the JSON text of what a line says."""
    return line.status, json.dumps(object_of(line, entries), ensure_ascii=False, separators=(",", ":"))


def pipe(entries):
    """Each refusal of standard input as JSON, and other lines as they are. Answers the status of the last refusal."""
    status = 0
    for stream in (sys.stdin, sys.stdout):
        stream.reconfigure(errors="surrogateescape")
    for line in lines_of(sys.stdin):
        refusal = line_of(line.rstrip("\n"))
        if refusal:
            status, line = as_json(refusal, entries)
            line += "\n"
        sys.stdout.write(line)
    return status


def case_of(heading):
    """A command of examples/refusals that gives such a line, and the line."""
    for row in CASES.read_text(encoding="utf-8").splitlines() if CASES.is_file() else ():
        case = re.fullmatch(r"([^#].*) = [1-6] (.*)", row)
        line = line_of(case[2]) if case else None
        if line and line.heading == heading:
            return case
    return None


def more_of(heading, name):
    """What is wrong in a file, where it has the fault of this heading."""
    reason = heading[len("unreadable "):] if heading.startswith("unreadable ") else None
    if reason is None:
        return f"{name}: of a file more is said where the line begins with `unreadable`"
    said = _detail.detail(reason, content_of(name, _detail.FILE_MAX + 1))
    return f"In {name}: {said or 'no such fault is found. Is it another file, or was it changed since?'}"


def commands(page):
    """The commands of the programs, each with what it prints."""
    rows = [(words, said.replace("`", "")) for words, said in re.findall(COMMAND, page, re.M)]
    width = max(len(words) for words, _ in rows)
    return "\n".join(f"  {words:{width}}  {said}" for words, said in rows)


def filled(text):
    return textwrap.fill(text, 120, break_long_words=False, break_on_hyphens=False)


def plain(said):
    """An entry as paragraphs, one for each part."""
    return "\n\n".join(filled(f"{label}: {said[part]}") for label, part in PARTS.items())


def tell(wanted, name, entries):
    """Prints the entries, with what is wrong in a file where one is named."""
    for number, heading in enumerate(found(wanted, entries)):
        # read before anything is printed, since it may fail
        more = more_of(heading, name) if name is not None else None
        print("\n" * (number > 0) + heading + "\n\n" + plain(entries[heading]))
        if heading == "usage":
            print("\n" + commands(content_of(PAGE).decode()))
        if more is not None:
            print("\n" + filled(more))
        elif case_of(heading):
            print("\nIn examples/refusals, sdjwt {} gives:\n  {}".format(*case_of(heading).groups()))


def explain(words, entries):
    """Explains what the words name, and answers the status."""
    wanted, name = " ".join(words), None
    if len(words) > 1 and not found(wanted, entries) and found(" ".join(words[:-1]), entries):
        wanted, name = " ".join(words[:-1]), words[-1]
    if not found(wanted, entries):
        print(f"sdjwt-explain: there is no entry of {wanted!r}", file=sys.stderr)
        return 1
    tell(wanted, name, entries)
    return 0


def answer(words):
    """Does what the words ask for, and answers the status."""
    asks = words in (["-h"], ["--help"])
    if asks or not words and (sys.stdin is None or sys.stdin.isatty()):
        print(__doc__.strip())
        return 0 if asks else 2
    entries = sections(content_of(PAGE).decode())
    return explain(words, entries) if words else pipe(entries)


def main():
    # a reader of standard output that ends early ends this too, without a word
    signal.signal(signal.SIGPIPE, signal.SIG_DFL)
    try:
        if sys.stdout is None:
            raise OSError(0, "it is closed")
        status = answer(sys.argv[1:])
        sys.stdout.flush()
    except Unread as fault:
        print(f"sdjwt-explain: {fault}", file=sys.stderr)
        status = 1
    except OSError as fault:
        print(f"sdjwt-explain: the answer could not be written: {fault.strerror}", file=sys.stderr)
        # what is left of it is not written at the end either
        os._exit(4)
    return status


if __name__ == "__main__":
    sys.exit(main())

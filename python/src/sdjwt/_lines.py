"""The lines that are written if there is no result, and how an entry of docs/REFUSALS.md is found by one.

It imports nothing of the package, because sdjwt-explain reads it without the C library.
"""
from __future__ import annotations

import json
import re
from collections.abc import Mapping
from typing import Any, NamedTuple, Optional

# The parts of an entry, each with its label.
PARTS = {"Means": "explanation", "Likely cause": "cause", "What to do": "remedy"}
# The statuses, each with the form of its lines.
_LINES = (
    (1, r"refused (\d+) ([A-Za-z]+)(?: at (.+))?"),
    (6, r"unreadable ([12]) ([A-Za-z]+(?: [a-z_]+)?)"),
    (3, r"(unread) (\d+|clock|source)"),
    (2, r"(usage)"),
    (4, r"(unwritten)"),
    (5, r"(memory)"),
    (8, r"(notAsked)"),
)

Entries = Mapping[str, Mapping[str, str]]


class Line(NamedTuple):
    """What a line says: the status that comes with it, the heading of its entry, and its place or None."""

    status: int
    heading: str
    place: Optional[str]


def line_of(text: str) -> Line | None:
    """What a line says. None if it is not the line of a refusal."""
    for status, form in _LINES:
        words = re.fullmatch(form, text)
        if words and status == 1:
            return Line(status, f"refused {words[1]} {words[2]}", words[3])
        if words and status == 6:
            return Line(status, f"unreadable {words[2]}", words[1])
        if words:
            return Line(status, words[1], words[2] if status == 3 else None)
    return None


def object_of(line: Line, entries: Entries) -> dict[str, Any]:
    """A line as a JSON object, with its entry."""
    number, name = line.heading.split(" ")[1:] if line.status == 1 else (None, re.sub("^unreadable ", "", line.heading))
    said = entries.get(line.heading, {})
    return {"status": line.status, "number": number and int(number), "name": name, "place": _place_of(line.place),
            **{part: said.get(part, "") for part in PARTS.values()}}


def _place_of(word: str | None) -> Any:
    """The place of a line, which may be written as a JSON string."""
    try:
        return json.loads(word) if word and word.startswith('"') else word
    except ValueError:
        return word


def found(wanted: str, entries: Entries) -> list[str]:
    """The headings that a number, a name, a reason or a line names."""
    line = line_of(wanted)
    if line:
        return [heading for heading in entries if heading == line.heading]
    return [heading for heading in entries if wanted in _names_of(heading)]


def _names_of(heading: str) -> set[str]:
    """All names of an entry: for `refused 10 badSignature` also 10, its name, both of them, and `refused 10`."""
    words = heading.split(" ")
    if words[0] == "refused":
        return {heading, words[1], words[2], f"{words[1]} {words[2]}", f"{words[0]} {words[1]}"}
    return {heading, " ".join(words[1:]) if words[0] == "unreadable" else heading}

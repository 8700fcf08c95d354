"""What is inside a token, and its parts, as the library prints them."""
from __future__ import annotations

import json
from typing import Any

from sdjwt import _library
from sdjwt._answers import answered, read_json, without_end


def shown(token: bytes) -> dict[str, Any]:
    """What is inside a token: `header`, `payload`, `disclosures`, and `binding` or None."""
    inside: dict[str, Any] = {"disclosures": [], "binding": None}
    for line in without_end(answered(*_library.call("show", token))).split("\n"):
        word, said = line.split(" ", 1)
        if word == "disclosure":
            inside["disclosures"].append(_disclosure(said))
        else:
            inside[word] = said if word == "binding" else json.loads(said)
    return inside


def _disclosure(line: str) -> dict[str, Any]:
    _, digest, kind, said = line.split(" ", 3)
    found: dict[str, Any] = {"digest": digest}
    if kind == "member":
        found["name"], end = read_json(said)
        said = said[end:]
    found["value"] = json.loads(said)
    return found


def parted(token: bytes) -> dict[str, Any]:
    """The strings that a token consists of: `protected`, `payload`, `signature`, `disclosures`, and `binding` or None.
    """
    parts: dict[str, Any] = {"disclosures": [], "binding": None}
    for line in without_end(answered(*_library.call("split", token))).split("\n"):
        word, said = line.split(" ", 1)
        if word == "disclosure":
            parts["disclosures"].append(said.split(" ", 1)[1])
        else:
            parts[word] = said
    return parts

"""What a call of the library returned, as a value or an exception."""
from __future__ import annotations

import json
from typing import Any

from sdjwt import _library
from sdjwt._errors import OutOfMemory, refusal, unreadable

# json.loads would look for what is not needed, such as the encoding of bytes: the text is the library's
read_json = json.JSONDecoder().raw_decode


def answered(status: int, said: bytes, *files: tuple[str, bytes]) -> bytes:
    """What a call said, if it is done. `files` are its first inputs, each with its kind."""
    if status == _library.DONE:
        return said
    line = said.decode().rstrip("\n")
    if status == _library.REFUSED:
        raise refusal(line)
    if status == _library.UNREADABLE:
        raise unreadable(line, files)
    if status == _library.MEMORY:
        raise OutOfMemory("sdjwt: there is no memory")
    raise AssertionError(f"sdjwt: status {status}")


def without_end(said: bytes) -> str:
    """What was said without its line end."""
    return said.decode()[:-1]


def object_of(said: bytes) -> dict[str, Any]:
    """The object that a line of JSON is."""
    found: dict[str, Any] = read_json(said.decode())[0]
    return found

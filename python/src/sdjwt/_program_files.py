"""What the program sdjwt-keys reads and writes: files, standard input, JSON on standard output, and files of keys."""
from __future__ import annotations

import json
import os
import re
import sys
from typing import Any

from sdjwt._detail import FILE_MAX
from sdjwt._program_faults import UNREAD, UNWRITTEN, Fault, usage

# A compact token that stands in the place of a file name. A file of such a name can be written with ./ before it.
_TOKEN = re.compile(r"e[wy][A-Za-z0-9_-]+\.[A-Za-z0-9_-]+\.[A-Za-z0-9_-]+~\S*")
# Characters that a terminal obeys, or that turn the direction of text or can't be seen.
_UNSEEN = re.compile(
    "[\x7f-\x9f\xad\u061c\u180e\u200b-\u200f\u2028-\u202e\u2060-\u206f\ufeff\ufff9-\ufffb"
    "\U000e0000-\U000e007f\ud800-\udfff]"
)
# Who may read a file with a private key: its owner only.
_OWNER_ONLY = 0o600


class Input:
    """What is read in one run, and notes about it that are no faults. Standard input can be read once."""

    def __init__(self) -> None:
        self.notes: list[str] = []
        self._is_taken = False

    def content(self, name: str) -> bytes:
        """The content of a file, or of standard input for the name `-`.

        Of one that is too long it is a part that is too long.
        """
        try:
            if name != "-":
                with open(name, "rb") as file:
                    return file.read(FILE_MAX + 1)
            return self._standard_input()
        except (OSError, ValueError) as fault:
            reason = fault.strerror if isinstance(fault, OSError) else "this is no name of a file"
            raise Fault(
                UNREAD, f"unread {shown_name(name)}", f"{shown_name(name)} could not be read: {reason}."
            ) from None

    def _standard_input(self) -> bytes:
        if self._is_taken:
            raise usage("- is standard input, which can be given for one argument only")
        if sys.stdin is None:
            raise OSError(0, "standard input is closed")
        self._is_taken = True
        return sys.stdin.buffer.read(FILE_MAX + 1)

    def token(self, word: str) -> bytes:
        """A token: the content of a file, or the word itself if it is a compact token or a JSON object."""
        return os.fsencode(word) if _TOKEN.fullmatch(word) or word.startswith("{") else self.content(word)

    def order(self, word: str) -> bytes:
        """An order: the content of a file, or the word itself if it is a JSON object."""
        return os.fsencode(word) if word.lstrip().startswith("{") else self.content(word)


def shown_name(name: str) -> str:
    """A file name in a message: as it is, or in quotes if a terminal would not show it as it is."""
    return name if name.isprintable() and name.isascii() and name and " " not in name else json.dumps(name)


def visible(text: str) -> str:
    """A JSON text with an escape for each character that a terminal obeys or that nobody sees.

    Its value stays the same.
    """
    return _UNSEEN.sub(_escape, text)


def _escape(found: re.Match[str]) -> str:
    letter = found[0]
    return "\\u007f" if letter == "\x7f" else json.dumps(letter)[1:-1]


def json_text(value: object, is_indented: bool = False) -> str:
    """A value as JSON, on one line or indented."""
    said = (
        json.dumps(value, ensure_ascii=False, indent=2)
        if is_indented
        else json.dumps(value, ensure_ascii=False, separators=(",", ":"))
    )
    return visible(said)


def print_json(value: Any) -> None:
    """Prints a value: indented on a terminal, and else on one line."""
    print(json_text(value, sys.stdout.isatty()))


def write_pair(secret: tuple[str, str], public: tuple[str, str]) -> None:
    """Writes two new files, of which nobody else can read the first: both, or none. Each is a name and a text."""
    write_new(*secret, is_secret=True)
    try:
        write_new(*public, is_secret=False)
    except Fault:
        os.unlink(secret[0])
        raise


def write_new(name: str, text: str, is_secret: bool) -> None:
    """Writes a file that is not there yet. From its first moment nobody else can read one that is secret."""
    try:
        made = os.open(name, os.O_WRONLY | os.O_CREAT | os.O_EXCL, _OWNER_ONLY if is_secret else 0o666)
        with open(made, "w", encoding="utf-8") as file:
            file.write(text)
    except FileExistsError:
        raise Fault(
            UNWRITTEN, f"unwritten {shown_name(name)}", f"{shown_name(name)} is there already, and is not overwritten."
        ) from None
    except (OSError, ValueError) as fault:
        raise unwritten(name, fault) from None


def write_page(name: str, text: str) -> None:
    """Writes a page into a file, or to standard output for the name `-`."""
    if name == "-":
        print(text, end="")
        return
    try:
        with open(name, "w", encoding="utf-8") as file:
            file.write(text)
    except (OSError, ValueError) as fault:
        raise unwritten(name, fault) from None


def unwritten(name: str, fault: Exception) -> Fault:
    """A file could not be written."""
    reason = fault.strerror if isinstance(fault, OSError) else "this is no name of a file"
    return Fault(UNWRITTEN, f"unwritten {shown_name(name)}", f"{shown_name(name)} could not be written: {reason}.")

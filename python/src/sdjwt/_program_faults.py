"""Why the program sdjwt-keys prints no result: its line, which is that of the program sdjwt if it has one, and what
explains it.
"""
from __future__ import annotations

import json
import re
import textwrap
from typing import Any

from sdjwt._errors import NoCryptography, OutOfMemory, OutOfStack, SdJwtError, TooLong, Unreadable, _explanations
from sdjwt._lines import Line, line_of, object_of

REFUSED, USAGE, UNREAD, UNWRITTEN, MEMORY, UNREADABLE = 1, 2, 3, 4, 5, 6
_LINK = re.compile(r"\[([^\]]*)\]\([^)]*\)")


class Fault(Exception):
    """There is no result. `line` is the first line that is printed, and `detail` says more of this case."""

    def __init__(self, status: int, line: str, detail: str = "") -> None:
        super().__init__(line)
        self.status = status
        self.line = line
        self.detail = detail

    def object(self) -> dict[str, Any]:
        """The fault as `--json` prints it: the members that sdjwt-explain writes, then `line` and `detail`."""
        entries = _explanations()
        line = line_of(self.line) or Line(self.status, self.line.split(" ")[0].rstrip(":"), None)
        return {**object_of(line, entries), "status": self.status, "line": self.line, "detail": self.detail}

    def text(self, width: int | None) -> str:
        """The line, and below it what explains it, in lines of a width."""
        said = self.object()
        paragraphs = (
            [self.detail, said["explanation"], said["remedy"]] if said["number"] or not self.detail else [self.detail]
        )
        return "\n".join([self.line, *(_filled(plain(paragraph), width) for paragraph in paragraphs if paragraph)])


def plain(markdown: str) -> str:
    """A paragraph of docs/REFUSALS.md without its links."""
    return _LINK.sub(r"\1", markdown)


def _filled(text: str, width: int | None) -> str:
    return text if width is None else textwrap.fill(text, width, break_long_words=False, break_on_hyphens=False)


def usage(said: str) -> Fault:
    """The words of a call are wrong."""
    return Fault(USAGE, "usage", said)


def fault_of(error: BaseException) -> Fault | None:
    """What the program says of an exception of the package. None of one that is a bug."""
    if isinstance(error, Fault):
        return error
    if isinstance(error, Unreadable):
        return Fault(UNREADABLE, error.line, error.detail)
    if isinstance(error, NoCryptography):
        return usage(
            f"{_without_name(error.line)}. From a wheel: pip install './sdjwt-VERSION-py3-none-PLATFORM.whl[keys]'; "
            "on Debian: apt install python3-cryptography"
        )
    if isinstance(error, TooLong):
        return Fault(REFUSED, "refused 1 tooLong")
    if isinstance(error, SdJwtError):
        return Fault(REFUSED, error.line)
    if isinstance(error, (OutOfMemory, OutOfStack, MemoryError)):
        return Fault(MEMORY, "memory")
    if isinstance(error, (ValueError, TypeError)) and str(error).startswith("sdjwt: "):
        return usage(_without_name(str(error)))
    return None


def _without_name(message: str) -> str:
    return message.replace("sdjwt: ", "", 1)


def json_line(value: object) -> str:
    return json.dumps(value, ensure_ascii=False, separators=(",", ":"))

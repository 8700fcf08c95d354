"""The exceptions of the package.

A refusal is of the class that the table CLASSES has for its number. Programs see the classes under the name of the
package, for example `sdjwt.Expired`, which a log shows too.
"""
from __future__ import annotations

import json
import re
from collections.abc import Callable
from functools import lru_cache
from pathlib import Path

from sdjwt import _detail

# The module that a log shows, and where pickle looks for a class.
_SHOWN = "sdjwt"
# A link of docs/REFUSALS.md, of which a sentence has only the text.
_LINK = re.compile(r"\[([^\]]*)\]\([^)]*\)")


@lru_cache(maxsize=None)
def _explanations() -> dict[str, dict[str, str]]:
    """What docs/REFUSALS.md says of each line."""
    found: dict[str, dict[str, str]] = json.loads((Path(__file__).parent / "refusals.json").read_text(encoding="utf-8"))
    return found


class SdJwtError(Exception):
    """The call has no result. `line` is what the program sdjwt writes then.

    `str` of it is a sentence for a person: the line, and what is wrong or what the line means.
    """

    __module__ = _SHOWN

    def __init__(self, line: str, heading: str = "") -> None:
        super().__init__(line)
        self.line = line
        self._said = _explanations().get(heading, {})

    def __str__(self) -> str:
        said = self._sentence()
        return f"{self.line}: {said}" if said else self.line

    def _sentence(self) -> str:
        return _LINK.sub(r"\1", self.explanation)

    def _made_of(self) -> tuple[object, ...]:
        """What the class is called with to make the same exception, for pickle and copy."""
        return (self.line,)

    def __reduce__(self) -> tuple[object, ...]:
        notes = getattr(self, "__notes__", None)
        return type(self), self._made_of(), {"__notes__": list(notes)} if notes else None

    @property
    def explanation(self) -> str:
        """What the line means."""
        return self._said.get("explanation", "")

    @property
    def cause(self) -> str:
        """The likely cause."""
        return self._said.get("cause", "")

    @property
    def remedy(self) -> str:
        """What to do."""
        return self._said.get("remedy", "")


class Refused(SdJwtError):
    """A rule refuses what was given. Only the first rule that fails is named.

    `number` and `name` are those of docs/REFUSALS.md, and `place` says where, or is None. Refusals that programs tell
    apart have classes of their own below this one.
    """

    __module__ = _SHOWN

    def __init__(self, line: str) -> None:
        words = re.fullmatch(r"refused (\d+) (\w+)(?: at (.*))?", line, re.S)
        if words is None:
            raise ValueError(line)
        super().__init__(line, f"refused {words[1]} {words[2]}")
        self.number = int(words[1])
        self.name: str = words[2]
        self.place: str | None = words[3]


class AlgorithmRefused(Refused):
    """The policy does not accept the algorithm of the token."""

    __module__ = _SHOWN


class UnknownKey(Refused):
    """No key of the policy is the one that signed the token."""

    __module__ = _SHOWN


class BadSignature(Refused):
    """The signature of the token is bad."""

    __module__ = _SHOWN


class IssuerRefused(Refused):
    """The claim `iss` is missing, or is not what the policy accepts."""

    __module__ = _SHOWN


class MissingClaim(Refused):
    """The token does not show a claim that the policy requires. `place` is its position in `require`."""

    __module__ = _SHOWN


class Expired(Refused):
    """The time `exp` of the token has come."""

    __module__ = _SHOWN


class NotYetValid(Refused):
    """The time `nbf` of the token has not come."""

    __module__ = _SHOWN


class BindingRefused(Refused):
    """The key binding token is missing, or does not fit the policy or the token."""

    __module__ = _SHOWN


class NonceDiffers(BindingRefused):
    """The key binding token has another nonce. It was made for another request, or is used twice."""

    __module__ = _SHOWN


class AudienceDiffers(BindingRefused):
    """The key binding token was made for another verifier."""

    __module__ = _SHOWN


class BadOrder(Refused):
    """`issue` refuses the order."""

    __module__ = _SHOWN


class BadPresentation(Refused):
    """`present` refuses the order: the token does not have what is wanted, or it may not be shown."""

    __module__ = _SHOWN


# The numbers of docs/REFUSALS.md that have a class of their own. Every other number is Refused.
CLASSES: dict[int, type[Refused]] = {
    4: BindingRefused,
    7: AlgorithmRefused,
    9: UnknownKey,
    10: BadSignature,
    22: IssuerRefused,
    23: MissingClaim,
    25: Expired,
    26: NotYetValid,
    **dict.fromkeys(range(27, 39), BindingRefused),
    35: NonceDiffers,
    36: AudienceDiffers,
    **dict.fromkeys(range(51, 62), BadOrder),
    **dict.fromkeys(range(71, 76), BadPresentation),
}


def refusal(line: str) -> Refused:
    """The exception for the line of a refusal."""
    number = re.match(r"refused (\d+) ", line)
    return CLASSES.get(int(number[1]) if number is not None else 0, Refused)(line)


class Unreadable(SdJwtError, ValueError):
    """An order, a policy or a query does not have its form.

    `reason` says what is wrong with it. `input` is 1, the number that the line has for it.
    """

    __module__ = _SHOWN

    def __init__(self, line: str, detail: str | Callable[[str], str] = "") -> None:
        words = re.fullmatch(r"unreadable (\d+) (.*)", line, re.S)
        if words is None:
            raise ValueError(line)
        super().__init__(line, f"unreadable {words[2]}")
        self.input = int(words[1])
        self.reason: str = words[2]
        self._detail = detail

    def _sentence(self) -> str:
        return self.detail or super()._sentence()

    def _made_of(self) -> tuple[object, ...]:
        return self.line, self.detail

    @property
    def detail(self) -> str:
        """Where it is wrong and why, as `at /keys/keys/0/k: it has = at its end, and is to be written without`.

        It is looked for when it is asked for, in what was given. It has no value of that, since it may be a key, and it
        is empty where no more is known than `reason` says.
        """
        if not isinstance(self._detail, str):
            self._detail = self._detail(self.reason)
        return self._detail


def unreadable(line: str, files: tuple[tuple[str, bytes], ...]) -> Unreadable:
    """What a line tells of the files that were given, each with its kind."""
    fault = Unreadable(line)
    if fault.input <= len(files):
        kind, content = files[fault.input - 1]
        fault = Unreadable(line, lambda reason: _detail.detail(reason, content, (kind,)))
    return fault


class TooLong(SdJwtError, ValueError):
    """A token is longer than `most`, the greatest length in bytes that the caller takes. The library was not asked.

    The program has no such line: `line` says what is too long, and by which bound.
    """

    __module__ = _SHOWN

    def __init__(self, given: str, most: int) -> None:
        super().__init__(f"sdjwt: {given} has more than {most} bytes, the most that is taken", "")
        self.given = given
        self.most = most

    def _sentence(self) -> str:
        # the line is a sentence
        return ""

    def _made_of(self) -> tuple[object, ...]:
        return self.given, self.most

    @property
    def explanation(self) -> str:
        """What the line means."""
        return f"The token has more than {self.most:,} bytes, which is the most that this call takes."

    @property
    def cause(self) -> str:
        """The likely cause."""
        return "Another text was given in the place of the token, or a token carries a picture or the like."

    @property
    def remedy(self) -> str:
        """What to do."""
        return "Look at its length. Where such tokens are wanted, give the call a greater length by `most`."


class NoCryptography(SdJwtError, ImportError):
    """A policy has public keys, or a private key is to sign, and the package cryptography, which does so, is not
    installed.
    """

    __module__ = _SHOWN

    def __init__(
        self, line: str = "sdjwt: a policy with public keys needs the package cryptography: pip install cryptography"
    ) -> None:
        super().__init__(line, "")


class OutOfMemory(MemoryError):
    """The library found no memory for the call."""

    __module__ = _SHOWN


class OutOfStack(RuntimeError):
    """The thread has less of its stack left than a call may need, as one that was given a small one.

    The library was not asked.
    """

    __module__ = _SHOWN

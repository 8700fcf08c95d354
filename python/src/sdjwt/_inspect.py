"""What is inside a token, for people to look at: its parts as JSON, and each digest joined to the claim that it hides.

Nothing is judged here, and no other module uses it. The library takes the token apart; a digest is computed only to
show which disclosure belongs to it. Broken parts are shown as far as they can be read. What a policy says of the token
is the verdict of the library: conditions with lower numbers than the one that it names hold (docs/SPECIFICATION.md).
"""
from __future__ import annotations

import base64
import datetime
import hashlib
import json
from collections.abc import Iterator
from dataclasses import dataclass, field
from time import time
from typing import Any, NamedTuple, Optional

from sdjwt._disclosed import step
from sdjwt._errors import Refused, _explanations

# The hashes of digests, by the names of `_sd_alg`.
_HASHES = {"sha-256": hashlib.sha256, "sha-384": hashlib.sha384, "sha-512": hashlib.sha512}
_USUAL_HASH = "sha-256"
# How deep JSON is shown. Tokens that the library takes are at most 100 deep.
DEPTH_MAX = 130
_TIMES = {
    "exp": "expires",
    "nbf": "valid from",
    "iat": "issued at",
    "auth_time": "authenticated at",
    "updated_at": "updated at",
}
_UNITS = (("year", 31_557_600), ("day", 86_400), ("hour", 3600), ("minute", 60), ("second", 1))
# The conditions of a token, and those of them that only a policy with `binding` judges.
_CONDITIONS = range(1, 39)
_OF_BINDING = (4, *range(27, 39))
HIDDEN = "hidden or decoy"


class Number(str):
    """A number that is shown as it is written, such as 12.50."""

    __slots__ = ()


class Unread(str):
    """Why a part is not shown as JSON."""

    __slots__ = ()


@dataclass
class Node:
    """A JSON value, or a digest that stands in the place of one.

    `kind` is "object", "array", "value", "digest" or "cut", which is a value that nests too deep. `opened` is the
    number of the disclosure that gives this value, or that belongs to this digest.
    """

    kind: str
    label: Optional[str] = None
    value: Any = None
    opened: Optional[int] = None
    children: list[Node] = field(default_factory=list)


@dataclass
class Disclosure:
    """A disclosure: its text, its digest, its JSON or why that can't be read, and the place of its claim or None."""

    number: int
    text: str
    digest: str
    fault: str = ""
    salt: Any = None
    name: Optional[str] = None
    value: Any = None
    place: Optional[str] = None


class Jwt(NamedTuple):
    """A JWT: its three texts, the JSON of the first two, and the length of its signature in bytes."""

    texts: tuple[str, str, str]
    header: Any
    payload: Any
    signature_length: int


class Binding(NamedTuple):
    """A key binding token, and whether its `sd_hash` is the digest of what stands before it.

    None if this is not known.
    """

    jwt: Jwt
    has_this_hash: Optional[bool]


class Inside(NamedTuple):
    """What is inside a token, seen at a time."""

    jwt: Jwt
    hash_name: Any
    disclosures: list[Disclosure]
    joined: Node
    binding: Optional[Binding]
    now: int

    @property
    def length(self) -> int:
        """The length of the compact token."""
        parts = [*self.jwt.texts, *(disclosure.text for disclosure in self.disclosures)]
        return sum(len(part) + 1 for part in parts) + (
            0 if self.binding is None else sum(map(len, self.binding.jwt.texts)) + 2
        )

    def hidden(self) -> list[Node]:
        """The digests that no disclosure of the token opens."""
        return [node for node in _all(self.joined) if node.kind == "digest"]


def _all(node: Node) -> Iterator[Node]:
    left = [node]
    while left:
        one = left.pop()
        yield one
        left += reversed(one.children)


def decoded(text: str) -> bytes | None:
    """The bytes of a base64url text. None if it is none."""
    try:
        return base64.urlsafe_b64decode(text + "=" * (-len(text) % 4))
    except ValueError:
        return None


def _number(digits: str) -> int | Number:
    return int(digits) if len(digits) <= 20 and digits != "-0" else Number(digits)


def read(text: str) -> Any:
    """The JSON that a base64url text codes, or an Unread."""
    content = decoded(text)
    if content is None:
        return Unread("it is not base64url")
    try:
        return json.loads(content.decode(), parse_int=_number, parse_float=Number, parse_constant=Number)
    except RecursionError:
        return Unread("it nests too deep")
    except ValueError:
        return Unread("it is not JSON in UTF-8")


def _jwt(texts: tuple[str, str, str]) -> Jwt:
    return Jwt(texts, read(texts[0]), read(texts[1]), len(decoded(texts[2]) or b""))


def digest_of(text: str, hash_name: object) -> str:
    """The digest of a text, empty for a hash that is not known."""
    make = _HASHES.get(hash_name) if isinstance(hash_name, str) else None
    return "" if make is None else base64.urlsafe_b64encode(make(text.encode()).digest()).rstrip(b"=").decode()


def _disclosure(number: int, text: str, hash_name: object) -> Disclosure:
    said = read(text)
    found = Disclosure(number, text, digest_of(text, hash_name))
    if isinstance(said, list) and len(said) == 2:
        found.salt, found.value = said
    elif isinstance(said, list) and len(said) == 3 and isinstance(said[1], str):
        found.salt, found.name, found.value = said
    else:
        found.fault = (
            said if isinstance(said, Unread) else "it is not a list of salt and value, or salt, name and value"
        )
    return found


def look(parts: dict[str, Any], now: int | None) -> Inside:
    """What is inside the parts of a token, which are those of `split`."""
    jwt = _jwt((parts["protected"], parts["payload"], parts["signature"]))
    hash_name = jwt.payload.get("_sd_alg", _USUAL_HASH) if isinstance(jwt.payload, dict) else _USUAL_HASH
    disclosures = [_disclosure(number, text, hash_name) for number, text in enumerate(parts["disclosures"])]
    joined = _Joiner(disclosures).node(jwt.payload, None, "", 0)
    return Inside(jwt, hash_name, disclosures, joined, _binding(parts, hash_name), int(time()) if now is None else now)


def _binding(parts: dict[str, Any], hash_name: object) -> Binding | None:
    if parts["binding"] is None:
        return None
    first, second, third = parts["binding"].split(".")
    jwt = _jwt((first, second, third))
    shown = f"{parts['protected']}.{parts['payload']}.{parts['signature']}~" + "".join(
        f"{text}~" for text in parts["disclosures"]
    )
    due = digest_of(shown, hash_name)
    said = jwt.payload.get("sd_hash") if isinstance(jwt.payload, dict) else None
    return Binding(jwt, said == due if due and isinstance(said, str) else None)


class _Joiner:
    """Puts the claims of disclosures where their digests stand.

    Each is put into one place only, so that the tree stays small.
    """

    def __init__(self, disclosures: list[Disclosure]) -> None:
        self._left = {one.digest: one for one in reversed(disclosures) if one.digest and not one.fault}

    def node(self, value: Any, label: str | None, place: str, depth: int, opened: int | None = None) -> Node:
        if depth > DEPTH_MAX:
            return Node("cut", label, None, opened)
        if isinstance(value, dict):
            return Node("object", label, None, opened, list(self._members(value, place, depth + 1)))
        if isinstance(value, list):
            return Node("array", label, None, opened, list(self._elements(value, place, depth + 1)))
        return Node("value", label, value, opened)

    def _members(self, value: dict[str, Any], place: str, depth: int) -> Iterator[Node]:
        hides = isinstance(value.get("_sd"), list)
        for name, member in value.items():
            if not (name == "_sd" and hides or name == "_sd_alg" and not place):
                yield self.node(member, name, f"{place}/{step(name)}", depth)
        for digest in value["_sd"] if hides else ():
            one = self._taken(digest, place, None)
            if one is None:
                yield Node("digest", None, digest)
            else:
                yield self.node(one.value, one.name or "", one.place or "", depth, one.number)

    def _elements(self, value: list[Any], place: str, depth: int) -> Iterator[Node]:
        position = 0
        for element in value:
            digest = element.get("...") if isinstance(element, dict) and len(element) == 1 else None
            one = self._taken(digest, place, position) if isinstance(digest, str) else None
            if isinstance(digest, str) and one is None:
                yield Node("digest", None, digest)
                continue
            if one is not None:
                yield self.node(one.value, None, one.place or "", depth, one.number)
            else:
                yield self.node(element, None, f"{place}/{position}", depth)
            position += 1

    def _taken(self, digest: Any, place: str, position: int | None) -> Disclosure | None:
        one = self._left.pop(digest, None) if isinstance(digest, str) else None
        if one is not None:
            one.place = f"{place}/{step(one.name or '') if position is None else position}"
        return one


def signed(value: Any, numbers: dict[str, int], label: str | None = None, depth: int = 0) -> Node:
    """A value as it is signed: digests stand as they are, and each has the number of its disclosure."""
    if depth > DEPTH_MAX:
        return Node("cut", label)
    if isinstance(value, dict):
        members = [_signed_member(name, member, numbers, depth + 1) for name, member in value.items()]
        return Node("object", label, None, None, members)
    if isinstance(value, list):
        return Node("array", label, None, None, [signed(element, numbers, None, depth + 1) for element in value])
    return Node("value", label, value)


def _signed_member(name: str, member: Any, numbers: dict[str, int], depth: int) -> Node:
    if name == "..." and isinstance(member, str):
        return Node("digest", name, member, numbers.get(member))
    if name == "_sd" and isinstance(member, list) and all(isinstance(digest, str) for digest in member):
        return Node("array", name, None, None, [Node("digest", None, digest, numbers.get(digest)) for digest in member])
    return signed(member, numbers, name, depth)


def times(claims: Any, now: int) -> dict[str, str]:
    """The claims of an object that are times, in words."""
    if not isinstance(claims, dict):
        return {}
    return {
        name: f"{means} {in_words(claims[name], now)}" for name, means in _TIMES.items() if is_time(claims.get(name))
    }


def is_time(value: Any) -> bool:
    """Whether a value is a time in whole seconds since 1970."""
    return isinstance(value, int) and not isinstance(value, bool) and value >= 0


def in_words(seconds: int, now: int) -> str:
    """A time in words, such as `2100-01-01 00:00:00 UTC, in 73 years`."""
    try:
        moment = datetime.datetime.fromtimestamp(seconds, datetime.timezone.utc)
    except (ValueError, OverflowError, OSError):
        return "after the year 9999"
    return f"{moment:%Y-%m-%d %H:%M:%S} UTC, {_since(seconds - now)}"


def _since(seconds: int) -> str:
    for unit, length in _UNITS:
        count = abs(seconds) // length
        if count:
            said = f"{count} {unit}{'s' if count > 1 else ''}"
            return f"in {said}" if seconds > 0 else f"{said} ago"
    return "now"


class Condition(NamedTuple):
    """A condition of the library: its number and name, whether it holds, and what it means if it fails."""

    number: int
    name: str
    state: str
    meaning: str


class Verdict(NamedTuple):
    """What the library says of a token under a policy: the refusal, or None if the token is accepted."""

    policy: Any
    refused: Optional[Refused]

    @property
    def conditions(self) -> list[Condition]:
        """All conditions of a token, in their order."""
        names = {int(words[1]): words[2] for words in map(str.split, _explanations()) if words[0] == "refused"}
        policy = self.policy if isinstance(self.policy, dict) else json.loads(self.policy)
        has_binding = "binding" in policy
        return [
            Condition(number, names[number], self._state(number, has_binding), self._meaning(number, names))
            for number in _CONDITIONS
        ]

    def _state(self, number: int, has_binding: bool) -> str:
        if number in _OF_BINDING and not has_binding:
            return "not asked"
        if self.refused is None or number < self.refused.number:
            return "holds"
        return "fails" if number == self.refused.number else "not judged"

    @staticmethod
    def _meaning(number: int, names: dict[int, str]) -> str:
        return _explanations()[f"refused {number} {names[number]}"]["explanation"]

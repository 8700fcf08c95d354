"""Which claims of an accepted token came from disclosures.

Nothing is judged here. The library accepted the token, and printed its claims, its signed payload, and each disclosure
with its digest. The claims and the payload are compared: a claim at a place where the payload has a digest came from
the disclosure with this digest. If the claims do not follow from the payload and the disclosures, it is a bug.
"""
from __future__ import annotations

from collections.abc import Iterator
from typing import Any

_Step = tuple[str, Any, Any]


def places_of(inside: dict[str, Any], claims: dict[str, Any]) -> tuple[str, ...]:
    """The place of each disclosure of a token, in their order, as JSON Pointers into the claims.

    `inside` is what `show` returns of the token, and `claims` what the library accepted of it.
    """
    finder = _Finder(inside["disclosures"])
    # what is left to be walked: a place, the claims there, and the signed value of that
    left: list[_Step] = [("", claims, inside["payload"])]
    while left:
        left += finder.inside(*left.pop())
    return finder.places()


class _Finder:
    """Finds the place of each disclosure by its digest."""

    def __init__(self, disclosures: list[dict[str, Any]]) -> None:
        self._places: dict[str, str | None] = {one["digest"]: None for one in disclosures}
        self._of_digest = {one["digest"]: one for one in disclosures}

    def places(self) -> tuple[str, ...]:
        """The places, of which each disclosure has one."""
        found = tuple(place for place in self._places.values() if place is not None)
        _need(len(found) == len(self._places))
        return found

    def inside(self, place: str, claims: Any, signed: Any) -> Iterator[_Step]:
        """What is inside a value, each with its place."""
        _need(type(claims) is type(signed))
        if isinstance(claims, dict):
            return self._members(place, claims, signed)
        if isinstance(claims, list):
            return self._elements(place, claims, signed)
        _need(claims == signed)
        return iter(())

    def _members(self, place: str, claims: dict[str, Any], signed: dict[str, Any]) -> Iterator[_Step]:
        digests = signed.get("_sd")
        opened = (
            [self._of_digest[digest] for digest in digests if digest in self._of_digest]
            if isinstance(digests, list)
            else []
        )
        by_name = {one["name"]: one for one in opened}
        for name, value in claims.items():
            at = f"{place}/{step(name)}"
            if name in signed:
                yield at, value, signed[name]
            else:
                yield self._opened(at, value, by_name.get(name))

    def _elements(self, place: str, claims: list[Any], signed: list[Any]) -> Iterator[_Step]:
        position = 0
        for element in signed:
            digest = element.get("...") if isinstance(element, dict) else None
            if digest is not None and digest not in self._of_digest:
                # nothing is shown of it
                continue
            _need(position < len(claims))
            at, value = f"{place}/{position}", claims[position]
            yield (at, value, element) if digest is None else self._opened(at, value, self._of_digest[digest])
            position += 1
        _need(position == len(claims))

    def _opened(self, at: str, value: Any, one: dict[str, Any] | None) -> _Step:
        if one is None or self._places[one["digest"]] is not None:
            raise _bug()
        self._places[one["digest"]] = at
        return at, value, one["value"]


def step(name: str) -> str:
    """A name as a step of a JSON Pointer (RFC 6901)."""
    return name.replace("~", "~0").replace("/", "~1")


def _need(holds: bool) -> None:
    if not holds:
        raise _bug()


def _bug() -> AssertionError:
    return AssertionError("sdjwt: the claims do not follow from the payload and the disclosures")

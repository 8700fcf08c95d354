"""Key sets of a policy or a present order (RFC 7517 section 5): which keys are used, and which are skipped and why."""
from __future__ import annotations

import inspect
import warnings
from collections.abc import Mapping
from dataclasses import dataclass
from typing import Any, NamedTuple, Optional

from sdjwt._errors import Unreadable
from sdjwt._keys import BadKey, Key, UnusedKey, key_of

# The private members of a JWK (RFC 7518 sections 6.2.2 and 6.3.2, RFC 8037 section 2).
PRIVATE = ("d", "p", "q", "dp", "dq", "qi", "oth")
# How many invalid keys of one set a message describes.
_DESCRIBED_MAX = 8


class PrivateKeyWarning(UserWarning):
    """A key set contains a private key instead of a public one."""

    __module__ = "sdjwt"


@dataclass(frozen=True)
class SkippedKey:
    """A key of a policy that was skipped, and why.

    `where` is "keys" for the issuers' set and "binding" for the holders', `index` is the position in the set, counted
    from 0, and `kid` is the name of the key or None.
    """

    __module__ = "sdjwt"

    where: str
    index: int
    kid: Optional[str]
    reason: str


class KeySet(NamedTuple):
    """The keys of a set that can be used, those that were skipped, and a description of each that is invalid."""

    keys: list[Key]
    skipped: tuple[SkippedKey, ...]
    faults: list[str]


def has_set(holder: Mapping[str, Any]) -> bool:
    """Whether the member `keys` is a key set; its keys may be invalid."""
    keys = holder.get("keys")
    return isinstance(keys, dict) and isinstance(keys.get("keys"), list)


def jwks(holder: Mapping[str, Any]) -> list[Any]:
    """The keys of the set in the member `keys`; none if it is not a set."""
    return list(holder["keys"]["keys"]) if has_set(holder) else []


def is_oct(jwk: object) -> bool:
    """Whether a key is of the type of symmetric keys."""
    return isinstance(jwk, dict) and jwk.get("kty") == "oct"


def read_set(holder: Mapping[str, Any], where: str, place: str, file: str) -> KeySet:
    """Reads the key set in the member `keys` of an object, which is at this place of a policy or a present order."""
    found = KeySet([], (), [])
    warn_of_private(holder, place, file)
    skipped = []
    for index, jwk in enumerate(jwks(holder)):
        try:
            found.keys.append(key_of(jwk))
        except BadKey as fault:
            skipped.append(_skipped(where, index, jwk, str(fault)))
            if not isinstance(fault, UnusedKey):
                found.faults.append(f"at {place}/keys/keys/{index}: {fault}")
    return found._replace(skipped=tuple(skipped))


def _skipped(where: str, index: int, jwk: object, reason: str) -> SkippedKey:
    kid = jwk.get("kid") if isinstance(jwk, dict) else None
    return SkippedKey(where, index, kid if isinstance(kid, str) else None, reason)


def need_a_key(found: KeySet, algs: object, where: str) -> None:
    """If keys of a set are invalid, another key must be left for one of the algorithms."""
    names = [alg for alg in algs if isinstance(alg, str)] if isinstance(algs, list) else []
    if not found.faults or any(alg in key.checks for key in found.keys for alg in names):
        return
    more = len(found.faults) - _DESCRIBED_MAX
    described = [*found.faults[:_DESCRIBED_MAX], *([f"and {more} more"] if more > 0 else [])]
    raise Unreadable(f"unreadable 1 wrong {where}", "; ".join(described))


def of_other_types(holder: Mapping[str, Any], where: str) -> tuple[SkippedKey, ...]:
    """The keys of a set that the library skips, because it knows symmetric keys only."""
    reason = "its kty is not oct, and the policy names no algorithm for public keys"
    return tuple(_skipped(where, index, jwk, reason) for index, jwk in enumerate(jwks(holder)) if not is_oct(jwk))


def warn_of_private(holder: Mapping[str, Any], place: str, file: str) -> None:
    """Warns of each private key in the set of an object, which is at this place of a file."""
    for index, jwk in enumerate(jwks(holder)):
        names = [name for name in PRIVATE if isinstance(jwk, dict) and name in jwk]
        if names and not is_oct(jwk):
            warn(f"sdjwt: the key at {place}/keys/keys/{index} of the {file} has the private member {names[0]}: "
                 "anyone who can read it can sign. Give the public key only.")


def warn(said: str) -> None:
    """Warns of a private key, with the line that called the package as the source."""
    level, frame = 1, inspect.currentframe()
    while frame is not None and frame.f_globals.get("__name__", "").partition(".")[0] == "sdjwt":
        level, frame = level + 1, frame.f_back
    warnings.warn(said, PrivateKeyWarning, stacklevel=level)

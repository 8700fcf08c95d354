"""Keys, as JWKs (RFC 7517), and the check of a signature under one.

A key serves the algorithms of its type and no other: ES256 is only for P-256, and HS256 only for the type `oct`. So a
public key is never used as a symmetric one (RFC 8725 section 3.1). Signatures under public keys are checked by the
package cryptography, which is loaded only if a public key is read; an HMAC is checked by Python's standard library.
"""
from __future__ import annotations

import base64
import hmac
import re
from collections.abc import Callable, Iterable, Mapping
from typing import Any, NamedTuple, Optional

from sdjwt._errors import NoCryptography

# Whether a signature over a text is good.
Check = Callable[[bytes, bytes], bool]


class _Mac(NamedTuple):
    """The hash of an HMAC algorithm, and the least length of a key in bytes (RFC 7518 section 3.2)."""

    hash_name: str
    key_min: int


MACS = {"HS256": _Mac("sha256", 32), "HS384": _Mac("sha384", 48), "HS512": _Mac("sha512", 64)}
# Of each curve: the algorithm that it serves, and the length of a coordinate (RFC 7518 sections 3.4 and 6.2.1).
CURVES = {"P-256": ("ES256", 32), "P-384": ("ES384", 48), "P-521": ("ES512", 66)}
# RFC 8037 section 3.1, and the name that RFC 9864 gives the same
ED25519 = ("EdDSA", "Ed25519")
RSA = ("PS256", "PS384", "PS512", "RS256", "RS384", "RS512")
RSA_BITS_MIN = 2048
# The members of a public key, in the order in which a thumbprint has them (RFC 7638 section 3.2).
MEMBERS = {"EC": ("crv", "kty", "x", "y"), "OKP": ("crv", "kty", "x"), "RSA": ("e", "kty", "n")}
# All algorithms with public keys that are implemented here.
PUBLIC = (*(alg for alg, _ in CURVES.values()), *ED25519, *RSA)
_LETTERS = re.compile(r"[A-Za-z0-9_-]+")


class BadKey(ValueError):
    """A JWK is malformed, too small or of an unknown type. The message contains no value of the key."""


class UnusedKey(BadKey):
    """A JWK is not for signatures by any algorithm of its type, according to its own `use`, `key_ops` or `alg`."""


class Key(NamedTuple):
    """A key: its name, its check for each algorithm that it serves, and the members of the JWK that are no secret."""

    kid: Optional[str]
    checks: dict[str, Check]
    public: dict[str, Any]


def is_shared(alg: object) -> bool:
    """Whether this is the name of an HMAC algorithm, known here or not."""
    return isinstance(alg, str) and alg.startswith("HS")


def decoded(text: str) -> bytes:
    """The bytes of a base64url text without padding, that the library wrote."""
    return base64.urlsafe_b64decode(text + "=" * (-len(text) % 4))


def _of_type(jwk: Mapping[str, Any]) -> tuple[str, ...]:
    """The algorithms for the type of a JWK; none if the type is unknown."""
    kind, curve = jwk.get("kty"), jwk.get("crv")
    if kind == "oct":
        return tuple(MACS)
    if kind == "EC" and isinstance(curve, str) and curve in CURVES:
        return (CURVES[curve][0],)
    if kind == "OKP" and curve == "Ed25519":
        return ED25519
    return RSA if kind == "RSA" else ()


def _other_use(jwk: Mapping[str, Any]) -> str:
    """Why a JWK is not for verifying, according to its own members; an empty string if it is."""
    operations = jwk.get("key_ops", ["verify"])
    if jwk.get("use", "sig") != "sig":
        return "its use is not sig"
    if not isinstance(operations, list) or "verify" not in operations:
        return "its key_ops do not include verify"
    return ""


def serves(jwk: Mapping[str, Any]) -> tuple[str, ...]:
    """The algorithms that a JWK serves, by its type, its `alg`, its `use` and its `key_ops` (RFC 7517 section 4)."""
    return () if _other_use(jwk) else tuple(name for name in _of_type(jwk) if jwk.get("alg", name) == name)


def key_of(jwk: object) -> Key:
    """The key of a JWK, which serves at least one algorithm."""
    if not isinstance(jwk, dict):
        raise BadKey("it is not an object")
    if not isinstance(jwk.get("kty"), str):
        raise BadKey('"kty" is missing or not a string')
    if not _of_type(jwk):
        raise BadKey(_unknown_type(jwk["kty"]))
    names = serves(jwk)
    if not names:
        raise UnusedKey(_other_use(jwk) or f"its alg does not fit its type, which is for {', '.join(_of_type(jwk))}")
    kid = jwk.get("kid")
    if kid is not None and not isinstance(kid, str):
        raise BadKey("kid is no text")
    public = {name: jwk[name] for name in (*MEMBERS.get(jwk["kty"], ("kty",)), "kid") if name in jwk}
    return Key(kid, _mac_checks(jwk, names) if jwk["kty"] == "oct" else _public_checks(jwk, names), public)


def _unknown_type(kind: str) -> str:
    if kind == "EC":
        return f"its crv is not one of {', '.join(CURVES)}"
    return "its crv is not Ed25519" if kind == "OKP" else "its kty is not one of oct, EC, OKP, RSA (case matters)"


def _mac_checks(jwk: Mapping[str, Any], names: tuple[str, ...]) -> dict[str, Check]:
    """The checks of HMACs, by the algorithms for which the key is long enough."""
    secret = member_of(jwk, "k")
    checks = {name: _mac_check(secret, MACS[name].hash_name) for name in names if len(secret) >= MACS[name].key_min}
    if not checks:
        raise BadKey(f"k has {len(secret)} bytes, and {names[0]} needs at least {MACS[names[0]].key_min}")
    return checks


def _mac_check(secret: bytes, hash_name: str) -> Check:
    return lambda signature, text: hmac.compare_digest(hmac.digest(secret, text, hash_name), signature)


def _public_checks(jwk: Mapping[str, Any], names: tuple[str, ...]) -> dict[str, Check]:
    try:
        from sdjwt import _signatures
    except ImportError as missing:
        raise NoCryptography() from missing
    if jwk["kty"] == "EC":
        size = CURVES[jwk["crv"]][1]
        return {names[0]: _signatures.ecdsa(jwk["crv"], member_of(jwk, "x", size), member_of(jwk, "y", size))}
    if jwk["kty"] == "OKP":
        return dict.fromkeys(names, _signatures.ed25519(member_of(jwk, "x", 32)))
    n, e = number_of(jwk, "n"), number_of(jwk, "e")
    if n.bit_length() < RSA_BITS_MIN:
        raise BadKey(f"n has fewer than {RSA_BITS_MIN} bits")
    return _signatures.rsa_checks(n, e, names)


def member_of(jwk: Mapping[str, Any], name: str, size: int | None = None) -> bytes:
    """The bytes of a member of a JWK."""
    text = jwk.get(name)
    if not isinstance(text, str) or _LETTERS.fullmatch(text) is None or len(text) % 4 == 1:
        raise BadKey(f"{name} is no base64url text without padding")
    content = decoded(text)
    if base64.urlsafe_b64encode(content).rstrip(b"=").decode() != text:
        raise BadKey(f"{name} has bits behind its last byte")
    if size is not None and len(content) != size:
        raise BadKey(f"{name} has not just {size} bytes")
    return content


def number_of(jwk: Mapping[str, Any], name: str) -> int:
    """The number in a member of a JWK."""
    return int.from_bytes(member_of(jwk, name), "big")


def find(keys: Iterable[Key], alg: str, kid: str | None, takes_nameless: bool = False) -> Key | None:
    """The first key that serves the algorithm and, if a name is given, has this name, or has none where that is enough.
    """
    for key in keys:
        if alg in key.checks and (kid is None or kid == key.kid or takes_nameless and key.kid is None):
            return key
    return None

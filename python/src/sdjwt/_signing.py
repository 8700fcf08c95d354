"""Issuing with a signature that is made here, with a private key, or by a function of the caller.

No rule of SD-JWT stands here. The library says what is to be signed, and makes the token of the signature; what is
decided is only by which algorithm a key signs, and that it signs nothing else.
"""
from __future__ import annotations

from collections.abc import Callable
from functools import partial
from typing import TYPE_CHECKING, NamedTuple

from sdjwt import _library
from sdjwt._errors import NoCryptography
from sdjwt._given import alg_bytes, signature_bytes
from sdjwt._key_forms import signing_key
from sdjwt._keys import BadKey
from sdjwt._steps import Asked, Steps

if TYPE_CHECKING:
    from sdjwt._signatures import SigningKey

# The length of a signature in bytes, for the algorithms that fix it (RFC 7518 section 3.4, RFC 8037 section 3.1). EdDSA
# means Ed25519 or Ed448.
_LENGTHS = {"ES256": (64,), "ES384": (96,), "ES512": (132,), "Ed25519": (64,), "Ed448": (114,), "EdDSA": (64, 114)}


class Signer(NamedTuple):
    """Who signs: the name of the algorithm, and what makes the signature of a text."""

    alg: bytes
    sign: Callable[[bytes], object]

    def issue(self, order: bytes, seed: bytes) -> Steps[tuple[int, bytes]]:
        """The status, and the token or the line."""
        status, said = _library.call("issue_ask", order, self.alg, seed)
        if status == _library.USAGE:
            raise ValueError("sdjwt: alg is no name of an algorithm by which a token is signed")
        if status != _library.DONE:
            return status, said
        signature = yield from self.signature(said)
        status, said = _library.call("issue_sign", order, self.alg, seed, signature)
        if status == _library.USAGE:
            raise ValueError("sdjwt: what sign answered has no bytes, and is no signature")
        return status, said

    def signature(self, text: bytes) -> Steps[bytes]:
        """The signature of a text, with a length that fits the algorithm."""
        made, name = signature_bytes((yield Asked(self.sign, "sign", (text,)))), self.alg.decode()
        lengths = _LENGTHS.get(name, (len(made),))
        if len(made) not in lengths:
            wanted = " or ".join(map(str, lengths)) + (
                " (r and s, not DER)" if name in ("ES256", "ES384", "ES512") else ""
            )
            raise ValueError(f"sdjwt: sign returned {len(made)} bytes, but a signature by {name} has {wanted}")
        return made


def signer_of(sign: object, alg: object) -> Signer:
    """Who signs, by what was given as `sign` and `alg`."""
    named = None if alg is None else alg_bytes(alg)
    if callable(sign):
        if named is None:
            raise ValueError("sdjwt: alg is missing, which names the algorithm of the function sign")
        return Signer(named, sign)
    try:
        from sdjwt import _signatures
    except ImportError as missing:
        raise NoCryptography(
            "sdjwt: a private key needs the package cryptography: pip install cryptography"
        ) from missing
    try:
        made, of_key = signing_key(sign)
        key = _signatures.private_key(made)
    except BadKey as fault:
        raise ValueError(f"sdjwt: the key given as sign can't be used: {fault}") from None
    if key is None:
        raise TypeError(
            f"sdjwt: sign is of type {type(sign).__name__}, and has to be a private key, of P-256, P-384, P-521, "
            "Ed25519 or RSA, "
            "as a key of the package cryptography, a PEM or a JWK, or a function"
        )
    return Signer(*_named(key, None if named is None else named.decode(), of_key))


def _named(key: SigningKey, alg: str | None, of_key: str | None) -> tuple[bytes, Callable[[bytes], object]]:
    """The algorithm by which a key signs, and how. `of_key` is the one that the key itself names."""
    names = key.names if of_key is None else tuple(name for name in key.names if name == of_key)
    name = of_key or key.usual if alg is None else alg
    if name is None:
        raise ValueError(f"sdjwt: alg is missing, by which this key is to sign: one of {', '.join(names)}")
    if name not in names:
        serves = f"which serves {', '.join(names)}" if names else "whose own alg is of another type of key"
        raise ValueError(f"sdjwt: alg does not fit the key given as sign, {serves}")
    return name.encode(), partial(key.sign, name)

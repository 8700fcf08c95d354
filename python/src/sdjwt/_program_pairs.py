"""Key pairs that the program sdjwt-keys makes, by the package cryptography."""
from __future__ import annotations

import base64
from typing import Any

from cryptography.hazmat.primitives.asymmetric import ec, ed25519, rsa
from cryptography.hazmat.primitives.serialization import Encoding, NoEncryption, PrivateFormat

from sdjwt._keys import CURVES, ED25519
from sdjwt._objects import jwk_of as public_jwk
from sdjwt._signatures import EC

__all__ = ["generated", "private_members", "private_pem", "public_jwk"]

_RSA_BITS = 3072
_RSA_EXPONENT = 65_537


def generated(alg: str) -> Any:
    """A new private key for an algorithm."""
    for curve, (name, _) in CURVES.items():
        if name == alg:
            return ec.generate_private_key(EC[curve][0])
    if alg in ED25519:
        return ed25519.Ed25519PrivateKey.generate()
    return rsa.generate_private_key(_RSA_EXPONENT, _RSA_BITS)


def private_pem(key: Any) -> str:
    """A private key as PEM (PKCS #8), not encrypted."""
    written: bytes = key.private_bytes(Encoding.PEM, PrivateFormat.PKCS8, NoEncryption())
    return written.decode()


def private_members(key: Any) -> dict[str, str]:
    """The private members of a JWK (RFC 7518 section 6, RFC 8037 section 2)."""
    public = public_jwk(key)
    if public["kty"] == "OKP":
        return {"d": _text(key.private_bytes(Encoding.Raw, PrivateFormat.Raw, NoEncryption()))}
    numbers = key.private_numbers()
    if public["kty"] == "EC":
        return {"d": _number(numbers.private_value, CURVES[public["crv"]][1])}
    values = {
        "d": numbers.d,
        "p": numbers.p,
        "q": numbers.q,
        "dp": numbers.dmp1,
        "dq": numbers.dmq1,
        "qi": numbers.iqmp,
    }
    return {name: _number(value) for name, value in values.items()}


def _text(content: bytes) -> str:
    return base64.urlsafe_b64encode(content).rstrip(b"=").decode()


def _number(value: int, size: int | None = None) -> str:
    return _text(value.to_bytes(size or (value.bit_length() + 7) // 8, "big"))

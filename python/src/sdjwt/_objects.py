"""Keys as objects of the package cryptography: how they are loaded, and which JWK they are. It needs that package."""
from __future__ import annotations

import base64
from collections.abc import Mapping
from typing import Any, Union

from cryptography.exceptions import UnsupportedAlgorithm
from cryptography.hazmat.primitives.asymmetric import ec, rsa
from cryptography.hazmat.primitives.asymmetric.ed25519 import Ed25519PrivateKey, Ed25519PublicKey
from cryptography.hazmat.primitives.serialization import (
    Encoding,
    PublicFormat,
    load_pem_private_key,
    load_pem_public_key,
)

from sdjwt._keys import CURVES, BadKey, member_of, number_of
from sdjwt._signatures import EC, curve_of

PrivateKey = Union[ec.EllipticCurvePrivateKey, Ed25519PrivateKey, rsa.RSAPrivateKey]
PublicKey = Union[ec.EllipticCurvePublicKey, Ed25519PublicKey, rsa.RSAPublicKey]
_PRIVATE = (ec.EllipticCurvePrivateKey, Ed25519PrivateKey, rsa.RSAPrivateKey)
_PUBLIC = (ec.EllipticCurvePublicKey, Ed25519PublicKey, rsa.RSAPublicKey)


def is_key(value: object) -> bool:
    """Whether this is a private or a public key of a type that is known here."""
    return isinstance(value, (*_PRIVATE, *_PUBLIC))


def is_private(value: object) -> bool:
    """Whether this is a private key of a type that is known here."""
    return isinstance(value, _PRIVATE)


def loaded(block: bytes, is_secret: bool) -> object:
    """The key of one block of PEM, which is a private or a public one."""
    try:
        return load_pem_private_key(block, None) if is_secret else load_pem_public_key(block)
    except TypeError:
        raise BadKey(
            "it is encrypted: load it by load_pem_private_key of cryptography, with its password, and give that key"
        ) from None
    except (ValueError, UnsupportedAlgorithm):
        raise BadKey(f"it is no PEM of a {'private' if is_secret else 'public'} key") from None


def jwk_of(key: object) -> dict[str, str]:
    """The public key as a JWK, of a public or a private one."""
    public = key.public_key() if isinstance(key, _PRIVATE) else key
    if isinstance(public, ec.EllipticCurvePublicKey):
        curve = curve_of(public)
        numbers, size = public.public_numbers(), CURVES[curve][1]
        return {
            "kty": "EC",
            "crv": curve,
            "x": _encoded(numbers.x.to_bytes(size, "big")),
            "y": _encoded(numbers.y.to_bytes(size, "big")),
        }
    if isinstance(public, Ed25519PublicKey):
        return {"kty": "OKP", "crv": "Ed25519", "x": _encoded(public.public_bytes(Encoding.Raw, PublicFormat.Raw))}
    if isinstance(public, rsa.RSAPublicKey):
        of_rsa = public.public_numbers()
        return {"kty": "RSA", "n": _of_number(of_rsa.n), "e": _of_number(of_rsa.e)}
    raise BadKey(f"it is of type {type(key).__name__}, and has to be a key of P-256, P-384, P-521, Ed25519 or RSA")


def _of_number(number: int) -> str:
    return _encoded(number.to_bytes((number.bit_length() + 7) // 8, "big"))


def _encoded(content: bytes) -> str:
    return base64.urlsafe_b64encode(content).rstrip(b"=").decode()


def private_of(jwk: Mapping[str, Any]) -> PrivateKey:
    """The private key of a JWK, whose public half has to be the one that it says."""
    try:
        key = _private_of(jwk)
    except BadKey:
        raise
    except (ValueError, UnsupportedAlgorithm):
        raise BadKey("its members are no private key") from None
    said = {name: jwk.get(name) for name in jwk_of(key)}
    if said != jwk_of(key):
        raise BadKey("its private and its public members are not of one key")
    return key


def _private_of(jwk: Mapping[str, Any]) -> PrivateKey:
    kind, curve = jwk.get("kty"), jwk.get("crv")
    if kind == "EC" and isinstance(curve, str) and curve in CURVES:
        return ec.derive_private_key(number_of(jwk, "d"), EC[curve][0])
    if kind == "OKP" and curve == "Ed25519":
        return Ed25519PrivateKey.from_private_bytes(member_of(jwk, "d", 32))
    if kind != "RSA":
        raise BadKey("it is no JWK of P-256, P-384, P-521, Ed25519 or RSA")
    e, d = number_of(jwk, "e"), number_of(jwk, "d")
    public = rsa.RSAPublicNumbers(e, number_of(jwk, "n"))
    p, q = _primes(jwk, public.n, e, d)
    return rsa.RSAPrivateNumbers(
        p, q, d, rsa.rsa_crt_dmp1(d, p), rsa.rsa_crt_dmq1(d, q), rsa.rsa_crt_iqmp(p, q), public
    ).private_key()


def _primes(jwk: Mapping[str, Any], n: int, e: int, d: int) -> tuple[int, int]:
    """The primes, which a JWK may leave out (RFC 7518 section 6.3.2)."""
    if "p" in jwk and "q" in jwk:
        return number_of(jwk, "p"), number_of(jwk, "q")
    return rsa.rsa_recover_prime_factors(n, e, d)

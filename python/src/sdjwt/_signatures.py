"""Signatures by the package cryptography: checks, each under one public key, and signing with a private one."""
from __future__ import annotations

from collections.abc import Callable
from typing import Any, NamedTuple, Optional

from cryptography.exceptions import InvalidSignature, UnsupportedAlgorithm
from cryptography.hazmat.primitives import hashes
from cryptography.hazmat.primitives.asymmetric import ec, padding
from cryptography.hazmat.primitives.asymmetric.ed25519 import Ed25519PrivateKey, Ed25519PublicKey
from cryptography.hazmat.primitives.asymmetric.rsa import RSAPrivateKey, RSAPublicNumbers
from cryptography.hazmat.primitives.asymmetric.utils import decode_dss_signature, encode_dss_signature

from sdjwt._keys import CURVES, ED25519, RSA, RSA_BITS_MIN, BadKey, Check

# The curves, and the hash that ECDSA takes over each.
EC: dict[str, tuple[ec.EllipticCurve, hashes.HashAlgorithm]] = {
    "P-256": (ec.SECP256R1(), hashes.SHA256()),
    "P-384": (ec.SECP384R1(), hashes.SHA384()),
    "P-521": (ec.SECP521R1(), hashes.SHA512()),
}
_HASHES: dict[str, hashes.HashAlgorithm] = {"256": hashes.SHA256(), "384": hashes.SHA384(), "512": hashes.SHA512()}
# The field of Ed25519, and the y of every point whose order divides 8 (RFC 8032 section 5.1).
_FIELD = 2**255 - 19
_OF_ORDER_8 = 0x7a03ac9277fdc74ec6cc392cfa53202a0f67100d760b3cba4fd84d3d706a17c7
_OF_SMALL_ORDER = (0, 1, _FIELD - 1, _OF_ORDER_8, _FIELD - _OF_ORDER_8)


def ecdsa(curve: str, x: bytes, y: bytes) -> Check:
    """ECDSA. A signature is r and s behind it, each of the length of a coordinate (RFC 7518 section 3.4)."""
    group, hash_alg = EC[curve]
    try:
        key = ec.EllipticCurvePublicNumbers(int.from_bytes(x, "big"), int.from_bytes(y, "big"), group).public_key()
    except (ValueError, UnsupportedAlgorithm):
        raise BadKey(f"x and y are no point of {curve}") from None
    size, scheme = len(x), ec.ECDSA(hash_alg)

    def check(signature: bytes, text: bytes) -> bool:
        if len(signature) != 2 * size:
            return False
        pair = encode_dss_signature(int.from_bytes(signature[:size], "big"), int.from_bytes(signature[size:], "big"))
        return _is_good(key, pair, text, scheme)

    return check


def ed25519(x: bytes) -> Check:
    """Ed25519, whose signatures have 64 bytes (RFC 8037 section 3.1)."""
    y = int.from_bytes(x, "little") % 2**255
    if y % _FIELD in _OF_SMALL_ORDER:
        raise BadKey("x is a point of small order, under which anyone can forge signatures")
    if y >= _FIELD:
        raise BadKey("x is not the encoding of a point (RFC 8032 section 5.1.3)")
    try:
        key = Ed25519PublicKey.from_public_bytes(x)
    except (ValueError, UnsupportedAlgorithm):
        raise BadKey("x is no key of Ed25519") from None
    return lambda signature, text: len(signature) == 64 and _is_good(key, signature, text)


def rsa_checks(n: int, e: int, names: tuple[str, ...]) -> dict[str, Check]:
    """RSA, by its algorithms (RFC 7518 sections 3.3 and 3.5)."""
    try:
        key = RSAPublicNumbers(e, n).public_key()
    except (ValueError, UnsupportedAlgorithm):
        raise BadKey("n and e are no key of RSA") from None

    def check_by(name: str) -> Check:
        scheme = _rsa_scheme(name)
        return lambda signature, text: _is_good(key, signature, text, *scheme)

    return {name: check_by(name) for name in names}


def _rsa_scheme(name: str) -> tuple[padding.AsymmetricPadding, hashes.HashAlgorithm]:
    hash_alg = _HASHES[name[2:]]
    if name.startswith("PS"):
        return padding.PSS(padding.MGF1(hash_alg), hash_alg.digest_size), hash_alg
    return padding.PKCS1v15(), hash_alg


def _is_good(key: Any, signature: bytes, text: bytes, *scheme: Any) -> bool:
    try:
        key.verify(signature, text, *scheme)
    except InvalidSignature:
        return False
    return True


class SigningKey(NamedTuple):
    """A key that signs: the algorithms that it serves, the one that is meant where none is named, and how it signs by
    one.
    """

    names: tuple[str, ...]
    usual: Optional[str]
    sign: Callable[[str, bytes], bytes]


def private_key(key: object) -> SigningKey | None:
    """What a private key of the package serves. None where it is of no type that is known here."""
    if isinstance(key, ec.EllipticCurvePrivateKey):
        return _ec_key(key)
    if isinstance(key, Ed25519PrivateKey):
        by_curve = key.sign
        return SigningKey(ED25519, ED25519[0], lambda _, text: by_curve(text))
    if isinstance(key, RSAPrivateKey):
        if key.key_size < RSA_BITS_MIN:
            raise BadKey(f"it has fewer than {RSA_BITS_MIN} bits")
        by_scheme = key.sign
        return SigningKey(RSA, None, lambda name, text: by_scheme(text, *_rsa_scheme(name)))
    return None


def curve_of(key: ec.EllipticCurvePrivateKey | ec.EllipticCurvePublicKey) -> str:
    """The name that the curve of a key has in a JWK."""
    for name, (group, _) in EC.items():
        if group.name == key.curve.name:
            return name
    raise BadKey(f"its curve is {key.curve.name}, and has to be one of {', '.join(CURVES)}")


def _ec_key(key: ec.EllipticCurvePrivateKey) -> SigningKey:
    curve = curve_of(key)
    (name, size), scheme = CURVES[curve], ec.ECDSA(EC[curve][1])

    def sign(_: str, text: bytes) -> bytes:
        pair = decode_dss_signature(key.sign(text, scheme))
        return b"".join(number.to_bytes(size, "big") for number in pair)

    return SigningKey((name,), name, sign)

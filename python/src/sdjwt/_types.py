"""The types of what callers give, for annotations. The package cryptography need not be installed for them."""
from __future__ import annotations

from collections.abc import Awaitable, Callable, Iterable, Mapping
from datetime import datetime
from typing import TYPE_CHECKING, Any, Optional, Union

if TYPE_CHECKING:
    from cryptography.hazmat.primitives.asymmetric.ec import EllipticCurvePrivateKey, EllipticCurvePublicKey
    from cryptography.hazmat.primitives.asymmetric.ed25519 import Ed25519PrivateKey, Ed25519PublicKey
    from cryptography.hazmat.primitives.asymmetric.rsa import RSAPrivateKey, RSAPublicKey

    PrivateKeyObject = Union[EllipticCurvePrivateKey, Ed25519PrivateKey, RSAPrivateKey]
    PublicKeyObject = Union[EllipticCurvePublicKey, Ed25519PublicKey, RSAPublicKey]
else:
    PrivateKeyObject = PublicKeyObject = Any

Bytes = Union[bytes, bytearray, memoryview]
# An order, a policy, a query or a token.
Json = Union[Mapping[str, Any], str, Bytes]
# A time: seconds since 1970, or an aware datetime.
Moment = Union[float, datetime]
# A key that signs: a key object, a PEM or a JWK.
PrivateKey = Union[PrivateKeyObject, Mapping[str, Any], str, Bytes]
# A key that verifies, in the same forms. A private key counts as its public half.
PublicKey = Union[PublicKeyObject, PrivateKeyObject, Mapping[str, Any], str, Bytes]
# One key or several, or a key set.
Keys = Union[PublicKey, Iterable[PublicKey]]
# The signature of the bytes that are to be signed.
SignFunction = Callable[[bytes], Bytes]
AsyncSignFunction = Callable[[bytes], Awaitable[Bytes]]
# The keys of an issuer, by the claim `iss`, which is not verified yet, and the protected header.
KeysFunction = Callable[[Optional[str], dict[str, Any]], Optional[Keys]]
AsyncKeysFunction = Callable[[Optional[str], dict[str, Any]], Awaitable[Optional[Keys]]]

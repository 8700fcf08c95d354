"""Keys in the forms that people have: PEM, a JWK as a dict or an object of jwcrypto, or an object of the package
cryptography.

Each becomes a JWK, or a private key of the package cryptography. A value that is a key in none of these forms stays as
it is, so that it is refused like any other wrong value. No message has a value of a key in it.
"""
from __future__ import annotations

import base64
import hashlib
import json
import re
from collections.abc import Iterable, Iterator, Mapping
from typing import Any, Union

from sdjwt._errors import NoCryptography
from sdjwt._key_sets import warn
from sdjwt._keys import MEMBERS, BadKey, key_of
from sdjwt._types import PublicKey

_BLOCK = re.compile(rb"-----BEGIN ([A-Z0-9 ]+)-----.*?-----END \1-----", re.S)
_BEGIN = re.compile(rb"\s*-----BEGIN ")
# A file of OpenSSL may have this before the key.
_NO_KEY = b"EC PARAMETERS"


def _objects() -> Any:
    """The module of the keys of cryptography."""
    try:
        from sdjwt import _objects as module
    except ImportError as missing:
        raise NoCryptography(
            "sdjwt: a key that is no JWK needs the package cryptography: pip install cryptography"
        ) from missing
    return module


def _is_object(value: object) -> bool:
    """Whether this is a key of the package cryptography. If that is not installed, nobody has one."""
    if isinstance(value, Mapping) or type(value).__module__ == "builtins":
        return False
    try:
        from sdjwt import _objects as module
    except ImportError:
        return False
    return bool(module.is_key(value))


def pem_of(value: object) -> bytes | None:
    """The bytes of a PEM, which may be a str; None if it is none."""
    if isinstance(value, str):
        value = value.encode(errors="replace")
    if isinstance(value, (bytes, bytearray, memoryview)):
        content = bytes(value)
        return content if _BEGIN.match(content) else None
    return None


def _blocks(pem: bytes) -> Iterator[tuple[bytes, bool]]:
    """The blocks of a PEM that are keys, and whether each is a private one."""
    found = [block for block in _BLOCK.finditer(pem) if block[1] != _NO_KEY]
    if not found:
        raise BadKey("it is no PEM with an end")
    for block in found:
        if block[1] == b"CERTIFICATE":
            raise BadKey("it is a certificate: give its public key, once you have checked whose it is")
        yield block[0], block[1].endswith(b"PRIVATE KEY")


def _jwks_of(value: object) -> list[Any]:
    """The JWKs of a value, as many as it has keys."""
    pem = pem_of(value)
    if pem is not None:
        return [_objects().jwk_of(_objects().loaded(*block)) for block in _blocks(pem)]
    if _is_object(value):
        return [_objects().jwk_of(value)]
    return [dict(value) if isinstance(value, Mapping) else value]


def _is_secret(value: object) -> bool:
    """Whether this is a private key as a PEM or an object. Of a JWK the members say so."""
    pem = pem_of(value)
    return (
        any(is_secret for _, is_secret in _blocks(pem))
        if pem is not None
        else _is_object(value) and bool(_objects().is_private(value))
    )


def as_key_set(value: object, place: str) -> object:
    """The key set of keys in any form: one key, several, or a key set whose keys are in any form."""
    if isinstance(value, Mapping):
        keys = value.get("keys")
        if not _are_several(keys):
            return {"keys": [dict(value)]} if "kty" in value else value
        return {**value, "keys": _several(keys, f"{place}/keys")}
    if _are_several(value):
        found = _several(value, place)
        # no key at all is no key set
        return {"keys": found} if found else found
    return {"keys": _several([value], place)} if pem_of(value) is not None or _is_object(value) else value


def _are_several(value: object) -> bool:
    return isinstance(value, Iterable) and not isinstance(value, (str, bytes, bytearray, memoryview, Mapping))


def _several(keys: Any, place: str) -> list[Any]:
    found: list[Any] = []
    for number, value in enumerate(keys):
        try:
            found += _jwks_of(value)
            if _is_secret(value):
                warn(
                    f"sdjwt: the key at {place}/{number} is a private key: anyone who can read it can sign. Give the "
                    "public key only."
                )
        except BadKey as fault:
            raise ValueError(f"sdjwt: the key at {place}/{number} can't be read: {fault}") from None
    return found


def with_key_sets(file: object) -> object:
    """A policy, an order or a query, in whose `keys`, and those of its `binding`, the keys may be in any form."""
    if not isinstance(file, Mapping):
        return file
    said = {**file, "keys": as_key_set(file["keys"], "/keys")} if "keys" in file else file
    binding = file.get("binding")
    if isinstance(binding, Mapping) and "keys" in binding:
        said = {**said, "binding": {**binding, "keys": as_key_set(binding["keys"], "/binding/keys")}}
    return said


def signing_key(value: object) -> tuple[object, str | None]:
    """What signs, as an object of the package cryptography if it is given as a PEM or a JWK, and the `alg` that a JWK
    names.
    """
    pem = pem_of(value)
    if pem is not None:
        secret = [block for block, is_secret in _blocks(pem) if is_secret]
        if len(secret) != 1:
            raise BadKey(f"it is a PEM with {len(secret)} private keys, and has to have one")
        return _objects().loaded(secret[0], True), None
    if not isinstance(value, Mapping) or "kty" not in value:
        return value, None
    if value["kty"] == "oct":
        raise BadKey("it is a shared key, which is the member `key` of the order")
    if "d" not in value:
        raise BadKey("it is a public key")
    operations, named = value.get("key_ops", ["sign"]), value.get("alg")
    if value.get("use", "sig") != "sig" or not isinstance(operations, (list, tuple)) or "sign" not in operations:
        raise BadKey("by its use or key_ops it is not for signing")
    if named is not None and not isinstance(named, str):
        raise BadKey("its alg is no text")
    return _objects().private_of(value), named


def public_jwk(key: PublicKey, kid: Union[bool, str] = False) -> dict[str, str]:
    """The public key as a JWK, of a public or a private key in any form.

    It is what goes into the claim `cnf`, as `{"jwk": public_jwk(key)}`, and into the `keys` of a policy. With
    `kid=True` it has a `kid`, the thumbprint of the key (RFC 7638); a text is a `kid` of your own.

    >>> jwk = {"kty": "OKP", "crv": "Ed25519", "x": "11qYAYKxCrfVS_7TyWQHOg7hcvPapiMlrwIaaPcHURo", "use": "sig"}
    >>> public_jwk(jwk, kid=True)["kid"]
    'kPrK_qmxVWaYVA9wwBF6Iuo3vVzz7TxHCTwXBygrS4k'
    """
    if not isinstance(kid, (bool, str)):
        raise TypeError(f"sdjwt: kid is of type {type(kid).__name__}, and has to be True, False or a str")
    try:
        found = _jwks_of(key)
        if len(found) != 1:
            raise BadKey(f"it has {len(found)} keys")
        if not isinstance(found[0], dict):
            raise TypeError(
                f"sdjwt: key is of type {type(key).__name__}, and has to be a PEM, a JWK or a key of the package "
                "cryptography"
            )
        public = _public_of(found[0])
    except BadKey as fault:
        raise ValueError(f"sdjwt: key has no public key that is known here: {fault}") from None
    if kid is True:
        return {**public, "kid": _thumbprint(public)}
    return public if kid is False else {**public, "kid": kid}


def _public_of(jwk: dict[str, Any]) -> dict[str, str]:
    """The members of a JWK that are public and have to be there."""
    if jwk.get("kty") == "oct":
        raise BadKey("a shared key has no public half")
    # what the key is for is not asked, and that it is a key is
    needed = {name: jwk[name] for name in MEMBERS.get(str(jwk.get("kty")), ("kty",)) if name in jwk}
    return {name: str(value) for name, value in key_of(needed).public.items()}


def _thumbprint(public: dict[str, str]) -> str:
    text = json.dumps(public, sort_keys=True, separators=(",", ":"))
    return base64.urlsafe_b64encode(hashlib.sha256(text.encode()).digest()).rstrip(b"=").decode()

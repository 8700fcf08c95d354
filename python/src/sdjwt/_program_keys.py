"""Keys of the program sdjwt-keys: those that it reads, as PEM, JWK or key set, and those that it makes."""
from __future__ import annotations

import base64
import json
import secrets
from typing import TYPE_CHECKING, Any, NamedTuple

from sdjwt._errors import NoCryptography
from sdjwt._key_forms import as_key_set, pem_of, public_jwk
from sdjwt._key_forms import signing_key as read_signing_key
from sdjwt._key_sets import is_oct
from sdjwt._keys import MACS, PUBLIC, RSA, BadKey, is_shared, serves
from sdjwt._program_faults import UNREADABLE, Fault, usage
from sdjwt._program_files import Input, json_text, shown_name, write_new, write_pair

if TYPE_CHECKING:
    from sdjwt._types import PrivateKeyObject as PrivateKey

ALGORITHMS = (*PUBLIC, *MACS)
FORMS = ("pem", "jwk")
Jwk = dict[str, Any]


class Signing(NamedTuple):
    """A key that signs: a private key, or a symmetric one as a JWK; and the names `alg` and `kid` that its file gives
    it.
    """

    private: PrivateKey | None
    shared: Jwk | None
    alg: str | None
    kid: str | None


def _unreadable(name: str, said: str) -> Fault:
    return Fault(
        UNREADABLE, f"unreadable {shown_name(name)}", f"{shown_name(name)} is no key that can be used here: {said}."
    )


def _read(given: Input, name: str) -> bytes | Jwk:
    """The content of a file with keys: a PEM, or a JSON object."""
    content = given.content(name)
    if pem_of(content) is not None:
        return content
    try:
        read = json.loads(content.decode())
    except (ValueError, RecursionError):
        read = None
    if not isinstance(read, dict):
        raise _unreadable(name, 'it is neither PEM, nor a JWK, nor a key set (a JSON object with a list "keys")')
    return read


def public_keys(given: Input, names: list[str]) -> list[Any]:
    """The keys of files that check signatures, as JWKs."""
    found: list[Any] = []
    for name in names:
        try:
            read: Any = as_key_set(_read(given, name), "")
        except ValueError as fault:
            raise _unreadable(name, str(fault).rpartition("can't be read: ")[2]) from None
        if not isinstance(read.get("keys"), list):
            raise _unreadable(name, 'it has neither "kty", as a JWK, nor a list "keys", as a key set')
        found += read["keys"]
    return found


def algorithms_of(jwks: list[Any]) -> list[str]:
    """The algorithms that keys serve."""
    served = {name for jwk in jwks if isinstance(jwk, dict) for name in serves(jwk)}
    return [name for name in ALGORITHMS if name in served]


def holder_key(given: Input, name: str) -> Jwk:
    """The public key of a holder, for the claim `cnf` of a token."""
    found = public_keys(given, [name])
    if len(found) != 1:
        raise _unreadable(name, f"it has {len(found)} keys, and a holder has one")
    try:
        return dict(public_jwk(found[0]))
    except (ValueError, TypeError) as fault:
        raise _unreadable(name, str(fault).rpartition("sdjwt: ")[2]) from None


def signing_key(given: Input, name: str) -> Signing:
    """The key in a file that signs."""
    read = _read(given, name)
    jwk = read if isinstance(read, dict) else {}
    kid = jwk.get("kid") if isinstance(jwk.get("kid"), str) else None
    if is_oct(jwk):
        return Signing(None, jwk, jwk.get("alg") if isinstance(jwk.get("alg"), str) else None, kid)
    if isinstance(read, dict) and not isinstance(read.get("kty"), str):
        raise _unreadable(name, 'it has no "kty", as a JWK has it')
    try:
        private, alg = read_signing_key(read)
    except BadKey as fault:
        raise _unreadable(name, str(fault)) from None
    found: Any = private
    return Signing(found, None, alg, kid)


def _of_cryptography() -> Any:
    """The module that makes key pairs by the package cryptography."""
    try:
        from sdjwt import _program_pairs
    except ImportError as missing:
        raise NoCryptography("sdjwt: key pairs need the package cryptography: pip install cryptography") from missing
    return _program_pairs


def make(alg: str, form: str | None, kid: str | None, name: str) -> dict[str, str]:
    """Makes a key pair, or a symmetric key, in new files. Returns the names of the files."""
    if is_shared(alg):
        return _make_shared(alg, form, kid, name)
    pairs = _of_cryptography()
    private = pairs.generated(alg)
    names = {"kid": kid} if kid is not None else {}
    public = {**pairs.public_jwk(private), **({"alg": alg} if alg in RSA else {}), **names}
    if form == "jwk":
        files = {"private": f"{name}.private.jwk", "public": f"{name}.jwk"}
        secret = json_text({**public, **pairs.private_members(private)}) + "\n"
    else:
        files = {"private": f"{name}.pem", "public": f"{name}.jwk"}
        secret = pairs.private_pem(private)
    write_pair((files["private"], secret), (files["public"], json_text(public) + "\n"))
    return files


def _make_shared(alg: str, form: str | None, kid: str | None, name: str) -> dict[str, str]:
    if form == "pem":
        raise usage(f"a key of {alg} is symmetric, and PEM is for key pairs: --form jwk")
    key = base64.urlsafe_b64encode(secrets.token_bytes(MACS[alg].key_min)).rstrip(b"=").decode()
    shared = {"kty": "oct", "k": key, "alg": alg, **({"kid": kid} if kid is not None else {})}
    write_new(f"{name}.shared.jwk", json_text(shared) + "\n", is_secret=True)
    return {"shared": f"{name}.shared.jwk"}

"""SD-JWT (RFC 9901): issue, present and verify, by a library that is proved.

An order, a policy and a query are dicts, or their JSON as str or bytes; README.md of the repository and docs/FILES.md
say what they have in them. A token is a str or bytes, or the dict of a JSON serialization. Where bytes are taken, a
bytearray and a memoryview are too. What is of another type is a TypeError that names the argument.

A token may come from a stranger, so each call that takes one bounds its length in bytes by `most`, and a longer one is
`TooLong`. The time and the memory that a call takes grow with this length.

>>> import sdjwt
>>> key = "dGhlIHRpY2tldCBvZmZpY2Uga2V5LCBub3QgeW91cnM"
>>> payload = {"iss": "tickets", "seat": "B12", "name": "Ada"}
>>> token = sdjwt.issue({"payload": payload, "hide": ["/seat", "/name"], "key": key})
>>> keys = {"keys": [{"kty": "oct", "k": key}]}
>>> shown = sdjwt.present({"keys": keys, "want": ["/seat"]}, token)
>>> sdjwt.verify({"keys": keys, "iss": "tickets"}, shown)
{'iss': 'tickets', 'seat': 'B12'}

A key of an order is shared (HMAC): whoever verifies such a token can make one. With `sign` a token is issued, and
presented, with a private key, of which verifiers have the public one, by the package cryptography, which the extra
`keys` installs. Tokens that others signed so are verified too.
"""
from __future__ import annotations

import secrets
from collections.abc import Iterable
from dataclasses import dataclass
# get_type_hints looks here for the names in the annotations of classes that are shown as those of this module
from typing import Any, Literal, Optional, overload  # noqa: F401

from sdjwt import _library
from sdjwt._answers import answered, object_of, without_end
from sdjwt._asking import AsyncCheckFunction, CheckFunction, Functions, Question, asking_of
from sdjwt._built import PROVED as proved
from sdjwt._built import VERSION as __version__
from sdjwt._confirmed import refuse_secret_key
from sdjwt._detail import ASKED, UNSIGNED
from sdjwt._errors import (
    AlgorithmRefused,
    AudienceDiffers,
    BadOrder,
    BadPresentation,
    BadSignature,
    BindingRefused,
    Expired,
    IssuerRefused,
    MissingClaim,
    NoCryptography,
    NonceDiffers,
    NotYetValid,
    OutOfMemory,
    OutOfStack,
    Refused,
    SdJwtError,
    TooLong,
    UnknownKey,
    Unreadable,
)
from sdjwt._given import MOST, file_bytes, held_bytes, moment, seed_bytes, token_bytes
from sdjwt._key_forms import public_jwk, with_key_sets
from sdjwt._key_sets import PrivateKeyWarning, SkippedKey
from sdjwt._parts import parted, shown
from sdjwt._policy import Policy, Verified
from sdjwt._presenting import presenting_of
from sdjwt._signing import signer_of
from sdjwt._stack import need_stack
from sdjwt._steps import Steps, finish, finish_async
from sdjwt._types import (
    AsyncKeysFunction,
    AsyncSignFunction,
    Bytes,
    Json,
    Keys,
    KeysFunction,
    Moment,
    PrivateKey,
    PublicKey,
    SignFunction,
)
from sdjwt._wallet import wallet_of

__all__ = [
    "MOST",
    "AlgorithmRefused",
    "AsyncCheckFunction",
    "AsyncKeysFunction",
    "AsyncSignFunction",
    "AudienceDiffers",
    "BadOrder",
    "BadPresentation",
    "BadSignature",
    "BindingRefused",
    "Bytes",
    "CheckFunction",
    "Expired",
    "IssuerRefused",
    "Json",
    "Keys",
    "KeysFunction",
    "MissingClaim",
    "Moment",
    "NoCryptography",
    "NonceDiffers",
    "NotYetValid",
    "OutOfMemory",
    "OutOfStack",
    "Picked",
    "Policy",
    "PrivateKey",
    "PrivateKeyWarning",
    "PublicKey",
    "Question",
    "Refused",
    "SdJwtError",
    "SignFunction",
    "SkippedKey",
    "TooLong",
    "UnknownKey",
    "Unreadable",
    "Verified",
    "__version__",
    "audit",
    "convert",
    "issue",
    "issue_async",
    "present",
    "present_async",
    "proved",
    "public_jwk",
    "show",
    "split",
    "verify",
    "wallet",
]

_FORMS = {"compact": 0, "flat": 1, "general": 2}


def issue(
    order: Json, seed: Bytes | None = None, *, sign: PrivateKey | SignFunction | None = None, alg: str | None = None,
) -> str:
    """The token of an order, in its compact form.

    The salts of the hidden claims come from the seed, which is 32 random bytes if you give none. Anyone who knows the
    seed can guess what is hidden, so give one only to get the same token again, as in a test. A seed of another length
    is a ValueError.

    >>> key = "dGhlIHRpY2tldCBvZmZpY2Uga2V5LCBub3QgeW91cnM"
    >>> token = issue({"payload": {"name": "Ada"}, "hide": ["/name"], "key": key})
    >>> token.count("~")
    2
    >>> issue({"payload": {"name": "Ada"}, "hide": ["/seat"], "key": key})  # doctest: +ELLIPSIS
    Traceback (most recent call last):
    sdjwt.BadOrder: refused 55 noSuchPlace at 0: ...

    The key of an order is shared. With `sign` the order has neither `key` nor `alg`, and `sign` is a private key, as an
    object of the package cryptography, a PEM or a JWK, or a function that is given the bytes to sign and returns the
    signature. A key of P-256, P-384, P-521 or Ed25519 signs by ES256, ES384, ES512 or EdDSA. For one of RSA `alg` names
    the algorithm: PS256, PS384, PS512, RS256, RS384 or RS512. For a function `alg` names its algorithm, and the
    signature is the one that a JWS has: of ES256 the 64 bytes of r and s, and not the DER that many a vault answers. It
    is asked once, and not for an order that 51 to 60 refuse.

    If `cnf.jwk` of the payload is a private or a symmetric key, `issue` raises ValueError: anyone who sees the token
    could read it.

    >>> def vault(text):
    ...     return bytes(64)                # the signature that your vault makes of these bytes
    >>> token = issue({"payload": {"name": "Ada"}, "hide": ["/name"], "kid": "k1"}, sign=vault, alg="ES256")
    >>> show(token)["header"]
    {'alg': 'ES256', 'kid': 'k1'}
    """
    return finish(_issued(order, seed, sign, alg))


async def issue_async(
    order: Json,
    seed: Bytes | None = None,
    *,
    sign: PrivateKey | SignFunction | AsyncSignFunction | None = None,
    alg: str | None = None,
) -> str:
    """`issue` on another thread, so that the event loop goes on. Only here may `sign` be a coroutine function."""
    return await finish_async(_issued(order, seed, sign, alg))


def _issued(order: Json, seed: Bytes | None, sign: object, alg: str | None) -> Steps[str]:
    ordered = file_bytes(order, "order")
    refuse_secret_key(ordered)
    salted = secrets.token_bytes(32) if seed is None else seed_bytes(seed)
    if sign is not None:
        called = yield from signer_of(sign, alg).issue(ordered, salted)
        return without_end(answered(*called, (UNSIGNED, ordered), ("seed", salted)))
    if alg is not None:
        raise ValueError("sdjwt: alg is given without sign; the algorithm of a shared key stands in the order")
    return without_end(answered(*_library.call("issue", ordered, salted), ("order", ordered), ("seed", salted)))


def present(
    order: Json, token: Json, now: Moment | None = None, *, most: int = MOST,
    sign: PrivateKey | SignFunction | None = None, alg: str | None = None, check: CheckFunction | None = None,
) -> str:
    """What a holder presents of a token, in its compact form.

    The moment, which a key binding token tells, is in seconds since 1970 or an aware datetime; it is now where none is
    given.

    >>> key = "dGhlIHRpY2tldCBvZmZpY2Uga2V5LCBub3QgeW91cnM"
    >>> token = issue({"payload": {"name": "Ada", "age": 7}, "hide": ["/name", "/age"], "key": key})
    >>> keys = {"keys": [{"kty": "oct", "k": key}]}
    >>> shown = present({"keys": keys, "want": ["/age"], "never": ["/name"]}, token)
    >>> [disclosure["name"] for disclosure in show(shown)["disclosures"]]
    ['age']

    A token that is signed with a private key is presented by an order that has the public keys of issuers in `keys`,
    shared ones beside them, and in `algs` the algorithms that are taken, as a policy has them; `check` is a function
    for other keys, as in `Policy`. Its `binding` has `aud` and `nonce` and no key: `sign` makes the signature of the
    key binding token, and `alg` names its algorithm, as in `issue`. Where `binding` has a `kid`, the claim `cnf` of
    what is shown has to name it; else which key the holder signs with is not looked at. `sign` is asked once, and not
    for what 71 to 74, or a condition of the token, refuse.

    >>> order = {"payload": {"name": "Ada", "age": 7}, "hide": ["/name", "/age"]}
    >>> token = issue(order, sign=lambda text: bytes(64), alg="ES256")
    >>> order = {"algs": ["ES256"], "want": ["/age"], "binding": {"aud": "https://door.example", "nonce": "4711"}}
    >>> shown = present(order, token, check=lambda question: True, sign=lambda text: bytes(64), alg="ES256")
    >>> show(shown)["binding"] is None, len(show(shown)["disclosures"])
    (False, 1)
    """
    return finish(_presented(order, token, now, most, sign, alg, check))


async def present_async(
    order: Json, token: Json, now: Moment | None = None, *, most: int = MOST,
    sign: PrivateKey | SignFunction | AsyncSignFunction | None = None, alg: str | None = None,
    check: CheckFunction | AsyncCheckFunction | None = None,
) -> str:
    """`present` on another thread, so that the event loop goes on.

    Only here may `sign` and `check` be coroutine functions.
    """
    return await finish_async(_presented(order, token, now, most, sign, alg, check))


def _presented(
    order: Json,
    token: Json,
    now: Moment | None,
    most: int,
    sign: object,
    alg: str | None,
    check: CheckFunction | AsyncCheckFunction | None,
) -> Steps[str]:
    ordered = file_bytes(with_key_sets(order), "order")
    given, at = token_bytes(token, most), moment(now)
    presenting = presenting_of(ordered, check, sign, alg)
    if presenting is not None:
        called = yield from presenting.present(given, at)
        return without_end(answered(*called, (ASKED, ordered)))
    return without_end(answered(*_library.call("present", ordered, given, at), ("present order", ordered)))


def verify(
    policy: Json,
    token: Json,
    now: Moment | None = None,
    *,
    nonce: str | None = None,
    audience: str | None = None,
    most: int = MOST,
    keys: Keys | KeysFunction | None = None,
    check: CheckFunction | None = None,
) -> dict[str, Any]:
    """The claims of a token that is accepted under a policy. For many tokens under one policy take `Policy`.

    A policy may have public keys, and `check` is a function for signatures under others: `Policy` says how, and what
    `nonce` and `audience` are.

    >>> key = "dGhlIHRpY2tldCBvZmZpY2Uga2V5LCBub3QgeW91cnM"
    >>> token = issue({"payload": {"iss": "tickets", "exp": 1000, "seat": "B12"}, "hide": ["/seat"], "key": key})
    >>> keys = {"keys": [{"kty": "oct", "k": key}]}
    >>> verify({"keys": keys}, token, now=999)
    {'exp': 1000, 'iss': 'tickets', 'seat': 'B12'}
    >>> try:
    ...     verify({"keys": keys}, token, now=1001)
    ... except Expired as refused:
    ...     print(refused.number, refused.name, refused.place)
    ...     print(refused)
    25 expired None
    refused 25 expired: The time of the claim `exp` has come: the token is no longer valid.
    """
    need_stack()
    asked = file_bytes(with_key_sets(policy), "policy")
    is_plain = nonce is None and audience is None and keys is None
    if not is_plain or asking_of(asked, Functions(check)) is not None:
        return Policy(asked, keys=keys, check=check).verify(token, now, nonce=nonce, audience=audience, most=most)
    called = _library.call("verify", asked, token_bytes(token, most), moment(now))
    return object_of(answered(*called, ("policy", asked)))


def show(token: Json, *, most: int = MOST) -> dict[str, Any]:
    """What is inside a token, unchecked: `header`, `payload`, `disclosures`, and `binding` or None.

    A disclosure has its `digest`, its `value`, and its `name` where it is one of a member.

    >>> key = "dGhlIHRpY2tldCBvZmZpY2Uga2V5LCBub3QgeW91cnM"
    >>> token = issue({"payload": {"name": "Ada"}, "hide": ["/name"], "key": key})
    >>> inside = show(token)
    >>> inside["header"], inside["binding"]
    ({'alg': 'HS256'}, None)
    >>> [(disclosure["name"], disclosure["value"]) for disclosure in inside["disclosures"]]
    [('name', 'Ada')]
    """
    need_stack()
    return shown(token_bytes(token, most))


def split(token: Json, *, most: int = MOST) -> dict[str, Any]:
    """The texts of the parts of a token, unchecked: `protected`, `payload`, `signature`, `disclosures`, and `binding`
    or None.

    >>> key = "dGhlIHRpY2tldCBvZmZpY2Uga2V5LCBub3QgeW91cnM"
    >>> token = issue({"payload": {"name": "Ada"}, "hide": ["/name"], "key": key})
    >>> parts = split(token)
    >>> token == f"{parts['protected']}.{parts['payload']}.{parts['signature']}~{parts['disclosures'][0]}~"
    True
    """
    need_stack()
    return parted(token_bytes(token, most))


@overload
def convert(form: Literal["compact"], token: Json, *, most: int = MOST) -> str: ...
@overload
def convert(form: Literal["flat", "general"], token: Json, *, most: int = MOST) -> dict[str, Any]: ...
def convert(form: Literal["compact", "flat", "general"], token: Json, *, most: int = MOST) -> str | dict[str, Any]:
    """A token in another form, unchecked: compact as a str, and flat or general as the dict of its JSON.

    >>> key = "dGhlIHRpY2tldCBvZmZpY2Uga2V5LCBub3QgeW91cnM"
    >>> token = issue({"payload": {"name": "Ada"}, "hide": ["/name"], "key": key})
    >>> flat = convert("flat", token)
    >>> sorted(flat)
    ['header', 'payload', 'protected', 'signature']
    >>> convert("compact", flat) == token
    True
    """
    need_stack()
    if not isinstance(form, str):
        raise TypeError(f"sdjwt: form is of type {type(form).__name__}, and has to be a str")
    if form not in _FORMS:
        raise ValueError(f"sdjwt: form is none of {', '.join(_FORMS)}")
    text = answered(*_library.call("convert", _FORMS[form], token_bytes(token, most)))
    return without_end(text) if form == "compact" else object_of(text)


def audit(order: Json, token: Json, *, most: int = MOST) -> None:
    """Audits a token for the order that it was issued for, as who has no seed can.

    Nothing is answered where the token is what the order asks for, signed with its key. Else `Refused` tells the first
    that differs, by its number: 81 to 86, or 80 where the order itself is refused.

    >>> order = {"payload": {"name": "Ada"}, "hide": ["/name"], "key": "dGhlIHRpY2tldCBvZmZpY2Uga2V5LCBub3QgeW91cnM"}
    >>> token = issue(order)
    >>> audit(order, token)
    >>> audit({**order, "payload": {"name": "Eve"}}, token)  # doctest: +ELLIPSIS
    Traceback (most recent call last):
    sdjwt.Refused: refused 83 payloadDiffers: ...
    """
    need_stack()
    ordered = file_bytes(order, "order")
    try:
        answered(*_library.call("audit", ordered, token_bytes(token, most)), ("order", ordered))
    except Unreadable as fault:
        if fault.reason != "missing key":
            raise
        raise Unreadable(
            fault.line, f"{fault.detail}; a token that is signed with a private key cannot be audited"
        ) from None


@dataclass(frozen=True)
class Picked:
    """The credential that a wallet picked: its index among the tokens, and what is shown of it, in its compact form."""

    index: int
    token: str


def wallet(query: Json, tokens: Iterable[Json], *, most: int = MOST) -> Picked:
    """Of 1 to 64 tokens that a holder has, the one that answers a query with the fewest disclosures.

    `most` bounds the length of each token. The `keys` of the query may be public ones, each for the algorithms of its
    type.

    >>> key = "dGhlIHRpY2tldCBvZmZpY2Uga2V5LCBub3QgeW91cnM"
    >>> ticket = issue({"payload": {"name": "Ada", "seat": "B12"}, "hide": ["/name", "/seat"], "key": key})
    >>> badge = issue({"payload": {"name": "Ada", "team": "red"}, "hide": ["/name"], "key": key})
    >>> query = {"keys": {"keys": [{"kty": "oct", "k": key}]}, "want": ["/seat"], "never": ["/name"]}
    >>> picked = wallet(query, [badge, ticket])
    >>> picked.index, [disclosure["name"] for disclosure in show(picked.token)["disclosures"]]
    (1, ['seat'])
    >>> wallet({**query, "want": ["/name"]}, [badge, ticket])  # doctest: +ELLIPSIS
    Traceback (most recent call last):
    sdjwt.Refused: refused 77 noCredentialAnswers: ...
    """
    need_stack()
    asked = file_bytes(with_key_sets(query), "query")
    held, kept = held_bytes(tokens, most), wallet_of(asked)
    called = _library.call_wallet(asked, held) if kept is None else kept.choose(held)
    number, token = without_end(answered(*called, ("query", asked))).split("\n", 1)
    return Picked(int(number.removeprefix("credential ")), token)

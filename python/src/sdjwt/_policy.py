"""A policy that is read once, to verify many tokens."""
from __future__ import annotations

from collections.abc import Mapping
from dataclasses import dataclass
from functools import partial
from time import time as _time
from typing import Any, Optional

from sdjwt._answers import answered, object_of, read_json
from sdjwt._asking import (
    Asking,
    AsyncCheckFunction,
    CheckFunction,
    Functions,
    Verdict,
    asking_of,
    is_no_object,
    object_in,
    read_object,
    skipped_of,
)
from sdjwt._disclosed import places_of
from sdjwt._given import MOST, file_bytes, moment, token_bytes
from sdjwt._handles import Handles, filled
from sdjwt._key_forms import as_key_set, with_key_sets
from sdjwt._key_sets import SkippedKey
from sdjwt._library import DONE, KEPT
from sdjwt._parts import shown
from sdjwt._stack import need_stack
from sdjwt._steps import Steps, finish, finish_async
from sdjwt._types import AsyncKeysFunction, Json, Keys, KeysFunction, Moment


@dataclass(frozen=True)
class Verified:
    """What is known of a token that is accepted.

    `claims` is what `verify` returns, and `header` is the protected header. `disclosed` are the places in `claims` that
    disclosures showed, as JSON Pointers in the order of the disclosures. `binding` is the payload of the key binding
    token, or None if the policy has no `binding`. `key` is the issuer's public key as a JWK, with its `kid` if it has
    one. It is None if the library checked the signature itself, or if the function `check` did; a shared key is without
    its secret.
    """

    __module__ = "sdjwt"

    claims: dict[str, Any]
    header: dict[str, Any]
    disclosed: tuple[str, ...]
    binding: Optional[dict[str, Any]]
    key: Optional[dict[str, Any]]


class Policy:
    """A policy that is read once, to verify many tokens. It may be used by many threads at once.

    Its `keys` may have public keys beside those of the kind `oct`, where its `algs` name their algorithms: ES256,
    ES384, ES512, EdDSA, PS256, RS256 and the like. Signatures under them are checked by the package cryptography. The
    key of a holder is `cnf.jwk` of the token, or the key of the `keys` of the `binding` that `cnf.kid` names. `binding`
    may have `algs` of its own, the algorithms of holders; it needs no `keys` if one of these is for public keys. An
    invalid key is skipped, and `skipped_keys` lists it. In place of a JWK there may be a PEM or a key object, and in
    place of the set one key or a list of keys. The argument `keys` takes the same for a policy that has none, or a
    function that is asked for the keys of an issuer, by the claim `iss` of the token and its header, which nobody has
    verified then.

    `check` is a function that is asked of a signature for which no key is here, by a `Question`: it answers True where
    it is good, False where it is bad, and None where it has no key for it. It is never asked about an HMAC. Both
    functions may be coroutine functions, for `verify_async` and `check_async`.

    >>> key = "dGhlIHRpY2tldCBvZmZpY2Uga2V5LCBub3QgeW91cnM"
    >>> policy = Policy({"keys": {"keys": [{"kty": "oct", "k": key}]}, "require": ["seat"]})
    >>> policy.verify(issue({"payload": {"seat": "B12"}, "hide": ["/seat"], "key": key}))
    {'seat': 'B12'}
    >>> Policy({"keys": {"keys": []}, "skew": "much"})
    Traceback (most recent call last):
    sdjwt.Unreadable: unreadable 1 wrong skew: at /skew: it is a text, and has to be a whole number

    A nonce is for one presentation, so `verify` takes it, and `binding` need not have one. The same holds for `aud`,
    which the argument `audience` gives.

    >>> holder = "YW5vdGhlciBrZXksIHRoZSBvbmUgb2YgdGhlIGhvbGRlcg"
    >>> token = issue({"payload": {"cnf": {"kid": "ada"}}, "key": key})
    >>> binding = {"key": holder, "kid": "ada", "aud": "https://door.example", "nonce": "4711"}
    >>> shown = present({"keys": {"keys": [{"kty": "oct", "k": key}]}, "binding": binding}, token)
    >>> holders = {"keys": [{"kty": "oct", "kid": "ada", "k": holder}]}
    >>> door = Policy({"keys": {"keys": [{"kty": "oct", "k": key}]},
    ...                "binding": {"aud": "https://door.example", "keys": holders, "max_age": 300}})
    >>> door.verify(shown, nonce="4711")
    {'cnf': {'kid': 'ada'}}
    >>> door.verify(shown, nonce="4712")  # doctest: +ELLIPSIS
    Traceback (most recent call last):
    sdjwt.NonceDiffers: refused 35 nonceDiffers: ...
    """

    __module__ = "sdjwt"
    __slots__ = ("_asking", "_handles", "_lender", "_made_of", "_text")

    def __init__(
        self, policy: Json, *, keys: Keys | KeysFunction | AsyncKeysFunction | None = None,
        check: CheckFunction | AsyncCheckFunction | None = None,
    ) -> None:
        need_stack()
        given = file_bytes(with_key_sets(policy), "policy")
        if keys is not None:
            given = _with_keys(given, keys)
        functions = Functions(check, keys if callable(keys) else None)
        # what makes the same policy again
        self._made_of = given, functions
        text, missing = filled(given)
        self._asking: Asking | None = asking_of(text, functions)
        self._text = text if self._asking is None else self._asking.file
        self._lender = Handles(self._text, missing)
        # those that no call uses, if it gives neither a nonce nor an audience
        self._handles = self._lender.own
        if self._asking is not None:
            self._asking.read_keys()

    def __reduce__(self) -> tuple[Any, ...]:
        text, functions = self._made_of
        return partial(type(self), keys=functions.keys, check=functions.check), (text,)

    def verify(
        self,
        token: Json,
        now: Moment | None = None,
        *,
        nonce: str | None = None,
        audience: str | None = None,
        most: int = MOST,
    ) -> dict[str, Any]:
        """The claims of a token that is accepted.

        If `nonce` or `audience` is given, the key binding token has to have it, whatever the policy has.
        """
        if self._asking is not None or nonce is not None or audience is not None or self._lender.missing:
            verdict = finish(self._judged(token, now, nonce, audience, most))
            return object_of(answered(verdict.status, verdict.said))
        need_stack()
        # what needs no look at the types is written out here, since this call is to be fast
        given = token if type(token) is bytes and type(most) is int and len(token) <= most else token_bytes(token, most)
        at = max(0, int(_time())) if now is None else moment(now)
        handles = self._handles
        try:
            handle = handles.pop()
        except IndexError:
            handle = self._lender.new()
        try:
            status, said = handle.verify(given, at)
        finally:
            if len(handles) < KEPT:
                handles.append(handle)
        if status != DONE:
            answered(status, said)
        claims: dict[str, Any] = read_json(said.decode())[0]
        return claims

    def check(
        self,
        token: Json,
        now: Moment | None = None,
        *,
        nonce: str | None = None,
        audience: str | None = None,
        most: int = MOST,
    ) -> Verified:
        """What is known of a token that is accepted: its claims, as `verify` returns them, its header, key and so on.
        """
        given = token_bytes(token, most)
        return self._verified(given, finish(self._judged(given, now, nonce, audience, most)))

    async def verify_async(
        self,
        token: Json,
        now: Moment | None = None,
        *,
        nonce: str | None = None,
        audience: str | None = None,
        most: int = MOST,
    ) -> dict[str, Any]:
        """`verify` on another thread, so that the event loop goes on.

        Only here may `check` and `keys` be coroutine functions.
        """
        verdict = await finish_async(self._judged(token, now, nonce, audience, most))
        return object_of(answered(verdict.status, verdict.said))

    async def check_async(
        self,
        token: Json,
        now: Moment | None = None,
        *,
        nonce: str | None = None,
        audience: str | None = None,
        most: int = MOST,
    ) -> Verified:
        """`check` on another thread, as `verify_async` is `verify`."""
        given = token_bytes(token, most)
        return self._verified(given, await finish_async(self._judged(given, now, nonce, audience, most)))

    def _judged(
        self, token: Json, now: Moment | None, nonce: str | None, audience: str | None, most: int
    ) -> Steps[Verdict]:
        """The verdict on a token."""
        given, at = token_bytes(token, most), moment(now)
        with self._lender.lent(nonce, audience) as handle:
            if self._asking is None:
                return Verdict(*handle.verify(given, at))
            return (yield from self._asking.verify(handle, given, at))

    def _verified(self, token: bytes, verdict: Verdict) -> Verified:
        claims = object_of(answered(verdict.status, verdict.said))
        inside = shown(token)
        # without `binding` in the policy, nobody has checked the key binding token
        binding = object_in(inside["binding"].encode(), 1) if self._lender.has_binding else None
        key = None if verdict.key is None else dict(verdict.key.public)
        return Verified(claims, inside["header"], places_of(inside, claims), binding, key)

    @property
    def skipped_keys(self) -> tuple[SkippedKey, ...]:
        """The keys of the policy that were skipped, each with the reason."""
        return skipped_of(self._text) if self._asking is None else self._asking.skipped


def _with_keys(policy: bytes, keys: object) -> bytes:
    """A policy with the keys that an argument gives, or with no keys if a function gives them."""
    found = read_object(policy, True)
    if found is not None and "keys" in found:
        raise ValueError("sdjwt: keys is given, and the policy has keys too")
    if callable(keys):
        return policy
    given = as_key_set(keys, "/keys")
    if not isinstance(given, Mapping):
        raise TypeError(
            f"sdjwt: keys is of type {type(keys).__name__}, and has to be a key, several, a key set, or a function"
        )
    # what is no object is for the library to refuse
    return policy if found is None or is_no_object(policy) else file_bytes({**found, "keys": given}, "policy")

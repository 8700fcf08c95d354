"""A policy whose signatures are checked here: under its public and symmetric keys, or by a function of the caller.

No rule of SD-JWT stands here. The library judges the token, and asks of each signature whether it is good; what is
decided is only under which key it is checked. A policy with symmetric keys only is left to the library.
"""
from __future__ import annotations

import json
import re
from collections.abc import Awaitable, Callable
from contextlib import suppress
from dataclasses import dataclass
from typing import Any, NamedTuple, Optional, Union

from sdjwt import _library
from sdjwt._errors import NoCryptography, Unreadable
from sdjwt._key_forms import as_key_set
from sdjwt._key_sets import (
    KeySet,
    SkippedKey,
    has_set,
    is_oct,
    jwks,
    need_a_key,
    of_other_types,
    read_set,
    warn_of_private,
)
from sdjwt._keys import PUBLIC, BadKey, Key, decoded, find, is_shared, key_of, serves
from sdjwt._library import ASKS, BAD, GOOD, UNKNOWN, UNREADABLE, UNSAID, Handle
from sdjwt._steps import Asked, Steps
from sdjwt._types import AsyncKeysFunction, KeysFunction

_USUAL = ["HS256"]
_NO_KEYS: dict[str, Any] = {"keys": {"keys": []}}
# What a file must contain to be read here. The only other way to write a name in JSON is with escapes.
_HINTS = re.compile(rb'algs|\\u|"(?:d|p|q|dp|dq|qi|oth)"')
# Why a file is not a JSON object of whole numbers.
_TEXT_FAULTS = (b"tooLong", b"notJson", b"notWhole", b"notObject")
_read_json = json.JSONDecoder().raw_decode


@dataclass(frozen=True)
class Question:
    """A signature that a function given as `check` is to judge.

    `asks` is "issuer" or "holder", `text` is what was signed, `signature` its bytes, and `alg`, `kid` and `typ` are
    those of the header, the last two None where it has none. `payload` is None where the issuer is asked about; for the
    holder it is the processed payload, whose claim `cnf` names the key.
    """

    __module__ = "sdjwt"

    asks: str
    alg: str
    kid: Optional[str]
    typ: Optional[str]
    text: bytes
    signature: bytes
    payload: Optional[dict[str, Any]]

    @property
    def header(self) -> dict[str, Any]:
        """The protected header of what was signed."""
        return object_in(self.text, 0)

    @property
    def iss(self) -> Optional[str]:
        """The claim `iss` of what was signed. Nobody has checked it: it only says whose key to look for."""
        named = object_in(self.text, 1).get("iss")
        return named if isinstance(named, str) else None


CheckFunction = Callable[[Question], Optional[bool]]
AsyncCheckFunction = Callable[[Question], Awaitable[Optional[bool]]]


class Functions(NamedTuple):
    """The functions of a caller: for signatures under keys that are not here, and for the keys of an issuer."""

    check: Union[CheckFunction, AsyncCheckFunction, None] = None
    keys: Union[KeysFunction, AsyncKeysFunction, None] = None

    @property
    def are_given(self) -> bool:
        """Whether there is one."""
        return self.check is not None or self.keys is not None


def object_in(text: bytes, part: int) -> dict[str, Any]:
    """The object in a part of what was signed; an empty one if it is none."""
    try:
        found = json.loads(decoded(text.split(b".")[part].decode()).decode())
    except (ValueError, LookupError, RecursionError):
        return {}
    return found if isinstance(found, dict) else {}


class Judged(NamedTuple):
    """What was said of a signature, and the key under which it was checked here."""

    said: int
    key: Optional[Key] = None


class Checking:
    """What is said of signatures: under the keys of issuers and of holders, or by the functions of the caller."""

    __slots__ = ("functions", "holders", "issuers")

    def __init__(self, functions: Functions) -> None:
        self.functions = functions
        self.issuers: list[Key] = []
        self.holders: list[Key] = []

    def answer(self, question: bytes) -> Steps[Judged]:
        """What is said of the signature of a question. The function `check` is never asked about an HMAC."""
        asked = _read_json(question.decode())[0]
        alg, kid, payload = asked["alg"], asked.get("kid"), asked.get("payload")
        put = Question(
            asked["ask"], alg, kid, asked.get("typ"), asked["text"].encode(), decoded(asked["signature"]), payload
        )
        key = find(self.issuers, alg, kid) if payload is None else self._of_holder(payload, alg)
        if key is None and payload is None and self.functions.keys is not None:
            found = yield Asked(self.functions.keys, "keys", (put.iss, put.header))
            # the function was asked about this token, so a key without a name is meant for it
            key = find(_keys_in(found), alg, kid, takes_nameless=True)
        if key is not None:
            return Judged(GOOD if key.checks[alg](put.signature, put.text) else BAD, key)
        if self.functions.check is None or is_shared(alg):
            return Judged(UNKNOWN)
        return Judged(_said((yield Asked(self.functions.check, "check", (put,)))))

    def _of_holder(self, payload: dict[str, Any], alg: str) -> Key | None:
        """The key that `cnf` names among those of the binding, or contains (RFC 7800 section 3).

        A symmetric key is always one of the binding, because anyone who sees the token can read `cnf`.
        """
        confirmed = payload.get("cnf")
        if not isinstance(confirmed, dict):
            return None
        if "jwk" in confirmed and not is_shared(alg):
            return _key_in(confirmed["jwk"], alg)
        kid = confirmed.get("kid")
        return find(self.holders, alg, kid) if isinstance(kid, str) else None


def _keys_in(found: object) -> list[Key]:
    """The keys that a function returned, without those that are invalid."""
    given = {"keys": as_key_set(found, "/keys")}
    if given["keys"] is None or given["keys"] == []:
        return []
    if not has_set(given):
        raise TypeError(f"sdjwt: keys returned a value of type {type(found).__name__}, and has to return keys or None")
    keys = []
    for jwk in jwks(given):
        with suppress(BadKey):
            keys.append(key_of(jwk))
    return keys


def _key_in(jwk: object, alg: str) -> Key | None:
    """The public key in a token, if it serves an algorithm."""
    if not isinstance(jwk, dict) or alg not in serves(jwk):
        return None
    try:
        return key_of(jwk)
    except (BadKey, NoCryptography):
        return None


class Verdict(NamedTuple):
    """The status, the claims or the line, and the key of the issuer, if the signature was checked here under one."""

    status: int
    said: bytes
    key: Optional[Key] = None


class Asking:
    """What answers the questions about the tokens of a policy.

    `file` is the policy as the library takes it, and `skipped` are the keys of its sets that were skipped.
    """

    __slots__ = ("_algs", "_checking", "_policy", "file", "skipped")

    def __init__(self, policy: dict[str, Any], functions: Functions) -> None:
        self._policy, self._checking = policy, Checking(functions)
        self.skipped: tuple[SkippedKey, ...] = ()
        binding = policy.get("binding")
        self._algs = b""
        if isinstance(binding, dict) and "algs" in binding:
            self._algs = json.dumps(binding["algs"]).encode()
        # a function gives the keys of issuers, so their set may be missing
        self.file = json.dumps(_without_keys({**_NO_KEYS, **policy} if functions.keys is not None else policy)).encode()

    def read_keys(self) -> None:
        """Reads the keys, of a policy that the library has taken."""
        checking, algs, binding = self._checking, _holder_algs(self._policy), self._policy.get("binding")
        if not isinstance(algs, list) or not all(isinstance(alg, str) for alg in algs):
            raise Unreadable("unreadable 1 wrong binding", "at /binding/algs: it is to be a list of texts")
        issuers = read_set(self._policy, "keys", "", "policy")
        holders = read_set(binding, "binding", "/binding", "policy") if binding is not None else KeySet([], (), [])
        self.skipped = issuers.skipped + holders.skipped
        checking.issuers, checking.holders = issuers.keys, holders.keys
        if checking.functions.check is None:
            need_a_key(issuers, self._policy.get("algs", _USUAL), "keys")
            need_a_key(holders, algs, "binding")
            if binding is not None and any(alg in PUBLIC for alg in algs):
                _need_cryptography()

    def verify(self, handle: Handle, token: bytes, now: int) -> Steps[Verdict]:
        """The verdict on a token."""
        issuer = Judged(UNSAID)
        status, said = handle.judge(self._algs, token, now, UNSAID, UNSAID)
        if status == ASKS:
            issuer = yield from self._checking.answer(said)
            status, said = handle.judge(self._algs, token, now, issuer.said, UNSAID)
            if status == ASKS:
                holder = yield from self._checking.answer(said)
                status, said = handle.judge(self._algs, token, now, issuer.said, holder.said)
        return Verdict(status, said, issuer.key)


def _need_cryptography() -> None:
    """The package cryptography has to be installed, for public keys that will come with tokens."""
    try:
        from sdjwt import _signatures  # noqa: F401
    except ImportError as missing:
        raise NoCryptography() from missing


def _holder_algs(policy: dict[str, Any]) -> Any:
    """The algorithms of holders: those of the binding, or those of the policy."""
    binding = policy.get("binding")
    usual = policy.get("algs", _USUAL)
    return binding.get("algs", usual) if isinstance(binding, dict) else usual


def _without_keys(policy: dict[str, Any]) -> dict[str, Any]:
    """A policy as the library takes it: without the list of holders, and with empty key sets, because the caller
    checks.
    """
    said = {**policy, **(_NO_KEYS if has_set(policy) else {})}
    binding = policy.get("binding")
    if isinstance(binding, dict):
        rest = {name: value for name, value in binding.items() if name != "algs"}
        # public keys of holders are in the tokens, so their set may be missing
        is_free = "keys" not in binding and has_other(_holder_algs(policy))
        said["binding"] = {**rest, **(_NO_KEYS if is_free or has_set(binding) else {})}
    return said


def need_function(check: object) -> None:
    """What is given as `check` has to be a function."""
    if check is not None and not callable(check):
        raise TypeError(f"sdjwt: check is of type {type(check).__name__}, and has to be a function")


def asking_of(text: bytes, functions: Functions) -> Asking | None:
    """How a policy asks. None if it has symmetric keys only, so that the library checks by itself."""
    need_function(functions.check)
    policy = read_object(text, functions.are_given)
    if policy is None:
        return None
    if functions.check is not None and not has_other(policy.get("algs")) and not has_other(_holder_algs(policy)):
        raise ValueError("sdjwt: check is given, and no algorithm in algs of the policy is one that it is asked about")
    if not functions.are_given and not _is_checked_here(policy):
        for holder, place in _with_sets(policy):
            warn_of_private(holder, place, "policy")
        return None
    return None if is_no_object(text) else Asking(policy, functions)


def _is_checked_here(policy: dict[str, Any]) -> bool:
    """Whether holders have a list of their own, or an issuer or a holder may sign with a public key."""
    binding = policy.get("binding")
    if isinstance(binding, dict) and "algs" in binding:
        return True
    return has_other(policy.get("algs")) and (isinstance(binding, dict) or not all(map(is_oct, jwks(policy))))


def is_no_object(text: bytes) -> bool:
    """Whether the library says that a file is not a JSON object of whole numbers."""
    status, line = _library.call("verify", text, b"", 0)
    return status == UNREADABLE and line.split()[2] in _TEXT_FAULTS


def _with_sets(policy: dict[str, Any]) -> list[tuple[dict[str, Any], str]]:
    """The objects of a policy that have key sets, each with its place."""
    binding = policy.get("binding")
    return [(policy, ""), *([(binding, "/binding")] if isinstance(binding, dict) else [])]


def skipped_of(text: bytes) -> tuple[SkippedKey, ...]:
    """The keys of a policy that the library skips."""
    policy = read_object(text, True) or {}
    return tuple(
        key for holder, place in _with_sets(policy) for key in of_other_types(holder, "binding" if place else "keys")
    )


def read_object(text: bytes, is_needed: bool) -> dict[str, Any] | None:
    """The object of a policy or an order.

    None where the library is to say what is wrong with it, or where it need not be read.
    """
    if not is_needed and not _HINTS.search(text):
        return None
    try:
        read = json.loads(text.decode(), parse_int=_whole)
    except ValueError:
        return None
    except RecursionError:
        # the library refuses such a depth too; else the stack of the caller is nearly full
        if is_no_object(text):
            return None
        raise
    return read if isinstance(read, dict) else None


def _whole(digits: str) -> float:
    # the library refuses -0, so it is to stay what it is
    return -0.0 if digits == "-0" else int(digits)


def has_other(algs: object) -> bool:
    """Whether a list of algorithms has one that is not an HMAC."""
    return isinstance(algs, list) and not all(map(is_shared, algs))


def _said(answer: object) -> int:
    if answer is None:
        return UNKNOWN
    if not isinstance(answer, bool):
        raise TypeError(
            f"sdjwt: check answered a value of type {type(answer).__name__}, and has to answer True, False or None"
        )
    return GOOD if answer else BAD

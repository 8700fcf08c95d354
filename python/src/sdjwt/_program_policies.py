"""Policies and orders that the program sdjwt-keys makes of its options. What they mean is judged by the library."""
from __future__ import annotations

import argparse
import datetime
import json
import re
from typing import Any

from sdjwt._asking import read_object
from sdjwt._key_sets import is_oct
from sdjwt._keys import PUBLIC
from sdjwt._program_faults import usage
from sdjwt._program_files import Input
from sdjwt._program_keys import Signing, algorithms_of, holder_key, public_keys

_MAX_AGE = 300
# The options that a policy in a file replaces, by their names in what argparse finds.
_OPTIONS = ("key", "alg", "typ", "iss", "require", "skew", "aud", "nonce", "max_age", "holder", "holder_alg")


def moment(word: str | None) -> int | None:
    """A time that is given as seconds since 1970, or as in ISO 8601 with a zone. None is the present."""
    if word is None:
        return None
    if re.fullmatch(r"[0-9]{1,20}", word):
        return int(word)
    try:
        found = datetime.datetime.fromisoformat(re.sub("[zZ]$", "+00:00", word))
    except ValueError:
        found = None
    if found is None or found.tzinfo is None or found.timestamp() < 0:
        raise usage(f"--now {json.dumps(word)} is no time: write seconds since 1970, or 2026-12-01T22:00:00Z")
    return int(found.timestamp())


def is_asked(said: argparse.Namespace) -> bool:
    """Whether a policy is given, as a file or by options."""
    return said.policy is not None or any(getattr(said, name) not in (None, []) for name in _OPTIONS)


def policy_of(given: Input, said: argparse.Namespace) -> dict[str, Any] | bytes:
    """The policy of a file, or of the options."""
    if said.policy is not None:
        others = [name for name in _OPTIONS if getattr(said, name) not in (None, [])]
        if others:
            raise usage(
                f"--policy and --{others[0].replace('_', '-')} are given; a policy in a file has its own members"
            )
        return given.content(said.policy)
    if not said.key:
        raise usage("the key of the issuer is missing: give --key FILE (PEM, JWK or key set), or --policy FILE")
    keys = public_keys(given, said.key)
    policy: dict[str, Any] = {"version": 2, "keys": {"keys": keys}, "algs": said.alg or algorithms_of(keys)}
    options = {"typ": said.typ, "iss": said.iss or None, "require": said.require or None, "skew": said.skew}
    policy.update((name, value) for name, value in options.items() if value is not None)
    binding = _binding_of(given, said, keys)
    return policy if binding is None else {**policy, "binding": binding}


def _binding_of(given: Input, said: argparse.Namespace, issuers: list[Any]) -> dict[str, Any] | None:
    """The member `binding` of a policy."""
    if not said.aud and said.nonce is None:
        for name in ("max_age", "holder", "holder_alg"):
            if getattr(said, name) not in (None, []):
                raise usage(f"--{name.replace('_', '-')} is about key binding, which --aud and --nonce ask for")
        return None
    if not said.aud or said.nonce is None:
        raise usage("--aud and --nonce belong together: both ask for a key binding token")
    holders = public_keys(given, said.holder)
    return {"aud": said.aud, "nonce": said.nonce, "max_age": _MAX_AGE if said.max_age is None else said.max_age,
            "keys": {"keys": holders}, "algs": said.holder_alg or _algs_of_holders(issuers, holders)}


def _algs_of_holders(issuers: list[Any], holders: list[Any]) -> list[str]:
    """The algorithms of holders if no option names them: all with public keys, whose keys the issuer puts into the
    token.
    """
    only_shared = holders and all(map(is_oct, issuers + holders))
    return algorithms_of(holders) if only_shared else [*PUBLIC, *algorithms_of(list(filter(is_oct, holders)))]


def order_of(given: Input, content: bytes, holder: str | None, key: Signing | None) -> dict[str, Any] | bytes:
    """An order with what the options add: the key of the holder, and a symmetric key or the name of a key."""
    order = read_object(content, is_needed=True)
    if order is None:
        # the library says what is wrong with it
        return content
    if holder is not None:
        payload = order.get("payload")
        if not isinstance(payload, dict):
            return order
        if "cnf" in payload:
            raise usage("--holder is given, and the payload of the order has a claim `cnf` already")
        order = {**order, "payload": {**payload, "cnf": {"jwk": holder_key(given, holder)}}}
    if key is None:
        return order
    if "key" in order:
        raise usage("--key is given, and the order has a member `key` already")
    named: dict[str, Any] = {"kid": key.kid} if key.kid is not None and "kid" not in order else {}
    if key.shared is not None:
        named.update({"key": key.shared.get("k")}, **({"alg": key.alg} if key.alg and "alg" not in order else {}))
    return {**order, **named}

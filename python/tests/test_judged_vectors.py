"""The vectors that verify, where the signatures are checked here: the same verdicts.

Their tokens are signed anew under names that no library knows, as `TS256` in the place of `HS256`, and a function that
has the keys of the policy is asked about each signature. So the whole of a verification but its signatures is tried.
"""
import hmac
import json

import pytest
import test_vectors
from signing import KNOWN, Resigner, decoded, mac, verdict
from test_vectors import VECTORS

import sdjwt


def oct_keys(key_set):
    """The keys of a set, each with its name."""
    return [(jwk.get("kid"), decoded(jwk["k"])) for jwk in key_set["keys"] if jwk.get("kty") == "oct"]


def first(keys, kid, alg):
    """The first key that is long enough, and has the name where there is one."""
    return next((key for name, key in keys if kid in (None, name) and len(key) * 8 >= int(alg[2:])), None)


def checker(policy):
    """A function that knows the keys of a policy."""
    issuers, holders = oct_keys(policy["keys"]), oct_keys(policy.get("binding", {}).get("keys", {"keys": []}))

    def check(question):
        if question.asks == "issuer":
            key = first(issuers, question.kid, question.alg)
        else:
            named = question.payload.get("cnf")
            kid = named.get("kid") if isinstance(named, dict) else None
            key = first(holders, kid, question.alg) if isinstance(kid, str) else None
        return None if key is None else hmac.compare_digest(mac(key, question.alg, question.text), question.signature)

    return check


def asked(policy):
    """The policy with the other names of the algorithms that a library knows, and with one that no token names."""
    known = [alg for alg in policy.get("algs", ["HS256"]) if alg in KNOWN]
    renamed = {**policy, "algs": [*(alg.replace("HS", "TS") for alg in known), "of no token"]}
    if "binding" in policy:
        renamed["binding"] = {**policy["binding"], "algs": ["TS256"]}
    return renamed


def judge(policy_text, token, now):
    """The verdict by HMAC, and that where a function is asked."""
    by_library = verdict(sdjwt.Policy(policy_text), token, now)
    policy = json.loads(policy_text)
    keys = [
        key
        for key_set in (policy["keys"], policy.get("binding", {}).get("keys", {"keys": []}))
        for _, key in oct_keys(key_set)
    ]
    anew = Resigner("TS", [*keys, bytes([1]) * 32, bytes([2]) * 32], lambda key, alg, text: mac(key, alg, text)).token(
        token
    )
    return by_library, verdict(sdjwt.Policy(asked(policy), check=checker(policy)), anew, now)


def is_other_holder(by_library, by_function):
    """Whether a holder's key is unknown, and a function is not asked for it, since the header is not read or not taken.
    """
    return by_library == "refused 27 holderKeyUnknown" and by_function in (
        "refused 28 bindingHeader",
        "refused 29 bindingAlg",
    )


@pytest.fixture
def verified(monkeypatch):
    """What vectors verify: a list that grows."""
    found, verify = [], sdjwt.verify

    def keeping(policy, token, now, **more):
        found.append((policy, token, now))
        return verify(policy, token, now, **more)

    monkeypatch.setattr(sdjwt, "verify", keeping)
    return found


@pytest.mark.parametrize("path", sorted(VECTORS.glob("*.json")), ids=lambda path: path.stem)
def test_the_same_verdicts(path, verified):
    for vector in json.loads(path.read_text(encoding="utf-8")):
        verified.clear()
        test_vectors.left_by(vector)
        for policy, token, now in verified:
            try:
                by_library, by_function = judge(policy, token, now)
            except sdjwt.Unreadable:
                continue
            assert by_function == by_library or is_other_holder(by_library, by_function), vector["name"]

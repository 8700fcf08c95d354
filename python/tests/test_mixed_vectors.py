"""The vectors that verify, with a public key beside the shared ones of each policy: the same verdicts.

So the library asks of each signature, and the HMAC is checked in Python, under the key that its own rule picks.
"""
import json

import pytest
import test_vectors
from signing import KNOWN, verdict
from test_judged_vectors import is_other_holder, verified  # noqa: F401
from test_vectors import VECTORS

import sdjwt

pytest.importorskip("cryptography")
from public import Key  # noqa: E402

# No token of a vector is signed by this algorithm.
ALG = "ES512"
PUBLIC = Key(ALG).jwk(kid="public")


def beside_public(holder):
    """What has a key set, with a public key in front of the others."""
    return {**holder, "keys": {"keys": [PUBLIC, *holder["keys"]["keys"]]}}


def mixed(policy):
    """The policy with a public key in each set, and with the algorithm of holders that it has without."""
    also = {**beside_public(policy), "algs": [*policy.get("algs", ["HS256"]), ALG]}
    if "binding" in policy:
        also["binding"] = {**beside_public(policy["binding"]), "algs": ["HS256"]}
    return also


def is_listed_unknown(policy, by_library, found):
    """Whether a list has the name of an algorithm that the library does not know, so that a key is looked for, and none
    is found.
    """
    others = set(policy.get("algs", [])) - {*KNOWN, "none", ""}
    return bool(others) and (by_library, found) == ("refused 7 algRefused", "refused 9 issuerKeyUnknown")


def says_its_use(policy):
    """Whether a key has a member that says what it is for. Beside public keys the package reads it; the library does
    not.
    """
    return any(isinstance(key, dict) and {"alg", "use", "key_ops"} & set(key) for key in policy["keys"]["keys"])


@pytest.mark.parametrize("path", sorted(VECTORS.glob("*.json")), ids=lambda path: path.stem)
def test_the_same_verdicts(path, verified):  # noqa: F811
    for vector in json.loads(path.read_text(encoding="utf-8")):
        verified.clear()
        test_vectors.left_by(vector)
        for text, token, now in verified:
            try:
                by_library = verdict(sdjwt.Policy(text), token, now)
            except sdjwt.Unreadable:
                continue
            said = json.loads(text)
            policy = sdjwt.Policy(mixed(said))
            assert policy._asking is not None
            found = verdict(policy, token, now)
            assert (
                found == by_library
                or is_other_holder(by_library, found)
                or is_listed_unknown(said, by_library, found)
                or says_its_use(said)
            ), vector["name"]

"""Random changes of a token that is signed with ES256, each with the verdict on the same change of one signed with
HS256.

The two have the same claims, the same disclosures and the same key binding token, and differ in the first letter of
`alg`, in the signatures and in what hangs on them. What is inside of a signature is changed as well, and then it is
signed anew. The one with HS256 has the same verdict under a policy with both kinds of keys, whose HMACs are checked in
Python.
"""
import hashlib
import json
import random

import pytest

import sdjwt

pytest.importorskip("cryptography")
from public import Key  # noqa: E402
from signing import decoded, encoded, mac, verdict  # noqa: E402
from test_judged_vectors import is_other_holder  # noqa: E402

COUNT = 2000
NOW = 1_800_000_000
ISSUER, HOLDER = bytes([1]) * 32, bytes([2]) * 32
PUBLIC_ISSUER, PUBLIC_HOLDER = Key("ES256", 1), Key("ES256", 2)
CLAIMS = {
    "iss": "office",
    "exp": NOW + 60,
    "nbf": NOW - 60,
    "cnf": {"kid": "ada"},
    "name": "Ada",
    "seat": {"row": 7, "number": "B12"},
    "list": ["a", "b", {"c": [1, 2]}],
}
HIDDEN = ["/name", "/seat", "/seat/row", "/list/0", "/list/2", "/list/2/c", "/list/2/c/1"]


def oct_key(key, kid):
    return {"kty": "oct", "kid": kid, "k": encoded(key)}


def policy_of(alg, issuer, holder):
    binding = {"aud": "door", "nonce": "4711", "max_age": 600, "keys": {"keys": [holder]}}
    return {"keys": {"keys": [issuer]}, "algs": [alg], "iss": "office", "require": ["seat"], "binding": binding}


SHARED = sdjwt.Policy(policy_of("HS256", oct_key(ISSUER, "one"), oct_key(HOLDER, "ada")))
PUBLIC = sdjwt.Policy(policy_of("ES256", PUBLIC_ISSUER.jwk(kid="one"), PUBLIC_HOLDER.jwk(kid="ada")))


def with_both_kinds():
    """The policies for both algorithms in one, with the public keys in front."""
    shared, public = policy_of("HS256", oct_key(ISSUER, "one"), oct_key(HOLDER, "ada")), policy_of(
        "ES256", PUBLIC_ISSUER.jwk(kid="one"), PUBLIC_HOLDER.jwk(kid="ada")
    )
    for one, other in ((shared, public), (shared["binding"], public["binding"])):
        one["keys"]["keys"] = other["keys"]["keys"] + one["keys"]["keys"]
    return sdjwt.Policy({**shared, "algs": ["HS256", "ES256"]})


BOTH = with_both_kinds()


class Presentation:
    """What is presented: the head and the body of the JWT, the disclosures, and the head and the body of the key
    binding token.
    """

    def __init__(self, salt, claims):
        order = {
            "payload": claims,
            "hide": HIDDEN,
            "key": encoded(ISSUER),
            "kid": "one",
            "decoys": [{"at": "", "count": 2}],
        }
        jwt, *self.disclosures, _ = sdjwt.issue(order, hashlib.sha256(salt).digest()).split("~")
        head, body, _ = jwt.split(".")
        self.head, self.body = decoded(head), decoded(body)
        self.binding_head = b'{"alg":"HS256","typ":"kb+jwt"}'
        self.binding_body = json.dumps({"aud": "door", "nonce": "4711", "iat": NOW - 5, "sd_hash": "HASH"}).encode()

    def text(self, letter, sign, sign_binding, others=()):
        """The token, with this first letter of its algorithms.

        `others` are disclosures whose hash the key binding token has.
        """
        def jwt(head, body, signer):
            named = head.replace(b"HS256", letter + b"S256")
            text = f"{encoded(named)}.{encoded(body)}"
            return f"{text}.{encoded(signer(text.encode()))}"

        token = jwt(self.head, self.body, sign) + "~" + "".join(f"{text}~" for text in self.disclosures)
        hashed = token if not others else token.split("~")[0] + "~" + "".join(f"{text}~" for text in others)
        body = self.binding_body.replace(b"HASH", encoded(hashlib.sha256(hashed.encode()).digest()).encode())
        return token + jwt(self.binding_head, body, sign_binding)


def both(presentation, **more):
    """The token by HMAC, and by public keys."""
    return (
        presentation.text(
            b"H", lambda text: mac(ISSUER, "HS256", text), lambda text: mac(HOLDER, "HS256", text), **more
        ),
        presentation.text(b"E", PUBLIC_ISSUER.sign, PUBLIC_HOLDER.sign, **more),
    )


def within_a_signature(chosen, presentation):
    """Changes a byte of what is signed, or a disclosure, before it is signed."""
    name = chosen.choice(["head", "body", "binding_head", "binding_body"])
    content = bytearray(getattr(presentation, name))
    at = chosen.randrange(len(content))
    if b"HS256" in content and abs(content.index(b"HS256") + 2 - at) < 4:
        at = 0
    content[at] = chosen.choice(b'"{}[]:,0123456789azAZ~ \\') if chosen.random() < 0.8 else chosen.randrange(256)
    setattr(presentation, name, bytes(content))
    return {}


def of_disclosures(chosen, presentation):
    """Leaves out, exchanges or repeats disclosures, and signs key binding over the ones or the others."""
    before, texts = list(presentation.disclosures), presentation.disclosures
    for _ in range(chosen.choice([1, 1, 2])):
        at, other = chosen.randrange(len(texts)), chosen.randrange(len(texts))
        what = chosen.randrange(3)
        if what == 0 and len(texts) > 1:
            del texts[at]
        elif what == 1:
            texts[at], texts[other] = texts[other], texts[at]
        else:
            texts.insert(other, texts[at])
    return {"others": before} if chosen.random() < 0.3 else {}


def of_a_disclosure(chosen, presentation):
    """Changes a letter of a disclosure, or puts one of another token in its place."""
    at = chosen.randrange(len(presentation.disclosures))
    text = presentation.disclosures[at]
    letter = chosen.randrange(len(text))
    presentation.disclosures[at] = chosen.choice(
        [
            text[:letter] + chosen.choice("AQgw_-~.=") + text[letter + 1 :],
            Presentation(b"other", CLAIMS).disclosures[at],
            encoded(b'["salt","sub","x"]'),
        ]
    )
    return {}


def of_claims(chosen, presentation):
    """Says other claims."""
    other = chosen.choice(
        [
            {"iss": "other"},
            {"exp": NOW},
            {"exp": "soon"},
            {"nbf": NOW + 60},
            {"cnf": {"kid": "eve"}},
            {"cnf": {}},
            {"cnf": "ada"},
            {"exp": 2**70},
            {"list": []},
        ]
    )
    presentation.body = json.dumps({**json.loads(presentation.body), **other}).encode()
    return {}


def of_binding(chosen, presentation):
    """Says other claims of the key binding token."""
    other = chosen.choice(
        [
            {"aud": "x"},
            {"aud": ["y", "door"]},
            {"nonce": "1"},
            {"iat": NOW - 601},
            {"iat": NOW + 9},
            {"iat": "now"},
            {"sd_hash": "x"},
            {"exp": 5},
            {"nbf": "x"},
        ]
    )
    presentation.binding_body = json.dumps({**json.loads(presentation.binding_body), **other}).encode()
    return {}


def same_letter(chosen, tokens):
    """Changes a letter outside of what differs: the signatures, and `alg`."""
    texts = [token.split(".") for token in tokens]
    part = chosen.choice([0, 1, 2, 3, 4])
    at = chosen.randrange(min(len(text[part].split("~")[0]) for text in texts))
    letter = chosen.choice("AZaz09-_~.=\n")
    if part in (2, 4) or texts[0][part][at] == texts[1][part][at]:
        for text in texts:
            # of a signature one that is no letter of it
            text[part] = text[part][:at] + (letter if text[part][at] != letter else "B") + text[part][at + 1:]
    return [".".join(text) for text in texts]


def other_binding(chosen, tokens):
    """The key binding token of another token, or none."""
    name = chosen.choice(["other", "none", "twice", "the jwt"])
    bindings = [token.rsplit("~", 1)[1] for token in both(Presentation(b"other", CLAIMS))]
    return [
        token[: token.rindex("~") + 1]
        + {
            "other": binding,
            "none": "",
            "twice": token.rsplit("~", 1)[1] + "~" + binding,
            "the jwt": token.split("~")[0],
        }[name]
        for token, binding in zip(tokens, bindings)
    ]


BEFORE = [within_a_signature, of_disclosures, of_a_disclosure, of_claims, of_binding]
BEHIND = [same_letter, other_binding]


def without_position(said):
    """The verdict. The signatures have other lengths, so no form is wrong at the same byte."""
    return "refused 2 form" if isinstance(said, str) and said.startswith("refused 2 form") else said


def test_each_change_has_the_verdict_that_it_has_by_hmac():
    chosen, seen = random.Random(20261130), {}
    for number in range(COUNT):
        presentation, more = Presentation(number.to_bytes(4, "big"), CLAIMS), {}
        change = chosen.choice(BEFORE + BEHIND)
        if change in BEFORE:
            more = change(chosen, presentation)
        tokens = both(presentation, **more)
        if change in BEHIND:
            tokens = change(chosen, tokens)
        by_shared, by_public = (
            without_position(verdict(policy, token.encode(), NOW)) for policy, token in zip((SHARED, PUBLIC), tokens)
        )
        assert by_public == by_shared, (number, change.__name__, tokens[1])
        for token, due in zip(tokens, (by_shared, by_public)):
            found = without_position(verdict(BOTH, token.encode(), NOW))
            assert found == due or is_other_holder(due, found), (number, change.__name__, token)
        line = by_shared if isinstance(by_shared, str) else "accepted"
        seen[line.split(" at ")[0]] = seen.get(line.split(" at ")[0], 0) + 1
    print(seen)
    assert seen["accepted"] > 100 and len(seen) > 20, seen

"""Keys of a set that are none: passed over and told by `skipped_keys`, or the fault of a set of which no key is left.
"""
import json
import pickle
from dataclasses import FrozenInstanceError

import pytest

import sdjwt

pytest.importorskip("cryptography")
from public import ALGORITHMS, Key, bound, disclosed, signed  # noqa: E402
from signing import encoded  # noqa: E402

SECRET = encoded(bytes(range(64)))
NOW = 1_800_000_000
each = pytest.mark.parametrize

# A key that is none, and a part of the reason.
NONE = [
    (5, "not an object"),
    (None, "not an object"),
    ("key", "not an object"),
    ([], "not an object"),
    ({}, '"kty"'),
    ({"kty": 1}, '"kty"'),
    ({"kty": None, "kid": "a"}, '"kty"'),
    ({"kty": "RSA"}, "n is no base64url"),
    ({"kty": "rsa"}, "kty is not one of"),
    ({"kty": "AKP", "alg": "ML-DSA-44"}, "kty is not one of"),
    ({"kty": "EC", "crv": "secp256k1", "x": "A" * 43, "y": "A" * 43}, "crv is not one of"),
    ({"kty": "EC"}, "crv is not one of"),
    ({"kty": "EC", "crv": ["P-256"]}, "crv is not one of"),
    ({"kty": "OKP", "crv": "Ed448", "x": "A" * 76}, "crv is not Ed25519"),
    ({"kty": "OKP", "crv": "X25519", "x": "A" * 43}, "crv is not Ed25519"),
    ({**Key("ES256").jwk(), "x": "AAAA"}, "x has not just 32 bytes"),
    ({**Key("ES256").jwk(), "y": encoded(bytes(32))}, "no point of P-256"),
    ({**Key("ES384").jwk(), "kid": 7}, "kid is no text"),
    ({**Key("PS256").jwk(), "n": "AQ"}, "n has fewer than 2048 bits"),
    ({**Key("PS256").jwk(), "e": "AA"}, "no key of RSA"),
    ({"kty": "oct"}, "k is no base64url"),
    ({"kty": "oct", "k": SECRET + "="}, "k is no base64url"),
    ({"kty": "oct", "k": ""}, "k is no base64url"),
    ({"kty": "oct", "k": "A" * 42 + "B"}, "k has bits"),
    ({"kty": "oct", "k": encoded(bytes(31))}, "k has 31 bytes, and HS256 needs at least 32"),
    ({"kty": "oct", "k": encoded(bytes(40)), "alg": "HS384"}, "k has 40 bytes, and HS384 needs at least 48"),
    ({"kty": "oct", "k": SECRET, "kid": []}, "kid is no text"),
]
# A key that says itself that it checks nothing, and a part of the reason.
UNUSED = [
    ({"use": "enc"}, "its use is not sig"),
    ({"use": None}, "its use is not sig"),
    ({"key_ops": ["sign"]}, "its key_ops do not include verify"),
    ({"key_ops": None}, "its key_ops do not include verify"),
    ({"key_ops": "verify"}, "its key_ops do not include verify"),
    ({"alg": "ES384"}, "its alg does not fit its type"),
    ({"alg": None}, "its alg does not fit its type"),
    ({"alg": ["ES256"]}, "its alg does not fit its type"),
    ({"alg": "HS256"}, "its alg does not fit its type"),
]


def kid_of(jwk):
    kid = jwk.get("kid") if isinstance(jwk, dict) else None
    return kid if isinstance(kid, str) else None


def policy_of(keys, holders=None, algs=("ES256",), **more):
    policy = {"keys": {"keys": keys}, "algs": list(algs), **more}
    if holders is not None:
        policy["binding"] = {"aud": "door", "nonce": "7", "max_age": 60, "keys": {"keys": holders}, "algs": list(algs)}
    return policy


@each("bad, why", NONE, ids=lambda value: json.dumps(value)[:40] if not isinstance(value, str) else "-")
def test_a_key_that_is_none_is_passed_over_and_told(bad, why):
    good = Key("ES256", 1)
    token = signed(good, {"alg": "ES256"}, {"a": 1}) + "~"
    for keys, index in (([bad, good.jwk()], 0), ([good.jwk(), bad], 1), ([good.jwk(kid="other"), bad, good.jwk()], 1)):
        for given in (
            policy_of(keys),
            json.dumps(policy_of(keys)),
            json.dumps(policy_of(keys)).replace('"algs"', '"\\u0061lgs"'),
        ):
            policy = sdjwt.Policy(given)
            assert policy.verify(token) == sdjwt.verify(given, token) == {"a": 1}
            (skipped,) = policy.skipped_keys
            assert (skipped.where, skipped.index, skipped.kid) == ("keys", index, kid_of(bad)) and why in skipped.reason
        holders = sdjwt.Policy(policy_of([good.jwk()], keys))
        (skipped,) = holders.skipped_keys
        assert (skipped.where, skipped.index) == ("binding", index) and why in skipped.reason


@each("bad, why", NONE, ids=lambda value: json.dumps(value)[:40] if not isinstance(value, str) else "-")
def test_where_no_key_is_left_the_set_is_at_fault(bad, why):
    good = Key("ES256", 1).jwk()
    for keys, index in (
        ([bad, Key("ES384").jwk()], 0),
        ([Key("ES384").jwk(), bad], 1),
        ([{**good, "use": "enc"}, bad], 1),
    ):
        for policy, place, line in (
            (policy_of(keys), "/keys/keys/", "unreadable 1 wrong keys"),
            (policy_of([good], keys), "/binding/keys/keys/", "unreadable 1 wrong binding"),
        ):
            for call in (sdjwt.Policy, lambda given: sdjwt.verify(given, "")):
                with pytest.raises(sdjwt.Unreadable) as caught:
                    call(policy)
                assert (
                    caught.value.line == line
                    and caught.value.detail.startswith(f"at {place}{index}: ")
                    and why in caught.value.detail
                )
                assert pickle.loads(pickle.dumps(caught.value)).detail == caught.value.detail
            # a function may have the key
            policy = sdjwt.Policy(policy, check=lambda question: True)
            assert policy.skipped_keys[-1].index == index and why in policy.skipped_keys[-1].reason
    with pytest.raises(sdjwt.Unreadable) as caught:
        sdjwt.present({"keys": {"keys": [bad]}, "algs": ["ES256"]}, "")
    assert (
        caught.value.line == "unreadable 1 wrong keys"
        and caught.value.detail.startswith("at /keys/keys/0: ")
        and why in caught.value.detail
    )


@each("said, why", UNUSED, ids=repr)
def test_a_key_that_says_another_use_is_told_and_no_fault(said, why):
    key = Key("ES256")
    policy = sdjwt.Policy(policy_of([key.jwk(kid="k", **said)]))
    assert [(skipped.where, skipped.index, skipped.kid) for skipped in policy.skipped_keys] == [
        ("keys", 0, "k")
    ] and why in policy.skipped_keys[0].reason
    with pytest.raises(sdjwt.Refused) as caught:
        policy.verify(signed(key, {"alg": "ES256"}, {}) + "~")
    assert caught.value.line == "refused 9 issuerKeyUnknown"


def test_keys_that_are_taken_are_not_told():
    keys = [Key(alg).jwk() for alg in ALGORITHMS] + [{"kty": "oct", "k": SECRET}]
    for algs in (["ES256"], ["HS256", "ES256"], ["RS256"]):
        assert sdjwt.Policy(policy_of(keys, keys, algs)).skipped_keys == ()
    assert sdjwt.Policy({"keys": {"keys": keys[-1:]}}).skipped_keys == ()
    assert sdjwt.Policy({"keys": {"keys": []}}).skipped_keys == sdjwt.Policy(policy_of([], [])).skipped_keys == ()


def test_what_is_skipped_in_both_sets_stands_in_their_order():
    good, bad = Key("ES256").jwk(), {"kty": "X", "kid": "x"}
    policy = sdjwt.Policy(policy_of([bad, good, 5], [good, bad, bad]))
    assert [(skipped.where, skipped.index, skipped.kid) for skipped in policy.skipped_keys] == [
        ("keys", 0, "x"),
        ("keys", 2, None),
        ("binding", 1, "x"),
        ("binding", 2, "x"),
    ]
    first = policy.skipped_keys[0]
    assert (
        type(policy.skipped_keys) is tuple
        and isinstance(first, sdjwt.SkippedKey)
        and hash(first)
        and pickle.loads(pickle.dumps(first)) == first
    )
    with pytest.raises(FrozenInstanceError):
        first.index = 7
    with pytest.raises(AttributeError):
        policy.skipped_keys = ()


def test_where_shared_keys_are_alone_the_library_reads_over_the_others():
    shared, public = {"kty": "oct", "k": SECRET}, Key("ES256").jwk(kid="p")
    for more in (
        {},
        {"algs": ["HS256"]},
        {"binding": {"aud": "door", "nonce": "7", "max_age": 60, "keys": {"keys": [public, shared]}}},
    ):
        policy = sdjwt.Policy({"keys": {"keys": [public, shared, {"kty": "X"}]}, **more})
        assert policy._asking is None
        told = [(skipped.where, skipped.index, skipped.kid) for skipped in policy.skipped_keys]
        assert told == [("keys", 0, "p"), ("keys", 2, None), *([("binding", 0, "p")] if "binding" in more else [])]
        assert all("not oct" in skipped.reason for skipped in policy.skipped_keys)
    # and a shared key that is none is a fault, as for the program
    for bad in ({"kty": "oct", "k": "AAAA"}, {"kty": "oct"}, {}):
        with pytest.raises(sdjwt.Unreadable) as caught:
            sdjwt.Policy({"keys": {"keys": [shared, bad]}})
        assert caught.value.line == "unreadable 1 wrong keys" and caught.value.detail


def test_many_keys_that_are_none():
    with pytest.raises(sdjwt.Unreadable) as caught:
        sdjwt.Policy(policy_of([{"kty": f"type {number}", "kid": SECRET} for number in range(1000)]))
    assert (
        "at /keys/keys/0: " in caught.value.detail
        and "at /keys/keys/7: " in caught.value.detail
        and caught.value.detail.endswith("; and 992 more")
    )
    assert SECRET not in caught.value.detail and "type 1" not in caught.value.detail


def test_no_value_of_a_key_is_told():
    for bad in (
        {"kty": "oct", "k": SECRET + "="},
        {"kty": SECRET},
        {"kty": "EC", "crv": SECRET},
        {"kty": "EC", "crv": "P-256", "x": SECRET, "y": SECRET},
        {"kty": "RSA", "alg": SECRET},
    ):
        policy = sdjwt.Policy(policy_of([bad, Key("ES256").jwk()]))
        assert SECRET[:9] not in repr(policy.skipped_keys)


@each(
    "policy, reason, said",
    [
        (
            '{"keys": {"keys": []}, "algs": ["ES256"],\n "skew": 1.5, "binding": {"algs": []}}',
            "notWhole",
            "line 2, column 10",
        ),
        ('{"keys": {"keys": [{"kty": "EC", "kid": 1e2}]},\n "algs": ["ES256"]}', "notWhole", "line 1, column 41"),
        ('{"keys": {"keys": [{"kty": "EC", "kid": "\\ud800"}]},\n "algs": ["ES256"]}', "notJson", "line 1, column 42"),
        ('{"keys": {"keys": [1]}, "algs": ["ES256"], "skew": 1, "skew": 3601}', "wrong skew", "/skew"),
        ('{"keys": {"keys": [1]}, "algs": ["ES256"], "other": 1}', "unknown", '"other"'),
        ('{"keys": {"keys": 1}, "algs": ["ES256"], "binding": {"algs": []}}', "wrong keys", "at /keys: "),
        ('{"algs": ["ES256"], "binding": {"algs": []}}', "missing keys", '"keys" has to be one'),
    ],
    ids=str,
)
def test_the_library_judges_the_rest_of_the_file_as_it_stands(policy, reason, said):
    for check in (None, lambda question: True):
        with pytest.raises(sdjwt.Unreadable) as caught:
            sdjwt.Policy(policy, check=check)
        assert caught.value.reason == reason and said in caught.value.detail


# ---- points of Ed25519 of small order

P = 2**255 - 19
D = -121665 * pow(121666, -1, P) % P


def add(one, two):
    """The sum of two points of the curve of Ed25519 (RFC 8032 section 5.1.4)."""
    (x, y), (u, v) = one, two
    both = D * x * u * y * v % P
    return (x * v + u * y) * pow(1 + both, -1, P) % P, (y * v + x * u) * pow(1 - both, -1, P) % P


def root(square):
    found = pow(square, (P + 3) // 8, P)
    return next((root for root in (found, found * pow(2, (P - 1) // 4, P) % P) if root * root % P == square % P), None)


def points():
    """All points whose eightfold is the neutral one: the torsion of the curve."""
    found = {(0, 1), (0, P - 1)}
    for y_square in (0, *((sign * root(1 + D) - 1) * pow(D, -1, P) % P for sign in (1, -1))):
        y = root(y_square)
        for y in ([] if y is None else [y, P - y]):
            x = root((y * y - 1) * pow(D * y * y + 1, -1, P) % P)
            found |= set() if x is None else {(x % P, y % P), (P - x, y % P)}
    return found


def encodings():
    """Each text of 32 bytes that some decoder takes for such a point: also with a y that is not reduced, and with the
    other sign.
    """
    for _, y in sorted(points()):
        for written in (y, y + P):
            for sign in (0, 1) if written < 2**255 else ():
                yield (written | sign << 255).to_bytes(32, "little")


SMALL = sorted(set(encodings()))


def test_the_torsion_has_eight_points_and_fourteen_encodings():
    eight = points()
    assert len(eight) == 8 and len(SMALL) == 14
    for point in eight:
        doubled = add(point, point)
        for _ in range(2):
            doubled = add(doubled, doubled)
        assert doubled == (0, 1) and all(add(point, other) in eight for other in eight)


@each("x", SMALL, ids=bytes.hex)
def test_a_point_of_small_order_is_no_key(x):
    jwk, good = {"kty": "OKP", "crv": "Ed25519", "x": encoded(x)}, Key("EdDSA")
    # a signature that is good under such a key without any secret: R is the neutral point, s is 0
    forged = (
        signed(good, {"alg": "EdDSA"}, {"a": 1}).rsplit(".", 1)[0]
        + "."
        + encoded((1).to_bytes(32, "little") + bytes(32))
        + "~"
    )
    policy = sdjwt.Policy(policy_of([jwk, good.jwk(kid="other")], algs=["EdDSA", "Ed25519"]))
    assert [skipped.index for skipped in policy.skipped_keys] == [0] and "small order" in policy.skipped_keys[0].reason
    with pytest.raises(sdjwt.Refused) as caught:
        policy.verify(forged)
    assert caught.value.line == "refused 10 badSignature"
    with pytest.raises(sdjwt.Unreadable):
        sdjwt.Policy(policy_of([jwk], algs=["EdDSA"]))
    # nor is it one of a holder
    token = disclosed(lambda payload: signed(good, {"alg": "EdDSA"}, payload), {"cnf": {"jwk": jwk}})
    shown = (
        bound(token, good, {"alg": "EdDSA", "typ": "kb+jwt"}, {"aud": "door", "nonce": "7", "iat": NOW}).rsplit(".", 1)[
            0
        ]
        + "."
        + forged.rsplit(".", 1)[1][:-1]
    )
    with pytest.raises(sdjwt.Refused) as caught:
        sdjwt.verify(policy_of([good.jwk()], [], algs=["EdDSA"]), shown, NOW)
    assert caught.value.line == "refused 27 holderKeyUnknown"


def test_a_point_that_is_written_as_none_is_no_key():
    for y in range(P + 2, 2**255):
        for sign in (0, 1):
            policy = sdjwt.Policy(
                policy_of(
                    [
                        {"kty": "OKP", "crv": "Ed25519", "x": encoded((y | sign << 255).to_bytes(32, "little"))},
                        Key("EdDSA").jwk(),
                    ],
                    algs=["EdDSA"],
                )
            )
            assert [skipped.index for skipped in policy.skipped_keys] == [0] and "RFC 8032" in policy.skipped_keys[
                0
            ].reason


def test_other_points_of_ed25519_are_keys():
    for number in range(50):
        key = Key("EdDSA", number)
        token = signed(key, {"alg": "EdDSA"}, {"a": number}) + "~"
        assert sdjwt.verify(policy_of([key.jwk()], algs=["EdDSA"]), token) == {"a": number}

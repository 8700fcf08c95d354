"""Policies with public keys: the presentation of RFC 9901, JWKs and what they say of themselves, holders, and attacks.
"""
import base64
import builtins
import hashlib
import hmac
import json
import pickle
import sys
from pathlib import Path

import pytest

import sdjwt

pytest.importorskip("cryptography")
from public import ALGORITHMS, Key, bound, disclosed, signed  # noqa: E402
from signing import encoded  # noqa: E402

RFC = Path(__file__).resolve().parent.parent.parent / "vectors/rfc9901"
PRESENTED = (RFC / "presented.txt").read_text().strip()
CLAIMS = json.loads((RFC / "claims.json").read_text())
KEYS = json.loads((RFC / "issuer_keys.json").read_text())
MADE = 1_748_537_244
POLICY = {
    "version": 2,
    "keys": KEYS,
    "algs": ["ES256"],
    "typ": "example+sd-jwt",
    "binding": {"aud": ["https://verifier.example.org"], "nonce": "1234567890", "max_age": 300, "keys": {"keys": []}},
}
each = pytest.mark.parametrize


def refusal(policy, token, now=None, **more):
    """The line by which a token is refused."""
    with pytest.raises(sdjwt.Refused) as caught:
        sdjwt.Policy(policy, **more).verify(token, now)
    return caught.value.line


# ---- RFC 9901

def test_the_presentation_of_the_rfc_gives_its_claims():
    assert sdjwt.Policy(POLICY).verify(PRESENTED, MADE) == sdjwt.verify(POLICY, PRESENTED, MADE) == CLAIMS
    for given in (json.dumps(POLICY), json.dumps(POLICY).encode()):
        assert sdjwt.Policy(given).verify(PRESENTED.encode(), MADE) == sdjwt.verify(given, PRESENTED, MADE) == CLAIMS
    for form in ("flat", "general"):
        assert sdjwt.Policy(POLICY).verify(sdjwt.convert(form, PRESENTED), MADE) == CLAIMS


def test_the_issued_token_of_the_rfc():
    unbound = {name: value for name, value in POLICY.items() if name != "binding"}
    claims = sdjwt.Policy(unbound).verify((RFC / "issued.txt").read_text())
    assert {**claims, **{name: CLAIMS[name] for name in ("nationalities",)}} == {
        **CLAIMS, "email": "johndoe@example.com", "phone_number": "+1-202-555-0101", "phone_number_verified": True,
        "birthdate": "1940-01-01", "updated_at": 1570000000}


def kinds():
    """Of each letter of the presentation the kind of part that it stands in, or that it divides two of them."""
    jwt, *disclosures, binding = PRESENTED.split("~")
    for name, text in (("issuer", jwt), *(("disclosure", text) for text in disclosures), ("binding", binding)):
        for number, part in enumerate(text.split(".")):
            yield from [(name, number)] * len(part)
            yield "divides"


# The conditions that a change of one letter breaks, by where it stands.
BROKEN = {("issuer", 0): {5, 7, 8}, ("issuer", 1): {10}, ("issuer", 2): {10}, ("disclosure", 0): {13, 17},
          ("binding", 0): {28, 29, 30}, ("binding", 1): {30}, ("binding", 2): {30}, "divides": {2, 10, 13, 28}}


def test_one_letter_changed_anywhere_is_refused_by_the_condition_that_it_breaks():
    policy = sdjwt.Policy(POLICY)
    for at, (letter, kind) in enumerate(zip(PRESENTED, kinds())):
        changed = PRESENTED[:at] + ("A" if letter != "A" else "B") + PRESENTED[at + 1:]
        with pytest.raises(sdjwt.Refused) as caught:
            policy.verify(changed, MADE)
        assert caught.value.number in BROKEN[kind], (at, caught.value.line)


@each(
    "part",
    [{"keys": {"keys": []}}, {"keys": {"keys": [{**KEYS["keys"][0], "kid": "no key of the RFC", "use": "enc"}]}}],
)
def test_without_the_key_of_the_rfc(part):
    assert refusal({**POLICY, **part}, PRESENTED, MADE) in ("refused 7 algRefused", "refused 9 issuerKeyUnknown")


def test_moments_and_wishes_are_judged_as_ever():
    assert refusal(POLICY, PRESENTED, MADE + 301) == "refused 33 bindingStale"
    assert refusal({**POLICY, "require": ["email"]}, PRESENTED, MADE) == "refused 23 claimMissing at 0"
    assert (
        refusal({**POLICY, "binding": {**POLICY["binding"], "nonce": "1"}}, PRESENTED, MADE)
        == "refused 35 nonceDiffers"
    )
    assert refusal({**POLICY, "typ": "another"}, PRESENTED, MADE) == "refused 8 typeRefused"


# ---- keys

@each("alg", ALGORITHMS)
def test_each_algorithm(alg):
    key = Key(alg)
    token = disclosed(lambda payload: signed(key, {"alg": alg, "kid": "a"}, payload), {"iss": "office"}, seat="B12")
    policy = {"keys": {"keys": [key.jwk(kid="b", use="enc"), key.jwk(kid="a")]}, "algs": [alg]}
    assert sdjwt.Policy(policy).verify(token) == {"iss": "office", "seat": "B12"}
    other = {**policy, "keys": {"keys": [Key(alg, 1).jwk(kid="a")]}}
    assert refusal(other, token) == "refused 10 badSignature"
    for algs in (["ES256K"], [name for name in ALGORITHMS if name != alg]):
        assert refusal({**policy, "algs": algs}, token) == "refused 7 algRefused"


@each("alg", ALGORITHMS)
def test_a_signature_of_another_length_is_bad(alg):
    key = Key(alg)
    jwt = signed(key, {"alg": alg}, {"a": 1})
    text, signature = jwt.rsplit(".", 1)
    content = base64.urlsafe_b64decode(signature + "==")
    policy = sdjwt.Policy({"keys": {"keys": [key.jwk()]}, "algs": [alg]})
    assert policy.verify(jwt + "~") == {"a": 1}
    half = len(content) // 2
    for other in (
        content[:-1],
        content + b"\0",
        b"\0" + content,
        b"\0",
        bytes(len(content)),
        content[half:] + content[:half],
        b"\xff" * len(content),
        content[:half] + b"\0" + content[half:],
    ):
        with pytest.raises(sdjwt.Refused) as caught:
            policy.verify(f"{text}.{encoded(other)}~")
        assert caught.value.name == "badSignature"


def test_a_signature_in_der_is_none():
    key = Key("ES256")
    text = signed(key, {"alg": "ES256"}, {"a": 1}).rsplit(".", 1)[0]
    token = f"{text}.{encoded(key.der(text.encode()))}~"
    assert refusal({"keys": {"keys": [key.jwk()]}, "algs": ["ES256"]}, token) == "refused 10 badSignature"


@each(
    "said",
    [
        {"alg": "ES384"},
        {"alg": "HS256"},
        {"alg": ""},
        {"alg": None},
        {"alg": ["ES256"]},
        {"use": "enc"},
        {"use": None},
        {"use": ["sig"]},
        {"key_ops": ["sign"]},
        {"key_ops": []},
        {"key_ops": "verify"},
        {"key_ops": None},
        {"kid": "other"},
        {"crv": "secp256k1"},
        {"crv": ["P-256"]},
        {"kty": "EC2"},
    ],
    ids=repr,
)
def test_a_key_that_says_another_use_is_not_taken(said):
    key = Key("ES256")
    token = signed(key, {"alg": "ES256", "kid": "a"}, {"a": 1}) + "~"
    policy = {"keys": {"keys": [{**key.jwk(kid="a"), **said}]}, "algs": ["ES256"]}
    if said.keys() <= {"crv", "kty"}:
        # of a type that is not known, and no other key is left
        with pytest.raises(sdjwt.Unreadable) as caught:
            sdjwt.Policy(policy)
        assert caught.value.line == "unreadable 1 wrong keys" and caught.value.detail.startswith(
            f"at /keys/keys/0: its {list(said)[0]} is not one of "
        )
        policy["keys"]["keys"].append(key.jwk(kid="b"))
    assert refusal(policy, token) == "refused 9 issuerKeyUnknown"
    second = {
        **policy,
        "keys": {
            "keys": [*policy["keys"]["keys"], key.jwk(kid="a", alg="ES256", use="sig", key_ops=["sign", "verify"])]
        },
    }
    assert sdjwt.Policy(second).verify(token) == {"a": 1}


def test_the_first_key_of_the_name_is_taken_and_of_no_name_the_first():
    one, two = Key("ES256"), Key("ES256", 1)
    policy = {"keys": {"keys": [one.jwk(kid="a"), two.jwk(kid="b"), two.jwk(kid="a")]}, "algs": ["ES256"]}
    for key, kid, line in (
        (one, "a", None),
        (two, "b", None),
        (one, None, None),
        (two, "a", "badSignature"),
        (two, None, "badSignature"),
        (one, "c", "issuerKeyUnknown"),
    ):
        header = {"alg": "ES256"} if kid is None else {"alg": "ES256", "kid": kid}
        token = signed(key, header, {"a": 1}) + "~"
        if line is None:
            assert sdjwt.Policy(policy).verify(token) == {"a": 1}
        else:
            assert refusal(policy, token).endswith(line)


@each(
    "alg, said, why",
    [
        ("ES256", {"x": "AAAA"}, "x has not just 32 bytes"),
        ("ES256", {"y": encoded(bytes(32))}, "no point of P-256"),
        ("ES256", {"x": 1}, "x is no base64url"),
        ("ES256", {"x": None}, "x is no base64url"),
        ("ES256", {"x": "A" * 44}, "x has"),
        ("ES256", {"x": "A" * 42 + "B"}, "x has bits"),
        ("ES256", {"x": "="}, "x is no base64url"),
        ("ES256", {"kid": 1}, "kid is no text"),
        ("ES512", {"x": encoded(bytes(65))}, "x has not just 66 bytes"),
        ("EdDSA", {"x": encoded(bytes(31))}, "x has not just 32 bytes"),
        ("PS256", {"n": "AQ"}, "n has fewer than 2048 bits"),
        ("RS256", {"e": ""}, "e is no base64url"),
        ("RS256", {"e": "AA"}, "no key of RSA"),
        ("RS256", {"n": encoded(b"\x80" + bytes(200))}, "n has fewer"),
    ],
)
def test_a_key_that_is_none_is_told_at_once_with_its_place(alg, said, why):
    bad = {"keys": {"keys": [Key("ES384").jwk(), {**Key(alg).jwk(), **said}]}}
    with pytest.raises(sdjwt.Unreadable) as caught:
        sdjwt.Policy({**bad, "algs": [alg]})
    assert caught.value.line == "unreadable 1 wrong keys"
    assert caught.value.detail.startswith("at /keys/keys/1: ") and why in caught.value.detail
    binding = {"aud": "door", "nonce": "1", "max_age": 60, **bad}
    with pytest.raises(sdjwt.Unreadable) as caught:
        sdjwt.Policy({"keys": {"keys": [Key("ES256").jwk()]}, "algs": ["ES256"], "binding": binding})
    assert caught.value.line == "unreadable 1 wrong binding" and caught.value.detail.startswith(
        "at /binding/keys/keys/1: "
    )
    # where no algorithm of it is taken it is read over, as it always was
    sdjwt.Policy({**bad, "algs": ["HS256"]})
    sdjwt.Policy(bad)


@each(
    "policy",
    [
        {"algs": ["ES256"]},
        {"keys": KEYS, "algs": ["ES256"], "skew": -1},
        {"keys": KEYS, "algs": ["ES256"], "other": 1},
        {"keys": KEYS, "algs": ["ES256"], "binding": {}},
        {"keys": KEYS, "algs": ["ES256"], "binding": []},
        {"keys": KEYS, "algs": ["ES256", 1]},
        {"keys": KEYS, "algs": ["ES256"], "binding": {**POLICY["binding"], "algs": ["ES256"], "other": 1}},
        {**POLICY, "binding": {**POLICY["binding"], "algs": "ES256"}},
        {**POLICY, "binding": {**POLICY["binding"], "algs": [1]}},
        {**POLICY, "binding": {**POLICY["binding"], "algs": None}},
        '{"keys": {"keys": []}, "algs": ["ES256"]',
        b'\xff{"algs"',
        '{"algs": ' + "[" * 2000,
    ],
    ids=lambda policy: str(policy)[:40],
)
def test_a_policy_that_is_none_is_told_at_once(policy):
    for check in (None, lambda question: True):
        with pytest.raises((sdjwt.Unreadable, ValueError)):
            sdjwt.Policy(policy, check=check)


@each("number", ["-0", "1e2", "1.0", "18446744073709551616"])
def test_numbers_are_judged_by_the_library_as_they_stand(number):
    policy = json.dumps({**POLICY, "binding": {**POLICY["binding"], "algs": ["ES256"]}, "skew": 7}).replace(
        '"skew": 7', f'"skew": {number}'
    )
    with pytest.raises(sdjwt.Unreadable) as caught:
        sdjwt.Policy(policy)
    assert caught.value.line == "unreadable 1 notWhole"


# ---- holders

def holding(confirmed, key, header=None, alg="ES256", **claims):
    """A token with a claim `cnf`, and a key binding token for the door."""
    issuer = Key("EdDSA", 5)
    token = disclosed(lambda payload: signed(issuer, {"alg": "EdDSA"}, payload), {"cnf": confirmed}, seat="B12")
    policy = {
        "keys": {"keys": [issuer.jwk()]},
        "algs": ["EdDSA"],
        "binding": {
            "aud": "door",
            "nonce": "7",
            "max_age": 60,
            "keys": {"keys": []},
            "algs": ["ES256", "ES384", "PS256"],
        },
    }
    return policy, bound(
        token,
        key,
        {"alg": alg, "typ": "kb+jwt", **(header or {})},
        {"aud": "door", "nonce": "7", "iat": 1000, **claims},
    )


def test_the_key_of_a_holder_is_in_the_token():
    for alg in ("ES256", "ES384", "PS256"):
        key = Key(alg, 1)
        policy, token = holding({"jwk": key.jwk()}, key, alg=alg)
        assert sdjwt.Policy(policy).verify(token, 1010) == {"cnf": {"jwk": key.jwk()}, "seat": "B12"}
        policy, token = holding({"jwk": key.jwk()}, Key(alg, 2), alg=alg)
        assert refusal(policy, token, 1010) == "refused 30 bindingSignature"


def test_the_key_of_a_holder_is_named():
    key = Key("ES256", 1)
    policy, token = holding({"kid": "ada"}, key)
    policy["binding"]["keys"]["keys"] = [
        Key("ES256", 2).jwk(kid="eve"),
        Key("ES384").jwk(kid="ada"),
        key.jwk(kid="ada"),
    ]
    assert sdjwt.Policy(policy).verify(token, 1010) == {"cnf": {"kid": "ada"}, "seat": "B12"}
    policy["binding"]["keys"]["keys"] = [Key("ES256", 2).jwk(kid="eve"), key.jwk()]
    assert refusal(policy, token, 1010) == "refused 27 holderKeyUnknown"


@each(
    "confirmed",
    [
        1,
        None,
        {},
        {"jwk": 1},
        {"jwk": {}},
        {"kid": 1},
        {"x5t#S256": "a"},
        {"jwk": {"kty": "oct", "k": "A" * 43}},
        {"jwk": {"kty": "EC", "crv": "P-256"}},
        {"jwk": {**Key("ES256", 1).jwk(), "use": "enc"}},
        {"jwk": Key("ES384").jwk()},
        {"jwk": {**Key("ES256", 1).jwk(), "y": encoded(bytes(32))}},
    ],
    ids=repr,
)
def test_a_holder_without_a_key(confirmed):
    policy, token = holding(confirmed, Key("ES256", 1))
    policy["binding"]["keys"]["keys"] = [Key("ES256", 1).jwk()]
    assert refusal(policy, token, 1010) == "refused 27 holderKeyUnknown"


def test_algorithms_of_holders():
    key = Key("ES256", 1)
    policy, token = holding({"jwk": key.jwk()}, key)
    for algs, line in (
        (["ES256"], None),
        (["ES384"], "refused 29 bindingAlg"),
        ([], "refused 29 bindingAlg"),
        (["none", "HS256"], "refused 29 bindingAlg"),
    ):
        policy["binding"]["algs"] = algs
        if line is None:
            assert sdjwt.Policy(policy).verify(token, 1010)["seat"] == "B12"
        else:
            assert refusal(policy, token, 1010) == line
    del policy["binding"]["algs"]
    assert refusal(policy, token, 1010) == "refused 29 bindingAlg"
    assert sdjwt.Policy({**policy, "algs": ["EdDSA", "ES256"]}).verify(token, 1010)["seat"] == "B12"


# ---- both kinds of keys

def test_keys_of_both_kinds_in_one_policy():
    shared = {"kty": "oct", "kid": "s", "k": encoded(bytes(range(40)))}
    public = Key("ES256")
    policy = sdjwt.Policy({"keys": {"keys": [shared, public.jwk(kid="p")]}, "algs": ["ES256", "HS256"]})
    assert policy.verify(sdjwt.issue({"payload": {"a": 1}, "key": shared["k"], "kid": "s"})) == {"a": 1}
    assert policy.verify(signed(public, {"alg": "ES256", "kid": "p"}, {"a": 2}) + "~") == {"a": 2}
    for token, name in (
        (sdjwt.issue({"payload": {}, "key": encoded(bytes(40)), "kid": "s"}), "badSignature"),
        (sdjwt.issue({"payload": {}, "key": shared["k"], "kid": "p"}), "issuerKeyUnknown"),
        (signed(Key("ES384"), {"alg": "ES384"}, {}) + "~", "algRefused"),
        ("a.b.c~", "headerUnreadable"),
    ):
        with pytest.raises(sdjwt.Refused) as caught:
            policy.verify(token)
        assert caught.value.name == name


def test_shared_keys_alone_go_the_way_of_the_library():
    shared = {"kty": "oct", "k": encoded(bytes(range(40)))}
    policy = sdjwt.Policy({"keys": {"keys": [shared]}, "algs": ["ES256", "HS256"]})
    assert policy._asking is None and policy.verify(sdjwt.issue({"payload": {"a": 1}, "key": shared["k"]})) == {"a": 1}
    assert sdjwt.Policy({"keys": {"keys": [shared, Key("ES256").jwk()]}})._asking is None
    bound = {"keys": {"keys": [shared]}, "algs": ["HS256"], "binding": {**POLICY["binding"], "aud": "door"}}
    assert sdjwt.Policy(bound)._asking is None
    # holders who have a list of their own may have public keys, so they are not alone
    bound["binding"] = {**bound["binding"], "algs": ["ES256"]}
    assert sdjwt.Policy(bound)._asking is not None


# ---- attacks

def hs256(secret, header, payload):
    """A JWT that is signed by HMAC with any text as the secret."""
    text = f"{encoded(json.dumps(header).encode())}.{encoded(json.dumps(payload).encode())}"
    return f"{text}.{encoded(hmac.new(secret, text.encode(), hashlib.sha256).digest())}"


@each("alg", ["ES256", "EdDSA", "RS256"])
def test_a_public_key_is_no_shared_one(alg):
    key = Key(alg)
    secrets = [
        key.pem(),
        key.pem().strip(),
        json.dumps(key.jwk()).encode(),
        base64.urlsafe_b64decode(key.jwk().get("x", key.jwk().get("n")) + "=="),
    ]
    for algs in ([alg], [alg, "HS256"], [alg, "HS256", "HS384", "none", ""]):
        for secret in secrets:
            assert refusal(
                {"keys": {"keys": [key.jwk()]}, "algs": algs}, hs256(secret, {"alg": "HS256"}, {"a": 1}) + "~"
            ) in ("refused 7 algRefused", "refused 9 issuerKeyUnknown")
            with pytest.raises(sdjwt.Refused):
                sdjwt.verify(
                    {"keys": {"keys": [key.jwk()]}, "algs": algs},
                    hs256(secret, {"alg": "HS256"}, {"a": 1}) + "~",
                    check=lambda question: True,
                )


@each("alg", ["none", "None", "NONE", "", "HS256", "hs256", "ES256K", "es256", "RS256", "ES256 ", "Ed25519"])
def test_no_other_algorithm_under_the_key_of_the_policy(alg):
    key = Key("ES256")
    policy = {"keys": {"keys": [key.jwk()]}, "algs": ["ES256", "none", "", "HS256"]}
    for signature in ("", "AA", None):
        jwt = signed(key, {"alg": alg}, {"a": 1})
        token = jwt if signature is None else f"{jwt.rsplit('.', 1)[0]}.{signature}"
        assert refusal(policy, token + "~").split()[1] in ("2", "7", "9")


def test_a_key_in_the_header_is_not_taken():
    evil = Key("ES256", 9)
    policy = {"keys": {"keys": [Key("ES256").jwk(kid="a")]}, "algs": ["ES256"]}
    for header, name in (
        ({"jwk": evil.jwk()}, "badSignature"),
        ({"jwk": evil.jwk(), "kid": "b"}, "issuerKeyUnknown"),
        ({"jku": "https://evil.example/keys", "kid": "b"}, "issuerKeyUnknown"),
        ({"x5c": ["MIIB"], "kid": "a"}, "badSignature"),
        ({"x5u": "https://evil.example/x"}, "badSignature"),
        ({"crit": ["jwk"], "jwk": evil.jwk()}, "headerCritical"),
    ):
        token = signed(evil, {"alg": "ES256", **header}, {"a": 1}) + "~"
        assert refusal(policy, token).endswith(name)
    policy, token = holding({"jwk": Key("ES256", 1).jwk()}, evil, {"jwk": evil.jwk()})
    assert refusal(policy, token, 1010) == "refused 30 bindingSignature"


def test_the_key_of_a_holder_is_that_of_the_processed_payload():
    key, evil = Key("ES256", 1), Key("ES256", 9)
    policy, token = holding({"jwk": key.jwk()}, evil, {"kid": "ada"})
    policy["binding"]["keys"]["keys"] = [evil.jwk(kid="ada")]
    assert refusal(policy, token, 1010) == "refused 30 bindingSignature"
    # a claim with such a name elsewhere is no key
    policy, token = holding({"other": {"jwk": evil.jwk()}}, evil)
    assert refusal(policy, token, 1010) == "refused 27 holderKeyUnknown"


# ---- a function of the caller

def test_a_function_is_asked_where_no_key_is_here():
    asked = []

    def check(question):
        asked.append(question)
        return {"good": True, "bad": False}.get(question.kid)

    key = Key("ES256")
    policy = sdjwt.Policy({"keys": {"keys": [key.jwk(kid="a")]}, "algs": ["ES256", "of an HSM"]}, check=check)
    assert policy.verify(signed(key, {"alg": "ES256", "kid": "a"}, {"a": 1}) + "~") == {"a": 1} and not asked
    jwt = signed(key, {"alg": "of an HSM", "kid": "good", "typ": "t"}, {"a": 1})
    assert policy.verify(jwt + "~") == {"a": 1}
    text, signature = jwt.rsplit(".", 1)
    assert asked == [
        sdjwt.Question(
            "issuer", "of an HSM", "good", "t", text.encode(), base64.urlsafe_b64decode(signature + "=="), None
        )
    ]
    for kid, name in (("bad", "badSignature"), ("other", "issuerKeyUnknown")):
        with pytest.raises(sdjwt.Refused) as caught:
            policy.verify(signed(key, {"alg": "of an HSM", "kid": kid}, {"a": 1}) + "~")
        assert caught.value.name == name
    assert sdjwt.verify(
        {"keys": {"keys": []}, "algs": ["x"]}, signed(key, {"alg": "x"}, {"a": 1}) + "~", check=lambda question: True
    ) == {"a": 1}


def test_a_function_is_asked_about_holders():
    asked = []
    policy, token = holding({"did": "did:example:1"}, Key("ES256", 1), {"kid": "k"})
    for answer, line in ((True, None), (False, "refused 30 bindingSignature"), (None, "refused 27 holderKeyUnknown")):
        read = sdjwt.Policy(policy, check=lambda question, answer=answer: asked.append(question) or answer)
        if line is None:
            assert read.verify(token, 1010)["seat"] == "B12"
        else:
            with pytest.raises(sdjwt.Refused) as caught:
                read.verify(token, 1010)
            assert caught.value.line == line
    assert {
        (question.asks, question.alg, question.kid, question.typ, question.payload["seat"]) for question in asked
    } == {("holder", "ES256", "k", "kb+jwt", "B12")}


@each("answer", [1, 0, "yes", "", [], object()], ids=repr)
def test_a_function_answers_true_false_or_none(answer):
    policy = sdjwt.Policy({"keys": {"keys": []}, "algs": ["ES256"]}, check=lambda question: answer)
    with pytest.raises(TypeError) as caught:
        policy.verify(signed(Key("ES256"), {"alg": "ES256"}, {"a": 1}) + "~")
    assert "check" in str(caught.value)


def test_what_a_function_raises_is_raised_and_the_policy_stays_good():
    def check(question):
        if not said:
            raise LookupError("no way to the HSM")
        return True

    said = []
    policy = sdjwt.Policy({"keys": {"keys": []}, "algs": ["ES256"]}, check=check)
    token = signed(Key("ES256"), {"alg": "ES256"}, {"a": 1}) + "~"
    with pytest.raises(LookupError):
        policy.verify(token)
    said.append(1)
    assert policy.verify(token) == {"a": 1} and len(policy._handles) == 1


@each("policy", [{"keys": KEYS}, {"keys": KEYS, "algs": ["HS256"]}, {"keys": {"keys": []}, "algs": []}])
def test_a_function_that_would_never_be_asked_is_told_at_once(policy):
    with pytest.raises(ValueError) as caught:
        sdjwt.Policy(policy, check=lambda question: True)
    assert "check" in str(caught.value)


@each("check", [1, "f", object(), True], ids=repr)
def test_a_check_is_a_function(check):
    with pytest.raises(TypeError) as caught:
        sdjwt.Policy(POLICY, check=check)
    assert "check" in str(caught.value)


# ---- without the package cryptography

def test_without_cryptography_a_policy_with_public_keys_is_refused_at_once(monkeypatch):
    real, anew = builtins.__import__, signed(Key("ES256"), {"alg": "ES256"}, {"a": 1}) + "~"

    def without(name, *words, **more):
        if name.split(".")[0] == "cryptography":
            raise ImportError(name)
        return real(name, *words, **more)

    monkeypatch.setattr(builtins, "__import__", without)
    for name in [name for name in sys.modules if name == "sdjwt._signatures"]:
        monkeypatch.delitem(sys.modules, name)
    monkeypatch.delattr(sdjwt, "_signatures", raising=False)
    with pytest.raises(sdjwt.NoCryptography) as caught:
        sdjwt.Policy(POLICY)
    for fault in (caught.value, pickle.loads(pickle.dumps(caught.value))):
        assert isinstance(fault, ImportError) and isinstance(fault, sdjwt.SdJwtError)
        assert fault.line.endswith(": pip install cryptography")
    shared = {"kty": "oct", "k": encoded(bytes(range(40)))}
    token = sdjwt.issue({"payload": {"a": 1}, "key": shared["k"]})
    assert sdjwt.Policy({"keys": {"keys": [shared, *KEYS["keys"]]}}).verify(token) == {"a": 1}
    assert sdjwt.Policy({"keys": {"keys": []}, "algs": ["ES256"]}, check=lambda question: True).verify(anew) == {"a": 1}

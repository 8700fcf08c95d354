"""Shared and public keys in one policy: the four mixtures of issuer and holder, and the list of the holders'
algorithms.
"""
import base64
import builtins
import sys

import pytest

import sdjwt

pytest.importorskip("cryptography")
from public import Key, bound, disclosed, signed  # noqa: E402
from signing import encoded, mac  # noqa: E402

NOW = 1_800_000_000
OFFICE, ADA = bytes(range(64)), bytes(range(64, 128))
PUBLIC_OFFICE, PUBLIC_ADA = Key("EdDSA", 5), Key("ES256", 1)
CLAIMS = {"aud": "door", "nonce": "7", "iat": NOW}
SHARED = ["HS256", "HS384", "HS512"]
each = pytest.mark.parametrize


class Shared:
    """A shared key, which signs and is written as those of `public` are."""

    def __init__(self, secret, alg):
        self.secret, self.alg = secret, alg

    def sign(self, text):
        return mac(self.secret, self.alg, text)

    def jwk(self, **said):
        return {"kty": "oct", "k": encoded(self.secret), **said}


def issuer_of(kind):
    return Shared(OFFICE, "HS512") if kind == "shared" else PUBLIC_OFFICE


def holder_of(alg):
    return Shared(ADA, alg) if alg in SHARED else PUBLIC_ADA


def presented(issuer, holder, cnf=None, **header):
    """A token with a key binding token of the holder, who is called ada or has the key that stands in the token."""
    confirmed = cnf or ({"jwk": holder.jwk()} if isinstance(holder, Key) else {"kid": "ada"})
    token = disclosed(
        lambda payload: signed(issuer, {"alg": issuer.alg, "kid": "office"}, payload), {"cnf": confirmed}, seat="B12"
    )
    return bound(token, holder, {"alg": holder.alg, "typ": "kb+jwt", **header}, CLAIMS)


def policy_of(usual, issuers, holders=(), /, **binding):
    return {"keys": {"keys": list(issuers)}, "algs": usual,
            "binding": {"aud": "door", "nonce": "7", "max_age": 60, "keys": {"keys": list(holders)}, **binding}}


# Keys of both kinds, of the issuer and of the holder.
BOTH = (
    [Shared(OFFICE, "").jwk(kid="office"), PUBLIC_OFFICE.jwk(kid="office")],
    [Shared(ADA, "").jwk(kid="ada"), PUBLIC_ADA.jwk(kid="ada")],
)


def told(policy, token, **more):
    """The seat, or the line of the refusal, by both ways to verify."""
    def line(verify):
        try:
            return verify()["seat"]
        except sdjwt.Refused as refused:
            return refused.line

    read = sdjwt.Policy(policy, **more)
    first = line(lambda: read.verify(token, NOW))
    assert (
        line(lambda: read.verify(sdjwt.convert("flat", token), NOW))
        == line(lambda: sdjwt.verify(policy, token, NOW, **more))
        == first
    )
    return first


# ---- the four mixtures

@each("issuer", ["shared", "public"])
@each("alg", [*SHARED, "ES256"])
def test_the_holder_signs_by_an_algorithm_of_the_list_and_no_other(issuer, alg):
    issuer, holder = issuer_of(issuer), holder_of(alg)
    token = presented(issuer, holder)
    others = [name for name in (*SHARED, "ES256", "ES384", "EdDSA", "none", "", "HS", "hs256") if name != alg]
    for algs, due in (
        ([alg], "B12"),
        ([*others, alg], "B12"),
        (others, "refused 29 bindingAlg"),
        (others[:1], "refused 29 bindingAlg"),
        (["EdDSA"], "refused 29 bindingAlg"),
        ([], "refused 29 bindingAlg"),
    ):
        # the list of the policy is not looked at, whether it has the algorithm or not
        for usual in ([issuer.alg], [issuer.alg, alg], [*others, issuer.alg, alg]):
            assert told(policy_of(usual, *BOTH, algs=algs), token) == due, (algs, usual)


@each("issuer", ["shared", "public"])
@each("alg", [*SHARED[:2], "ES256"])
def test_where_holders_have_no_list_it_is_that_of_the_policy(issuer, alg):
    issuer = issuer_of(issuer)
    token = presented(issuer, holder_of(alg))
    assert told(policy_of([issuer.alg, alg, "ES384"], *BOTH), token) == "B12"
    assert told(policy_of([issuer.alg, "ES384", "EdDSA"], *BOTH), token) == "refused 29 bindingAlg"


def test_what_was_told_of_policies_with_a_shared_key_in_both_sets():
    token = presented(Shared(OFFICE, "HS256"), Shared(ADA, "HS256"))
    for algs in (["ES256"], ["EdDSA"], [], ["HS384", "HS512"]):
        assert told(policy_of(["HS256", "ES256"], *BOTH, algs=algs), token) == "refused 29 bindingAlg"
    public = presented(Shared(OFFICE, "HS256"), PUBLIC_ADA)
    assert told(policy_of(["HS256", "ES256"], *BOTH, algs=["ES256"]), public) == "B12"


@each("issuer", ["shared", "public"])
@each("alg", [*SHARED, "ES256"])
def test_a_policy_has_just_the_keys_that_it_needs(issuer, alg):
    issuer, holder = issuer_of(issuer), holder_of(alg)
    sets = [issuer.jwk(kid="office")], [holder.jwk(kid="ada")] if alg in SHARED else []
    assert told(policy_of([issuer.alg], *sets, algs=[alg]), presented(issuer, holder)) == "B12"
    assert told(policy_of([issuer.alg], *sets, algs=["ES512"]), presented(issuer, holder)) == "refused 29 bindingAlg"


def test_a_signature_by_another_key_is_bad_in_each_mixture():
    for issuer, other in ((issuer_of("shared"), Shared(ADA, "HS512")), (PUBLIC_OFFICE, Key("EdDSA", 6))):
        assert told(policy_of(["HS512", "EdDSA"], *BOTH), presented(other, PUBLIC_ADA)) == "refused 10 badSignature"
        for holder, evil in ((Shared(ADA, "HS256"), Shared(OFFICE, "HS256")), (PUBLIC_ADA, Key("ES256", 9))):
            cnf = {"jwk": PUBLIC_ADA.jwk()} if holder is PUBLIC_ADA else {"kid": "ada"}
            policy = policy_of(["HS512", "EdDSA"], *BOTH, algs=["HS256", "ES256"])
            assert told(policy, presented(issuer, evil, cnf)) == "refused 30 bindingSignature"
            assert told(policy, presented(issuer, holder, {"kid": "eve"})) == "refused 27 holderKeyUnknown"


@each("alg", SHARED)
def test_a_signature_of_another_length_is_bad(alg):
    issuer = Shared(OFFICE, alg)
    text = signed(issuer, {"alg": alg}, {"seat": "B12"}).rsplit(".", 1)[0]
    whole = issuer.sign(text.encode())
    policy = sdjwt.Policy({"keys": {"keys": BOTH[0]}, "algs": [*SHARED, "EdDSA"]})
    assert policy.verify(f"{text}.{encoded(whole)}~") == {"seat": "B12"}
    for other in (
        whole[:-1],
        whole + b"\0",
        whole[:16],
        b"\0",
        bytes(len(whole)),
        whole[::-1],
        bytes([whole[0] ^ 1]) + whole[1:],
    ):
        with pytest.raises(sdjwt.Refused) as caught:
            policy.verify(f"{text}.{encoded(other)}~")
        assert caught.value.line == "refused 10 badSignature"


# ---- which key

def test_the_first_key_that_is_long_enough_and_has_the_name():
    short, long, other = (Shared(bytes([number]) * size, "HS384") for number, size in ((1, 32), (2, 48), (3, 64)))
    keys = [Key("ES384").jwk(kid="a"), short.jwk(kid="a"), long.jwk(kid="a"), other.jwk(kid="a"), other.jwk(kid="b")]
    policy = sdjwt.Policy({"keys": {"keys": keys}, "algs": ["HS256", "HS384", "ES384"]})
    shared = sdjwt.Policy({"keys": {"keys": keys[1:]}, "algs": ["HS256", "HS384"]})
    assert policy._asking is not None and shared._asking is None
    for key, alg, kid in (
        (key, alg, kid) for key in (short, long, other) for alg in ("HS256", "HS384") for kid in ("a", "b", "c", None)
    ):
        header = {"alg": alg, **({} if kid is None else {"kid": kid})}
        token = signed(Shared(key.secret, alg), header, {"seat": 1}) + "~"
        said = []
        for each_policy in (policy, shared):
            try:
                said.append(each_policy.verify(token))
            except sdjwt.Refused as refused:
                said.append(refused.line)
        assert said[0] == said[1], (alg, kid)
        first = {"HS256": short, "HS384": long}[alg] if kid in ("a", None) else other if kid == "b" else None
        assert said[0] == (
            "refused 9 issuerKeyUnknown"
            if first is None
            else {"seat": 1}
            if key is first
            else "refused 10 badSignature"
        )


@each(
    "said",
    [{"use": "enc"}, {"key_ops": ["sign"]}, {"key_ops": []}, {"alg": "HS384"}, {"alg": "ES256"}, {"alg": None}],
    ids=repr,
)
def test_a_shared_key_that_says_another_use_is_not_taken(said):
    issuer = Shared(OFFICE, "HS256")
    token = presented(issuer, Shared(ADA, "HS256"))
    for where, issuers, holders, due in (
        ("keys", {**BOTH[0][0], **said}, BOTH[1][0], "refused 9 issuerKeyUnknown"),
        ("binding", BOTH[0][0], {**BOTH[1][0], **said}, "refused 27 holderKeyUnknown"),
    ):
        policy = policy_of(["HS256", "ES256"], [issuers, BOTH[0][1]], [holders, BOTH[1][1]], algs=["HS256"])
        assert told(policy, token) == due
        # by HS384 it would be taken
        skipped = [(key.where, key.index) for key in sdjwt.Policy(policy).skipped_keys]
        assert skipped == ([] if said == {"alg": "HS384"} else [(where, 0)])
    fits = {"use": "sig", "key_ops": ["sign", "verify"], "alg": "HS256"}
    assert (
        told(
            policy_of(["HS256", "ES256"], [issuer.jwk(kid="office", **fits)], [{**BOTH[1][0], **fits}], algs=["HS256"]),
            token,
        )
        == "B12"
    )


def test_a_shared_key_serves_no_public_algorithm_and_a_public_key_no_shared_one():
    raw = base64.urlsafe_b64decode(PUBLIC_OFFICE.jwk()["x"] + "==")
    assert (
        told(
            policy_of(["HS256", "EdDSA"], [PUBLIC_OFFICE.jwk(kid="office")]),
            presented(Shared(raw, "HS256"), PUBLIC_ADA),
        )
        == "refused 9 issuerKeyUnknown"
    )
    token = presented(PUBLIC_OFFICE, Shared(raw, "HS256"), {"kid": "ada"})
    assert (
        told(policy_of(["HS256", "EdDSA"], [PUBLIC_OFFICE.jwk(kid="office")], [PUBLIC_OFFICE.jwk(kid="ada")]), token)
        == "refused 27 holderKeyUnknown"
    )
    assert (
        told(
            policy_of(["EdDSA"], [Shared(OFFICE, "").jwk(kid="office", alg="EdDSA"), Key("EdDSA", 6).jwk()]),
            presented(PUBLIC_OFFICE, PUBLIC_ADA),
        )
        == "refused 9 issuerKeyUnknown"
    )


def test_a_secret_that_stands_in_the_token_is_no_key():
    """Whoever reads the token has it."""
    for secret in (ADA, OFFICE):
        holder = Shared(secret, "HS256")
        for cnf in ({"jwk": holder.jwk()}, {"jwk": holder.jwk(kid="eve"), "kid": "eve"}):
            for issuer in (issuer_of("shared"), PUBLIC_OFFICE):
                policy = policy_of(["HS512", "EdDSA"], *BOTH, algs=["HS256", "ES256"])
                assert told(policy, presented(issuer, holder, cnf)) == "refused 27 holderKeyUnknown"
                assert (
                    told(policy, presented(issuer, holder, cnf), check=lambda question: True)
                    == "refused 27 holderKeyUnknown"
                )


def test_by_an_hmac_the_key_is_that_of_the_name_also_beside_a_public_one():
    """As the library finds it, which looks at the name alone."""
    cnf = {"jwk": PUBLIC_ADA.jwk(), "kid": "ada"}
    issuer = Shared(OFFICE, "HS256")
    alone = policy_of(["HS256"], BOTH[0][:1], BOTH[1][:1])
    mixed = policy_of(["HS256", "ES256"], *BOTH)
    for policy in (alone, mixed):
        assert told(policy, presented(issuer, Shared(ADA, "HS256"), cnf)) == "B12"
    assert told(mixed, presented(issuer, PUBLIC_ADA, cnf)) == "B12"


# ---- a function of the caller, and what else may be missing

@each("alg", [*SHARED, "HS", "HS1", "HSM"])
def test_a_function_is_asked_of_no_hmac(alg):
    """It could take a public key as the secret (RFC 8725 section 3.1)."""
    def check(question):
        asked.append(question.asks)
        return True

    asked, secret = [], PUBLIC_OFFICE.pem()
    text = signed(PUBLIC_OFFICE, {'alg': alg}, {'seat': 'B12'}).rsplit('.', 1)[0]
    forged = f"{text}.{encoded(mac(secret, 'HS256', b'text'))}~"
    policy = {"keys": {"keys": [PUBLIC_OFFICE.jwk()]}, "algs": [alg, "EdDSA"]}
    with pytest.raises(sdjwt.Refused) as caught:
        sdjwt.verify(policy, forged, check=check)
    assert caught.value.line == "refused 9 issuerKeyUnknown" and not asked
    token = presented(PUBLIC_OFFICE, PUBLIC_ADA, alg=alg)
    assert (
        told(policy_of([alg, "EdDSA"], [PUBLIC_OFFICE.jwk(kid="office")]), token, check=check)
        == "refused 27 holderKeyUnknown"
    )
    assert not asked
    with pytest.raises(ValueError):
        sdjwt.Policy({"keys": {"keys": []}, "algs": [alg]}, check=check)


def test_a_function_may_be_asked_of_holders_alone():
    asked = []
    policy = policy_of(["HS512"], BOTH[0][:1], algs=["ES256K"])
    token = presented(issuer_of("shared"), PUBLIC_ADA, {"did": "did:example:1"}, alg="ES256K")
    assert told(policy, token, check=lambda question: asked.append(question.asks) or True) == "B12"
    assert set(asked) == {"holder"}


def test_the_set_of_holders_may_be_missing_where_they_have_public_keys():
    def without_set(policy):
        return {**policy, "binding": {name: value for name, value in policy["binding"].items() if name != "keys"}}

    for issuer in ("shared", "public"):
        issuer = issuer_of(issuer)
        token = presented(issuer, PUBLIC_ADA)
        for policy in (policy_of([issuer.alg], BOTH[0], algs=["ES256"]), policy_of([issuer.alg, "ES256"], BOTH[0])):
            assert told(without_set(policy), token) == "B12"
    # where they have shared ones it is missed
    for policy in (
        policy_of(["HS512"], BOTH[0]),
        policy_of(["HS512", "EdDSA"], BOTH[0], algs=["HS256"]),
        policy_of(["HS512"], BOTH[0][:1], algs=[]),
    ):
        with pytest.raises(sdjwt.Unreadable) as caught:
            sdjwt.Policy(without_set(policy))
        assert caught.value.line == "unreadable 1 wrong binding" and '"keys" is missing' in caught.value.detail
    for wrong in ([], 5, None, {}, {"keys": 5}):
        with pytest.raises(sdjwt.Unreadable) as caught:
            sdjwt.Policy(policy_of(["HS512"], BOTH[0], algs=["ES256"], keys=wrong))
        assert caught.value.line == "unreadable 1 wrong binding" and caught.value.detail.startswith(
            "at /binding/keys: "
        )


@each("algs", ["ES256", 1, None, {}, [1], [None], ["ES256", ["HS256"]]], ids=repr)
def test_a_list_of_holders_that_is_none(algs):
    for usual in (["HS512"], ["HS512", "EdDSA"]):
        with pytest.raises(sdjwt.Unreadable) as caught:
            sdjwt.Policy(policy_of(usual, *BOTH, algs=algs))
        assert caught.value.line == "unreadable 1 wrong binding" and "/binding/algs" in caught.value.detail


def test_a_policy_of_shared_keys_alone_is_the_library_s():
    for policy in (
        policy_of(["HS256"], BOTH[0][:1], BOTH[1][:1]),
        policy_of(["HS256"], *BOTH),
        {"keys": {"keys": BOTH[0][:1]}, "algs": ["HS256", "ES256"]},
    ):
        assert sdjwt.Policy(policy)._asking is None
    # there holders sign by HS256, as in the program
    assert (
        told(policy_of(["HS512"], BOTH[0][:1], BOTH[1][:1]), presented(issuer_of("shared"), Shared(ADA, "HS256")))
        == "B12"
    )
    assert (
        told(
            policy_of(["HS512", "HS384"], BOTH[0][:1], BOTH[1][:1]),
            presented(issuer_of("shared"), Shared(ADA, "HS384")),
        )
        == "refused 29 bindingAlg"
    )


def test_without_cryptography_holders_with_public_keys_are_told_at_once(monkeypatch):
    real = builtins.__import__

    def without(name, *words, **more):
        if name.split(".")[0] == "cryptography":
            raise ImportError(name)
        return real(name, *words, **more)

    monkeypatch.setattr(builtins, "__import__", without)
    for name in [name for name in sys.modules if name == "sdjwt._signatures"]:
        monkeypatch.delitem(sys.modules, name)
    monkeypatch.delattr(sdjwt, "_signatures", raising=False)
    shared = BOTH[0][:1], BOTH[1][:1]
    for policy in (policy_of(["HS512"], *shared, algs=["ES256"]), policy_of(["HS512", "ES256"], *shared)):
        with pytest.raises(sdjwt.NoCryptography):
            sdjwt.Policy(policy)
        sdjwt.Policy(policy, check=lambda question: None)
    # an HMAC needs none
    for alg in SHARED:
        assert (
            told(policy_of(["HS512"], *shared, algs=[alg]), presented(issuer_of("shared"), Shared(ADA, alg))) == "B12"
        )

"""Tokens that are presented under public keys, with the holder's private key or a function: verified here and by
others.
"""
import json

import pytest

import sdjwt

pytest.importorskip("cryptography")
from public import ALGORITHMS, Key  # noqa: E402
from signing import decoded, encoded  # noqa: E402
from test_issuing_keys import SECRET, alg_of, mac  # noqa: E402
from test_public_peers import COMMON, PEERS  # noqa: E402

NOW = 1_800_000_000
AUD, NONCE = "https://door.example", "4711"
BINDING = {"aud": AUD, "nonce": NONCE}
each = pytest.mark.parametrize


def never(text):
    raise AssertionError("it is not asked")


def issued(issuer, holder, **more):
    """A token whose `cnf` has the holder's public key."""
    payload = {"iss": "office", "cnf": {"jwk": holder.jwk()}, "seat": "B12", "name": "Ada"}
    return sdjwt.issue({"payload": payload, "hide": ["/seat", "/name"], **more}, sign=issuer.pair, alg=alg_of(issuer))


def order_of(issuer, **more):
    return {"keys": {"keys": [issuer.jwk()]}, "algs": [issuer.alg], "want": ["/seat"], "binding": BINDING, **more}


def door_of(issuer, *algs, **more):
    binding = {**BINDING, "max_age": 60, "keys": {"keys": []}, "algs": list(algs), **more}
    return sdjwt.Policy({"keys": {"keys": [issuer.jwk()]}, "algs": [issuer.alg], "binding": binding})


def line(call, *given, **named):
    with pytest.raises(sdjwt.Refused) as caught:
        call(*given, **named)
    return caught.value.line


@each("alg", ALGORITHMS)
def test_what_is_presented_is_accepted(alg):
    issuer, holder = Key(alg), Key(alg, 1)
    token = issued(issuer, holder)
    shown = sdjwt.present(order_of(issuer), token, NOW, sign=holder.pair, alg=alg_of(holder))
    claims = {"iss": "office", "cnf": {"jwk": holder.jwk()}, "seat": "B12"}
    assert door_of(issuer, alg).verify(shown, NOW) == claims
    head, body, _ = shown.split("~")[-1].split(".")
    assert json.loads(decoded(head)) == {"alg": alg, "typ": "kb+jwt"}
    assert {**json.loads(decoded(body)), "sd_hash": 0} == {"aud": AUD, "nonce": NONCE, "iat": NOW, "sd_hash": 0}
    forged = sdjwt.present(order_of(issuer), token, NOW, sign=issuer.pair, alg=alg_of(issuer))
    assert line(door_of(issuer, alg).verify, forged, NOW) == "refused 30 bindingSignature"
    assert line(door_of(issuer, alg, nonce="4712").verify, shown, NOW) == "refused 35 nonceDiffers"


@each("issuer, holder", [("ES256", "EdDSA"), ("EdDSA", "ES384"), ("PS256", "ES256"), ("ES384", "PS256")])
def test_issuer_and_holder_may_sign_otherwise(issuer, holder):
    issuer, holder = Key(issuer), Key(holder, 1)
    shown = sdjwt.present(order_of(issuer), issued(issuer, holder), NOW, sign=holder.pair, alg=alg_of(holder))
    assert door_of(issuer, holder.alg).verify(shown, NOW)["seat"] == "B12"


@PEERS
@each("alg", COMMON)
def test_a_peer_accepts_both_jwts(peer, alg):
    issuer, holder = Key(alg), Key(alg, 1)
    shown = sdjwt.present(order_of(issuer), issued(issuer, holder), NOW, sign=holder.pair, alg=alg_of(holder))
    for key, jwt in ((issuer, shown.split("~")[0]), (holder, shown.split("~")[-1])):
        _, verify, _ = peer(key)
        assert verify(jwt, key.jwk()) == json.loads(decoded(jwt.split(".")[1]))
        with pytest.raises(Exception):
            verify(jwt, Key(alg, 2).jwk())


def test_without_a_binding_nothing_is_signed():
    issuer, holder = Key("ES256"), Key("ES256", 1)
    order = {name: value for name, value in order_of(issuer).items() if name != "binding"}
    token = issued(issuer, holder)
    for more in ({}, {"sign": never, "alg": "X1"}, {"sign": holder.pair}):
        shown = sdjwt.present(order, token, NOW, **more)
        assert sdjwt.show(shown)["binding"] is None
        assert sdjwt.Policy({"keys": order["keys"], "algs": ["ES256"]}).verify(shown)["seat"] == "B12"


def test_a_function_signs_just_the_bytes_of_the_binding():
    issuer, holder, asked = Key("ES256"), Key("ES256", 1), []
    shown = sdjwt.present(
        order_of(issuer),
        issued(issuer, holder),
        NOW,
        sign=lambda text: asked.append(text) or holder.sign(text),
        alg="ES256",
    )
    assert asked == [shown.split("~")[-1].rsplit(".", 1)[0].encode()]
    assert door_of(issuer, "ES256").verify(shown, NOW)["seat"] == "B12"


def test_a_check_may_stand_in_the_place_of_keys():
    issuer, holder, asked = Key("ES256"), Key("ES256", 1), []
    order = {name: value for name, value in order_of(issuer).items() if name != "keys"}
    token = issued(issuer, holder, kid="office-1", typ="ticket")

    def check(question):
        asked.append(question)
        return answer

    for answer, refusal in ((False, "refused 10 badSignature"), (None, "refused 9 issuerKeyUnknown")):
        assert line(sdjwt.present, order, token, NOW, check=check, sign=never, alg="X1") == refusal
    answer = True
    shown = sdjwt.present(order, token, NOW, check=check, sign=holder.pair)
    assert shown.startswith(token.split("~")[0]) and sdjwt.show(shown)["binding"] is not None
    last = asked[-1]
    head, body, signature = token.split("~")[0].split(".")
    assert (last.asks, last.alg, last.kid, last.typ, last.payload) == ("issuer", "ES256", "office-1", "ticket", None)
    assert last.text == f"{head}.{body}".encode() and last.signature == decoded(signature)
    with pytest.raises(TypeError):
        sdjwt.present(order, token, NOW, check=lambda question: 1, sign=never, alg="X1")


def test_nothing_is_signed_of_what_is_refused():
    issuer, holder = Key("ES256"), Key("ES256", 1)
    token = issued(issuer, holder)
    named = sdjwt.issue({"payload": {"cnf": {"kid": "ada"}, "seat": "B12"}, "hide": ["/seat"]}, sign=issuer.pair)
    shown = sdjwt.present(order_of(issuer), token, NOW, sign=holder.pair)
    for order, given, refusal in (
            (order_of(Key("ES256", 2)), token, "refused 10 badSignature"),
            (order_of(issuer, algs=["EdDSA"]), token, "refused 7 algRefused"),
            (order_of(issuer, keys={"keys": []}), token, "refused 9 issuerKeyUnknown"),
            (order_of(issuer, want=["/none"]), token, "refused 72 wantedNotThere at 0"),
            (order_of(issuer, never=["/seat"]), token, "refused 73 consentRefused"),
            (order_of(issuer, binding={**BINDING, "kid": "eve"}), named, "refused 74 bindingKeyDiffers"),
            (order_of(issuer), shown, "refused 71 hasBinding"),
            (order_of(issuer), "", "refused 2 form at 0")):
        assert line(sdjwt.present, order, given, NOW, sign=never, alg="ES256").startswith(refusal)
    order = order_of(issuer, binding={**BINDING, "kid": "ada"})
    assert sdjwt.show(sdjwt.present(order, named, NOW, sign=holder.pair))["binding"] is not None


def test_a_presentation_may_be_too_long_with_its_signature():
    issuer = Key("EdDSA")
    assert (
        line(sdjwt.present, order_of(issuer), issued(issuer, issuer), sign=lambda text: bytes(12_600_000), alg="X1")
        == "refused 75 presentTooLong"
    )


def test_by_an_hmac_it_is_the_presentation_that_the_library_makes():
    issuer = Key("ES256")
    text = encoded(SECRET)
    # the same claims, whoever signs them
    payload = {"cnf": {"kid": "ada"}, "seat": "B12"}
    shared = sdjwt.issue({"payload": payload, "hide": ["/seat"], "key": text}, bytes(32))
    public = sdjwt.issue({"payload": payload, "hide": ["/seat"]}, bytes(32), sign=issuer.pair)
    assert shared.split("~")[1:] == public.split("~")[1:]
    order = {
        "keys": {"keys": [{"kty": "oct", "k": text}]},
        "want": ["/seat"],
        "binding": {"key": text, "kid": "ada", **BINDING},
    }
    by_library = sdjwt.present(order, shared, NOW)
    apart = sdjwt.present(order_of(issuer, binding={"kid": "ada", **BINDING}), public, NOW, sign=mac, alg="HS256")
    head, body, _ = by_library.split("~")[-1].split(".")
    other_head, other_body, _ = apart.split("~")[-1].split(".")
    assert head == other_head
    assert {**json.loads(decoded(body)), "sd_hash": 0} == {**json.loads(decoded(other_body)), "sd_hash": 0}


# ---- orders and arguments that are none

@each(
    "more, reason, said",
    [
        ({"binding": {**BINDING, "key": "k"}}, "wrong binding", '"key"'),
        ({"binding": {"aud": AUD}}, "wrong binding", '"nonce" is missing'),
        ({"binding": {**BINDING, "kid": 1}}, "wrong binding", "/binding/kid"),
        ({"binding": []}, "wrong binding", "a list"),
        ({"algs": "ES256"}, "wrong algs", "/algs"),
        ({"want": ["seat"]}, "wrong want", "/want/0"),
        ({"never": 1}, "wrong never", "/never"),
        ({"iss": "office"}, "unknown", '"iss"'),
        ({"keys": []}, "wrong keys", "/keys"),
        ({"keys": {"keys": [{}]}}, "wrong keys", '"kty"'),
        ({"keys": {"keys": [{"kty": "EC", "crv": "P-256", "x": "AA", "y": "AA"}]}}, "wrong keys", "/keys/keys/0"),
        ({"want": [1.5]}, "notWhole", ""),
    ],
    ids=str,
)
def test_an_order_that_is_none(more, reason, said):
    issuer = Key("ES256")
    with pytest.raises(sdjwt.Unreadable) as caught:
        sdjwt.present(order_of(issuer, **more), "", NOW, sign=never, alg="ES256")
    assert (caught.value.input, caught.value.reason) == (1, reason) and said in caught.value.detail


def test_a_member_that_is_not_there():
    order = order_of(Key("ES256"))
    for name in ("keys", "algs"):
        with pytest.raises(sdjwt.Unreadable) as caught:
            sdjwt.present(
                {member: value for member, value in order.items() if member != name}, "", NOW, sign=never, alg="ES256"
            )
        assert caught.value.reason == f"missing {name}" and caught.value.detail


def test_who_signs_has_to_be_told():
    issuer = Key("ES256")
    token = issued(issuer, issuer)
    for named, said in (
        ({}, "sign is missing"),
        ({"sign": never}, "alg is missing"),
        ({"alg": "ES256"}, "without sign"),
        ({"sign": never, "alg": ""}, "alg"),
        ({"sign": never, "alg": "none"}, "alg"),
        ({"sign": issuer.pair, "alg": "ES384"}, "alg"),
        ({"sign": lambda text: b"", "alg": "X1"}, "no bytes"),
    ):
        with pytest.raises(ValueError) as caught:
            sdjwt.present(order_of(issuer), token, NOW, **named)
        assert said in str(caught.value) and not isinstance(caught.value, sdjwt.SdJwtError)
    for named in ({"sign": 1}, {"sign": never, "alg": 1}, {"check": 1}, {"sign": lambda text: "s", "alg": "X1"}):
        with pytest.raises(TypeError):
            sdjwt.present(order_of(issuer), token, NOW, **named)


def test_the_order_may_name_the_algorithm_too():
    issuer = Key("ES256")
    token = issued(issuer, issuer)
    order = order_of(issuer, binding={**BINDING, "alg": "ES256"})
    for named in ({"sign": issuer.pair}, {"sign": issuer.sign}, {"sign": issuer.pair, "alg": "ES256"}):
        assert door_of(issuer, "ES256").verify(sdjwt.present(order, token, NOW, **named), NOW)["seat"] == "B12"
    with pytest.raises(ValueError):
        sdjwt.present(order, token, NOW, sign=never, alg="X1")


def test_shared_keys_present_as_ever():
    text = encoded(SECRET)
    order = {"keys": {"keys": [{"kty": "oct", "k": text}]}, "want": ["/seat"]}
    token = sdjwt.issue({"payload": {"seat": "B12", "name": "Ada"}, "hide": ["/seat", "/name"], "key": text})
    assert sdjwt.Policy({"keys": order["keys"]}).verify(sdjwt.present(order, token)) == {"seat": "B12"}
    with pytest.raises(sdjwt.Unreadable) as caught:
        sdjwt.present({**order, "algs": ["HS256"]}, token)
    assert caught.value.reason == "unknown" and "present order" in caught.value.detail


def test_an_order_may_be_a_text_too():
    issuer, holder = Key("ES256"), Key("EdDSA", 1)
    token, text = issued(issuer, holder), json.dumps(order_of(issuer))
    shown = {
        sdjwt.present(order, token, NOW, sign=holder.pair)
        for order in (json.loads(text), text, text.encode(), bytearray(text.encode()))
    }
    assert len(shown) == 1
    for broken in ("{", "[]", "\u007b" * 200):
        with pytest.raises(sdjwt.Unreadable):
            sdjwt.present(broken, token, NOW, sign=never, alg="X1")

"""Tokens that are issued with a private key, or by a function that signs: verified here and by others, and what is
refused.
"""
import builtins
import hashlib
import hmac
import json
import sys

import pytest

import sdjwt

pytest.importorskip("cryptography")
from cryptography.hazmat.primitives.asymmetric import ec, rsa, x25519  # noqa: E402
from public import ALGORITHMS, CURVES, Key  # noqa: E402
from signing import HASHES, decoded, encoded  # noqa: E402
from test_public_peers import COMMON, PEERS  # noqa: E402

SEED = bytes(range(32))
ORDER = {
    "payload": {"iss": "office", "seat": "B12", "name": "Ada", "list": [1, 2]},
    "hide": ["/seat", "/name", "/list/0"],
}
CLAIMS = ORDER["payload"]
# The algorithms that a key signs by where none is named.
USUAL = [*CURVES, "EdDSA"]
SECRET = bytes(range(64))
each = pytest.mark.parametrize


def alg_of(key):
    """The name that has to be given with this key, or none."""
    return None if key.alg in USUAL else key.alg


def policy_of(key):
    return sdjwt.Policy({"keys": {"keys": [key.jwk()]}, "algs": [key.alg]})


def line(policy, token):
    with pytest.raises(sdjwt.Refused) as caught:
        policy.verify(token)
    return caught.value.name


def mac(text):
    return hmac.new(SECRET, text, hashlib.sha256).digest()


@each("alg", ALGORITHMS)
def test_a_token_is_accepted_under_the_public_key_alone(alg):
    key, other = Key(alg), Key(alg, 1)
    token = sdjwt.issue(ORDER, sign=key.pair, alg=alg_of(key))
    assert policy_of(key).verify(token) == CLAIMS
    assert sdjwt.show(token)["header"] == {"alg": alg}
    assert line(policy_of(other), token) == "badSignature"
    assert (
        line(sdjwt.Policy({"keys": {"keys": [key.jwk()]}, "algs": [name for name in ALGORITHMS if name != alg]}), token)
        == "algRefused"
    )


@each("alg", ALGORITHMS)
def test_with_each_part_left_out_or_changed(alg):
    key = Key(alg)
    token = sdjwt.issue({**ORDER, "kid": "office-1", "typ": "ticket"}, sign=key.pair, alg=alg)
    policy = sdjwt.Policy({"keys": {"keys": [key.jwk(kid="office-1")]}, "algs": [alg], "typ": "ticket"})
    jwt, *texts = token.split("~")[:-1]
    assert policy.verify(jwt + "~") == {"iss": "office", "list": [2]}
    assert policy.verify("~".join([jwt, *texts[::-1], ""])) == CLAIMS
    for at in range(0, len(jwt) - 2, 11):
        changed = jwt[:at] + ("A" if jwt[at] != "A" else "B") + jwt[at + 1:]
        assert line(policy, changed + "~")


@PEERS
@each("alg", COMMON)
def test_a_peer_accepts_the_jwt_inside(peer, alg):
    key = Key(alg)
    _, verify, _ = peer(key)
    token = sdjwt.issue(ORDER, sign=key.pair, alg=alg)
    payload = verify(token.split("~")[0], key.jwk())
    assert payload == sdjwt.show(token)["payload"] and payload["iss"] == "office"
    with pytest.raises(Exception):
        verify(token.split("~")[0], Key(alg, 1).jwk())


def test_a_function_signs_as_a_key_does():
    key = Key("ES256")
    token = sdjwt.issue(ORDER, sign=key.sign, alg="ES256")
    assert policy_of(key).verify(token) == CLAIMS


def test_a_function_is_given_just_the_bytes_that_are_signed():
    asked = []

    def sign(text):
        asked.append(text)
        return bytearray(b"signed")

    token = sdjwt.issue(ORDER, sign=sign, alg="X1")
    head, body, signature = token.split("~")[0].split(".")
    assert asked == [f"{head}.{body}".encode()] and decoded(signature) == b"signed"
    assert all(type(text) is bytes for text in asked)
    assert json.loads(decoded(head)) == {"alg": "X1"}


def test_each_kind_of_bytes_is_a_signature():
    for signature in (b"s", bytearray(b"s"), memoryview(b"s"), memoryview(b"s-s-")[:1]):
        assert sdjwt.issue(ORDER, SEED, sign=lambda text, its=signature: its, alg="X1") == sdjwt.issue(
            ORDER, SEED, sign=lambda text: b"s", alg="X1"
        )


@each(
    "more",
    [
        {},
        {"kid": "k"},
        {"typ": "t"},
        {"sd_alg": "sha-512"},
        {"hide": []},
        {"hide": ["/list", "/list/1"], "kid": "k", "typ": "t"},
        {"decoys": [{"at": "", "count": 3}, {"at": "/list", "count": 2}]},
        {"payload": {"text": "x" * 10_000, "\u00e9\U0001f600": None}, "hide": ["/text"]},
    ],
    ids=lambda more: "-".join(more) or "plain",
)
def test_by_an_hmac_it_is_the_token_that_the_library_signs(more):
    order = {**ORDER, **more}
    for seed in (SEED, bytes(32), b"\xff" * 32):
        assert sdjwt.issue(order, seed, sign=mac, alg="HS256") == sdjwt.issue({**order, "key": encoded(SECRET)}, seed)
        for alg in ("HS384", "HS512"):
            signed = sdjwt.issue(
                order, seed, sign=lambda text, by=HASHES[alg[2:]]: hmac.new(SECRET, text, by).digest(), alg=alg
            )
            assert signed == sdjwt.issue({**order, "key": encoded(SECRET), "alg": alg}, seed)


def test_a_seed_is_drawn_once_for_each_token():
    key = Key("EdDSA")
    tokens = {sdjwt.issue(ORDER, sign=key.pair) for _ in range(20)}
    assert len(tokens) == 20 and all(policy_of(key).verify(token) == CLAIMS for token in tokens)
    assert sdjwt.issue(ORDER, SEED, sign=key.pair) == sdjwt.issue(ORDER, bytearray(SEED), sign=key.pair)


def test_an_order_may_be_a_text_too():
    key = Key("EdDSA")
    text = json.dumps(ORDER)
    assert (
        len(
            {
                sdjwt.issue(order, SEED, sign=key.pair)
                for order in (ORDER, text, text.encode(), bytearray(text.encode()))
            }
        )
        == 1
    )


# ---- what is refused

def never(text):
    raise AssertionError("it is not asked")


@each("order, refusal", [
    ({"payload": 1}, "51 payloadNotObject"), ({**ORDER, "hide": ["/none"]}, "55 noSuchPlace at 0"),
    ({**ORDER, "payload": {"_sd": 1}, "hide": []}, '52 reservedInPayload at "/_sd"'),
], ids=str)
def test_nothing_is_signed_for_an_order_that_is_refused(order, refusal):
    with pytest.raises(sdjwt.Refused) as caught:
        sdjwt.issue(order, sign=never, alg="X1")
    with pytest.raises(sdjwt.Refused) as other:
        sdjwt.issue({**order, "key": encoded(SECRET)})
    assert caught.value.line == other.value.line == f"refused {refusal}"


def test_a_token_may_be_too_long_with_its_signature():
    with pytest.raises(sdjwt.Refused) as caught:
        sdjwt.issue(ORDER, sign=lambda text: bytes(12_600_000), alg="X1")
    assert caught.value.line == "refused 61 issueTooLong"


@each(
    "order, reason, said",
    [
        ({**ORDER, "key": encoded(SECRET)}, "unknown", '"key" is no member of an order without a key'),
        ({**ORDER, "alg": "ES256"}, "unknown", '"alg" is no member of an order without a key'),
        ({"hide": []}, "missing payload", '"payload" has to be one'),
        ({**ORDER, "hide": "/seat"}, "wrong hide", "/hide"),
        ("{", "notJson", "line 1"),
    ],
    ids=str,
)
def test_an_order_that_is_none(order, reason, said):
    for alg in ("ES256", "X1"):
        with pytest.raises(sdjwt.Unreadable) as caught:
            sdjwt.issue(order, sign=never, alg=alg)
        assert (caught.value.input, caught.value.reason) == (1, reason) and said in caught.value.detail


@each("length", [0, 31, 33, 64])
def test_a_seed_of_another_length(length):
    for sign, alg in ((never, "X1"), (Key("EdDSA").pair, None)):
        with pytest.raises(ValueError, match=f"seed has {length} bytes") as caught:
            sdjwt.issue(ORDER, b"x" * length, sign=sign, alg=alg)
        assert not isinstance(caught.value, sdjwt.SdJwtError)


def test_what_a_function_raises_comes_out():
    class LockedVault(Exception):
        pass

    def sign(text):
        raise LockedVault

    with pytest.raises(LockedVault):
        sdjwt.issue(ORDER, sign=sign, alg="ES256")


@each("answer", [None, "s", 1, True, [1], {}, object()], ids=repr)
def test_a_signature_is_bytes(answer):
    with pytest.raises(TypeError) as caught:
        sdjwt.issue(ORDER, sign=lambda text: answer, alg="ES256")
    assert "sign" in str(caught.value)


@each("answer", [b"", bytearray(), memoryview(b"")], ids=repr)
def test_a_signature_has_bytes(answer):
    with pytest.raises(ValueError) as caught:
        sdjwt.issue(ORDER, sign=lambda text: answer, alg="ES256")
    assert "sign" in str(caught.value)


@each("alg", ["", "none", "\ud800", "a\udfff"], ids=ascii)
def test_a_name_that_is_no_algorithm(alg):
    for sign in (never, Key("ES256").pair, Key("PS256").pair):
        with pytest.raises(ValueError) as caught:
            sdjwt.issue(ORDER, sign=sign, alg=alg)
        assert "alg" in str(caught.value) and not isinstance(caught.value, sdjwt.SdJwtError)


@each("alg", [1, True, b"ES256", ["ES256"], object()], ids=repr)
def test_an_algorithm_of_another_type(alg):
    for sign in (never, Key("ES256").pair):
        with pytest.raises(TypeError) as caught:
            sdjwt.issue(ORDER, sign=sign, alg=alg)
        assert "alg" in str(caught.value)


@each("alg", ["none?", "NONE", "HS256", "ES256K", "\u00e9", "x" * 1000])
def test_the_library_knows_no_other_names(alg):
    assert sdjwt.show(sdjwt.issue(ORDER, sign=lambda text: b"s", alg=alg))["header"] == {"alg": alg}


@each("kind", ["ES256", "ES384", "ES512", "EdDSA", "PS256"])
@each("alg", [*ALGORITHMS, "HS256", "ES256K", "es256"])
def test_a_key_signs_by_its_own_algorithms_alone(kind, alg):
    key = Key(kind)
    fits = {"EdDSA": ("EdDSA", "Ed25519"), "PS256": ("PS256", "PS384", "PS512", "RS256", "RS384", "RS512")}.get(
        kind, (kind,)
    )
    if alg in fits:
        assert sdjwt.show(sdjwt.issue(ORDER, sign=key.pair, alg=alg))["header"]["alg"] == alg
        return
    with pytest.raises(ValueError) as caught:
        sdjwt.issue(ORDER, sign=key.pair, alg=alg)
    assert "alg" in str(caught.value) and kind in str(caught.value)


def test_where_the_algorithm_has_to_be_named():
    for sign in (Key("RS256").pair, never):
        with pytest.raises(ValueError) as caught:
            sdjwt.issue(ORDER, sign=sign)
        assert "alg is missing" in str(caught.value)
    with pytest.raises(ValueError) as caught:
        sdjwt.issue({**ORDER, "key": encoded(SECRET)}, alg="HS256")
    assert "without sign" in str(caught.value)


def test_keys_that_sign_no_token():
    small = rsa.generate_private_key(65537, 1024)
    for key, said in ((ec.generate_private_key(ec.SECP256K1()), "secp256k1"), (small, "2048")):
        for alg in (None, "ES256", "PS256"):
            with pytest.raises(ValueError) as caught:
                sdjwt.issue(ORDER, sign=key, alg=alg)
            assert "sign" in str(caught.value) and said in str(caught.value)


@each("sign", [1, "key", b"key", True, {}, [], Key("ES256").pair.public_key(), Key("PS256").pair.public_key(),
               x25519.X25519PrivateKey.generate()], ids=lambda sign: type(sign).__name__)
def test_what_is_no_private_key_and_no_function(sign):
    for alg in (None, "ES256"):
        with pytest.raises(TypeError) as caught:
            sdjwt.issue(ORDER, sign=sign, alg=alg)
        assert "sign" in str(caught.value) and type(sign).__name__ in str(caught.value)


def test_a_function_needs_no_cryptography_and_a_key_does(monkeypatch):
    real, key = builtins.__import__, Key("ES256")

    def without(name, *words, **more):
        if name.split(".")[0] == "cryptography":
            raise ImportError(name)
        return real(name, *words, **more)

    monkeypatch.setattr(builtins, "__import__", without)
    for name in [name for name in sys.modules if name == "sdjwt._signatures"]:
        monkeypatch.delitem(sys.modules, name)
    monkeypatch.delattr(sdjwt, "_signatures", raising=False)
    with pytest.raises(sdjwt.NoCryptography) as caught:
        sdjwt.issue(ORDER, sign=key.pair)
    assert (
        isinstance(caught.value, ImportError)
        and caught.value.line.endswith(": pip install cryptography")
        and "private key" in caught.value.line
    )
    assert sdjwt.issue(ORDER, SEED, sign=mac, alg="HS256") == sdjwt.issue({**ORDER, "key": encoded(SECRET)}, SEED)

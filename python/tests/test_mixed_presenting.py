"""Presenting where a present order has shared and public keys: under the first that fits, and by no function for an
HMAC.
"""
import pytest

import sdjwt

pytest.importorskip("cryptography")
from public import Key  # noqa: E402
from signing import encoded, mac  # noqa: E402
from test_mixed_keys import ADA, BOTH, OFFICE, PUBLIC_ADA, PUBLIC_OFFICE, SHARED  # noqa: E402

NOW = 1_800_000_000
BINDING = {"aud": "door", "nonce": "7"}
ORDER = {"payload": {"cnf": {"kid": "ada"}, "name": "Ada", "seat": "B12"}, "hide": ["/seat", "/name"], "kid": "office"}
each = pytest.mark.parametrize


def issued(alg):
    """A token of the office, by one of its keys."""
    if alg in SHARED:
        return sdjwt.issue({**ORDER, "key": encoded(OFFICE), "alg": alg}, bytes(32))
    return sdjwt.issue(ORDER, bytes(32), sign=PUBLIC_OFFICE.pair)


def asked(*algs, keys=BOTH[0], **more):
    return {"keys": {"keys": list(keys)}, "algs": list(algs), "want": ["/seat"], **more}


def never(text):
    raise AssertionError("it is not asked")


def line(*given, **named):
    with pytest.raises(sdjwt.Refused) as caught:
        sdjwt.present(*given, **named)
    return caught.value.line


@each("alg", [*SHARED, "EdDSA"])
@each("holder", ["HS256", "HS384", "ES256"])
def test_each_mixture_is_presented_and_verified(alg, holder):
    more = (
        {"sign": PUBLIC_ADA.pair} if holder == "ES256" else {"sign": lambda text: mac(ADA, holder, text), "alg": holder}
    )
    shown = sdjwt.present(asked("ES384", alg, binding={**BINDING, "kid": "ada"}), issued(alg), NOW, **more)
    door = {
        "keys": {"keys": BOTH[0]},
        "algs": [alg, "ES384"],
        "binding": {**BINDING, "max_age": 60, "keys": {"keys": BOTH[1]}, "algs": [holder]},
    }
    assert sdjwt.verify(door, shown, NOW) == {"cnf": {"kid": "ada"}, "seat": "B12"}
    with pytest.raises(sdjwt.Refused) as caught:
        sdjwt.verify({**door, "binding": {**door["binding"], "algs": ["EdDSA"]}}, shown, NOW)
    assert caught.value.line == "refused 29 bindingAlg"


@each("alg", SHARED)
def test_of_a_token_of_a_shared_key_it_is_what_the_library_presents(alg):
    token = issued(alg)
    by_library = sdjwt.present({"keys": {"keys": BOTH[0]}, "want": ["/seat"]}, token)
    assert (
        sdjwt.present(asked(alg, "EdDSA"), token)
        == sdjwt.present(asked(alg), token, sign=never, alg="X1")
        == by_library
    )


@each("alg", SHARED)
def test_the_key_has_to_fit(alg):
    token, public = issued(alg), PUBLIC_OFFICE.jwk(kid="office")
    for keys, due in (
        ([{**BOTH[0][0], "k": encoded(ADA)}, public], "refused 10 badSignature"),
        ([{**BOTH[0][0], "kid": "other"}, public], "refused 9 issuerKeyUnknown"),
        ([{**BOTH[0][0], "use": "enc"}, public], "refused 9 issuerKeyUnknown"),
        ([public], "refused 9 issuerKeyUnknown"),
        ([{**BOTH[0][0], "k": "AAAA"}, public], "refused 9 issuerKeyUnknown"),
    ):
        assert line(asked(alg, "EdDSA", keys=keys), token) == due
        # nor is a function asked in its place
        assert line(asked(alg, "EdDSA", keys=keys), token, check=lambda question: True) == due
    for algs in (["EdDSA"], [name for name in (*SHARED, "EdDSA") if name != alg]):
        assert line(asked(*algs), token) == "refused 7 algRefused"


def test_a_public_key_is_no_shared_one_here_either():
    for secret in (PUBLIC_OFFICE.pem(), PUBLIC_OFFICE.pem().strip()):
        forged = sdjwt.issue({**ORDER, "key": encoded(secret)})
        for more in ({}, {"check": lambda question: True}):
            assert line(asked("HS256", "EdDSA", keys=BOTH[0][1:]), forged, **more) == "refused 9 issuerKeyUnknown"


def test_an_order_of_which_no_key_is_left_is_at_fault():
    for keys in ([{"kty": "oct", "k": "AAAA"}], [{"kty": "oct", "k": encoded(OFFICE)}, {"kty": "EC"}]):
        with pytest.raises(sdjwt.Unreadable) as caught:
            sdjwt.present(asked("EdDSA", keys=keys), issued("EdDSA"))
        assert caught.value.line == "unreadable 1 wrong keys" and caught.value.detail.startswith(
            f"at /keys/keys/{len(keys) - 1}: "
        )
        assert (
            line(asked("EdDSA", keys=keys), issued("EdDSA"), check=lambda question: None)
            == "refused 9 issuerKeyUnknown"
        )
    assert sdjwt.present(asked("EdDSA", keys=[{"kty": "EC"}, Key("ES256").jwk(), BOTH[0][1]]), issued("EdDSA"))

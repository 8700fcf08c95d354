"""The length of what a function answers that signs, and the algorithm that a present order names."""
import pytest

import sdjwt

pytest.importorskip("cryptography")
from public import Key  # noqa: E402
from signing import encoded  # noqa: E402

ORDER = {"payload": {"cnf": {"kid": "ada"}, "seat": "B12"}, "hide": ["/seat"]}
LENGTHS = {"ES256": {64}, "ES384": {96}, "ES512": {132}, "Ed25519": {64}, "Ed448": {114}, "EdDSA": {64, 114}}
BINDING = {"aud": "https://door.example", "nonce": "4711"}
KEY = Key("ES256")
each = pytest.mark.parametrize


def asked(**more):
    return {"keys": {"keys": [KEY.jwk()]}, "algs": ["ES256"], "want": ["/seat"], "binding": {**BINDING, **more}}


def ways(alg):
    """Issuing and presenting by a function, each of what it answers."""
    token = sdjwt.issue(ORDER, sign=KEY.pair)
    yield lambda made: sdjwt.issue(ORDER, sign=lambda text: made, alg=alg)
    yield lambda made: sdjwt.present(asked(), token, sign=lambda text: made, alg=alg)
    yield lambda made: sdjwt.present(asked(alg=alg), token, sign=lambda text: made)


@each("alg", LENGTHS)
def test_a_signature_has_the_length_of_its_algorithm(alg):
    for call in ways(alg):
        for length in range(1, 140):
            for kind in (bytes, bytearray):
                if length in LENGTHS[alg]:
                    assert encoded(bytes(length)) in call(kind(length))
                    continue
                with pytest.raises(ValueError) as caught:
                    call(kind(length))
                said = str(caught.value)
                assert (
                    "sign" in said
                    and alg in said
                    and f"returned {length} bytes" in said
                    and all(str(due) in said for due in LENGTHS[alg])
                )


@each("alg", ["ES256", "ES384", "ES512"])
def test_der_is_refused(alg):
    key = Key(alg)
    with pytest.raises(ValueError) as caught:
        sdjwt.issue(ORDER, sign=key.der, alg=alg)
    assert "DER" in str(caught.value)
    policy = sdjwt.Policy({"keys": {"keys": [key.jwk()]}, "algs": [alg]})
    assert policy.verify(sdjwt.issue(ORDER, sign=key.sign, alg=alg)) == ORDER["payload"]


@each("alg", ["X1", "ES256K", "PS256", "HS256", "es256", "ed25519"])
def test_of_other_algorithms_each_length_is_taken(alg):
    for call in ways(alg):
        for length in (1, 63, 64, 70, 256):
            assert encoded(bytes(length)) in call(bytes(length))


@each("alg", [1, 0, None, True, [], ["ES256"], {}], ids=repr)
def test_an_algorithm_in_a_present_order_that_is_no_text(alg):
    def never(text):
        raise AssertionError("it is not asked")

    token = sdjwt.issue(ORDER, sign=KEY.pair)
    for more in (
        {"sign": never, "alg": "ES256"},
        {"sign": never},
        {"sign": KEY.pair},
        {"sign": KEY.pair, "alg": "ES256"},
    ):
        for check in (None, lambda question: True):
            with pytest.raises(ValueError) as caught:
                sdjwt.present(asked(alg=alg), token, check=check, **more)
            assert (
                isinstance(caught.value, sdjwt.Unreadable)
                and caught.value.line == "unreadable 1 wrong binding"
                and "at /binding/alg: " in caught.value.detail
            )

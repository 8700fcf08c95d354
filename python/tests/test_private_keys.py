"""Private and secret keys where a public one is wanted: refused in an order, and named by a warning in a set of keys.
"""
import json
import pickle
import sys
import warnings
from collections import UserDict
from threading import Thread
from types import MappingProxyType

import pytest

import sdjwt

pytest.importorskip("cryptography")
from public import Key, signed  # noqa: E402
from signing import encoded  # noqa: E402

SECRET = encoded(bytes(range(64)))
PRIVATE = ["d", "p", "q", "dp", "dq", "qi", "oth"]
each = pytest.mark.parametrize


def order_of(jwk, **more):
    return {"payload": {"cnf": {"jwk": jwk}, "seat": "B12"}, "hide": ["/seat"], **more}


def ways(order):
    """The calls that issue an order: with a shared key, with a private one and by a function."""
    yield lambda: sdjwt.issue({**order, "key": SECRET}) if isinstance(order, dict) else sdjwt.issue(order)
    yield lambda: sdjwt.issue(order, sign=Key("ES256").pair)
    yield lambda: sdjwt.issue(order, sign=never, alg="X1")


def never(text):
    raise AssertionError("it is not asked")


def refused(call, name):
    """Whether the order is refused for this member, of which no value is told."""
    with pytest.raises(ValueError) as caught:
        call()
    said = str(caught.value)
    assert not isinstance(caught.value, sdjwt.SdJwtError), said
    return "cnf.jwk" in said and f"the private member {name}," in said and SECRET[:9] not in said


# ---- orders

@each("name", [*PRIVATE, "k"])
@each("value", [SECRET, "", None, [], 0], ids=repr)
def test_a_private_member_in_an_order_is_refused_before_anything_is_issued(name, value):
    order = order_of({**Key("ES256").jwk(), name: value})
    for call in ways(order):
        assert refused(call, name)


@each("jwk", [{"kty": "oct", "k": SECRET}, {"d": SECRET}, {**Key("EdDSA").jwk(), "d": SECRET, "p": SECRET}], ids=str)
def test_whatever_the_type_of_the_key(jwk):
    for call in ways(order_of(jwk)):
        assert refused(call, "k" if "k" in jwk else "d")


def test_an_order_that_is_a_text_with_names_written_by_escapes():
    order = order_of({**Key("ES256").jwk(), "d": SECRET}, key=SECRET)
    plain = json.dumps(order)
    escaped = (
        plain.replace('"cnf"', '"\\u0063n\\u0066"')
        .replace('"jwk"', '"j\\u0077k"')
        .replace('"d"', '"\\u0064"')
        .replace('"payload"', '"p\\u0061yload"')
    )
    assert escaped != plain and json.loads(escaped) == order
    for text in (plain, escaped, plain.replace('"d"', '"\\u0064"'), plain.replace('"cnf"', '"\\u0063nf"')):
        for given in (text, text.encode(), bytearray(text.encode()), memoryview(text.encode())):
            assert refused(lambda given=given: sdjwt.issue(given), "d")
    for kind in (MappingProxyType, UserDict):
        assert refused(lambda kind=kind: sdjwt.issue(kind({**order, "payload": kind(order["payload"])})), "d")


def test_of_two_members_with_one_name_the_last_counts():
    good, bad = json.dumps(Key("ES256").jwk()), json.dumps({**Key("ES256").jwk(), "d": SECRET})
    text = '{"payload": {"cnf": {"jwk": %s, "jwk": %s}}, "key": "' + SECRET + '"}'
    assert "d" not in sdjwt.show(sdjwt.issue(text % (bad, good)))["payload"]["cnf"]["jwk"]
    assert refused(lambda: sdjwt.issue(text % (good, bad)), "d")
    payloads = '{"payload": {"cnf": {"jwk": %s}}, "payload": {"cnf": {"jwk": %s}}, "key": "' + SECRET + '"}'
    assert "d" not in sdjwt.show(sdjwt.issue(payloads % (bad, good)))["payload"]["cnf"]["jwk"]
    assert refused(lambda: sdjwt.issue(payloads % (good, bad)), "d")


def test_a_key_of_jwcrypto_is_taken_where_it_is_public_and_refused_where_it_is_not():
    jwk = pytest.importorskip("jwcrypto.jwk")
    for made in (
        {"kty": "EC", "crv": "P-256"},
        {"kty": "OKP", "crv": "Ed25519"},
        {"kty": "RSA", "size": 2048},
        {"kty": "oct", "size": 256},
    ):
        pair = jwk.JWK.generate(**made)
        for call in ways(order_of(pair)):
            assert refused(call, "k" if made["kty"] == "oct" else "d")
        if made["kty"] == "oct":
            continue
        public = jwk.JWK.from_json(pair.export_public())
        token = sdjwt.issue(order_of(public), sign=Key("ES256").pair)
        assert sdjwt.show(token)["payload"]["cnf"]["jwk"] == json.loads(pair.export_public())


def test_what_is_no_key_of_a_holder_is_no_matter():
    """RFC 7800 has `cnf` at the top of the payload, and a key in its member `jwk`."""
    jwk = {"kty": "oct", "k": SECRET, "d": 1}
    for payload in (
        {"jwk": jwk},
        {"a": {"cnf": {"jwk": jwk}}},
        {"cnf": {"a": {"jwk": jwk}}},
        {"cnf": {"kid": "d", "k": 1, "d": 1}},
        {"cnf": {"jwk": "d"}},
        {"cnf": {"jwk": ["d", "k"]}},
        {"cnf": "jwk"},
        {"cnf": None},
        {"cnf": {"jwk": None}},
        {"cnf": {"jwk": {"D": 1, "K": 1, "kid": "d", "key_ops": ["d"]}}},
        {"d": 1, "k": 2},
    ):
        assert (
            sdjwt.verify(
                {"keys": {"keys": [{"kty": "oct", "k": SECRET}]}}, sdjwt.issue({"payload": payload, "key": SECRET})
            )
            == payload
        )


@each(
    "text",
    [
        "",
        "{",
        "[]",
        "1",
        '"cnf"',
        '{"cnf":',
        '{"payload": {"cnf": {"jwk": {"d": 1}}}',
        '{"payload": {"cnf": {"jwk": {"d": 1.5}}}, "key": 1,}',
        '\ufeff{"cnf": 1}',
        '{"payload": {"cnf": {"jwk": {"d": 1}}, "n": ' + "9" * 5000 + '}, "key": "' + SECRET + '"}',
        '{"payload": {"cnf": {"jwk": {"d": 1}}, "n": "\n"}}',
    ],
    ids=lambda text: text[:30] or "-",
)
def test_a_text_that_is_no_order_is_told_as_ever(text):
    with pytest.raises(sdjwt.Unreadable):
        sdjwt.issue(text)


def test_an_order_that_nests_too_deep_issues_nothing():
    deep = (
        '{"payload": {"cnf": {"jwk": {"d": 1}}, "n": ' + "[" * 100_000 + "]" * 100_000 + '}, "key": "' + SECRET + '"}'
    )
    with pytest.raises(ValueError):
        sdjwt.issue(deep)


def test_a_stack_that_is_nearly_full_issues_nothing():
    def within(depth, call):
        return call() if depth == 0 else within(depth - 1, call)

    order = json.dumps(order_of({"a": [[[[[[[[1]]]]]]]], "d": 1}, key=SECRET))
    for depth in range(sys.getrecursionlimit()):
        try:
            token = within(depth, lambda: sdjwt.issue(order))
        except RecursionError:
            return
        except ValueError:
            continue
        pytest.fail(f"it was issued: {token}")
    pytest.fail("there was no end of the stack")


# ---- sets of keys

def private(alg):
    """The private key as a JWK, with members that are of the type."""
    key = Key(alg)
    more = {"d": SECRET}
    if alg.startswith(("PS", "RS")):
        more.update({name: SECRET for name in ("p", "q", "dp", "dq", "qi")})
    return {**key.jwk(), **more}


def told(call):
    """The warnings of a call, each of which tells no value."""
    with warnings.catch_warnings(record=True) as caught:
        warnings.simplefilter("always")
        call()
    assert all(SECRET[:9] not in str(warning.message) for warning in caught)
    return [warning for warning in caught if issubclass(warning.category, sdjwt.PrivateKeyWarning)]


@each("alg", ["ES256", "ES512", "EdDSA", "PS256", "RS256"])
def test_a_private_key_in_a_policy_is_named_by_a_warning(alg):
    key = Key(alg)
    policy = {"keys": {"keys": [key.jwk(kid="other"), private(alg)]}, "algs": [alg],
              "binding": {"aud": "door", "nonce": "7", "max_age": 60, "keys": {"keys": [private(alg)]}}}
    for call in (lambda: sdjwt.Policy(policy), lambda: sdjwt.Policy(json.dumps(policy).replace('"d"', '"\\u0064"'))):
        said = told(call)
        assert [str(warning.message).split(" of the policy")[0] for warning in said] == [
            "sdjwt: the key at /keys/keys/1",
            "sdjwt: the key at /binding/keys/keys/0",
        ]
        # it is told of the line that called the package
        assert {warning.filename for warning in said} == {__file__}
    del policy["binding"]
    token = signed(key, {"alg": alg}, {"a": 1}) + "~"
    assert len(told(lambda: sdjwt.verify(policy, token))) == 1
    with pytest.warns(sdjwt.PrivateKeyWarning):
        read = sdjwt.Policy(policy)
    # its public half is taken
    assert read.verify(token) == {"a": 1} and read.skipped_keys == ()
    assert not told(lambda: read.verify(token))


@each("name", PRIVATE)
def test_each_private_member_is_named(name):
    said = told(lambda: sdjwt.Policy({"keys": {"keys": [{**Key("ES256").jwk(), name: SECRET}]}, "algs": ["ES256"]}))
    assert len(said) == 1 and f"the private member {name}:" in str(said[0].message)


def test_where_shared_keys_are_alone_a_private_key_is_named_too():
    shared = {"kty": "oct", "k": SECRET}
    token = sdjwt.issue({"payload": {"a": 1}, "key": SECRET})
    binding = {"aud": "door", "nonce": "7", "max_age": 60, "keys": {"keys": [shared, private("EdDSA")]}}
    for policy, count in (
        ({"keys": {"keys": [shared, private("ES256")]}}, 1),
        ({"keys": {"keys": [shared, {"kty": "X", "oth": 1}]}, "algs": ["HS256"]}, 1),
        ({"keys": {"keys": [shared]}, "binding": binding}, 1),
    ):
        assert len(told(lambda policy=policy: sdjwt.Policy(policy))) == count
    assert len(told(lambda: sdjwt.verify({"keys": {"keys": [shared, private("ES256")]}}, token))) == 1


def test_a_private_key_in_a_present_order_is_named_too():
    key = Key("ES256")
    token = sdjwt.issue({"payload": {"seat": "B12"}, "hide": ["/seat"]}, sign=key.pair)
    order = {"keys": {"keys": [private("ES256")]}, "algs": ["ES256"], "want": ["/seat"]}
    (said,) = told(lambda: sdjwt.present(order, token))
    assert "/keys/keys/0 of the present order" in str(said.message) and said.filename == __file__
    shared = sdjwt.issue({"payload": {"seat": "B12"}, "hide": ["/seat"], "key": SECRET})
    assert (
        len(told(lambda: sdjwt.present({"keys": {"keys": [{"kty": "oct", "k": SECRET}, private("ES256")]}}, shared)))
        == 1
    )


def test_public_and_shared_keys_are_named_by_no_warning():
    shared = {"kty": "oct", "k": SECRET, "d": "no member of its type"}
    for policy in (
        {"keys": {"keys": [shared, Key("ES256").jwk()]}},
        {"keys": {"keys": [shared, Key("ES256").jwk(), Key("PS256").jwk()]}, "algs": ["ES256"]},
        {"keys": {"keys": [5, None, "d"]}, "algs": ["HS256"], "require": ["d"]},
    ):
        try:
            assert not told(lambda policy=policy: sdjwt.Policy(policy))
        except sdjwt.Unreadable:
            assert policy["keys"]["keys"][0] == 5


def test_the_warning_can_be_filtered_and_made_an_error():
    policy = {"keys": {"keys": [private("ES256")]}, "algs": ["ES256"]}
    with warnings.catch_warnings():
        warnings.simplefilter("error")
        with pytest.raises(sdjwt.PrivateKeyWarning) as caught:
            sdjwt.Policy(policy)
        assert (
            issubclass(sdjwt.PrivateKeyWarning, UserWarning)
            and pickle.loads(pickle.dumps(caught.value)).args == caught.value.args
        )
        warnings.simplefilter("ignore", sdjwt.PrivateKeyWarning)
        sdjwt.Policy(policy)
        # also where the package itself begins the stack
        thread = Thread(target=sdjwt.Policy, args=(policy,))
        thread.start()
        thread.join()


def test_a_private_key_of_jwcrypto_in_a_policy_is_named_too():
    jwk = pytest.importorskip("jwcrypto.jwk")
    pair = jwk.JWK.generate(kty="EC", crv="P-256")
    assert len(told(lambda: sdjwt.Policy({"keys": {"keys": [pair]}, "algs": ["ES256"]}))) == 1
    assert not told(lambda: sdjwt.Policy({"keys": {"keys": [json.loads(pair.export_public())]}, "algs": ["ES256"]}))

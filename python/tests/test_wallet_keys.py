"""A wallet whose query has public keys."""
import json
import random

import pytest

pytest.importorskip("cryptography")

from public import Key, bound, disclosed, signed  # noqa: E402

import sdjwt  # noqa: E402

SHARED = "dGhlIHRpY2tldCBvZmZpY2Uga2V5LCBub3QgeW91cnM"
OCT = {"kty": "oct", "kid": "shared", "k": SHARED}
ISSUERS = {alg: Key(alg) for alg in ("ES256", "ES384", "EdDSA", "PS256")}
KEYS = {"keys": [key.jwk(kid=alg) for alg, key in ISSUERS.items()]}
ALGS = [*ISSUERS, "HS256"]
each = pytest.mark.parametrize


def issued(payload, hide, alg):
    """A token under the key of an algorithm."""
    order = {"payload": payload, "hide": hide, "kid": alg if alg in ISSUERS else "shared"}
    if alg == "HS256":
        return sdjwt.issue({**order, "key": SHARED})
    return sdjwt.issue(order, sign=ISSUERS[alg].pair, **({"alg": alg} if alg == "PS256" else {}))


def ticket(alg, seat="B12", **more):
    return issued({"name": "Ada", "seat": seat, **more}, ["/name", "/seat", *(f"/{name}" for name in more)], alg)


@each("alg", ISSUERS)
def test_each_kind_of_key(alg):
    badge = issued({"name": "Ada", "team": "red"}, ["/name"], alg)
    query = {"keys": KEYS, "want": ["/seat"], "never": ["/name"]}
    token = ticket(alg)
    for form in (token, token.encode(), sdjwt.convert("flat", token), sdjwt.convert("general", token)):
        picked = sdjwt.wallet(query, [badge, form, token])
        assert picked.index == 1
        assert picked.token == sdjwt.present({"keys": KEYS, "algs": [alg], "want": ["/seat"]}, token)
        assert sdjwt.verify({"keys": KEYS, "algs": [alg]}, picked.token) == {"seat": "B12"}
    with pytest.raises(sdjwt.Refused, match="77 noCredentialAnswers"):
        sdjwt.wallet(query, [badge])


def test_it_chooses_as_with_shared_keys():
    """The same claims under public keys and under a shared one: the same token is chosen, and the same is shown."""
    drawn = random.Random(7)
    count = 0
    for _ in range(60):
        names = drawn.sample("abcdef", 4)
        payloads = [
            {name: drawn.choice([1, "x", True, None]) for name in drawn.sample(names, drawn.randint(1, 4))}
            for _ in range(4)
        ]
        hides = [[f"/{name}" for name in payload if drawn.random() < 0.7] for payload in payloads]
        said = {
            "want": [f"/{name}" for name in drawn.sample(names, drawn.randint(0, 2))],
            "equal": [
                {"at": f"/{name}", "value": drawn.choice([1, "x", True, None])}
                for name in drawn.sample(names, drawn.randint(0, 1))
            ],
            "never": [f"/{name}" for name in drawn.sample(names, drawn.randint(0, 1))],
        }
        found = []
        for algs, keys in ((["HS256"] * 4, {"keys": [OCT]}), (drawn.sample(ALGS, 4), {"keys": [OCT, *KEYS["keys"]]})):
            tokens = [issued(payload, hide, alg) for payload, hide, alg in zip(payloads, hides, algs)]
            try:
                picked = sdjwt.wallet({"keys": keys, **said}, tokens)
                inside = sdjwt.show(picked.token)
                found.append(
                    (picked.index, sorted((each["name"], repr(each["value"])) for each in inside["disclosures"]))
                )
                assert picked.token.split("~")[0] == tokens[picked.index].split("~")[0]
                count += 1
            except sdjwt.Refused as refused:
                found.append(refused.line)
        assert found[0] == found[1]
    assert count > 30


def test_the_signature_is_checked():
    query = {"keys": KEYS, "want": ["/seat"]}
    other = sdjwt.issue({"payload": {"seat": "A1"}, "hide": [], "kid": "ES256"}, sign=Key("ES256", 5).pair)
    good = ticket("ES256")
    head, payload, _ = good.split("~")[0].split(".")
    changed = f"{head}.{payload}.{'A' * 86}~" + good.split("~", 1)[1]
    unnamed = sdjwt.issue({"payload": {"seat": "A1"}, "hide": [], "kid": "unknown"}, sign=ISSUERS["ES256"].pair)
    none = signed(ISSUERS["ES256"], {"alg": "none", "kid": "ES256"}, {"seat": "A1"}) + "~"
    shared = sdjwt.issue({"payload": {"seat": "A1"}, "hide": [], "key": SHARED})
    for token in (other, changed, unnamed, none, shared, "", "no token"):
        assert sdjwt.wallet(query, [token, good]).index == 1
        with pytest.raises(sdjwt.Refused, match="77 noCredentialAnswers"):
            sdjwt.wallet(query, [token])


def test_what_is_not_in_order_is_passed_over():
    key, holder = ISSUERS["ES256"], Key("ES256", 6)

    def sign(payload):
        return signed(key, {"alg": "ES256"}, payload)

    good = disclosed(sign, {"a": 1}, seat="B12")
    twice = good + good.split("~")[1] + "~"
    critical = signed(key, {"alg": "ES256", "crit": ["x"]}, {"seat": "A1"}) + "~"
    fraction = signed(key, {"alg": "ES256"}, {"seat": 1.5}) + "~"
    presented = bound(good, holder, {"alg": "ES256", "typ": "kb+jwt"}, {"aud": "a", "nonce": "n", "iat": 1})
    query = {"keys": {"keys": [key.jwk()]}, "want": ["/seat"]}
    for token in (twice, critical, fraction, presented):
        assert sdjwt.wallet(query, [token, good]).index == 1


@each(
    "query, line",
    [
        ({"want": ["seat"]}, "wrong want"),
        ({"other": 1}, "unknown"),
        ({"equal": [{"at": "/a", "value": []}]}, "wrong equal"),
        ({"algs": ["ES256"]}, "unknown"),
        ({"never": "/a"}, "wrong never"),
    ],
)
def test_a_query_that_is_none(query, line):
    for form in ({"keys": KEYS, **query}, json.dumps({"keys": KEYS, **query})):
        with pytest.raises(sdjwt.Unreadable) as caught:
            sdjwt.wallet(form, [ticket("ES256")])
        assert caught.value.line == f"unreadable 1 {line}" and caught.value.detail


def test_keys_that_are_none():
    bad = {"kty": "EC", "crv": "P-256", "x": "AA", "y": "AA"}
    with pytest.raises(sdjwt.Unreadable, match="unreadable 1 wrong keys: at /keys/keys/0: x has not just 32 bytes"):
        sdjwt.wallet({"keys": {"keys": [bad]}}, [ticket("ES256")])
    assert sdjwt.wallet({"keys": {"keys": [bad, *KEYS["keys"]]}, "want": ["/seat"]}, [ticket("ES256")]).index == 0
    with pytest.warns(sdjwt.PrivateKeyWarning):
        sdjwt.wallet(
            {"keys": {"keys": [{**ISSUERS["ES256"].jwk(kid="ES256"), "d": "AA"}]}, "want": ["/seat"]}, [ticket("ES256")]
        )


def test_keys_in_each_form():
    for keys in (
        ISSUERS["ES256"].pem(),
        [ISSUERS["ES256"].pair.public_key()],
        {"keys": [ISSUERS["ES256"].pem().decode()]},
    ):
        token = sdjwt.issue({"payload": {"seat": "B12"}, "hide": ["/seat"]}, sign=ISSUERS["ES256"].private_pem())
        assert sdjwt.wallet({"keys": keys, "want": ["/seat"]}, [token]).token == token


def test_many_tokens():
    tokens = [ticket("ES256", seat=f"B{number}", row=number) for number in range(64)]
    for number in (0, 63):
        query = {"keys": KEYS, "equal": [{"at": "/row", "value": number}]}
        picked = sdjwt.wallet(query, tokens)
        assert picked.index == number and sdjwt.verify({"keys": KEYS, "algs": ["ES256"]}, picked.token) == {
            "row": number
        }
    for count in (0, 65):
        with pytest.raises(ValueError, match="1 to 64 tokens"):
            sdjwt.wallet({"keys": KEYS}, (tokens * 2)[:count])


def test_an_audit_needs_the_shared_key():
    order = {"payload": {"a": 1}, "hide": ["/a"]}
    token = sdjwt.issue(order, sign=ISSUERS["ES256"].pair)
    with pytest.raises(
        sdjwt.Unreadable,
        match='unreadable 1 missing key: .*"key" has to be one; a token that is signed with a private key cannot be '
              'audited',
    ):
        sdjwt.audit(order, token)
    with pytest.raises(sdjwt.Unreadable, match="unreadable 1 wrong key: at /key"):
        sdjwt.audit({**order, "key": "x"}, token)

"""What no vector shows: types of the calls, exceptions, threads, and what is drawn."""
import pickle
from concurrent.futures import ThreadPoolExecutor

import pytest

import sdjwt

KEY = "dGhlIHRpY2tldCBvZmZpY2Uga2V5LCBub3QgeW91cnM"
KEYS = {"keys": [{"kty": "oct", "k": KEY}]}
ORDER = {"payload": {"iss": "tickets", "seat": "B12", "name": "Ada \u00e9 \U0001f600", "list": [1, 2]},
         "hide": ["/seat", "/name", "/list/0"], "key": KEY}
CLAIMS = ORDER["payload"]


def test_a_seed_is_drawn_where_none_is_given():
    assert sdjwt.issue(ORDER) != sdjwt.issue(ORDER)
    assert sdjwt.issue(ORDER, seed=bytes(32)) == sdjwt.issue(ORDER, bytearray(32))


def test_orders_and_tokens_may_be_texts_bytes_or_dicts():
    token = sdjwt.issue(ORDER)
    policy = f'{{"keys": {{"keys": [{{"kty": "oct", "k": "{KEY}"}}]}}}}'
    for given in (policy, policy.encode(), {"keys": KEYS}):
        for form in (token, token.encode(), sdjwt.convert("flat", token), sdjwt.convert("general", token)):
            assert sdjwt.verify(given, form) == CLAIMS
            assert sdjwt.Policy(given).verify(form) == CLAIMS


def test_a_refusal_tells_its_parts_and_can_be_pickled():
    with pytest.raises(sdjwt.Refused) as caught:
        sdjwt.verify({"keys": KEYS, "require": ["no such"]}, sdjwt.issue(ORDER))
    for refused in (caught.value, pickle.loads(pickle.dumps(caught.value))):
        assert refused.line.startswith(f"refused {refused.number} {refused.name} at {refused.place}")
        assert refused.explanation and refused.cause and refused.remedy
    assert isinstance(caught.value, sdjwt.SdJwtError)


@pytest.mark.parametrize("policy", ["", "{", "[]", {}, {"keys": KEYS, "other": 1}, {"keys": KEYS, "skew": 1.5}])
def test_a_policy_that_is_none_is_told_at_once(policy):
    with pytest.raises(sdjwt.Unreadable):
        sdjwt.Policy(policy)
    with pytest.raises(sdjwt.Unreadable):
        sdjwt.verify(policy, "")


def test_show_and_split():
    token = sdjwt.issue({**ORDER, "hide": ["/name", "/list/0"]})
    inside = sdjwt.show(token)
    assert inside["payload"]["seat"] == "B12"
    assert {(d.get("name"), d["value"]) for d in inside["disclosures"]} == {("name", CLAIMS["name"]), (None, 1)}
    assert sdjwt.split(token)["disclosures"] == token.split("~")[1:-1]


def test_a_wallet_takes_tokens_of_all_forms():
    token = sdjwt.issue(ORDER)
    query = {"keys": KEYS, "want": ["/seat"]}
    for form in (token, token.encode(), sdjwt.convert("flat", token), sdjwt.convert("general", token)):
        picked = sdjwt.wallet(query, ("", b"no token", form, token))
        assert picked.index == 2
        assert sdjwt.verify({"keys": KEYS}, picked.token) == {"iss": "tickets", "list": [2], "seat": "B12"}
    assert sdjwt.wallet(query, [""] * 63 + [token]) == sdjwt.Picked(63, picked.token)


@pytest.mark.parametrize("count", [0, 65])
def test_a_wallet_has_1_to_64_tokens(count):
    with pytest.raises(ValueError):
        sdjwt.wallet({"keys": KEYS}, [sdjwt.issue(ORDER)] * count)


def test_an_audit_tells_what_differs():
    token = sdjwt.issue(ORDER)
    assert sdjwt.audit(ORDER, token) is None
    assert sdjwt.audit(ORDER, sdjwt.convert("general", token)) is None
    for order, name in (({**ORDER, "kid": "other"}, "signedPartDiffers"), ({**ORDER, "hide": []}, "writtenFormDiffers"),
                        ({**ORDER, "payload": {**CLAIMS, "seat": "B13"}}, "payloadDiffers")):
        with pytest.raises(sdjwt.Refused) as caught:
            sdjwt.audit(order, token)
        assert caught.value.name == name and caught.value.explanation


def test_a_long_answer_gets_its_room():
    order = {"payload": {"text": "x" * 100_000}, "hide": ["/text"], "key": KEY}
    assert sdjwt.verify({"keys": KEYS}, sdjwt.issue(order)) == order["payload"]


def test_moments():
    token = sdjwt.issue({"payload": {"exp": 1000}, "hide": [], "key": KEY})
    policy = sdjwt.Policy({"keys": KEYS})
    assert policy.verify(token, now=999.9) == {"exp": 1000}
    with pytest.raises(sdjwt.Refused):
        policy.verify(token)


def test_one_policy_on_many_threads():
    policy = sdjwt.Policy({"keys": KEYS})
    tokens = [sdjwt.issue({"payload": {"n": n}, "hide": ["/n"], "key": KEY}) for n in range(64)]
    with ThreadPoolExecutor(8) as threads:
        for _ in range(20):
            assert [claims["n"] for claims in threads.map(policy.verify, tokens)] == list(range(64))
    assert len(policy._handles) <= 8


def test_hostile_bytes():
    token = sdjwt.issue(ORDER, seed=bytes(32)).encode()
    policy = sdjwt.Policy({"keys": KEYS})
    for at in range(len(token)):
        for byte in (0, 0x7E, 0xFF, token[at] ^ 1):
            changed = token[:at] + bytes([byte]) + token[at + 1:]
            if changed != token:
                with pytest.raises(sdjwt.Refused):
                    policy.verify(changed)

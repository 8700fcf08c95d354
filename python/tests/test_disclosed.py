"""The places that `check` says were shown by disclosures."""
import asyncio
import copy
import json
import random

import pytest

import sdjwt
from sdjwt._disclosed import places_of

KEY = "dGhlIHRpY2tldCBvZmZpY2Uga2V5LCBub3QgeW91cnM"
KEYS = {"keys": [{"kty": "oct", "k": KEY}]}
POLICY = sdjwt.Policy({"keys": KEYS})
ORDER = {
    "payload": {
        "iss": "tickets",
        "name": "Ada",
        "seats": ["A1", "A2", "A3", "A2"],
        "house": {"city": "Rome", "lines": ["one", "two"]},
        "a/b~c": 1,
        "": {"": True},
    },
    "hide": [
        "/name",
        "/seats/0",
        "/seats/1",
        "/seats/3",
        "/house",
        "/house/city",
        "/house/lines/1",
        "/a~1b~0c",
        "/",
        "//",
    ],
    "decoys": [{"at": "", "count": 2}, {"at": "/seats", "count": 3}, {"at": "/house", "count": 1}],
    "key": KEY,
}
each = pytest.mark.parametrize


def present(token, *want):
    return sdjwt.present({"keys": KEYS, "want": list(want)}, token)


def value_at(value, place):
    for step in place.split("/")[1:]:
        name = step.replace("~1", "/").replace("~0", "~")
        value = value[int(name)] if isinstance(value, list) else value[name]
    return value


def test_all_that_is_hidden_is_disclosed_by_the_whole_token():
    checked = POLICY.check(sdjwt.issue(ORDER))
    assert checked.claims == ORDER["payload"] and sorted(checked.disclosed) == sorted(ORDER["hide"])


def test_the_places_are_in_the_order_of_the_disclosures():
    token = sdjwt.issue(ORDER)
    disclosures = sdjwt.show(token)["disclosures"]
    places = POLICY.check(token).disclosed
    assert len(places) == len(disclosures)
    for place, one in zip(places, disclosures):
        assert (
            place.endswith("/" + one["name"].replace("~", "~0").replace("/", "~1"))
            if "name" in one
            else place[-1].isdigit()
        )


@each(
    "want, due",
    [
        ((), ()),
        (("/name",), ("/name",)),
        (("/seats",), ()),
        (("/seats/2",), ()),
        (("/house/city",), ("/house", "/house/city")),
        (("/house",), ("/house",)),
        # what is kept back of an array leaves no gap in the claims
        (("/seats/3",), ("/seats/1",)),
        (("/seats/1", "/seats/3"), ("/seats/0", "/seats/2")),
        (("/seats/0",), ("/seats/0",)),
        (("/house/lines/1",), ("/house", "/house/lines/1")),
        (("//", "/a~1b~0c"), ("/", "//", "/a~1b~0c")),
    ],
)
def test_what_is_kept_back_is_not_disclosed(want, due):
    checked = POLICY.check(present(sdjwt.issue(ORDER), *want))
    assert sorted(checked.disclosed) == sorted(due)


@each("hash_name", ["sha-256", "sha-384", "sha-512"])
def test_each_hash_and_each_form(hash_name):
    shown = present(sdjwt.issue({**ORDER, "sd_alg": hash_name}), "/house/city", "/seats/3")
    for token in (shown, shown.encode(), sdjwt.convert("flat", shown), sdjwt.convert("general", shown)):
        assert set(POLICY.check(token).disclosed) == {"/house", "/house/city", "/seats/1"}
        assert asyncio.run(POLICY.check_async(token)) == POLICY.check(token)


def test_with_key_binding():
    holder = "YW5vdGhlciBrZXksIHRoZSBvbmUgb2YgdGhlIGhvbGRlcg"
    token = sdjwt.issue({**ORDER, "payload": {**ORDER["payload"], "cnf": {"kid": "ada"}}})
    order = {"keys": KEYS, "want": ["/name"], "binding": {"aud": "door", "nonce": "1", "key": holder, "kid": "ada"}}
    shown = sdjwt.present(order, token, 1000)
    asked = {"aud": "door", "nonce": "1", "max_age": 60, "keys": {"keys": [{"kty": "oct", "kid": "ada", "k": holder}]}}
    assert sdjwt.Policy({"keys": KEYS, "binding": asked}).check(shown, 1000).disclosed == ("/name",)
    assert POLICY.check(shown, 1000).disclosed == ("/name",)


def made(chance, left, depth=0):
    """A value whose strings are all different, and the places of it that are hidden."""
    kind = chance.random()
    if depth > 4 or kind < 0.3 or left[0] <= 0:
        left[0] -= 1
        return f"value {left[0]}", []
    count = chance.randrange(5)
    inner = [made(chance, left, depth + 1) for _ in range(count)]
    names = [str(number) for number in range(count)]
    places = [f"/{name}{place}" for name, (_, places) in zip(names, inner) for place in places]
    places += [f"/{name}" for name in names if chance.random() < 0.5]
    values = [value for value, _ in inner]
    return (values if kind < 0.6 else dict(zip(names, values))), places


def strings(value, place=""):
    """The place of each string of a value."""
    if isinstance(value, str):
        yield value, place
    items = value.items() if isinstance(value, dict) else enumerate(value) if isinstance(value, list) else ()
    for name, inner in items:
        yield from strings(inner, f"{place}/{name}")


def test_what_was_ordered_and_wanted_is_what_is_disclosed():
    chance, told = random.Random(4711), 0
    for _ in range(150):
        left = [40]
        payload = {str(number): made(chance, left) for number in range(4)}
        hide = [f"/{name}{place}" for name, (_, places) in payload.items() for place in places]
        token = sdjwt.issue(
            {"payload": {name: value for name, (value, _) in payload.items()}, "hide": hide, "key": KEY}
        )
        whole = POLICY.check(token)
        assert sorted(whole.disclosed) == sorted(hide)
        want = [place for place in hide if chance.random() < 0.3]
        shown = POLICY.check(present(token, *want))
        original = dict(strings(whole.claims))
        for string, place in strings(shown.claims):
            # of the way to each string, the steps that are disclosed are those that were hidden
            steps, before = place.split("/"), original[string].split("/")
            ways = [("/".join(steps[:end]), "/".join(before[:end])) for end in range(2, len(steps) + 1)]
            assert [at in shown.disclosed for at, _ in ways] == [at in hide for _, at in ways]
        assert all(value_at(shown.claims, place) is not None for place in shown.disclosed)
        told += len(shown.disclosed)
    assert told > 300


def test_claims_that_do_not_follow_are_never_told():
    token = present(sdjwt.issue(ORDER), "/house/city", "/seats/1")
    inside, claims = sdjwt.show(token), POLICY.verify(token)
    assert set(places_of(inside, claims)) == {"/house", "/house/city", "/seats/0"}
    others = [
        {**claims, "more": 1},
        {**claims, "iss": "another"},
        {**claims, "seats": ["A2"]},
        {**claims, "seats": ["A2", "A3", "A1"]},
        {**claims, "house": {}},
        {name: value for name, value in claims.items() if name != "house"},
        {**claims, "house": []},
    ]
    for other in others:
        with pytest.raises(AssertionError, match="do not follow"):
            places_of(inside, other)
    strange = copy.deepcopy(inside)
    strange["disclosures"].append({"digest": "none", "name": "x", "value": 1})
    with pytest.raises(AssertionError, match="do not follow"):
        places_of(strange, claims)


def test_values_of_another_type_are_not_the_same():
    inside = sdjwt.show(sdjwt.issue({"payload": {"a": 1}, "key": KEY}))
    assert places_of(inside, {"a": 1}) == ()
    for other in (True, 1.0, "1", None):
        with pytest.raises(AssertionError):
            places_of(inside, {"a": other})


def test_a_token_that_is_deep_and_one_that_is_wide():
    value, place, hide = "end", "", []
    for _ in range(40):
        value = {"a": value}
        place += "/a"
        hide.append(place)
    assert sorted(POLICY.check(sdjwt.issue({"payload": value, "hide": hide, "key": KEY})).disclosed) == sorted(hide)
    names = [f"c{number}" for number in range(3000)]
    token = sdjwt.issue(
        {"payload": {**dict.fromkeys(names, 1), "list": names}, "hide": [f"/{name}" for name in names], "key": KEY}
    )
    assert set(POLICY.check(token).disclosed) == {f"/{name}" for name in names}
    json.dumps(POLICY.check(token).disclosed)

"""What is given by a wrong hand: values of other types, texts that are none, moments that are none, tokens that are too
long.
"""
import itertools
import pickle
import re
from collections import UserDict
from pathlib import Path
from types import MappingProxyType

import pytest

import sdjwt

KEY = "dGhlIHRpY2tldCBvZmZpY2Uga2V5LCBub3QgeW91cnM"
KEYS = {"keys": [{"kty": "oct", "k": KEY}]}
ORDER = {"payload": {"seat": "B12"}, "hide": ["/seat"], "key": KEY}
POLICY = {"keys": KEYS}
TOKEN = sdjwt.issue(ORDER)

# Each call that takes such an argument, with the others as they should be.
OF_FILES = {
    "issue order": lambda given: sdjwt.issue(given),
    "issue order, signed apart": lambda given: sdjwt.issue(given, sign=lambda text: b"signed", alg="ES256"),
    "present order": lambda given: sdjwt.present(given, TOKEN),
    "verify policy": lambda given: sdjwt.verify(given, TOKEN),
    "Policy policy": sdjwt.Policy,
    "audit order": lambda given: sdjwt.audit(given, TOKEN),
    "wallet query": lambda given: sdjwt.wallet(given, [TOKEN]),
}
OF_TOKENS = {
    "present token": lambda given, **more: sdjwt.present(POLICY, given, **more),
    "verify token": lambda given, **more: sdjwt.verify(POLICY, given, **more),
    "Policy.verify token": lambda given, **more: sdjwt.Policy(POLICY).verify(given, **more),
    "show token": sdjwt.show,
    "split token": sdjwt.split,
    "convert token": lambda given, **more: sdjwt.convert("flat", given, **more),
    "audit token": lambda given, **more: sdjwt.audit(ORDER, given, **more),
    "wallet token": lambda given, **more: sdjwt.wallet(POLICY, [TOKEN, given], **more),
}
OF_MOMENTS = {
    "present": lambda now: sdjwt.present(POLICY, TOKEN, now),
    "verify": lambda now: sdjwt.verify(POLICY, TOKEN, now),
    "Policy.verify": lambda now: sdjwt.Policy(POLICY).verify(TOKEN, now),
}
each = pytest.mark.parametrize


def message(kind, call, *given, **more):
    """What the exception says, which has to be of just this kind and no line of the library."""
    with pytest.raises(kind) as caught:
        call(*given, **more)
    assert not isinstance(caught.value, (sdjwt.Refused, sdjwt.Unreadable)), caught.value
    return str(caught.value)


@each("seed", [42, 0, True, 1.5, "x" * 32, [1] * 32, (1,) * 32, {1: 2}, object(), range(32)], ids=repr)
def test_a_seed_is_bytes(seed):
    assert "seed" in message(TypeError, sdjwt.issue, ORDER, seed)


# the last two differ behind byte 32 alone, where nothing would count
@each(
    "seed",
    [
        b"",
        b"x" * 31,
        b"x" * 33,
        bytes(64),
        bytearray(31),
        bytearray(33),
        memoryview(bytes(31)),
        memoryview(bytes(40)),
        b"the tickets of the year 2026|token 1",
        b"the tickets of the year 2026|token 2",
    ],
    ids=bytes,
)
def test_a_seed_has_just_32_bytes(seed):
    for more in ({}, {"sign": never, "alg": "ES256"}):
        order = {name: value for name, value in ORDER.items() if name != "key" or not more}
        said = message(ValueError, sdjwt.issue, order, seed, **more)
        assert "seed" in said and f" {len(seed)} bytes" in said and " 32" in said


def never(text):
    raise AssertionError("it is not asked")


def test_seeds_of_each_kind_of_bytes():
    for seed in (bytearray(32), memoryview(bytes(32)), memoryview(bytes(64))[::2], memoryview(bytearray(32)).cast("I")):
        assert sdjwt.issue(ORDER, seed) == sdjwt.issue(ORDER, bytes(32))


@each("call", OF_FILES.values(), ids=OF_FILES)
@each("given", [None, 42, True, 1.5, [], [1], ("keys",), {1}, object()], ids=repr)
def test_a_file_of_another_type(call, given):
    assert re.search("order|policy|query", message(TypeError, call, given))


@each("call", OF_FILES.values(), ids=OF_FILES)
@each(
    "given",
    [{1: 2}, {"a": [{None: 1}]}, {"a": {True: 1}}, {("a",): 1}, {"a": b"b"}, {"a": {1, 2}}, {"a": object()}],
    ids=repr,
)
def test_a_dict_that_is_no_json(call, given):
    assert re.search("order|policy|query", message(TypeError, call, given))


def circle():
    made = {}
    made["again"] = [made]
    return made


def deep():
    made = {}
    for _ in range(100_000):
        made = {"a": made}
    return made


@each("call", OF_FILES.values(), ids=OF_FILES)
@each(
    "make",
    [
        lambda: {"a": float("nan")},
        lambda: {"a": [float("-inf")]},
        circle,
        deep,
        lambda: {"a": "\ud800"},
        lambda: {"\udfff": 1},
        lambda: "{\"a\":\"\ud800\"}",
        lambda: {"a": 10**5000},
    ],
)
def test_a_value_that_no_json_has(call, make):
    given = make()
    try:
        said = message(ValueError, call, given)
    except AssertionError:
        # an interpreter that writes such a number
        with pytest.raises(sdjwt.Unreadable):
            call(given)
        assert given == {"a": 10**5000}
    else:
        assert re.search("order|policy|query", said) and len(said) < 250


@each("call", OF_TOKENS.values(), ids=OF_TOKENS)
@each("given", [None, 42, True, 1.5, [], ["a"], ("a",), object(), {1: 2}, {"a": {1}}], ids=repr)
def test_a_token_of_another_type(call, given):
    assert "token" in message(TypeError, call, given)


@each("call", OF_TOKENS.values(), ids=OF_TOKENS)
@each(
    "given",
    [
        "\ud800",
        TOKEN[:9] + "\udfff" + TOKEN[9:],
        "{\"payload\":\"\ud83d\"}",
        {"payload": "\ud800"},
        {"payload": float("nan")},
        {"payload": float("inf")},
        b"\xff",
        "\x00",
        {},
        "",
    ],
    ids=repr,
)
def test_what_a_stranger_sends_is_refused_by_the_library(call, given):
    if call is OF_TOKENS["wallet token"]:
        assert call(given).index == 0
        return
    with pytest.raises(sdjwt.Refused) as caught:
        call(given)
    assert caught.value.number == 2


@each("kind", [bytearray, memoryview, MappingProxyType, UserDict])
def test_types_that_are_like_the_documented_ones(kind):
    if kind in (bytearray, memoryview):
        policy, token = kind(b'{"keys":{"keys":[{"kty":"oct","k":"%s"}]}}' % KEY.encode()), kind(TOKEN.encode())
    else:
        policy, token = kind({"keys": kind(KEYS)}), kind(sdjwt.convert("flat", TOKEN))
    assert sdjwt.verify(policy, token) == sdjwt.Policy(policy).verify(token) == ORDER["payload"]


def test_a_class_that_lies_of_its_length_reads_no_memory():
    class Longer(bytes):
        def __len__(self):
            return 1_000_000

    with pytest.raises(sdjwt.Refused) as caught:
        sdjwt.verify(POLICY, Longer(b"a"))
    assert caught.value.line == "refused 2 form at 1"


@each("call", OF_MOMENTS.values(), ids=OF_MOMENTS)
@each("now", ["1", b"1", True, False, [], 1j, object()], ids=repr)
def test_a_moment_of_another_type(call, now):
    assert "now" in message(TypeError, call, now)


@each("call", OF_MOMENTS.values(), ids=OF_MOMENTS)
@each(
    "now",
    [-1, -0.5, float("nan"), float("inf"), -float("inf"), 2**64, 2.0**64, 10**400],
    ids=lambda now: str(now)[:9],
)
def test_a_moment_that_is_none(call, now):
    assert "now" in message(ValueError, call, now)


@each("now", [0, -0.0, 0.9, 2**64 - 1, 2.0**63])
def test_the_least_and_the_greatest_moment(now):
    assert sdjwt.Policy(POLICY).verify(TOKEN, now) == sdjwt.verify(POLICY, TOKEN, now) == ORDER["payload"]


@each("call", OF_TOKENS.values(), ids=OF_TOKENS)
def test_a_token_that_is_longer_than_most(call):
    long = sdjwt.MOST - 8
    for most, given in (
        (len(TOKEN) - 1, TOKEN),
        (len(TOKEN) - 1, TOKEN.encode()),
        (5, "\u20ac\u20ac"),
        (9, {"payload": ""}),
        (0, bytearray(1)),
    ):
        with pytest.raises(sdjwt.TooLong) as caught:
            call(given, most=most)
        assert isinstance(caught.value, ValueError) and isinstance(caught.value, sdjwt.SdJwtError)
        again = pickle.loads(pickle.dumps(caught.value))
        for fault in (caught.value, again):
            assert fault.most == most and str(most) in fault.line and "token" in fault.line
            assert fault.explanation and fault.cause and fault.remedy
    for most in (len(TOKEN), 10**30):
        call(TOKEN, most=most)
    for given in (TOKEN + "\n" * long, TOKEN.encode() + b" " * long):
        with pytest.raises(sdjwt.TooLong):
            call(given)
        call(given, most=len(given))


@each("call", OF_TOKENS.values(), ids=OF_TOKENS)
def test_most_is_a_number_of_bytes(call):
    for most in ("1", None, True, 1e9, float("nan"), [], object()):
        for given in (TOKEN, TOKEN.encode()):
            assert "most" in message(TypeError, call, given, most=most)
    assert "most" in message(ValueError, call, TOKEN, most=-1)


@each(
    "tokens",
    [TOKEN, TOKEN.encode(), bytearray(TOKEN.encode()), sdjwt.convert("flat", TOKEN), 42, None],
    ids=lambda given: type(given).__name__,
)
def test_tokens_of_a_wallet_are_several(tokens):
    assert "tokens" in message(TypeError, sdjwt.wallet, POLICY, tokens)


def test_a_wallet_with_no_end():
    assert "tokens" in message(ValueError, sdjwt.wallet, POLICY, itertools.repeat(TOKEN))


@each("form", [None, 0, [], b"flat", ("flat",)], ids=repr)
def test_a_form_of_another_type(form):
    assert "form" in message(TypeError, sdjwt.convert, form, TOKEN)


@each("form", ["", "Flat", "flat ", "json"])
def test_no_form(form):
    assert "form" in message(ValueError, sdjwt.convert, form, TOKEN)


def test_the_version_is_that_of_the_project():
    project = (Path(__file__).resolve().parent.parent / "pyproject.toml").read_text(encoding="utf-8")
    assert sdjwt.__version__.split("+")[0] == re.search(r'^version = "(.*)"$', project, re.M)[1]
    assert sdjwt.proved in (True, False, None)
    assert (sdjwt.proved is False) == sdjwt.__version__.endswith("+not.proved")


def test_what_a_wallet_picked():
    picked = sdjwt.wallet({**POLICY, "want": ["/seat"]}, [TOKEN])
    assert (picked.index, picked.token) == (0, TOKEN)
    assert picked == sdjwt.Picked(0, TOKEN) == pickle.loads(pickle.dumps(picked))

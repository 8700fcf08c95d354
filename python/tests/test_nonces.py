"""A nonce, and an audience, that a call gives in place of the policy."""
import itertools
import json
import threading
from concurrent.futures import ThreadPoolExecutor

import pytest

import sdjwt

KEY = "dGhlIHRpY2tldCBvZmZpY2Uga2V5LCBub3QgeW91cnM"
HOLDER = "YW5vdGhlciBrZXksIHRoZSBvbmUgb2YgdGhlIGhvbGRlcg"
KEYS = {"keys": [{"kty": "oct", "k": KEY}]}
HOLDERS = {"keys": [{"kty": "oct", "kid": "ada", "k": HOLDER}]}
DOOR, GATE = "https://door.example", "https://gate.example"
NOW = 1_700_000_000
TOKEN = sdjwt.issue({"payload": {"iss": "tickets", "cnf": {"kid": "ada"}}, "key": KEY})
CLAIMS = {"iss": "tickets", "cnf": {"kid": "ada"}}
each = pytest.mark.parametrize


def shown(nonce, audience=DOOR):
    binding = {"key": HOLDER, "kid": "ada", "aud": audience, "nonce": nonce}
    return sdjwt.present({"keys": KEYS, "binding": binding}, TOKEN, NOW)


def policy_of(version=1, **binding):
    """A policy whose keys are all shared, so that the library checks the signatures."""
    if version == 2 and "aud" in binding:
        binding["aud"] = [binding["aud"]]
    return {"version": version, "keys": KEYS, "binding": {"keys": HOLDERS, "max_age": 300, **binding}}


def asking_of(version=1, **binding):
    """The same policy, whose signatures are checked by the package."""
    return {**policy_of(version, **binding, algs=["HS256"]), "algs": ["HS256"]}


def verdict(call, *given, **more):
    """The claims, or the class of what is raised."""
    try:
        return call(*given, now=NOW, **more)
    except Exception as fault:
        return type(fault)


both = [each("made", [policy_of, asking_of]), each("version", [1, 2])]


def of_both(test):
    for mark in both:
        test = mark(test)
    return test


@of_both
def test_the_nonce_of_a_call(made, version):
    token = shown("4711")
    for binding in ({"aud": DOOR}, {"aud": DOOR, "nonce": "another"}):
        policy = sdjwt.Policy(made(version, **binding))
        for _ in range(3):
            assert verdict(policy.verify, token, nonce="4711") == CLAIMS
            assert verdict(policy.verify, token, nonce="4712") is sdjwt.NonceDiffers
        assert verdict(sdjwt.verify, made(version, **binding), token, nonce="4711") == CLAIMS
        assert verdict(sdjwt.verify, made(version, **binding), token, nonce="") is sdjwt.NonceDiffers


@of_both
def test_the_audience_of_a_call(made, version):
    token = shown("4711", GATE)
    for binding in ({"nonce": "4711"}, {"aud": DOOR, "nonce": "4711"}):
        policy = sdjwt.Policy(made(version, **binding))
        for _ in range(3):
            assert verdict(policy.verify, token, audience=GATE) == CLAIMS
            assert verdict(policy.verify, token, audience=DOOR) is sdjwt.AudienceDiffers
            assert verdict(policy.verify, token, audience=GATE, nonce="4711") == CLAIMS
            assert verdict(policy.verify, token, audience=GATE, nonce="4712") is sdjwt.NonceDiffers
    both_given = sdjwt.Policy(made(version))
    assert verdict(both_given.verify, token, audience=GATE, nonce="4711") == CLAIMS
    assert verdict(sdjwt.verify, made(version), token, audience=GATE, nonce="4711") == CLAIMS


@of_both
def test_the_policy_stays_as_it_is(made, version):
    policy = sdjwt.Policy(made(version, aud=DOOR, nonce="own"))
    for _ in range(3):
        assert verdict(policy.verify, shown("4711"), nonce="4711") == CLAIMS
        assert verdict(policy.verify, shown("4711")) is sdjwt.NonceDiffers
        assert verdict(policy.verify, shown("own")) == CLAIMS
        assert verdict(policy.verify, shown("own", GATE), audience=GATE) == CLAIMS
        assert verdict(policy.verify, shown("own", GATE)) is sdjwt.AudienceDiffers


@of_both
@each("binding, given, missing", [
    ({"aud": DOOR}, {}, "nonce"), ({"aud": DOOR}, {"audience": DOOR}, "nonce"), ({}, {"nonce": "4711"}, "audience"),
    ({"nonce": "4711"}, {}, "audience"), ({}, {}, "nonce")])
def test_what_the_policy_lacks_the_call_has_to_give(made, version, binding, given, missing):
    policy = sdjwt.Policy(made(version, **binding))
    # nor is anything accepted that has what stands in for it
    for token in (shown("4711"), shown("given by the call", "given by the call"), shown("", "")):
        for call in (policy.verify, lambda *given, **more: sdjwt.verify(made(version, **binding), *given, **more)):
            with pytest.raises(sdjwt.Unreadable) as caught:
                call(token, now=NOW, **given)
            assert caught.value.line == "unreadable 1 wrong binding" and caught.value.detail.startswith("at /binding: ")
    with pytest.raises(sdjwt.Unreadable, match=f"the call gives no {missing}"):
        policy.verify(shown("4711"), now=NOW, **given)


@of_both
def test_what_is_too_long_or_no_text(made, version):
    policy = sdjwt.Policy(made(version, aud=DOOR))
    assert verdict(policy.verify, shown("n" * 256), nonce="n" * 256) == CLAIMS
    assert verdict(policy.verify, shown("4711", "a" * 256), nonce="4711", audience="a" * 256) == CLAIMS
    for text in ("n" * 257, "\u20ac" * 86):
        for given in ({"nonce": text}, {"nonce": "4711", "audience": text}):
            name = next(name for name, value in given.items() if value == text)
            with pytest.raises(
                ValueError, match=f"sdjwt: {name} has {len(text.encode())} bytes, and may have 256"
            ) as caught:
                policy.verify(shown("4711"), now=NOW, **given)
            assert type(caught.value) is ValueError
    for wrong in (b"4711", 4711, True, ["4711"], {}, object()):
        for given in ({"nonce": wrong}, {"nonce": "4711", "audience": wrong}):
            with pytest.raises(
                TypeError, match=f"{'audience' if len(given) == 2 else 'nonce'} is of type {type(wrong).__name__}"
            ):
                policy.verify(shown("4711"), now=NOW, **given)
    with pytest.raises(ValueError, match="nonce has half of a surrogate pair"):
        policy.verify(shown("4711"), now=NOW, nonce="\ud800")
    assert verdict(policy.verify, shown("4711"), nonce="4711") == CLAIMS


@each("more", [{}, {"algs": ["HS256", "ES256"]}])
def test_a_policy_without_binding_takes_neither(more):
    policy = {"keys": KEYS, **more}
    for given in ({"nonce": "4711"}, {"audience": DOOR}, {"nonce": "4711", "audience": DOOR}):
        for call in (sdjwt.Policy(policy).verify, lambda *words, **more: sdjwt.verify(policy, *words, **more)):
            with pytest.raises(ValueError, match=f"{next(iter(given))} is given, and the policy has no binding"):
                call(TOKEN, **given)


@each(
    "binding, said",
    [
        ({"keys": HOLDERS}, '"max_age" is missing'),
        ({"keys": HOLDERS, "max_age": -1}, "/binding/max_age"),
        ({"keys": HOLDERS, "max_age": 1, "other": 2}, '"other"'),
        ({"keys": 1, "max_age": 1}, "/binding/keys"),
        ({"keys": HOLDERS, "max_age": 1, "nonce": None}, "/binding/nonce"),
        ({"keys": HOLDERS, "max_age": 1, "aud": 7}, "/binding/aud"),
    ],
)
def test_what_else_is_wrong_is_told_at_once(binding, said):
    for form in ({"keys": KEYS, "binding": binding}, json.dumps({"keys": KEYS, "binding": binding})):
        with pytest.raises(sdjwt.Unreadable) as caught:
            sdjwt.Policy(form)
        assert caught.value.line == "unreadable 1 wrong binding" and said in caught.value.detail
    for line, text in (
        ("notJson", '{"binding":{},"a":NaN}'),
        ("notWhole", '{"binding":{},"a":1.5}'),
        ("notWhole", '{"binding":{},"a":-0}'),
    ):
        with pytest.raises(sdjwt.Unreadable) as caught:
            sdjwt.Policy(text)
        assert caught.value.line == f"unreadable 1 {line}" and caught.value.detail


@each("made", [policy_of, asking_of])
def test_few_handles_are_kept(made):
    policy = sdjwt.Policy(made(aud=DOOR))
    for number in range(100):
        assert (
            verdict(policy.verify, shown("4711", f"door {number}"), nonce="4711", audience=f"door {number}") == CLAIMS
        )
        assert len(policy._lender._others) <= 8
    before = {id(handle) for _, handle in policy._lender._others}
    for number in (99, 98, 97):
        assert (
            verdict(policy.verify, shown("4711", f"door {number}"), nonce="4711", audience=f"door {number}") == CLAIMS
        )
    assert {id(handle) for _, handle in policy._lender._others} == before


@each("made", [policy_of, asking_of])
def test_many_nonces_at_once_and_none_is_mixed(made):
    """Each thread has presentations of its own, and asks with their nonce and with that of another thread in turn."""
    policy = sdjwt.Policy(made(aud=DOOR, nonce="own"))
    threads = 12
    texts = [(f"nonce {n}", DOOR if n % 3 else GATE) for n in range(threads)]
    tokens = [shown(*text) for text in texts]
    own, start, wrong = shown("own"), threading.Barrier(threads), []

    def ask(which):
        start.wait()
        for turn in range(150):
            other = (which + 1 + turn % (threads - 1)) % threads
            for asked, due in ((which, True), (other, False)):
                nonce, audience = texts[asked]
                said = verdict(
                    policy.verify, tokens[which], nonce=nonce, audience=None if audience == DOOR else audience
                )
                if (said == CLAIMS) != due:
                    wrong.append((which, asked, said))
            if verdict(policy.verify, own) != CLAIMS or verdict(policy.verify, tokens[which]) == CLAIMS:
                wrong.append(which)

    with ThreadPoolExecutor(threads) as pool:
        list(pool.map(ask, range(threads)))
    assert wrong == []
    assert len(policy._lender._others) <= threads and len(policy._handles) <= threads


def test_a_function_that_is_asked_calls_the_same_policy_with_another_nonce():
    numbers = itertools.count()
    tokens = {}

    def check(question):
        number = next(numbers)
        if number < 20:
            assert policy.verify(tokens[f"n{number}"], now=NOW, nonce=f"n{number}") == CLAIMS
        return True

    token = sdjwt.issue({"payload": CLAIMS}, sign=lambda text: b"signed", alg="X1")
    order = {"algs": ["X1"], "binding": {"aud": DOOR, "nonce": "", "alg": "X1"}}
    for nonce in ("outer", *(f"n{number}" for number in range(20))):
        order["binding"]["nonce"] = nonce
        tokens[nonce] = sdjwt.present(order, token, NOW, check=lambda question: True, sign=lambda text: b"signed")
    policy = sdjwt.Policy(
        {"algs": ["X1"], "keys": {"keys": []}, "binding": {"aud": DOOR, "max_age": 300, "keys": {"keys": []}}},
        check=check,
    )
    assert policy.verify(tokens["outer"], now=NOW, nonce="outer") == CLAIMS
    with pytest.raises(sdjwt.NonceDiffers):
        policy.verify(tokens["outer"], now=NOW, nonce="n0")

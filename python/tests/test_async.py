"""Calls that are awaited: functions of the caller that are coroutines, many at once, cancelled, and what they raise."""
import asyncio
import threading
import time
from functools import partial

import pytest

import sdjwt

KEY = "dGhlIHRpY2tldCBvZmZpY2Uga2V5LCBub3QgeW91cnM"
KEYS = {"keys": [{"kty": "oct", "k": KEY}]}
ORDER = {"payload": {"iss": "tickets", "seat": "B12"}, "hide": ["/seat"]}
CLAIMS = ORDER["payload"]
NOW = 1_700_000_000
NOBODY = {"keys": {"keys": []}, "algs": ["X1"]}
TOKEN = sdjwt.issue(ORDER, sign=lambda text: b"signed", alg="X1")
each = pytest.mark.parametrize


async def yes(question):
    await asyncio.sleep(0)
    return question.signature == b"signed"


async def sign(text):
    await asyncio.sleep(0)
    return b"signed"


class Checker:
    """An object whose call is a coroutine."""

    async def __call__(self, question):
        return await yes(question)

    async def method(self, question):
        return await yes(question)


def of_question(question):
    """A function that is no coroutine function and returns a coroutine."""
    return yes(question)


CHECKS = [yes, Checker(), Checker().method, of_question, partial(yes), lambda question: True]


@each("check", CHECKS, ids=range(len(CHECKS)))
def test_a_check_of_each_kind(check):
    policy = sdjwt.Policy(NOBODY, check=check)
    assert asyncio.run(policy.verify_async(TOKEN)) == CLAIMS
    assert asyncio.run(policy.check_async(TOKEN)).claims == CLAIMS
    order = {"algs": ["X1"], "want": ["/seat"], "binding": {"aud": "door", "nonce": "1"}}
    shown = asyncio.run(sdjwt.present_async(order, TOKEN, NOW, check=check, sign=sign, alg="X1"))
    binding = {"aud": "door", "keys": {"keys": []}, "max_age": 60}
    assert (
        asyncio.run(sdjwt.Policy({**NOBODY, "binding": binding}, check=check).verify_async(shown, NOW, nonce="1"))
        == CLAIMS
    )


def test_a_sign_of_each_kind():
    for made in (sign, lambda text: b"signed", lambda text: sign(text), partial(sign)):
        token = asyncio.run(sdjwt.issue_async(ORDER, bytes(32), sign=made, alg="X1"))
        assert token == sdjwt.issue(ORDER, bytes(32), sign=lambda text: b"signed", alg="X1")
    assert asyncio.run(sdjwt.issue_async({**ORDER, "key": KEY}, bytes(32))) == sdjwt.issue(
        {**ORDER, "key": KEY}, bytes(32)
    )
    token = sdjwt.issue({**ORDER, "key": KEY})
    assert asyncio.run(sdjwt.present_async({"keys": KEYS, "want": []}, token)) == sdjwt.present(
        {"keys": KEYS, "want": []}, token
    )
    assert asyncio.run(sdjwt.Policy({"keys": KEYS}).verify_async(token)) == CLAIMS


def test_keys_that_are_fetched():
    pytest.importorskip("cryptography")
    from public import Key
    asked = []

    async def keys(iss, header):
        await asyncio.sleep(0)
        asked.append(iss)
        return {"keys": [Key("ES256").jwk(kid="one")]}

    policy = sdjwt.Policy({"algs": ["ES256"]}, keys=keys)
    token = sdjwt.issue({**ORDER, "kid": "one"}, sign=Key("ES256").pair)
    assert asyncio.run(policy.verify_async(token)) == CLAIMS and asked == ["tickets"]
    with pytest.raises(TypeError, match="keys is a coroutine function"):
        policy.verify(token)


def test_coroutines_in_calls_that_are_not_awaited():
    policy = sdjwt.Policy(NOBODY, check=yes)
    for call, name in ((lambda: policy.verify(TOKEN), "check"), (lambda: policy.check(TOKEN), "check"),
                       (lambda: sdjwt.verify(NOBODY, TOKEN, check=yes), "check"),
                       (lambda: sdjwt.issue(ORDER, sign=sign, alg="X1"), "sign"),
                       (lambda: sdjwt.present({"algs": ["X1"]}, TOKEN, check=yes), "check")):
        with pytest.raises(TypeError, match=f"sdjwt: {name} is a coroutine function"):
            call()
    assert len(policy._handles) == 1


def test_many_at_once():
    """More calls wait for their check than there are threads, and each check needs a thread of the same pool."""
    async def check(question):
        # as a client of HTTP does that looks up a name
        await asyncio.to_thread(time.sleep, 0.001)
        await asyncio.sleep(0.01)
        return True

    async def main():
        policy = sdjwt.Policy(NOBODY, check=check)
        return await asyncio.wait_for(asyncio.gather(*(policy.verify_async(TOKEN) for _ in range(200))), 60)

    assert asyncio.run(main()) == [CLAIMS] * 200


def test_many_nonces_at_once():
    order = {"algs": ["X1"], "binding": {"aud": "door", "nonce": "", "alg": "X1"}}
    texts = [f"nonce {number}" for number in range(60)]
    shown = []
    for text in texts:
        order["binding"]["nonce"] = text
        shown.append(sdjwt.present(order, TOKEN, NOW, check=lambda question: True, sign=lambda text: b"signed"))
    policy = sdjwt.Policy({**NOBODY, "binding": {"aud": "door", "keys": {"keys": []}, "max_age": 60}}, check=yes)

    async def main():
        right = [policy.verify_async(token, NOW, nonce=text) for token, text in zip(shown, texts)]
        wrong = [policy.verify_async(token, NOW, nonce=text) for token, text in zip(shown, texts[1:])]
        return await asyncio.gather(*right, *wrong, return_exceptions=True)

    said = asyncio.run(main())
    assert [type(each).__name__ for each in said] == ["dict"] * 60 + ["NonceDiffers"] * 59


def test_the_event_loop_goes_on():
    """The loop turns while a function of the caller blocks its thread."""
    released = threading.Event()

    def check(question):
        return released.wait(30)

    async def main():
        waiting = asyncio.ensure_future(sdjwt.Policy(NOBODY, check=check).verify_async(TOKEN))
        await asyncio.sleep(0.05)
        assert not waiting.done()
        released.set()
        return await waiting

    assert asyncio.run(main()) == CLAIMS


@each(
    "fault",
    [LookupError("no way to the HSM"), StopIteration(), sdjwt.OutOfStack("x"), StopAsyncIteration(), GeneratorExit()],
    ids=lambda fault: type(fault).__name__,
)
def test_what_a_function_raises_comes_out(fault):
    def check(question):
        raise fault

    async def check_later(question):
        raise fault

    for made in (check, check_later):
        policy = sdjwt.Policy(NOBODY, check=made)
        kind = RuntimeError if isinstance(fault, StopIteration) else type(fault)
        with pytest.raises(kind):
            asyncio.run(policy.verify_async(TOKEN))
        assert len(policy._handles) == 1


def test_what_is_refused_is_raised():
    policy = sdjwt.Policy({"keys": KEYS})
    for call, kind in (
        (partial(policy.verify_async, "no token"), sdjwt.Refused),
        (partial(policy.verify_async, 5), TypeError),
        (partial(policy.verify_async, "x" * 9, most=3), sdjwt.TooLong),
        (partial(policy.verify_async, "x", nonce="1"), ValueError),
        (partial(policy.check_async, "no token"), sdjwt.Refused),
        (partial(policy.check_async, 5), TypeError),
        (partial(sdjwt.issue_async, {}), sdjwt.Unreadable),
        (partial(sdjwt.present_async, {}, ""), sdjwt.Unreadable),
        (partial(sdjwt.issue_async, ORDER, alg="ES256"), ValueError),
    ):
        with pytest.raises(kind):
            asyncio.run(call())


def test_a_call_that_is_cancelled():
    """It ends at once, and the policy is used on."""
    async def main():
        entered = asyncio.Event()

        async def check(question):
            entered.set()
            await asyncio.sleep(60)

        slow = sdjwt.Policy(NOBODY, check=check)
        waiting = asyncio.ensure_future(slow.verify_async(TOKEN))
        await entered.wait()
        waiting.cancel()
        with pytest.raises(asyncio.CancelledError):
            await waiting
        return slow

    start = time.monotonic()
    policy = asyncio.run(main())
    assert time.monotonic() - start < 30 and len(policy._handles) == 1


def test_a_call_that_is_cancelled_while_a_thread_runs_it():
    entered, released, ended = threading.Event(), threading.Event(), []

    def check(question):
        entered.set()
        released.wait(30)
        ended.append(True)
        return True

    async def main():
        policy = sdjwt.Policy(NOBODY, check=check)
        waiting = asyncio.ensure_future(policy.verify_async(TOKEN))
        assert await asyncio.to_thread(entered.wait, 30)
        waiting.cancel()
        with pytest.raises(asyncio.CancelledError):
            await waiting
        released.set()
        for _ in range(3):
            assert await sdjwt.Policy(NOBODY, check=yes).verify_async(TOKEN) == CLAIMS

    asyncio.run(main())
    assert ended == [True]


def test_a_nested_call():
    """A check that verifies another token by the same policy."""
    async def main():
        left = [3]

        async def check(question):
            left[0] -= 1
            return left[0] < 0 or await policy.verify_async(TOKEN) == CLAIMS

        policy = sdjwt.Policy(NOBODY, check=check)
        return await policy.verify_async(TOKEN)

    assert asyncio.run(main()) == CLAIMS

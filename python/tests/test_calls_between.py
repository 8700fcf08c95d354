"""Calls that come between others: out of a signal handler, a finalizer, a callback, or a function that the package
asks.

Each call of an office is made while calls of another office come between, and has to answer what it answers alone.
"""
import ctypes
import gc
import signal
import sys
import threading
import tracemalloc
from contextlib import contextmanager
from itertools import count, cycle
from pathlib import Path

import pytest

import sdjwt
from sdjwt import _handles, _library, _policy, _stack

KEY = "dGhlIHRpY2tldCBvZmZpY2Uga2V5LCBub3QgeW91cnM"
KEYS = {"keys": [{"kty": "oct", "k": KEY}]}
NOW = 1_800_000_000
PACKAGE = str(Path(sdjwt.__file__).parent)
# the modules that keep something between two calls
KEEPERS = (sdjwt.__file__, _policy.__file__, _handles.__file__, _library.__file__, _stack.__file__)
each = pytest.mark.parametrize


def yes(question):
    return True


class Office:
    """A token whose claims have a mark, and each call over it, with what the call answers alone."""

    def __init__(self, mark, seed, length):
        self.mark = mark.encode()
        payload = {"iss": mark, "seat": mark[::-1], "text": mark[:1] * length, "list": [mark, 1]}
        plain = {"payload": payload, "hide": ["/seat", "/text", "/list/0"]}
        order, signed = {**plain, "key": KEY}, {**plain, "kid": mark}
        token, apart = sdjwt.issue(order, seed), sdjwt.issue(signed, seed, sign=self.sign, alg="X1")
        policy, asking = {"keys": KEYS, "iss": mark}, {"keys": {"keys": []}, "algs": ["X1"], "iss": mark}
        query = {"keys": KEYS, "want": ["/seat"]}
        bound = {"algs": ["X1"], "want": ["/list/0"], "binding": {"aud": mark, "nonce": "once", "alg": "X1"}}
        kept, kept_asking = sdjwt.Policy(policy), sdjwt.Policy(asking, check=yes)
        self.policies = [kept, kept_asking]
        self.calls = {
            "verify": lambda: sdjwt.verify(policy, token, NOW),
            "verify, refused": lambda: sdjwt.verify({"keys": KEYS, "require": ["iss"] * seed[0] + [mark]}, token, NOW),
            "Policy.verify": lambda: kept.verify(token, NOW),
            "Policy": lambda: sdjwt.Policy(policy).verify(token, NOW),
            "Policy.verify, with check": lambda: kept_asking.verify(apart, NOW),
            "show": lambda: sdjwt.show(token),
            "split": lambda: sdjwt.split(token),
            "convert": lambda: sdjwt.convert("general", token),
            "issue": lambda: sdjwt.issue(order, seed),
            "issue, with sign": lambda: sdjwt.issue(signed, seed, sign=self.sign, alg="X1"),
            "present": lambda: sdjwt.present(query, token, NOW),
            "present, with sign": lambda: sdjwt.present(bound, apart, NOW, check=yes, sign=self.sign),
            "audit": lambda: sdjwt.audit({**order, **({"kid": mark} if length < 100 else {})}, token),
            "wallet": lambda: sdjwt.wallet(query, ["", token]),
        }
        self._add_public(plain, seed)
        self.alone = {name: answer(call) for name, call in self.calls.items()}

    def sign(self, text):
        return self.mark * 3

    def _add_public(self, plain, seed):
        """The calls with public keys, where cryptography is there."""
        try:
            from public import Key
        except ImportError:
            return
        issuer, holder = Key("EdDSA", seed[0]), Key("EdDSA", seed[0] + 1)
        order = {**plain, "payload": {**plain["payload"], "cnf": {"jwk": holder.jwk()}}}
        token = sdjwt.issue(order, seed, sign=issuer.pair)
        keys = {"keys": {"keys": [issuer.jwk()]}, "algs": ["EdDSA"]}
        binding = {"aud": "door", "nonce": "once"}
        asked = {**keys, "want": ["/seat"], "binding": binding}
        shown = sdjwt.present(asked, token, NOW, sign=holder.pair)
        kept = sdjwt.Policy({**keys, "binding": {**binding, "max_age": 60, "keys": {"keys": []}}})
        self.policies.append(kept)
        self.calls.update({
            "issue, with a private key": lambda: sdjwt.issue(order, seed, sign=issuer.pair),
            "present, with a private key": lambda: sdjwt.present(asked, token, NOW, sign=holder.pair),
            "Policy.verify, with public keys": lambda: kept.verify(shown, NOW),
        })


def answer(call):
    """What a call answers, or the line of its refusal, or what it raises else."""
    try:
        return call()
    except sdjwt.Refused as refused:
        return refused.line
    except Exception as fault:
        return repr(fault)


# answers of the first are longer than a room is at first, and those of the second are not
FIRST = Office("first of all", bytes([1]) * 32, 5000)
SECOND = Office("second", bytes([3]) * 32, 10)
NAMES = list(FIRST.calls)


class Between:
    """Makes the calls of an office in turn, and keeps what is answered otherwise than alone."""

    def __init__(self, office):
        self.office, self.names = office, cycle(office.calls)
        self.made, self.wrong = 0, []

    def __call__(self):
        self.made += 1
        name = next(self.names)
        got = answer(self.office.calls[name])
        if got != self.office.alone[name]:
            self.wrong.append((name, got))


def test_each_call_answers_of_its_own_office():
    assert set(FIRST.calls) == set(SECOND.calls)
    for name in NAMES:
        assert FIRST.alone[name] != SECOND.alone[name], name
    assert FIRST.alone["audit"] is None


@contextmanager
def alarms(act):
    """Has a handler act between bytecodes of what runs, again and again.

    It is alone: the next alarm comes after its end.
    """
    delays = cycle([0.0001, 0.0002, 0.00005, 0.0003])

    def handle(*_):
        act()
        signal.setitimer(signal.ITIMER_REAL, next(delays))

    before = signal.signal(signal.SIGALRM, handle)
    signal.setitimer(signal.ITIMER_REAL, next(delays))
    try:
        yield
    finally:
        signal.signal(signal.SIGALRM, signal.SIG_IGN)
        signal.setitimer(signal.ITIMER_REAL, 0)
        signal.signal(signal.SIGALRM, before)


@each("name", NAMES)
def test_a_signal_handler_calls_between(name):
    between = Between(SECOND)
    call, alone = FIRST.calls[name], FIRST.alone[name]
    mixed = 0
    with alarms(between):
        while between.made < 1000:
            mixed += answer(call) != alone
    assert (mixed, between.wrong) == (0, [])


@each("name", NAMES)
def test_a_finalizer_calls_between(name):
    between = Between(SECOND)

    class Garbage:
        """What only the collector of garbage frees."""

        def __init__(self):
            self.itself = self

        def __del__(self):
            between()

    call, alone = FIRST.calls[name], FIRST.alone[name]
    thresholds = gc.get_threshold()
    gc.freeze()
    gc.set_threshold(1)
    try:
        for _ in range(100):
            made = [Garbage() for _ in range(10)]
            del made
            assert answer(call) == alone
    finally:
        gc.set_threshold(*thresholds)
        gc.unfreeze()
    gc.collect()
    assert between.made == 1000 and between.wrong == []


def bytecodes(act, call, files=PACKAGE):
    """Acts between each two bytecodes of the package that a call runs, or of these files.

    What `act` raises is raised there.
    """

    def trace(frame, event, _):
        # what a finalizer raises goes no further
        if not frame.f_code.co_filename.startswith(files) or frame.f_code.co_name == "__del__":
            return None
        frame.f_trace_opcodes = True
        if event == "opcode":
            act()
        return trace

    before = sys.gettrace()
    # Python 3.12 looks for a frame that wants it when tracing begins
    sys._getframe().f_trace_opcodes = True
    sys.settrace(trace)
    try:
        return answer(call)
    finally:
        sys.settrace(before)


@each("office, other", [(FIRST, SECOND), (SECOND, FIRST)], ids=["long", "short"])
@each("name", NAMES)
def test_a_call_comes_between_each_two_bytecodes(name, office, other):
    between = Between(other)
    assert bytecodes(between, office.calls[name]) == office.alone[name]
    assert between.made > 50 and between.wrong == []


@each("name", ["show", "Policy.verify"])
def test_one_call_comes_between_where_a_thread_calls_first(name):
    """In a thread for each two bytecodes, since what a thread keeps is made by its first call."""
    between = Between(SECOND)

    def run(at):
        places = count()

        def act():
            if next(places) == at:
                between()

        got.append(bytecodes(act, FIRST.calls[name], KEEPERS))
        acted.append(next(places) > at)

    for at in count():
        got, acted = [], []
        thread = threading.Thread(target=run, args=(at,))
        thread.start()
        thread.join()
        assert got == [FIRST.alone[name]] and between.wrong == []
        if not acted[0]:
            break
    assert at > 50


class Interrupt(BaseException):
    """What a handler raises, as KeyboardInterrupt."""


def interrupted(call):
    """Raises at each place between two bytecodes in turn, and goes on to the next with what was done there."""
    for at in range(100_000):
        left = at

        def act():
            nonlocal left
            left -= 1
            if left < 0:
                raise Interrupt

        try:
            bytecodes(act, call, KEEPERS)
        except Interrupt:
            yield
        else:
            assert at > 20
            return


@each("name", NAMES)
def test_a_handler_raises_between_any_two_bytecodes(name):
    """What was interrupted is lost, and all that comes after it is right."""
    call, alone = FIRST.calls[name], FIRST.alone[name]
    for _ in interrupted(call):
        assert answer(call) == alone
        for kept in (_library._ROOMS.free or [], *(policy._handles for policy in FIRST.policies)):
            assert len({id(each) for each in kept}) == len(kept) <= _library.KEPT
    between = Between(SECOND)
    assert bytecodes(between, call) == alone and between.wrong == []


@each("more", [{}, {"algs": ["X1"]}], ids=["verify", "judge"])
def test_a_handler_raises_where_an_answer_needs_more_room(more):
    """A policy whose room would have grown is used on, by answers that need more and by those that do not."""
    payloads = [{"n": 1}, {"text": "x" * 10_000}]
    if more:
        tokens = [sdjwt.issue({"payload": payload}, sign=lambda text: b"signed", alg="X1") for payload in payloads]
    else:
        tokens = [sdjwt.issue({"payload": payload, "key": KEY}) for payload in payloads]

    def new():
        return sdjwt.Policy({"keys": KEYS, **more}, check=yes if more else None)

    policy = new()
    for _ in interrupted(lambda: policy.verify(tokens[1], NOW)):
        assert [policy.verify(token, NOW) for token in tokens] == payloads
        policy = new()


def test_a_function_that_is_asked_calls_the_same_policy():
    deepest = 50
    lines = []

    def check(question):
        if len(lines) < deepest:
            lines.append(question.text)
            other = len(lines) % 2
            assert policy.verify(apart[other], NOW) == {"iss": f"office {other}"}
        return True

    apart = [sdjwt.issue({"payload": {"iss": f"office {n}"}}, sign=lambda text: b"signed", alg="X1") for n in range(2)]
    policy = sdjwt.Policy({"keys": {"keys": []}, "algs": ["X1"]}, check=check)
    assert policy.verify(apart[0], NOW) == {"iss": "office 0"}
    assert len(lines) == deepest and len(set(lines)) == 2
    assert len(policy._handles) <= 8
    lines.extend([b""] * deepest)
    assert policy.verify(apart[1], NOW) == {"iss": "office 1"}


def test_what_a_function_raises_leaves_the_policy_as_it_was():
    class Locked(Exception):
        pass

    def check(question):
        raise Locked

    policy = sdjwt.Policy({"keys": {"keys": []}, "algs": ["X1"]}, check=check)
    before = list(policy._handles)
    with pytest.raises(Locked):
        policy.verify(sdjwt.issue({"payload": {}}, sign=lambda text: b"signed", alg="X1"))
    assert policy._handles == before


def test_many_nested_calls_leave_few_rooms():
    """Each call of the library is interrupted by one more, where its room is not back yet."""
    depth, most, text = 0, 0, _library._Room.text

    def interrupted(room):
        nonlocal depth, most
        depth, most = depth + 1, max(most, depth + 1)
        said = text(room)
        if most < 50:
            assert sdjwt.show(tokens[depth % 2]) == shown[depth % 2]
        depth -= 1
        return said

    tokens = [sdjwt.issue({"payload": {"n": n}, "key": KEY}) for n in range(2)]
    shown = [sdjwt.show(token) for token in tokens]
    with pytest.MonkeyPatch.context() as patched:
        patched.setattr(_library._Room, "text", interrupted)
        assert sdjwt.show(tokens[0]) == shown[0]
    assert (depth, most) == (0, 50)
    assert len(_library._ROOMS.free) <= 8


def test_what_a_large_answer_took_is_let_go():
    """After each call with half a megabyte of claims no room is there that is larger than an ordinary one."""
    gc.collect()
    tracemalloc.start()
    try:
        office = Office("large", bytes([5]) * 32, 500_000)
        gc.collect()
        rooms = tracemalloc.take_snapshot().filter_traces([tracemalloc.Filter(True, ctypes.__file__)])
    finally:
        tracemalloc.stop()
    assert len(office.alone["convert"]["payload"]) < 500_000 < len(str(office.alone["Policy.verify"]))
    assert 0 < sum(trace.size for trace in rooms.traces) < 100_000


def test_a_thread_that_ends_leaves_nothing():
    def run():
        for name, call in FIRST.calls.items():
            assert answer(call) == FIRST.alone[name]
        done.append(True)

    done = []
    run()
    gc.collect()
    tracemalloc.start()
    try:
        before = tracemalloc.get_traced_memory()[0]
        for _ in range(20):
            thread = threading.Thread(target=run)
            thread.start()
            thread.join()
        gc.collect()
        assert tracemalloc.get_traced_memory()[0] - before < 50_000
    finally:
        tracemalloc.stop()
    assert len(done) == 21

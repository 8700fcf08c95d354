"""Policies, results and exceptions that go to other processes, and processes that are forked."""
import multiprocessing
import os
import pickle
import subprocess
import sys
import textwrap
from concurrent.futures import ProcessPoolExecutor
from pathlib import Path

import pytest

import sdjwt

KEY = "dGhlIHRpY2tldCBvZmZpY2Uga2V5LCBub3QgeW91cnM"
HOLDER = "YW5vdGhlciBrZXksIHRoZSBvbmUgb2YgdGhlIGhvbGRlcg"
KEYS = {"keys": [{"kty": "oct", "k": KEY}]}
NOW = 1_700_000_000
BINDING = {"aud": "door", "max_age": 60, "keys": {"keys": [{"kty": "oct", "kid": "ada", "k": HOLDER}]}}


def shown():
    """A presentation for the nonce 4711."""
    token = sdjwt.issue({"payload": {"seat": "B12", "cnf": {"kid": "ada"}}, "hide": ["/seat"], "key": KEY})
    binding = {"aud": "door", "nonce": "4711", "key": HOLDER, "kid": "ada"}
    return sdjwt.present({"keys": KEYS, "want": ["/seat"], "binding": binding}, token, NOW)


def checked(policy, token, nonce):
    """Runs in another process."""
    return os.getpid(), policy.check(token, NOW, nonce=nonce)


def trusts(question):
    """A function that a process can find by its name."""
    return question.alg == "ES256"


def test_a_policy_goes_to_a_process_and_its_result_comes_back():
    policy, token = sdjwt.Policy({"keys": KEYS, "binding": BINDING}), shown()
    with ProcessPoolExecutor(1, mp_context=multiprocessing.get_context("spawn")) as processes:
        number, found = processes.submit(checked, policy, token, "4711").result()
        assert number != os.getpid() and found == policy.check(token, NOW, nonce="4711")
        assert found.claims["seat"] == "B12" and found.disclosed == ("/seat",)
        # an exception comes back as what it is
        with pytest.raises(sdjwt.NonceDiffers) as caught:
            processes.submit(checked, policy, token, "4712").result()
        assert caught.value.number == 35 and caught.value.remedy
        with pytest.raises(sdjwt.Unreadable) as unread:
            processes.submit(checked, policy, token, None).result()
        assert unread.value.detail == 'at /binding: "nonce" is missing, and the call gives no nonce'
        with pytest.raises(TypeError, match="nonce is of type int"):
            processes.submit(checked, policy, token, 4711).result()


def test_functions_go_with_a_policy_if_they_have_a_name():
    token = sdjwt.issue({"payload": {"a": 1}}, sign=lambda text: bytes(64), alg="ES256")
    named = sdjwt.Policy({"keys": {"keys": []}, "algs": ["ES256"]}, check=trusts)
    assert pickle.loads(pickle.dumps(named)).verify(token) == {"a": 1}
    nameless = sdjwt.Policy({"keys": {"keys": []}, "algs": ["ES256"]}, check=lambda question: True)
    with pytest.raises((pickle.PicklingError, AttributeError)):
        pickle.dumps(nameless)
    assert nameless.verify(token) == {"a": 1}


def test_a_policy_works_on_both_sides_of_a_fork(tmp_path):
    """The policy and the buffers of the thread were used before. The process has no other thread, as sdjwt.h asks."""
    program = tmp_path / "forks.py"
    program.write_text(textwrap.dedent(f"""
        import os, sdjwt
        policy = sdjwt.Policy({{"keys": {KEYS}}})
        token = sdjwt.issue({{"payload": {{"seat": "B12"}}, "hide": ["/seat"], "key": "{KEY}"}})
        assert policy.check(token).disclosed == ("/seat",)
        children = []
        for number in range(4):
            child = os.fork()
            if child == 0:
                for _ in range(50):
                    assert policy.verify(token) == {{"seat": "B12"}}
                    try:
                        policy.verify(token[:-2])
                    except sdjwt.Refused:
                        continue
                    os._exit(1)
                os._exit(0)
            children.append(child)
            for _ in range(50):
                assert policy.verify(token) == {{"seat": "B12"}}
        assert all(os.waitpid(child, 0)[1] == 0 for child in children)
        # of each order another seed, on both sides
        reader, writer = os.pipe()
        child = os.fork()
        made = sdjwt.issue({{"payload": {{"seat": "B12"}}, "hide": ["/seat"], "key": "{KEY}"}}).encode()
        if child == 0:
            os.write(writer, made)
            os._exit(0)
        assert os.waitpid(child, 0)[1] == 0 and os.read(reader, 10_000) != made
        print("done")
    """), encoding="utf-8")
    environment = {**os.environ, "PYTHONPATH": os.pathsep.join(filter(None, [
        str(Path(sdjwt.__file__).resolve().parent.parent), os.environ.get("PYTHONPATH", "")]))}
    ran = subprocess.run([sys.executable, str(program)], env=environment, capture_output=True, text=True, timeout=300)
    assert (ran.returncode, ran.stdout, ran.stderr) == (0, "done\n", "")

"""Threads with little stack: a call is refused, and the process goes on.

What is tested runs in a process of its own.
"""
import resource
import subprocess
import sys
from pathlib import Path

import pytest

import sdjwt

SCRIPT = str(Path(__file__).resolve().parent / "stacks.py")
KNOWN = "the C library of this system does not tell how much stack is left"
pytestmark = pytest.mark.skipif(sdjwt._stack._LIBRARY is None, reason=KNOWN)
each = pytest.mark.parametrize


def ran(*words, **more):
    """The lines that a run of the script prints. It has to end as it should."""
    run = subprocess.run(
        [sys.executable, SCRIPT, *words], stdout=subprocess.PIPE, stderr=subprocess.PIPE, text=True, check=False, **more
    )
    assert (run.returncode, run.stderr) == (0, "")
    return run.stdout.splitlines()


def each_said(lines, word):
    return len(lines) >= 15 and all(line.endswith(f": {word}") for line in lines)


@each("kib", [32, 48, 64, 96, 128, 192, 256, 384, 512])
def test_each_call_is_refused_on_a_small_stack(kib):
    assert each_said(ran("small", str(kib)), "OutOfStack")


@each("kib", [544, 1024, 2048, 8192])
def test_each_call_is_answered_where_the_stack_is_enough(kib):
    assert each_said(ran("small", str(kib)), "answered")


@each("kib, word", [(256, "OutOfStack"), (512, "OutOfStack"), (1024, "answered"), (8192, "answered")])
def test_the_main_thread_has_what_its_limit_says(kib, word):
    def limit():
        resource.setrlimit(resource.RLIMIT_STACK, (kib * 1024, resource.getrlimit(resource.RLIMIT_STACK)[1]))

    assert each_said(ran("here", preexec_fn=limit), word)


@each("kib", [544, 1536])
def test_what_counts_is_what_is_left(kib):
    """Where a recursion has taken all but what a call needs, the deepest inputs are answered, and one level below it
    none is.
    """
    line, = ran("deep", str(kib))
    levels, _, calls, _, refused, _ = line.replace(",", "").split()
    assert int(levels) > (kib - 540) // 10 and int(calls) > 3000 and refused == "0"


def test_what_is_raised_says_what_to_do():
    fault = sdjwt.OutOfStack("x")
    assert isinstance(fault, RuntimeError) and not isinstance(fault, sdjwt.SdJwtError)
    assert sdjwt._stack.NEEDED == 512 * 1024

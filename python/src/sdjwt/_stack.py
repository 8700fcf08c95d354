"""Whether the stack of a thread has what a call needs. In C too little of it ends the process, so each call looks
before.

That a thread has plenty is found out once. Of another one each call asks the processor how much is left, by
`getcontext`. Both are known on Linux with glibc on x86-64. Elsewhere nobody tells, and no call is refused.
"""
from __future__ import annotations

import ctypes
import os
import threading
from ctypes import byref, c_char, c_int, c_size_t, c_void_p

from sdjwt._errors import OutOfStack

# What has to be left, in bytes. The deepest inputs were seen to take half of it (docs/SCALE.md). The header of the
# library says that 1 MiB is always enough; a thread that has just this much in all has to be one that can call.
NEEDED = 512 * 1024
# So much is plenty: recursion up to the 1,000 levels that Python allows was seen to take 3 MiB.
_PLENTY = 4 * 1024 * 1024


class _Context(ctypes.Structure):
    """The `ucontext_t` of x86-64 (sys/ucontext.h): what `getcontext` writes has 968 bytes."""

    _fields_ = [
        ("flags", c_size_t),
        ("link", c_void_p),
        ("stack", c_size_t * 3),
        ("registers", c_size_t * 23),
        ("more", c_char * 3072),
    ]


_STACK_POINTER = 15
_ATTRIBUTES = c_size_t * 32


def _load() -> ctypes.CDLL | None:
    """The C library of the process, where it tells of stacks."""
    if os.name != "posix" or os.uname().machine != "x86_64" or ctypes.sizeof(c_void_p) != 8:
        return None
    library = ctypes.CDLL(None)
    try:
        library.pthread_self.restype = c_size_t
        library.pthread_getattr_np.argtypes, library.pthread_getattr_np.restype = (c_size_t, c_void_p), c_int
        library.pthread_attr_getstack.argtypes = (c_void_p, c_void_p, c_void_p)
        library.pthread_attr_destroy.argtypes = (c_void_p,)
        library.getcontext.argtypes, library.getcontext.restype = (c_void_p,), c_int
    except AttributeError:
        return None
    return library


_LIBRARY = _load()


class _Thread(threading.local):
    """The address at which the stack of a thread ends, or 0 where it has plenty or nobody tells.

    None until its first call.
    """

    low: int | None = None


_THREAD = _Thread()


def _low_end() -> int:
    if _LIBRARY is None:
        return 0
    attributes, low, size = _ATTRIBUTES(), c_size_t(), c_size_t()
    if _LIBRARY.pthread_getattr_np(_LIBRARY.pthread_self(), byref(attributes)) != 0:
        return 0
    _LIBRARY.pthread_attr_getstack(byref(attributes), byref(low), byref(size))
    _LIBRARY.pthread_attr_destroy(byref(attributes))
    return low.value if size.value < _PLENTY else 0


def need_stack() -> None:
    """Refuses a call for which too little is left. Each call of the package begins with it."""
    low = _THREAD.low
    if low is None:
        low = _THREAD.low = _low_end()
    if low:
        _look(low)


def _look(low: int) -> None:
    context = _Context()
    if _LIBRARY is None or _LIBRARY.getcontext(byref(context)) != 0:
        return
    left = context.registers[_STACK_POINTER] - low
    # below 0 it is not the stack of the thread on which this runs
    if 0 <= left < NEEDED:
        raise OutOfStack(
            f"sdjwt: a call needs {NEEDED // 1024} KiB of stack, and this thread has {left // 1024} left: give threads "
            "more by threading.stack_size"
        )

"""The C library, by ctypes. No rule of SD-JWT stands here: bytes go in, and a status with bytes comes out."""
from __future__ import annotations

import ctypes
import os
import threading
from collections.abc import Callable
from ctypes import POINTER, addressof, c_char_p, c_size_t, c_uint8, c_uint32, c_uint64, c_void_p, create_string_buffer
from pathlib import Path
from typing import Any

DONE, REFUSED, USAGE, UNWRITTEN, MEMORY, UNREADABLE, ASKS, NOT_ASKED, TO_SIGN = 0, 1, 2, 4, 5, 6, 7, 8, 9
# What is said of a signature.
UNSAID, UNKNOWN, BAD, GOOD = 0, 1, 2, 3
_ABI_VERSION = 1
# Where the library lies that is loaded.
PATH = os.environ.get("SDJWT_LIBRARY") or str(Path(__file__).resolve().parent / "libsdjwt.so")
# What a room for answers has at first, in bytes. Most answers are shorter.
_FIRST_ROOM = 4096
# The largest room that is kept for the next call. A longer answer has one for itself, which goes with it, so that
# neither this much memory nor the claims in it stay. It is not cleared: the same claims were in freed memory of Python
# and of C before.
_ROOM_MOST = 65_536
# How many times as long as what is given an answer may be, where it is not seldom longer than that and 256 bytes.
_TIMES = {"issue": 4, "issue_ask": 4, "issue_sign": 4, "show": 2, "split": 2, "convert": 2}
# How many rooms a thread keeps, and how many handles a policy, that no call uses. More are made where calls come
# between calls.
KEPT = 8

# The most tokens that a wallet may have.
TOKENS = 64

# What is written goes by its address, which ctypes passes on with the least work.
_IN = (c_char_p, c_size_t)
_OUT = (c_void_p, c_size_t, c_void_p)
_CALLS: dict[str, tuple[Any, ...]] = {
    "issue": (*_IN, *_IN, *_OUT),
    "issue_ask": (*_IN, *_IN, *_IN, *_OUT),
    "issue_sign": (*_IN, *_IN, *_IN, *_IN, *_OUT),
    "present": (*_IN, *_IN, c_uint64, *_OUT),
    "present_ask": (*_IN, *_IN, c_uint64, c_uint8, *_OUT),
    "present_sign": (*_IN, *_IN, c_uint64, c_uint8, *_IN, *_OUT),
    "verify": (*_IN, *_IN, c_uint64, *_OUT),
    "show": (*_IN, *_OUT),
    "split": (*_IN, *_OUT),
    "convert": (c_uint8, *_IN, *_OUT),
    "audit": (*_IN, *_IN, *_OUT),
    "wallet": (*_IN, *_IN, POINTER(c_size_t), c_size_t, *_OUT),
    "policy_new": (c_void_p, *_IN, *_OUT),
    "policy_verify": (c_void_p, *_IN, c_uint64, *_OUT),
    "policy_judge": (c_void_p, *_IN, *_IN, c_uint64, c_uint8, c_uint8, *_OUT),
}


def _load() -> ctypes.CDLL:
    try:
        library = ctypes.CDLL(PATH)
    except OSError as fault:
        raise ImportError(f"sdjwt: the library {PATH} could not be loaded: {fault}") from fault
    library.sdjwt_abi_version.restype = c_uint32
    if library.sdjwt_abi_version() != _ABI_VERSION:
        raise ImportError(f"sdjwt: the library {PATH} is of another version")
    for name, parameters in _CALLS.items():
        function = getattr(library, "sdjwt_" + name)
        function.argtypes, function.restype = parameters, c_uint8
    library.sdjwt_policy_free.argtypes, library.sdjwt_policy_free.restype = (c_void_p,), None
    return library


_LIBRARY = _load()
# None in a library that cannot set the nonce of a policy that it has read
_NONCE = getattr(_LIBRARY, "sdjwt_policy_nonce", None)
if _NONCE is not None:
    _NONCE.argtypes, _NONCE.restype = (c_void_p, *_IN), c_uint8
_FREE = _LIBRARY.sdjwt_policy_free
_VERIFY = _LIBRARY.sdjwt_policy_verify
_JUDGE = _LIBRARY.sdjwt_policy_judge
_FUNCTIONS = {name: getattr(_LIBRARY, "sdjwt_" + name) for name in _CALLS}


class _Room:
    """A buffer for one answer at a time, of a size that stays. What ctypes passes on of it is made once."""

    __slots__ = ("at", "at_len", "buffer", "is_kept", "len", "size")

    def __init__(self, size: int = _FIRST_ROOM) -> None:
        self.len = c_size_t()
        self.at_len = c_void_p(addressof(self.len))
        self.buffer = create_string_buffer(size)
        self.at = c_void_p(addressof(self.buffer))
        self.size = c_size_t(size)
        self.is_kept = size <= _ROOM_MOST

    def text(self) -> bytes:
        # a slice of characters is bytes, which mypy does not know
        return self.buffer[: self.len.value]  # type: ignore[return-value]


class _Rooms(threading.local):
    """The rooms of a thread that no call uses.

    A signal handler, a finalizer and the like may call the package between any two bytecodes of it. So a room is out of
    this list from before a call writes into it until what was written is copied, and what comes between takes another.
    Where a call ends by what a handler raised, its room does not come back, and is garbage.
    """

    # A thread makes its list in its first call, and not by __init__: what comes between would find an object without
    # one.
    free: list[_Room] | None = None


_ROOMS = _Rooms()


def _taken(likely: int) -> _Room:
    """A room, of more than this where it would not be kept, so that a long answer seldom has to be made twice."""
    if likely > _ROOM_MOST:
        return _Room(likely + 256)
    free = _ROOMS.free
    if free is not None:
        try:
            return free.pop()
        except IndexError:
            pass
    return _Room()


def _give_back(room: _Room) -> None:
    free = _ROOMS.free
    if free is None:
        _ROOMS.free = [room]
    elif len(free) < KEPT:
        free.append(room)


def call(name: str, *words: Any) -> tuple[int, bytes]:
    """The status of a call, and its answer or line. Bytes and arrays are passed with their length."""
    function = _FUNCTIONS[name]
    passed: list[Any] = []
    given = 0
    for word in words:
        passed.append(word)
        if isinstance(word, (bytes, ctypes.Array)):
            passed.append(len(word))
            given += len(word)
    room = _taken(given * _TIMES.get(name, 1))
    status = function(*passed, room.at, room.size, room.at_len)
    if status == UNWRITTEN:
        room = _Room(room.len.value)
        status = function(*passed, room.at, room.size, room.at_len)
    said = room.text()
    if room.is_kept:
        _give_back(room)
    return status, said


def call_wallet(query: bytes, tokens: list[bytes]) -> tuple[int, bytes]:
    """What a wallet answers over its tokens, which are passed as one text with their lengths."""
    lengths = (c_size_t * len(tokens))(*map(len, tokens))
    return call("wallet", query, b"".join(tokens), lengths)


class _Held(ctypes.Structure):
    """The handle of a policy, as C has it. The policy is freed with it."""

    _fields_ = [("held", c_void_p)]

    def __del__(self) -> None:
        _FREE(addressof(self))


class Handle:
    """A policy that is read, with a room of its own. It is for one call at a time."""

    __slots__ = ("at", "held", "room")

    def __init__(self, held: _Held) -> None:
        self.held = held
        self.at = c_void_p(addressof(held))
        self.room = _Room()

    def verify(self, token: bytes, now: int) -> tuple[int, bytes]:
        """The status, and the claims or the line."""
        length = len(token)
        room = self.room if length <= _ROOM_MOST else _Room(length + 256)
        status: int = _VERIFY(self.at, token, length, now, room.at, room.size, room.at_len)
        if status == UNWRITTEN:
            room = self._larger(room)
            status = _VERIFY(self.at, token, length, now, room.at, room.size, room.at_len)
        return status, room.buffer[: room.len.value]  # type: ignore[return-value]

    def judge(self, algs: bytes, token: bytes, now: int, issuer: int, holder: int) -> tuple[int, bytes]:
        """The status, and the claims, a question or the line, after what was said of the signatures."""
        length = len(token)
        room = self.room if length <= _ROOM_MOST else _Room(length + 256)
        asked = (self.at, algs, len(algs), token, length, now, issuer, holder)
        status: int = _JUDGE(*asked, room.at, room.size, room.at_len)
        if status == UNWRITTEN:
            room = self._larger(room)
            status = _JUDGE(*asked, room.at, room.size, room.at_len)
        return status, room.text()

    def set_nonce(self, nonce: bytes, policy: Callable[[], bytes]) -> int:
        """Sets the nonce for the calls that follow.

        `policy` gives the policy with it, for a library that has to read it anew.
        """
        if _NONCE is None:
            return call("policy_new", addressof(self.held), policy())[0]
        status: int = _NONCE(self.at, nonce, len(nonce))
        return status

    def _larger(self, room: _Room) -> _Room:
        """A room for what did not fit into this one. It stays the handle's, unless it is too large to be kept."""
        larger = _Room(room.len.value)
        if larger.is_kept:
            self.room = larger
        return larger


def new_handle(policy: bytes) -> tuple[int, bytes, Handle]:
    """A handle that holds a policy, where the status is DONE."""
    held = _Held()
    status, line = call("policy_new", addressof(held), policy)
    return status, line, Handle(held)

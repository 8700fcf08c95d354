"""What a caller gives, as the bytes and the number that the library takes.

Another type than the documented ones is a TypeError that names the argument, and a value that can mean nothing a
ValueError.
"""
from __future__ import annotations

import json
from collections.abc import Iterable, Mapping
from datetime import datetime, timedelta, timezone
from itertools import islice
from math import isfinite
from time import time
from typing import Any

from sdjwt import _library
from sdjwt._detail import shown_place, step
from sdjwt._errors import TooLong

# The greatest length of a token in bytes, where the caller gives none.
MOST = 1_048_576
# The length of a seed in bytes.
SEED_LENGTH = 32
# How many values, and how deep, are looked at for one that JSON does not have. A value may contain itself.
_SEARCHED_MAX = 20_000
_DEPTH_MAX = 128


def file_bytes(given: object, name: str) -> bytes:
    """An order, a policy or a query."""
    if isinstance(given, Mapping):
        given = _written(given, name)
    if isinstance(given, str):
        return _text_bytes(given, name)
    return _plain_bytes(given, name, "a dict, or a JSON text as str or bytes")


def token_bytes(given: object, most: int, name: str = "token") -> bytes:
    """A token, if it is no longer than `most`. What no text has, as half of a surrogate pair, the library refuses."""
    if type(most) is not int or most < 0:
        _need_length(most)
    if not isinstance(given, (str, bytes)) and isinstance(given, Mapping):
        given = _written(given, name, allow_nan=True)
    if not isinstance(given, str):
        content = _plain_bytes(given, name, "a str, bytes, or the dict of a JSON form")
    elif len(given) <= most:
        content = str.encode(given, "utf-8", "surrogatepass")
    else:
        # no letter has less than a byte, so this text need not be copied
        raise TooLong(name, most)
    if len(content) > most:
        raise TooLong(name, most)
    return content


def _need_length(most: object) -> None:
    if isinstance(most, bool) or not isinstance(most, int):
        raise TypeError(f"sdjwt: most is of type {type(most).__name__}, and has to be a number of bytes, an int")
    if most < 0:
        raise ValueError("sdjwt: most is below 0")


def _plain_bytes(given: object, name: str, wanted: str) -> bytes:
    if type(given) is bytes:
        return given
    if isinstance(given, (bytes, bytearray, memoryview)):
        return memoryview(given).tobytes()
    raise TypeError(f"sdjwt: {name} is of type {type(given).__name__}, and has to be {wanted}")


def held_bytes(tokens: object, most: int) -> list[bytes]:
    """The tokens of a wallet."""
    if isinstance(tokens, (str, bytes, bytearray, memoryview, Mapping)):
        raise TypeError(f"sdjwt: tokens is of type {type(tokens).__name__}, which is one token: give a list of them")
    if not isinstance(tokens, Iterable):
        raise TypeError(f"sdjwt: tokens is of type {type(tokens).__name__}, and has to be a list of tokens")
    held = list(islice(tokens, _library.TOKENS + 1))
    if not 1 <= len(held) <= _library.TOKENS:
        raise ValueError(f"sdjwt: tokens has to be 1 to {_library.TOKENS} tokens")
    return [token_bytes(token, most, f"token {i} of tokens") for i, token in enumerate(held)]


def seed_bytes(given: object) -> bytes:
    """A seed.

    The library would read its first 32 bytes and pass over the rest, so two long seeds could give the same salts.
    """
    seed = _plain_bytes(given, "seed", "bytes")
    if len(seed) != SEED_LENGTH:
        raise ValueError(f"sdjwt: seed has {len(seed)} bytes, and has to have {SEED_LENGTH}")
    return seed


def alg_bytes(given: object) -> bytes:
    """The name of an algorithm. That it is one is for the library to say."""
    if not isinstance(given, str):
        raise TypeError(f"sdjwt: alg is of type {type(given).__name__}, and has to be a str")
    return _text_bytes(given, "alg")


def signature_bytes(given: object) -> bytes:
    """What a function answered that signs."""
    return _plain_bytes(given, "what sign answered", "the bytes of a signature")


def moment(now: object) -> int:
    """A time in whole seconds since 1970, and the present one if none is given."""
    if now is None:
        return max(0, int(time()))
    if isinstance(now, datetime):
        now = _seconds(now)
    if isinstance(now, bool) or not isinstance(now, (int, float)):
        raise TypeError(
            f"sdjwt: now is of type {type(now).__name__}, and has to be seconds since 1970, an int or a float, or a "
            "datetime"
        )
    if not 0 <= now < 2**64:
        raise ValueError("sdjwt: now is no moment from 0 to 2**64 - 1, in seconds since 1970")
    return int(now)


def _seconds(now: datetime) -> int:
    if now.utcoffset() is None:
        raise ValueError(
            "sdjwt: now is a datetime without a time zone: give an aware one, as datetime.now(timezone.utc)"
        )
    # a float of seconds could be rounded up to the next second
    return (now - datetime(1970, 1, 1, tzinfo=timezone.utc)) // timedelta(seconds=1)


def named_text(given: object, name: str) -> str:
    """A nonce or an audience of a call. How long it may be is for the library to say."""
    if not isinstance(given, str):
        raise TypeError(f"sdjwt: {name} is of type {type(given).__name__}, and has to be a str")
    _text_bytes(given, name)
    return given


def _text_bytes(given: str, name: str) -> bytes:
    try:
        return str.encode(given)
    except UnicodeEncodeError:
        raise ValueError(f"sdjwt: {name} has half of a surrogate pair in it, which no text has") from None


def _written(given: Mapping[Any, Any], name: str, allow_nan: bool = False) -> str:
    try:
        text = json.dumps(_plain(given), ensure_ascii=False, allow_nan=allow_nan, default=_plain)
    except RecursionError:
        raise ValueError(f"sdjwt: {name} is nested too deep") from None
    except TypeError as fault:
        raise TypeError(f"sdjwt: {name} can't be written as JSON: {_stray(given) or fault}") from None
    except ValueError as fault:
        raise ValueError(f"sdjwt: {name} can't be written as JSON: {_stray(given) or fault}") from None
    if not _has_plain_names(given):
        raise TypeError(f"sdjwt: {name} can't be written as JSON: {_stray(given) or 'a name of a member is no str'}")
    return text


def _plain(value: object) -> dict[Any, Any]:
    if isinstance(value, dict):
        return value
    if isinstance(value, Mapping):
        return dict(value)
    raise TypeError(f"a value is of type {type(value).__name__}")


def _has_plain_names(given: Mapping[Any, Any]) -> bool:
    """Whether each name of a member is a str.

    JSON would have another one in quotes, where it meets one that stood in quotes.
    """
    left: list[Any] = [given]
    while left:
        value = left.pop()
        if isinstance(value, Mapping):
            if not all(isinstance(member, str) for member in value):
                return False
            value = value.values()
        left.extend(inner for inner in value if isinstance(inner, (Mapping, list, tuple)))
    return True


def _stray(given: object) -> str:
    """The first value or name that JSON does not have, with its place, as `/a/b/0: datetime`.

    Empty if none is found.
    """
    left: list[tuple[int, str, object]] = [(0, "", given)]
    for _ in range(_SEARCHED_MAX):
        if not left:
            break
        depth, place, value = left.pop()
        said = _no_json(value)
        if said:
            return f"{shown_place(place)}: {said}"
        if depth < _DEPTH_MAX:
            left.extend((depth + 1, f"{place}/{step(str(name))}", inner) for name, inner in reversed(_items(value)))
    return ""


def _items(value: object) -> list[tuple[Any, object]]:
    if isinstance(value, Mapping):
        return list(value.items())
    return list(enumerate(value)) if isinstance(value, (list, tuple)) else []


def _no_json(value: object) -> str:
    """Why JSON has no such value or names. Of a value inside it nothing is said."""
    if isinstance(value, float) and not isfinite(value):
        return f"the number {value}"
    if isinstance(value, Mapping):
        others = [type(name).__name__ for name in value if not isinstance(name, str)]
        return f"a name of type {others[0]}, and names of members are str" if others else ""
    return "" if value is None or isinstance(value, (str, int, float, list, tuple)) else type(value).__name__

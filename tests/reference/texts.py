"""What texts say: JSON as the specification reads and writes it (RFC 8259), base64url, hashes and signatures.

A tree is None, a bool, an int, a str, a list or a dict. Names are compared as texts: the order of code points, which is
how Python orders them, is the order of the bytes of UTF-8.
"""

from __future__ import annotations
import base64
import hashlib
import hmac
import json
import re
from collections import namedtuple
from collections.abc import Iterable
from itertools import accumulate
from typing import Any
from outcome import Unreadable

Tree = Any
Members = dict[str, Tree]
Path = tuple[str, ...]  # Its steps.
Key = namedtuple("Key", "octets kid")  # Of the kind oct (RFC 7518 section 6.4); the kid may be None.
NESTING_MAX = 127
HASHES = {"sha-256": "sha256", "sha-384": "sha384", "sha-512": "sha512"}
ALGORITHMS = {"HS256": 32, "HS384": 48, "HS512": 64}  # As many bytes as the hash has, a key has at least.
_TEXTS = re.compile(r'"(?:[^"\\]|\\.)*"', re.DOTALL)
_ODD_NUMBER = re.compile("[0-9][.eE]|-0|[0-9]{19}")  # Where a number may be one that is not whole.
# Half a pair of surrogates has no UTF-8, so an escape that is no pair is none of a text.
_WHOLE_PAIRS = re.compile(r"(?:[^\\]|\\[^u]|\\u(?!d[89a-f])|\\ud[89ab]..\\ud[c-f]..)*", re.DOTALL | re.IGNORECASE)

def _number(digits: str) -> float:
    """A whole number; or one with a fraction or out of range, for which a float stands: a tree has none."""
    if not abs(float(digits)) < float("inf"):  # NaN and Infinity come here too, and are no JSON.
        raise ValueError
    is_kept = re.fullmatch("-?[0-9]{1,20}", digits) and digits != "-0" and -2**63 <= int(digits) < 2**64
    return int(digits) if is_kept else float(digits)

_READER = json.JSONDecoder(parse_float=_number, parse_int=_number, parse_constant=_number)

def read(data: bytes) -> Tree:
    """The tree of a text, or the fault notJson or notWhole. Of two members of one name the last counts."""
    try:
        text = data.decode("utf-8")
        if text.count("[") + text.count("{") > NESTING_MAX and _nesting(text) > NESTING_MAX:
            raise ValueError
        value = _READER.decode(text)
        if "\\u" in text and not _WHOLE_PAIRS.fullmatch(text):
            raise ValueError
    except ValueError:
        raise Unreadable("notJson") from None
    if _ODD_NUMBER.search(text) and _has_fraction(value):
        raise Unreadable("notWhole")
    return value

def _nesting(text: str) -> int:
    marks = re.findall(r"[\[\]{}]", _TEXTS.sub("", text))
    return max(accumulate(1 if mark in "[{" else -1 for mark in marks), default=0)

def _has_fraction(value: Tree) -> bool:
    return isinstance(value, float) or any(_has_fraction(inner) for _, inner in inside(value))

def inside(tree: Tree) -> Iterable[tuple[str, Tree]]:
    """The steps that lead into a tree, in their order, and what stands there."""
    if isinstance(tree, dict):
        return sorted(tree.items(), key=lambda member: member[0])
    return zip(map(str, range(len(tree))), tree) if isinstance(tree, list) else ()

def write(value: Tree) -> str:
    """Compact JSON: members by the bytes of their names, each character as it stands where it may; true is not 1."""
    return json.dumps(value, ensure_ascii=False, separators=(",", ":"), sort_keys=True)

def depth(value: Tree) -> int:
    """0 of a leaf, 1 of an empty array or object, else 1 more than the greatest inside."""
    return isinstance(value, (list, dict)) + max((depth(inner) for _, inner in inside(value)), default=0)

def is_whole(value: Tree) -> bool:
    """Whether a tree is a whole number: true and false are none."""
    return isinstance(value, int) and not isinstance(value, bool)

def at(tree: Tree, path: Path) -> tuple[bool, Tree]:
    """Whether a path leads to a value in a tree, and to which (RFC 6901 section 4)."""
    for step in path:
        if isinstance(tree, dict) and step in tree:
            tree = tree[step]
        elif isinstance(tree, list) and re.fullmatch("0|[1-9][0-9]{0,8}", step) and int(step) < len(tree):
            tree = tree[int(step)]
        else:
            return False, None
    return True, tree

def is_base64url(text: object) -> bool:
    """One or more of the 64 letters; whether they are a code is another question."""
    return isinstance(text, str) and re.fullmatch("[A-Za-z0-9_-]+", text) is not None

def encode(octets: bytes) -> str:
    """The code of a list of bytes (RFC 4648 section 5)."""
    return base64.urlsafe_b64encode(octets).rstrip(b"=").decode()

def decode(text: str) -> bytes | None:
    """The bytes of which the text is the code, or None: the filling is zeros, and no code leaves one letter over."""
    if len(text) % 4 == 1 or (text and not is_base64url(text)):
        return None
    octets = base64.urlsafe_b64decode(text + "=" * (-len(text) % 4))
    return octets if encode(octets) == text else None

def written(tree: Tree) -> str:
    """The code of the compact JSON of a tree."""
    return encode(write(tree).encode())

def carried(text: str, kind: type = dict) -> Any:
    """The object, or the array, that a text carries; or None."""
    try:
        value = read(decode(text) or b"")
    except Unreadable:
        return None
    return value if isinstance(value, kind) else None

def digest_of(text: str, hash_name: str) -> str:
    """The code of the hash of a text (RFC 9901 section 4.2.3, FIPS 180-4)."""
    return encode(hashlib.new(HASHES[hash_name], text.encode()).digest())

def sign(protected: str, payload: str, octets: bytes, alg: str) -> str:
    """The signature of a header and a payload (RFC 7515 section 5.1, RFC 2104): the one text that is good."""
    return encode(hmac.new(octets, f"{protected}.{payload}".encode(), f"sha{alg[2:]}").digest())

def pick(keys: list[Key], alg: str, kid: str | None) -> Key | None:
    """The first key that has enough bytes (RFC 7518 section 3.2) and, where a kid is given, this kid."""
    return next((key for key in keys if len(key.octets) >= ALGORITHMS[alg] and kid in (None, key.kid)), None)

"""The files that a user writes: policy, order, present order, query and seed, each by the table of its members."""

import re
from collections.abc import Callable
from typing import Any
from outcome import FILE_MAX, Unreadable
from texts import ALGORITHMS, HASHES, Key, Path, Tree, decode, is_whole, read

Said = dict[str, Any]
Form = Callable[[Tree], Any]  # Answers what a value says, or raises Unreadable.
Table = dict[str, tuple]  # For each member its form and, if it may be missing, what stands for it.

def _check(holds: object, fault: str = "wrong") -> None:
    if not holds:
        raise Unreadable(fault)

def _form(holds: Callable[[Tree], bool]) -> Form:
    def form(value: Tree) -> Tree:
        _check(holds(value))
        return value
    return form

def whole(least: int, most: int) -> Form:
    """A whole number between two."""
    return _form(lambda value: is_whole(value) and least <= value <= most)

def one_of(texts: dict[str, Any]) -> Form:
    """One of some texts."""
    return _form(lambda value: isinstance(value, str) and value in texts)

text = _form(lambda value: isinstance(value, str))
short_text = _form(lambda value: isinstance(value, str) and len(value.encode()) <= 256)
scalar = _form(lambda value: not isinstance(value, (list, dict)))  # Null, true, false, a whole number or a text.

def array(form: Form, least: int = 0, most: int = FILE_MAX) -> Form:
    """An array whose elements have a form."""
    def whole_array(value: Tree) -> list[Any]:
        _check(isinstance(value, list) and least <= len(value) <= most)
        return [form(element) for element in value]
    return whole_array

def members(**forms: Form) -> Form:
    """An object with just these members."""
    def form(value: Tree) -> Said:
        _check(isinstance(value, dict) and set(value) == set(forms))
        return {name: forms[name](value[name]) for name in forms}
    return form

def pointer(value: Tree) -> Path:
    """The path of a JSON Pointer (RFC 6901 section 3)."""
    _check(text(value)[:1] in ("", "/") and not re.search("~(?![01])", value))
    return tuple(step.replace("~1", "/").replace("~0", "~") for step in value.split("/")[1:])

PLACES = (array(pointer), [])

def octets(value: Tree) -> bytes:
    """A key: the code of at least 32 bytes."""
    key = decode(text(value)) or b""
    _check(len(key) >= 32)
    return key

def key_set(value: Tree) -> list[Key]:
    """RFC 7517 section 5: the keys of the kind oct, in their order; others are left out."""
    _check(isinstance(value, dict) and isinstance(value.get("keys"), list))
    _check(all(isinstance(each, dict) for each in value["keys"]))
    return [Key(octets(each.get("k")), text(each["kid"]) if "kid" in each else None)
            for each in value["keys"] if text(each.get("kty")) == "oct"]

def read_table(data: bytes, table_of: Callable[[Said], Table]) -> Said:
    """The faults in their order; of missing and wrong the first member of the table is named."""
    _check(len(data) <= FILE_MAX, "tooLong")
    value = read(data)
    _check(isinstance(value, dict), "notObject")
    table = table_of(value)
    _check(value.keys() <= table.keys(), "unknown")
    said = {}
    for name, (form, *missing) in table.items():
        _check(name in value or missing, f"missing {name}")
        try:
            said[name] = form(value[name]) if name in value else missing[0]
        except Unreadable:
            raise Unreadable(f"wrong {name}") from None
    return said

def read_policy(data: bytes) -> Said:
    """What a verifier wants of a token, of version 1 or 2."""
    def table(value: Said) -> Table:
        second = value.get("version") == 2
        iss = array(text, 1) if second else lambda one: [text(one)]
        aud = array(short_text, 1, 16) if second else lambda one: [short_text(one)]
        binding = members(aud=aud, nonce=short_text, keys=key_set, max_age=whole(0, 4_294_967_295))
        return {"version": (whole(1, 2), 1), "keys": (key_set,), "algs": (array(text), ["HS256"]),
                "typ": (text, None), "iss": (iss, None), "require": (array(text), []),
                "skew": (whole(0, 3600), 0), "binding": (binding, None)}
    return read_table(data, table)

def read_order(data: bytes) -> Said:
    """What an issuer is asked for, and the key that signs."""
    def table(value: Said) -> Table:
        def alg(name: Tree) -> str:
            _check(len(octets(value["key"])) >= ALGORITHMS[one_of(ALGORITHMS)(name)])
            return name
        decoys = array(members(at=pointer, count=whole(0, 32_768)))
        return {"payload": (lambda any_value: any_value,), "hide": PLACES, "decoys": (decoys, []), "key": (octets,),
                "kid": (text, None), "typ": (text, None), "alg": (alg, "HS256"), "sd_alg": (one_of(HASHES), "sha-256")}
    return read_table(data, table)

def read_present_order(data: bytes) -> Said:
    """What a holder is asked to show, and under which rule."""
    binding = members(key=octets, kid=text, aud=short_text, nonce=short_text)
    return read_table(data, lambda _: {
        "keys": (key_set,), "want": PLACES, "never": PLACES, "binding": (binding, None)})

def read_query(data: bytes) -> Said:
    """What a wallet is asked."""
    equal = array(members(at=pointer, value=scalar))
    return read_table(data, lambda _: {"keys": (key_set,), "want": PLACES, "equal": (equal, []), "never": PLACES})

def read_seed(data: bytes) -> bytes:
    """The first 32 bytes."""
    _check(len(data) >= 32, "short")
    return data[:32]

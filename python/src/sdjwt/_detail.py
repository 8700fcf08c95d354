"""What is wrong in a file that is not of its form, and where: the texts of `Unreadable.detail` and of sdjwt-explain.

Nothing is judged here. The library has judged, by a line such as `unreadable 1 wrong keys`, and this looks for what
that line is about. No value of a file is repeated, since it may be a key: a text has places, positions and names of
members.
"""
from __future__ import annotations

import json
import re
from collections.abc import Callable, Iterable, Iterator
from typing import Any, NamedTuple

FILE_MAX = 16_777_216
_DEPTH_MAX = 127
_COUNT_MAX = 32_768
_SEED_LEN = 32
_KEY_MIN = {"HS256": 32, "HS384": 48, "HS512": 64}
_HASHES = ("sha-256", "sha-384", "sha-512")
_LETTERS = "ABCDEFGHIJKLMNOPQRSTUVWXYZabcdefghijklmnopqrstuvwxyz0123456789-_"
# The letters of a key of 32 bytes.
_KEY_LETTERS = 43
# The beginning of a compact token, or a JWT.
_TOKEN = re.compile(r"\s*(?:[A-Za-z0-9_-]+\.){2}[A-Za-z0-9_-]+(?:~|\s*$)")


class Fault(NamedTuple):
    """The first fault of a file of a kind: its reason as the line has it, and what is said of it.

    `strangers` counts the members that this kind does not have: of two kinds the file fits the one with fewer.
    """

    reason: str
    said: str
    strangers: int = 0


# JSON, with the position of what is none (RFC 8259).

_BLANKS = re.compile(r"[ \t\n\r]*")
_PLAIN = re.compile(r'[^"\\\x00-\x1f]*')
_ESCAPE = re.compile(r'\\(?:["\\/bfnrt]|u[0-9a-fA-F]{4})')
_NUMBER = re.compile(r"-?(?:0|[1-9][0-9]*)(\.[0-9]+)?([eE][+-]?[0-9]+)?")
# what most numbers are, which is whole and in range
_FEW_DIGITS = re.compile(r"(?:0|-?[1-9][0-9]{,17})(?![0-9.eE])")
_HIGH, _LOW = re.compile(r"\\u[dD][89abAB]"), re.compile(r"\\u[dD][c-fC-F]")
_WORDS = {"true": True, "false": False, "null": None}
_WORD = re.compile("|".join(_WORDS))
# What stands where a value has to, and what is said of it.
_NO_VALUES = {
    "'": "a text stands in double quotes",
    "\u201c": "a text stands in straight double quotes",
    "+": "no number begins with +",
    ".": "no number begins with a point",
    "}": "a value is missing before this bracket",
    ",": "a value is missing before this comma",
    "]": "a value is missing before this bracket",
    "/": "JSON has no comments",
    "#": "JSON has no comments",
    "T": "true, false and null are written in small letters",
    "F": "true, false and null are written in small letters",
    "N": "there is no None and no NaN: a value that is not there is null",
    "I": "there is no Infinity",
}


class _NotJson(Exception):
    """The text is no JSON: at this position, for this reason."""

    def __init__(self, at: int, said: str) -> None:
        super().__init__(said)
        self.at = at
        self.said = said


class _Uneven(NamedTuple):
    """A number that is not whole or out of range: where it stands in the text, and why it is so."""

    at: int
    why: str


class _Reader:
    """Reads a text. Of two members with one name the last counts."""

    def __init__(self, text: str) -> None:
        self.text = text
        self.at = 0
        self.has_uneven = False

    def document(self) -> Any:
        if self.text.startswith("\ufeff"):
            raise _NotJson(0, "the file begins with a byte order mark")
        if self._next() == "":
            raise _NotJson(self.at, "the file is empty")
        value = self._value(0)
        if self._next() != "":
            raise _NotJson(self.at, "more stands behind the end of the JSON text" + self._remark())
        return value

    def _next(self) -> str:
        blanks = _BLANKS.match(self.text, self.at)
        self.at = blanks.end() if blanks else self.at
        return self.text[self.at:self.at + 1]

    def _remark(self) -> str:
        return ": JSON has no comments" if self.text[self.at] in "/#" else ""

    def _value(self, depth: int) -> Any:
        letter = self._next()
        if letter in ("{", "["):
            if depth == _DEPTH_MAX:
                raise _NotJson(self.at, f"this is nested deeper than {_DEPTH_MAX} levels")
            return self._object(depth + 1) if letter == "{" else self._list(depth + 1)
        if letter == '"':
            return self._string()
        if letter and letter in "-0123456789":
            return self._number()
        word = _WORD.match(self.text, self.at)
        if word is not None:
            self.at = word.end()
            return _WORDS[word[0]]
        if letter == "":
            raise _NotJson(self.at, "the file ends before the JSON text does: a value is missing")
        raise _NotJson(
            self.at,
            _NO_VALUES.get(letter, "a value has to stand here: a text in quotes, a number, a list or an object"),
        )

    def _object(self, depth: int) -> dict[str, Any]:
        members: dict[str, Any] = {}
        opened = self.at
        self.at += 1
        if self._next() == "}":
            self.at += 1
            return members
        while True:
            if self._next() != '"':
                raise _NotJson(self.at, self._no_name(bool(members)))
            name = self._string()
            if self._next() != ":":
                raise _NotJson(self.at, "a colon has to stand here, behind the name of a member")
            self.at += 1
            members[name] = self._value(depth)
            if self._goes_on("}", opened):
                return members

    def _no_name(self, is_later: bool) -> str:
        letter = self.text[self.at:self.at + 1]
        if letter == "}" and is_later:
            return "a comma stands behind the last member"
        if letter == "":
            return "the file ends before the object does"
        return "the name of a member has to stand here, in double quotes" + self._remark()

    def _list(self, depth: int) -> list[Any]:
        elements: list[Any] = []
        opened = self.at
        self.at += 1
        if self._next() == "]":
            self.at += 1
            return elements
        while True:
            if self._next() == "]":
                raise _NotJson(self.at, "a comma stands behind the last element")
            elements.append(self._value(depth))
            if self._goes_on("]", opened):
                return elements

    def _goes_on(self, close: str, opened: int) -> bool:
        """Whether it ends here. Else a comma stood here."""
        letter = self._next()
        if letter == "":
            raise _NotJson(self.at, f"the file ends before the {close} of {_where(self.text, opened)}")
        if letter not in (",", close):
            raise _NotJson(self.at, f"a comma or {close} has to stand here" + self._remark())
        self.at += 1
        return letter == close

    def _string(self) -> str:
        opened = self.at
        self.at += 1
        while True:
            plain = _PLAIN.match(self.text, self.at)
            self.at = plain.end() if plain else self.at
            letter = self.text[self.at:self.at + 1]
            if letter == '"':
                self.at += 1
                text: str = json.loads(self.text[opened:self.at])
                return text
            if letter == "\\":
                self._escape()
            elif letter == "":
                raise _NotJson(opened, "the text that begins here has no end")
            else:
                raise _NotJson(
                    self.at,
                    "a line end, a tab or another control character stands in a text: write \\n, \\t or \\u00..",
                )

    def _escape(self) -> None:
        escape = _ESCAPE.match(self.text, self.at)
        if escape is None:
            raise _NotJson(self.at, "this \\ begins no escape of JSON")
        if _LOW.match(self.text, self.at) or _HIGH.match(self.text, self.at) and not _LOW.match(self.text, self.at + 6):
            raise _NotJson(self.at, "this \\u is half of a surrogate pair, and the other half is missing")
        self.at = escape.end() + 6 * bool(_HIGH.match(self.text, self.at))
        if self.at > escape.end() and not _ESCAPE.match(self.text, escape.end()):
            raise _NotJson(escape.end(), "this \\ begins no escape of JSON")

    def _number(self) -> int | _Uneven:
        few = _FEW_DIGITS.match(self.text, self.at)
        if few is not None:
            self.at = few.end()
            return int(few[0])
        number = _NUMBER.match(self.text, self.at)
        if number is None:
            raise _NotJson(self.at, "a digit has to stand behind this -")
        if float(number[0]) in (float("inf"), float("-inf")):
            raise _NotJson(self.at, "this number is too great for a float of 64 bits")
        why = _unevenness(number)
        if self.text[number.end():number.end() + 1] in tuple("0123456789"):
            raise _NotJson(self.at, "a number has no zero in front")
        at, self.at = self.at, number.end()
        self.has_uneven |= bool(why)
        return _Uneven(at, why) if why else int(number[0])


def _unevenness(number: re.Match[str]) -> str:
    """Why a number is not whole or out of range, and nothing where it is neither."""
    if number[1] is not None:
        return "has a fraction"
    if number[2] is not None:
        return "has an exponent"
    if number[0] == "-0":
        return "is -0"
    if int(number[0]) > 2**64 - 1:
        return f"is greater than {2**64 - 1}"
    return f"is less than {-2**63}" if int(number[0]) < -2**63 else ""


def _unevens(value: Any, place: str) -> Iterator[tuple[_Uneven, str]]:
    """The numbers in a value that are not whole, with their places."""
    if isinstance(value, _Uneven):
        yield value, place
    elif isinstance(value, dict):
        for name, member in value.items():
            yield from _unevens(member, f"{place}/{step(name)}")
    elif isinstance(value, list):
        for i, element in enumerate(value):
            yield from _unevens(element, f"{place}/{i}")


def _where(text: str, at: int) -> str:
    return f"line {text.count(chr(10), 0, at) + 1}, column {at - text.rfind(chr(10), 0, at)}"


def _cut(name: str) -> str:
    """A name, of which little is told where it is so long that it may be a key in the wrong place."""
    return name if len(name) <= 24 else name[:8] + ".."


def step(name: str) -> str:
    return _cut(name).replace("~", "~0").replace("/", "~1")


def shown_place(place: str) -> str:
    """A place as it is told, in ASCII. Of one that is long only its end is told."""
    shown = json.dumps(place)[1:-1]
    return (shown if len(shown) <= 160 else ".." + shown[-160:]) or "the top"


def _shown_name(name: str) -> str:
    return json.dumps(_cut(name))


# The forms of the members. A check answers what is wrong, and nothing where the value is of its form.

def _at(place: str, said: str) -> str:
    return f"at {shown_place(place)}: {said}"


def _is(value: Any) -> str:
    if isinstance(value, dict):
        return "an object"
    if isinstance(value, list):
        return "a list"
    if isinstance(value, str):
        return "a text"
    return json.dumps(value) if value is None or isinstance(value, bool) else "a number"


def _first(said: Iterable[str]) -> str:
    return next(filter(None, said), "")


Check = Callable[[Any, str, "dict[str, Any]"], str]


def _any(value: Any, place: str, file: dict[str, Any]) -> str:
    return ""


def _text(value: Any, place: str, file: dict[str, Any]) -> str:
    return "" if isinstance(value, str) else _at(place, f"it is {_is(value)}, and has to be a text")


def _short_text(value: Any, place: str, file: dict[str, Any]) -> str:
    wrong = _text(value, place, file)
    length = 0 if wrong else len(value.encode())
    return wrong or (_at(place, f"it has {length} bytes, and may have 256") if length > 256 else "")


def _pointer(value: Any, place: str, file: dict[str, Any]) -> str:
    if not isinstance(value, str):
        return _at(place, f"it is {_is(value)}, and has to be a place, a text")
    if value and not value.startswith("/"):
        return _at(place, "a place begins with / (and the whole is the empty text)")
    return _at(place, "a ~ in a place is written ~0, and a / in a name ~1") if re.search(r"~(?![01])", value) else ""


def _list_of(check: Check, least: int = 0, most: int | None = None) -> Check:
    def check_list(value: Any, place: str, file: dict[str, Any]) -> str:
        if not isinstance(value, list):
            return _at(place, f"it is {_is(value)}, and has to be a list")
        if len(value) < least or most is not None and len(value) > most:
            wanted = f"{least} to {most}" if most is not None else f"at least {least}"
            return _at(place, f"it has {len(value)} elements, and has to have {wanted}")
        return _first(check(element, f"{place}/{i}", file) for i, element in enumerate(value))
    return check_list


def _whole(most: int) -> Check:
    def check_whole(value: Any, place: str, file: dict[str, Any]) -> str:
        if not isinstance(value, int) or isinstance(value, bool):
            return _at(place, f"it is {_is(value)}, and has to be a whole number")
        return "" if 0 <= value <= most else _at(place, f"it has to be from 0 to {most}")
    return check_whole


def _one_of(words: Iterable[str]) -> Check:
    def check_word(value: Any, place: str, file: dict[str, Any]) -> str:
        wrong = _text(value, place, file)
        return wrong or ("" if value in words else _at(place, f"it is none of {', '.join(words)}; capitals count"))
    return check_word


def _just(checks: dict[str, Check], free: tuple[str, ...] = ()) -> Check:
    """An object of just these members, of which those that are free may be missing."""
    def check_object(value: Any, place: str, file: dict[str, Any]) -> str:
        if not isinstance(value, dict):
            return _at(place, f"it is {_is(value)}, and has to be an object of just {_names(checks)}")
        others = [name for name in value if name not in checks]
        missing = [name for name in checks if name not in value and name not in free]
        if others:
            return _at(place, f"it has {_names(others)}, and has to have just {_names(checks)}")
        if missing:
            return _at(place, f"{_names(missing)} is missing")
        return _first(checks[name](value[name], f"{place}/{name}", file) for name in checks if name in value)
    return check_object


def _names(names: Iterable[str]) -> str:
    shown = [_shown_name(name) for name in names]
    return ", ".join(shown[:12]) + (", .." if len(shown) > 12 else "")


def _miscoded(key: str) -> str:
    """Why a text is no base64url code of bytes, and nothing where it is one."""
    stray = re.search(r"[^A-Za-z0-9_-]", key)
    if stray:
        if not key.rstrip("=").strip(_LETTERS):
            return "it has = at its end, and is to be written without"
        if stray[0] in "+/":
            return f"letter {stray.start() + 1} is + or /: this is base64, and in base64url they are - and _"
        return f"letter {stray.start() + 1} is none of A-Z a-z 0-9 - _"
    if len(key) % 4 == 1:
        return f"it has {len(key)} letters, which is one too few or one too many for any bytes"
    unused = {2: 4, 3: 2}.get(len(key) % 4, 0)
    if key and _LETTERS.index(key[-1]) % 2**unused:
        return (
        f"the last {unused} bits of its last letter code nothing and have to be 0: "
        "it was changed, or was not made of bytes"
    )
    return ""


def _miscoded_key(key: str) -> str:
    """The same for a key. It is said first that it is too short."""
    said, letters = _miscoded(key), len(key.rstrip("="))
    return (
        f"it is too short: {letters} letters, and a key has at least {_KEY_LETTERS}"
        if said and letters < _KEY_LETTERS
        else said
    )


def _is_short(key: str) -> str:
    length = len(key) * 6 // 8
    return "" if length >= 32 else f"it codes {length} bytes, of the at least 32 that a key has"


def _key(value: Any, place: str, file: dict[str, Any]) -> str:
    wrong = _text(value, place, file)
    said = "" if wrong else _miscoded_key(value) or _is_short(value)
    return wrong or (_at(place, said) if said else "")


def _key_form(key: Any, place: str) -> str:
    if not isinstance(key, dict):
        return _at(place, f"it is {_is(key)}, and has to be a key, an object")
    for name in ("kty", "k", "kid"):
        if name != "kty" and key["kty"] != "oct":
            break
        if name in key and not isinstance(key[name], str):
            return _at(f"{place}/{name}", f"it is {_is(key[name])}, and has to be a text")
        if name not in key and name != "kid":
            return _at(place, f'it has no "{name}"')
    return ""


def _any_keys(value: Any, place: str, file: dict[str, Any]) -> str:
    """A key set, whose keys may be invalid."""
    if isinstance(value, dict) and isinstance(value.get("keys"), list):
        return ""
    has = f"it is {_is(value)}" if not isinstance(value, dict) else 'it has no list "keys"'
    return _at(place, has + ', and has to be an object with a list "keys": write {"keys": [..]}')


def _key_set(value: Any, place: str, file: dict[str, Any]) -> str:
    none = _any_keys(value, place, file)
    if none:
        return none
    keys = value["keys"]
    wrong = _first(_key_form(key, f"{place}/keys/{i}") for i, key in enumerate(keys))
    codes = [] if wrong else [(f"{place}/keys/{i}/k", key["k"]) for i, key in enumerate(keys) if key["kty"] == "oct"]
    said = [(at, why(code)) for why in (_miscoded_key, _is_short) for at, code in codes]
    return wrong or _first(_at(at, why) for at, why in said if why)


def key_set_fault(value: Any) -> str:
    """Why the value of `keys` is not a key set; empty if it is one. Its keys may be invalid."""
    return _any_keys(value, "/keys", {})


def text_fault(value: Any, place: str) -> str:
    """Why a value is not a string; empty if it is one."""
    return _text(value, place, {})


def _version(value: Any, place: str, file: dict[str, Any]) -> str:
    if isinstance(value, int) and not isinstance(value, bool):
        return "" if value in (1, 2) else _at(place, "it has to be 1 or 2")
    return _at(place, f"it is {_is(value)}, and has to be the number 1 or 2")


def _by_version(one: Check, two: Check) -> Check:
    """In version 1 of a policy the one form, and in version 2 the other."""
    def check_by_version(value: Any, place: str, file: dict[str, Any]) -> str:
        is_two = file.get("version") == 2
        wrong = (two if is_two else one)(value, place, file)
        return f"{wrong} (in version {2 if is_two else 1} of a policy)" if wrong else ""
    return check_by_version


def _alg(value: Any, place: str, file: dict[str, Any]) -> str:
    wrong = _one_of(_KEY_MIN)(value, place, file)
    length = 0 if wrong else len(file["key"]) * 6 // 8
    if wrong or length >= _KEY_MIN[value]:
        return wrong
    return _at(place, f'"key" codes {length} bytes, of the at least {_KEY_MIN[value]} that {value} wants')


def _plain(value: Any, place: str, file: dict[str, Any]) -> str:
    return (
        _at(place, f"it is {_is(value)}, and a value that is asked for is none")
        if isinstance(value, (dict, list))
        else ""
    )


class _Member(NamedTuple):
    name: str
    check: Check
    is_required: bool = False


# The order of who signs by itself, and the present order of who checks too. The program reads neither.
UNSIGNED = "order without a key"
ASKED = "present order with public keys"
_POINTERS = _list_of(_pointer)
_AUDIENCE = _by_version(_short_text, _list_of(_short_text, 1, 16))
_BINDINGS: dict[str, dict[str, Check]] = {
    "policy": {"aud": _AUDIENCE, "nonce": _short_text, "keys": _key_set, "max_age": _whole(2**32 - 1)},
    "present order": {"key": _key, "kid": _text, "aud": _short_text, "nonce": _short_text},
    ASKED: {"alg": _text, "kid": _text, "aud": _short_text, "nonce": _short_text},
}
_ORDER = (
    _Member("payload", _any, True), _Member("hide", _POINTERS),
    _Member("decoys", _list_of(_just({"at": _pointer, "count": _whole(_COUNT_MAX)}))), _Member("key", _key, True),
    _Member("kid", _text), _Member("typ", _text), _Member("alg", _alg), _Member("sd_alg", _one_of(_HASHES)))
_FORMS: dict[str, tuple[_Member, ...]] = {
    "policy": (
        _Member("version", _version),
        _Member("keys", _key_set, True),
        _Member("algs", _list_of(_text)),
        _Member("typ", _text),
        _Member("iss", _by_version(_text, _list_of(_text, 1))),
        _Member("require", _list_of(_text)),
        _Member("skew", _whole(3600)),
        _Member("binding", _just(_BINDINGS["policy"])),
    ),
    "order": _ORDER,
    UNSIGNED: tuple(member for member in _ORDER if member.name not in ("key", "alg")),
    "present order": (
        _Member("keys", _key_set, True),
        _Member("want", _POINTERS),
        _Member("never", _POINTERS),
        _Member("binding", _just(_BINDINGS["present order"])),
    ),
    ASKED: (
        _Member("keys", _any_keys),
        _Member("algs", _list_of(_text), True),
        _Member("want", _POINTERS),
        _Member("never", _POINTERS),
        _Member("binding", _just(_BINDINGS[ASKED], ("alg", "kid"))),
    ),
    "query": (
        _Member("keys", _key_set, True),
        _Member("want", _POINTERS),
        _Member("equal", _list_of(_just({"at": _pointer, "value": _plain}))),
        _Member("never", _POINTERS),
    ),
}
KINDS = (*(kind for kind in _FORMS if kind not in (UNSIGNED, ASKED)), "seed")


def fault(kind: str, content: bytes) -> Fault | None:
    """The first fault of what a file of a kind has in it. `kind` is one of KINDS, UNSIGNED or ASKED."""
    if kind == "seed":
        short = len(content) < _SEED_LEN
        return (
            Fault("short", f"it has {len(content)} bytes, of the at least {_SEED_LEN} that a seed has")
            if short
            else None
        )
    if len(content) > FILE_MAX:
        return Fault("tooLong", f"it has more than {FILE_MAX} bytes")
    try:
        text = content.decode()
    except UnicodeDecodeError as broken:
        return Fault("notJson", _no_utf_8(content, broken.start))
    reader = _Reader(text)
    try:
        value = reader.document()
    except _NotJson as broken:
        said = "this is a token; the policy, the order or the query comes first" if _TOKEN.match(text) else broken.said
        return Fault("notJson", f"{_where(text, broken.at)}: {said}")
    uneven, place = min(_unevens(value, ""), default=(None, "")) if reader.has_uneven else (None, "")
    if uneven is not None:
        return Fault("notWhole", f"{_where(text, uneven.at)}: the number at {shown_place(place)} {uneven.why}")
    return (
        _form_fault(kind, value)
        if isinstance(value, dict)
        else Fault("notObject", f"it is {_is(value)}, and has to be an object")
    )


def _no_utf_8(content: bytes, at: int) -> str:
    if content[:2] in (b"\xff\xfe", b"\xfe\xff"):
        return "the file is in UTF-16, and has to be in UTF-8"
    before = content[:at].decode()
    return f"{_where(before, len(before))}: byte {at} of the file, counted from 0, is not UTF-8"


def _form_fault(kind: str, file: dict[str, Any]) -> Fault | None:
    members = _FORMS[kind]
    known = [member.name for member in members]
    unknown = [name for name in file if name not in known]
    strangers = len(unknown) + len(_strangers_in(kind, file.get("binding")))
    if unknown:
        return Fault("unknown", _unknown(kind, unknown, known), strangers)
    for name, check, is_required in members:
        if name in file:
            said = check(file[name], f"/{name}", file)
            if said:
                return Fault(f"wrong {name}", said, strangers)
        elif is_required:
            has = f"its members are {_names(file)}" if file else "it has no members"
            return Fault(f"missing {name}", f'{has}, and "{name}" has to be one', strangers)
    return None


def _strangers_in(kind: str, binding: Any) -> list[str]:
    return [name for name in binding if name not in _BINDINGS.get(kind, {})] if isinstance(binding, dict) else []


def _kind(kind: str) -> str:
    return f"an {kind}" if kind.startswith("order") else f"a {kind}"


def _unknown(kind: str, unknown: list[str], known: list[str]) -> str:
    return f"{_names(unknown)} is no member of {_kind(kind)}, which has {_names(known)}"


def detail(reason: str, content: bytes, kinds: Iterable[str] = KINDS) -> str:
    """What is wrong with a file that was refused for this reason, as one of these kinds.

    Nothing where no more is known.
    """
    found = [(kind, fault(kind, content)) for kind in kinds]
    of_reason = [(kind, its) for kind, its in found if its is not None and its.reason == reason]
    least = min((its.strangers for _, its in of_reason), default=0)
    fitting = [(kind, its.said) for kind, its in of_reason if its.strangers == least]
    if len({said for _, said in fitting}) == 1:
        return fitting[0][1]
    return "; ".join(said if reason == "unknown" else f"as {_kind(kind)}, {said}" for kind, said in fitting)

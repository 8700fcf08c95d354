"""What exceptions say to a person and to a log, which class is for which number, and that all of them pickle and copy.
"""
import copy
import json
import logging
import pickle
import re
from datetime import date, datetime, timezone
from decimal import Decimal
from pathlib import Path

import pytest

import sdjwt
from sdjwt import _errors

HERE = Path(__file__).resolve().parent
KEY = "dGhlIHRpY2tldCBvZmZpY2Uga2V5LCBub3QgeW91cnM"
KEYS = {"keys": [{"kty": "oct", "k": KEY}]}
REFUSALS = json.loads((HERE.parent / "src/sdjwt/refusals.json").read_text(encoding="utf-8"))
NAMES = {int(heading.split()[1]): heading.split()[2] for heading in REFUSALS if heading.startswith("refused ")}
PUBLIC = [value for value in vars(sdjwt).values() if isinstance(value, type) and issubclass(value, BaseException)]
each = pytest.mark.parametrize


def refused(call, *given, **more):
    with pytest.raises(sdjwt.Refused) as caught:
        call(*given, **more)
    return caught.value


def rows():
    """The classes of the table of python/README.md, each with its numbers."""
    page = (HERE.parent / "README.md").read_text(encoding="utf-8")
    for name, numbers in re.findall(r"^\| `(\w+)` \| ([0-9][0-9a-z, ]*) \|", page, re.M):
        spans = [list(map(int, span.split(" to "))) for span in numbers.split(", ")]
        yield name, [number for span in spans for number in range(span[0], span[-1] + 1)]


def test_the_table_of_the_readme_says_which_class_has_which_number():
    told = {number: name for name, numbers in rows() for number in numbers}
    assert sum(len(numbers) for _, numbers in rows()) == len(told)
    for number, name in NAMES.items():
        fault = _errors.refusal(f"refused {number} {name}")
        assert type(fault).__name__ == told.get(number, "Refused") and fault.number == number and fault.name == name
        assert type(fault) is getattr(sdjwt, type(fault).__name__)
    assert set(told) <= set(NAMES) and len({name for name, _ in rows()}) == 12
    assert set(_errors.CLASSES) <= set(NAMES)


def test_the_numbers_are_those_of_their_sections():
    """The sections of docs/REFUSALS.md that have a class for all of their numbers."""
    page = (HERE.parent.parent / "docs/REFUSALS.md").read_text(encoding="utf-8")
    for section, kind in (("An order", sdjwt.BadOrder), ("A presentation", sdjwt.BadPresentation)):
        first, last = map(int, re.search(rf"^## {section}: (\d+) to (\d+)$", page, re.M).groups())
        assert {number for number, its in _errors.CLASSES.items() if its is kind} == set(range(first, last + 1))
    first, last = map(int, re.search(r"Numbers 4 and (\d+) to (\d+) .* the policy has `binding`", page).groups())
    assert {number for number, its in _errors.CLASSES.items() if issubclass(its, sdjwt.BindingRefused)} == {
        4,
        *range(first, last + 1),
    }


def test_a_refusal_is_a_sentence():
    fault = refused(sdjwt.verify, {"keys": KEYS}, sdjwt.issue({"payload": {"exp": 9}, "key": KEY}), now=10)
    assert type(fault) is sdjwt.Expired
    assert str(fault) == f"refused 25 expired: {fault.explanation}" and "`exp`" in fault.explanation
    assert (fault.line, fault.number, fault.name, fault.place) == ("refused 25 expired", 25, "expired", None)
    assert repr(fault) == "Expired('refused 25 expired')"
    placed = refused(sdjwt.issue, {"payload": {}, "hide": ["/a"], "key": KEY})
    assert (
        type(placed) is sdjwt.BadOrder and str(placed) == f"{placed.line}: {placed.explanation}" and placed.place == "0"
    )


def test_a_file_that_is_not_of_its_form_says_where():
    for policy, said in (
        ({"keys": KEYS, "skew": "1"}, "at /skew: it is a text"),
        ("{", "line 1, column 2: the file ends"),
    ):
        with pytest.raises(sdjwt.Unreadable) as caught:
            sdjwt.Policy(policy)
        assert str(caught.value) == f"{caught.value.line}: {caught.value.detail}" and said in str(caught.value)
        again = pickle.loads(pickle.dumps(caught.value))
        assert str(again) == str(caught.value)


def test_a_sentence_has_no_links():
    for heading, said in REFUSALS.items():
        fault = {
            "refused": _errors.refusal,
            "unreadable": lambda line: sdjwt.Unreadable(line.replace(" ", " 1 ", 1)),
        }.get(heading.split()[0])
        if fault is not None:
            assert (
                str(fault(heading)).partition(": ")[2].split()
                == re.sub(r"\[([^]]*)\]\([^)]*\)", r"\1", said["explanation"]).split()
            )


def test_no_key_is_in_what_is_said():
    secret = "c2VjcmV0LCBzZWNyZXQsIHNlY3JldCwgc2VjcmV0ISE"
    for key in (secret + "=", secret[:20], secret + "+"):
        with pytest.raises(sdjwt.Unreadable) as caught:
            sdjwt.Policy({"keys": {"keys": [{"kty": "oct", "k": key}]}})
        assert secret[:9] not in str(caught.value) + repr(caught.value)


def test_a_log_shows_the_name_of_the_package(caplog):
    try:
        sdjwt.verify({"keys": KEYS}, "no token")
    except sdjwt.Refused:
        logging.getLogger("door").exception("refused")
    assert "\nsdjwt.Refused: refused 2 form at 2: " in caplog.text
    assert "sdjwt._errors." not in caplog.text


@each("kind", PUBLIC, ids=lambda kind: kind.__name__)
def test_each_exception_has_a_public_name(kind):
    assert (kind.__module__, kind.__name__ in sdjwt.__all__) == ("sdjwt", True)


def made(kind):
    """An exception of a class."""
    if issubclass(kind, sdjwt.Refused):
        number = next((number for number, its in _errors.CLASSES.items() if its is kind), 17)
        return kind(f"refused {number} {NAMES[number]} at 3")
    if kind is sdjwt.Unreadable:
        return _errors.unreadable("unreadable 1 notJson", (("policy", b"{"),))
    return {
        sdjwt.TooLong: lambda: sdjwt.TooLong("token", 5),
        sdjwt.SdJwtError: lambda: sdjwt.SdJwtError("usage", ""),
    }.get(kind, lambda: kind("why"))()


@each("kind", PUBLIC, ids=lambda kind: kind.__name__)
def test_each_exception_pickles_and_copies(kind):
    fault = made(kind)
    fault.__notes__ = ["of the door"]
    copies = [pickle.loads(pickle.dumps(fault, protocol)) for protocol in range(2, pickle.HIGHEST_PROTOCOL + 1)]
    for again in (*copies, copy.copy(fault), copy.deepcopy(fault)):
        assert type(again) is kind and str(again) == str(fault) and again.args == fault.args
        assert again.__notes__ == fault.__notes__
        for name in (
            "line",
            "number",
            "name",
            "place",
            "input",
            "reason",
            "detail",
            "given",
            "most",
            "explanation",
            "cause",
            "remedy",
        ):
            assert getattr(again, name, None) == getattr(fault, name, None)


def test_a_line_that_is_none_makes_no_exception():
    for kind in (sdjwt.Refused, sdjwt.Unreadable, sdjwt.Expired):
        for line in ("", "refused", "unreadable x", "refused x y"):
            with pytest.raises(ValueError):
                kind(line)


@each(
    "value, said",
    [
        ({"a": {"b": [datetime(2026, 1, 1)]}}, "/payload/a/b/0: datetime"),
        ({"a": [{}, {"b/c": date(2026, 1, 1)}]}, "/payload/a/1/b~1c: date"),
        ({"price": Decimal("1.5")}, "/payload/price: Decimal"),
        ({"a": 1, "b": {1}}, "/payload/b: set"),
        ({"": b"x"}, "/payload/: bytes"),
        ({"a": {1: 2}}, "/payload/a: a name of type int"),
        ({"a": ({None: 2},)}, "/payload/a/0: a name of type NoneType"),
        ({("a",): 1}, "/payload: a name of type tuple"),
        (b"x", "/payload: bytes"),
    ],
    ids=str,
)
def test_a_type_that_json_has_not_is_named_with_its_place(value, said):
    with pytest.raises(TypeError) as caught:
        sdjwt.issue({"payload": value, "key": KEY})
    assert str(caught.value).startswith("sdjwt: order can't be written as JSON: " + said)


@each(
    "value, said",
    [({"a": [1, float("nan")]}, "/payload/a/1: the number nan"), (float("-inf"), "/payload: the number -inf")],
    ids=str,
)
def test_a_number_that_json_has_not_is_named_with_its_place(value, said):
    with pytest.raises(ValueError) as caught:
        sdjwt.issue({"payload": value, "key": KEY})
    assert str(caught.value) == "sdjwt: order can't be written as JSON: " + said


def test_the_search_for_a_place_has_an_end():
    circle = {"a": {}, "b": []}
    circle["a"]["again"] = circle
    wide = {"n": [[]] * 20_001, "z": datetime.now(timezone.utc)}
    for given, kind in ((circle, ValueError), (wide, TypeError)):
        with pytest.raises(kind) as caught:
            sdjwt.Policy(given)
        assert len(str(caught.value)) < 200

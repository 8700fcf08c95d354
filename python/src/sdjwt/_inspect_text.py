"""What is inside a token, as a tree on a terminal."""
from __future__ import annotations

from collections.abc import Iterator
from typing import Any

from sdjwt._inspect import HIDDEN, Binding, Condition, Disclosure, Inside, Node, Number, Unread, Verdict, times
from sdjwt._program_faults import plain
from sdjwt._program_files import json_text, visible

_WARNING = "inspect checks nothing: no signature, no time and no hash is judged. It shows what the token says."
_NOBODY_KNOWS = "Each hides a claim that was kept back, or is a decoy, which hides nothing: nobody can tell which."
# SGR codes of ECMA-48. The three parts of the JWT have a colour each.
_STYLES = {
    "header": "31",
    "payload": "35",
    "signature": "34",
    "open": "32",
    "hidden": "33",
    "dim": "2",
    "bold": "1",
    "bad": "1;31",
    "good": "32",
}
_STATES = {"holds": "good", "fails": "bad", "not judged": "dim", "not asked": "dim"}
# How many letters of a value are printed.
_LETTERS_MAX = 72
_DIGEST_LETTERS = 10


class _Painter:
    """Colours text, or leaves it as it is."""

    def __init__(self, is_coloured: bool, is_full: bool) -> None:
        self.is_coloured = is_coloured
        self.is_full = is_full

    def paint(self, style: str, text: str) -> str:
        return f"\x1b[{_STYLES[style]}m{text}\x1b[0m" if self.is_coloured and text else text

    def value(self, value: Any) -> str:
        """A JSON value, cut if it is long."""
        text = value_text(value)
        if self.is_full or len(text) <= _LETTERS_MAX:
            return text
        return f"{text[:_LETTERS_MAX]}.. ({len(text):,} letters)"

    def digest(self, digest: Any) -> str:
        text = json_text(digest)[1:-1] if isinstance(digest, str) else json_text(digest)
        return text if self.is_full or len(text) <= _DIGEST_LETTERS + 2 else text[:_DIGEST_LETTERS] + ".."


def value_text(value: Any) -> str:
    """A JSON value as text that is safe to print."""
    return visible(value) if isinstance(value, Number) else json_text(_plain(value))


def _plain(value: Any) -> Any:
    # a number that is kept as text would be printed as a string
    if isinstance(value, Number):
        return str(value)
    if isinstance(value, list):
        return [_plain(element) for element in value]
    return {name: _plain(member) for name, member in value.items()} if isinstance(value, dict) else value


def label_text(name: str) -> str:
    """The name of a member: as it is if it is a plain word, and else as a JSON string."""
    return name if name.isascii() and name.replace("_", "a").replace("-", "a").isalnum() else json_text(name)


def letters(count: int, one: str = "letter") -> str:
    """A count in words."""
    return f"{count:,} {one}{'' if count == 1 else 's'}"


def show(inside: Inside, verdict: Verdict | None, is_coloured: bool, is_full: bool) -> None:
    """Prints what is inside a token, and what the library says of it."""
    painter = _Painter(is_coloured, is_full)
    sections = [
        _head(inside),
        _header(painter, inside),
        _payload(painter, inside),
        _signature(painter, inside),
        _disclosures(painter, inside),
        _hidden(painter, inside),
        _binding(painter, inside),
        _verdict(painter, verdict),
    ]
    texts = ["\n".join(lines) for lines in sections]
    print("\n\n".join(text for text in texts if text))


def _head(inside: Inside) -> Iterator[str]:
    bound = " and a key binding token" if inside.binding is not None else ""
    yield f"SD-JWT of {letters(inside.length)}, with {letters(len(inside.disclosures), 'disclosure')}{bound}"
    yield _WARNING


def _header(painter: _Painter, inside: Inside) -> Iterator[str]:
    yield _title(painter, "header", "header", letters(len(inside.jwt.texts[0])))
    yield from _json(painter, inside.jwt.header)


def _title(painter: _Painter, style: str, title: str, said: str) -> str:
    return f"{painter.paint(style, title)}  {painter.paint('dim', said)}"


def _json(painter: _Painter, value: Any, said: dict[str, str] | None = None) -> Iterator[str]:
    """The members of an object, one a line."""
    if not isinstance(value, dict):
        yield f"  not shown: {value}" if isinstance(value, Unread) else f"  {painter.value(value)}"
        return
    width = max(map(len, map(label_text, value)), default=0)
    for name, member in value.items():
        more = painter.paint("dim", f"  {said[name]}") if said and name in said else ""
        yield f"  {label_text(name):{width}}  {painter.value(member)}{more}"


def _payload(painter: _Painter, inside: Inside) -> Iterator[str]:
    yield _title(
        painter, "payload", "payload", f"{letters(len(inside.jwt.texts[1]))}; below are the claims that a verifier sees"
    )
    if isinstance(inside.jwt.payload, Unread):
        yield f"  not shown: {inside.jwt.payload}"
        return
    yield from _tree(painter, inside, inside.joined, "  ", times(inside.jwt.payload, inside.now))


def _tree(painter: _Painter, inside: Inside, node: Node, before: str, said: dict[str, str]) -> Iterator[str]:
    """The lines of what is inside a node."""
    if not node.children:
        yield before + ("(nothing)" if node.kind in ("object", "array") else painter.value(node.value))
    # an element that is not shown leaves no gap in the claims
    position = 0
    for child in node.children:
        is_last = child is node.children[-1]
        yield before + painter.paint("dim", "└─ " if is_last else "├─ ") + _line(painter, inside, child, position, said)
        position += child.kind != "digest"
        if child.children:
            yield from _tree(painter, inside, child, before + painter.paint("dim", "   " if is_last else "│  "), {})


def _line(painter: _Painter, inside: Inside, node: Node, position: int, said: dict[str, str]) -> str:
    """The line of a node: its name, its value, and what is said of it."""
    if node.kind == "digest":
        return painter.paint("hidden", HIDDEN) + painter.paint("dim", f"  digest {painter.digest(node.value)}")
    name = f"[{position}]" if node.label is None else label_text(node.label)
    if node.kind == "value":
        name += f"  {painter.value(node.value)}"
    elif node.kind == "cut":
        name += "  (nests too deep to be shown)"
    elif not node.children:
        name += "  {}" if node.kind == "object" else "  []"
    if node.opened is not None:
        one = inside.disclosures[node.opened]
        return painter.paint("open", name) + painter.paint(
            "dim", f"  opened by disclosure {one.number}, digest {painter.digest(one.digest)}"
        )
    return name + (painter.paint("dim", f"  {said[node.label]}") if node.label in said and node.kind == "value" else "")


def _signature(painter: _Painter, inside: Inside) -> Iterator[str]:
    yield _title(painter, "signature", "signature", f"{letters(inside.jwt.signature_length, 'byte')}, not checked here")


def _disclosures(painter: _Painter, inside: Inside) -> Iterator[str]:
    if inside.disclosures:
        yield painter.paint("open", "disclosures")
    for one in inside.disclosures:
        yield f"  {one.number}  {painter.digest(one.digest or 'no digest')}  {_where(painter, one)}"
    if any(one.place is None for one in inside.disclosures):
        yield "  A disclosure that fits nowhere belongs to no digest of this token."


def _where(painter: _Painter, one: Disclosure) -> str:
    if one.fault:
        return f"not shown: {one.fault}"
    place = "fits nowhere" if one.place is None else json_text(one.place)[1:-1]
    return painter.paint("open" if one.place is not None else "bad", place) + painter.paint(
        "dim", f"  {letters(len(one.text))}, salt {painter.digest(one.salt)}")


def _hidden(painter: _Painter, inside: Inside) -> Iterator[str]:
    hidden = inside.hidden()
    if hidden:
        yield painter.paint("hidden", f"{letters(len(hidden), 'digest')} that no disclosure opens")
        yield f"  {_NOBODY_KNOWS}"


def _binding(painter: _Painter, inside: Inside) -> Iterator[str]:
    if inside.binding is None:
        return
    jwt = inside.binding.jwt
    yield _title(
        painter,
        "signature",
        "key binding token",
        f"{letters(sum(map(len, jwt.texts)) + 2)}; it binds the presentation to this",
    )
    yield from _json(painter, jwt.header)
    yield from _json(painter, jwt.payload, times(jwt.payload, inside.now))
    yield f"  {hash_words(inside.binding)}"


def hash_words(binding: Binding) -> str:
    """What the hash in a key binding token is of."""
    if binding.has_this_hash is None:
        return "sd_hash is no digest by a hash that is known."
    if binding.has_this_hash:
        return "sd_hash is the digest of this JWT with these disclosures."
    return "sd_hash is not the digest of this JWT with these disclosures: they are others than the holder signed."


def _verdict(painter: _Painter, verdict: Verdict | None) -> Iterator[str]:
    if verdict is None:
        return
    if verdict.refused is None:
        yield f"{painter.paint('good', 'accepted')} by the library, under this policy"
    else:
        yield f"{painter.paint('bad', verdict.refused.line)}, says the library under this policy"
        yield f"  {plain(verdict.refused.explanation)}"
        yield f"  {plain(verdict.refused.remedy)}"
    yield from (_condition(painter, condition) for condition in verdict.conditions)


def _condition(painter: _Painter, condition: Condition) -> str:
    return f"  {condition.number:>2}  {condition.name:24}{painter.paint(_STATES[condition.state], condition.state)}"

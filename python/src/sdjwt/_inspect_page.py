"""What is inside a token, as one HTML page that needs no other file.

Each text of the token goes through `_escaped`, so it is text and never markup. The page allows no style and no script
but its own two, by their hashes, and no request at all.
"""
from __future__ import annotations

import base64
import hashlib
import html
import re
from collections.abc import Iterable
from typing import Any

from sdjwt._inspect import (
    HIDDEN,
    Binding,
    Condition,
    Disclosure,
    Inside,
    Jwt,
    Node,
    Unread,
    Verdict,
    in_words,
    is_time,
    signed,
    times,
)
from sdjwt._inspect_assets import SCRIPT, STYLE
from sdjwt._inspect_text import hash_words, letters, value_text
from sdjwt._program_faults import plain
from sdjwt._program_files import json_text, visible

# How many letters of a part or a value are on the page.
_LETTERS_MAX = 6000
_CODE = re.compile("`([^`]*)`")
_STATES = {"holds": "✓", "fails": "✗", "not judged": "·", "not asked": "·"}


def page(inside: Inside, verdict: Verdict | None) -> str:
    """The page."""
    sections = [_token(inside), _joining(inside), _sides(inside), _binding(inside), _judged(verdict)]
    return "\n".join(
        [
            '<!doctype html>',
            '<html lang="en">',
            "<head>",
            '<meta charset="utf-8">',
            f'<meta http-equiv="Content-Security-Policy" content="{_policy()}">',
            '<meta name="viewport" content="width=device-width, initial-scale=1">',
            '<meta name="referrer" content="no-referrer">',
            '<meta name="color-scheme" content="light dark">',
            "<title>Inside an SD-JWT</title>",
            f"<style>{STYLE}</style>",
            "</head>",
            "<body>",
            "<header>",
            "<h1>Inside an SD-JWT</h1>",
            _head(inside, verdict),
            "</header>",
            "<main>",
            *filter(None, sections),
            "</main>",
            f"<script>{SCRIPT}</script>",
            "</body>",
            "</html>",
            "",
        ]
    )


def _policy() -> str:
    """The Content-Security-Policy: this style and this script, and nothing else."""
    def source(text: str) -> str:
        return f"'sha256-{base64.b64encode(hashlib.sha256(text.encode()).digest()).decode()}'"
    sources = f"style-src {source(STYLE)}; script-src {source(SCRIPT)}"
    return f"default-src 'none'; {sources}; base-uri 'none'; form-action 'none'"


def _escaped(text: str) -> str:
    """A text of the token in HTML, with escapes for what is not to be seen."""
    return html.escape(visible(text), quote=True)


def _of_refusals(markdown: str) -> str:
    """A paragraph of docs/REFUSALS.md in HTML, with its code as code."""
    return _CODE.sub(r"<code>\1</code>", _escaped(plain(markdown)))


def _cut(text: str) -> str:
    """A text in HTML, of which the end is left out if it is very long."""
    if len(text) <= _LETTERS_MAX:
        return _escaped(text)
    return f"{_escaped(text[:_LETTERS_MAX])}<em>.. {letters(len(text))} in all</em>"


def _tag(name: str, kind: str, content: str) -> str:
    return f'<{name} class="{kind}">{content}</{name}>'


def _head(inside: Inside, verdict: Verdict | None) -> str:
    bound = " and a key binding token" if inside.binding is not None else ""
    said = f"{letters(inside.length)}, with {letters(len(inside.disclosures), 'disclosure')}{bound}. "
    warning = ("This page checks nothing: no signature, no time and no hash is judged here. "
               "It shows what the token says, and a display is no verdict.")
    lines = [_tag("p", "warning", f"{said}<strong>{warning}</strong>")]
    if verdict is not None:
        lines.append(_outcome(verdict))
    return "\n".join(lines)


def _outcome(verdict: Verdict) -> str:
    if verdict.refused is None:
        return _tag("p", "outcome accepted", "The library accepts the token under the policy that was given.")
    return _tag(
        "p",
        "outcome refused",
        f"The library refuses the token: <code>{_escaped(verdict.refused.line)}</code>. "
        f"{_of_refusals(verdict.refused.explanation)}",
    )


def _section(name: str, title: str, said: str, *content: str) -> str:
    return "\n".join([f'<section id="{name}">', f"<h2>{title}</h2>", _tag("p", "said", said), *content, "</section>"])


def _token(inside: Inside) -> str:
    """The compact token, a colour for each part."""
    bound = [] if inside.binding is None else [("binding", ".".join(inside.binding.jwt.texts))]
    parts = [("header", inside.jwt.texts[0]), ("payload", inside.jwt.texts[1]), ("signature", inside.jwt.texts[2])]
    shown = ".<wbr>".join(_part(kind, text) for kind, text in parts) + "~<wbr>"
    shown += "".join(f"{_part('open', one.text)}~<wbr>" for one in inside.disclosures)
    shown += "".join(_part(kind, text) for kind, text in bound)
    legend = [(kind, f"{kind}, {letters(len(text))}") for kind, text in parts]
    legend += [("open", letters(len(inside.disclosures), "disclosure"))] if inside.disclosures else []
    legend += [(kind, f"key binding token, {letters(len(text))}") for kind, text in bound]
    return _section(
        "token",
        "The token",
        "Three parts of a JWT with dots between them, then disclosures with tildes.",
        _tag("p", "legend", " ".join(_part(kind, said) for kind, said in legend)),
        _tag("p", "compact", shown),
    )


def _part(kind: str, text: str) -> str:
    return _tag("span", kind, _cut(text))


def _joining(inside: Inside) -> str:
    """The signed JSON with its digests, and the disclosures, with lines between."""
    numbers = {one.digest: one.number for one in inside.disclosures if one.digest}
    linked: set[int] = set()
    left = [
        _block("header", "Header", letters(len(inside.jwt.texts[0])), _json(inside.jwt.header, numbers, linked)),
        _block("payload", "Payload", letters(len(inside.jwt.texts[1])), _json(inside.jwt.payload, numbers, linked)),
        _times(inside.jwt, inside.now),
        _block("signature", "Signature", f"{letters(inside.jwt.signature_length, 'byte')}, not checked here", "")]
    right = [_card(one, numbers, linked) for one in inside.disclosures]
    columns = _tag("div", "column", "\n".join(left)) + _tag(
        "div", "column", "\n".join(right) or _tag("p", "said", "No disclosure.")
    )
    return _section(
        "joining",
        "What is signed, and what opens it",
        "The issuer signed the header and the payload. Each digest is the hash of a disclosure, or of nothing that "
        "is sent. "
        "A line leads from each disclosure to the place of its claim.",
        f'<div class="join"><svg class="lines" aria-hidden="true"></svg>{columns}</div>',
    )


def _block(kind: str, title: str, said: str, content: str) -> str:
    return f'<div class="block of-{kind}"><h3>{title} <small>{said}</small></h3>{content}</div>'


def _card(one: Disclosure, numbers: dict[str, int], linked: set[int]) -> str:
    """A disclosure."""
    if one.fault:
        body = _tag("p", "said", f"Not shown: {_escaped(one.fault)}.")
    else:
        name = "an element of an array" if one.name is None else f"<b>{_escaped(json_text(one.name))}</b>"
        body = _tag("p", "claim", f"{name} is") + _json(one.value, numbers, linked)
    place = "It fits no digest of this token." if one.place is None else f"Place: <code>{_escaped(one.place)}</code>"
    facts = f"{place}<br>Salt: <code>{_cut(value_text(one.salt))}</code><br>Digest: {_digest(one)}"
    return (
        f'<article class="card" id="disclosure-{one.number}" data-disclosure="{one.number}">'
        f"<h3>Disclosure {one.number} "
        f"<small>{letters(len(one.text))}</small></h3>{body}{_tag('p', 'facts', facts)}</article>"
    )


def _digest(one: Disclosure) -> str:
    """The digest of a disclosure, which leads to its place."""
    if not one.digest:
        return "by a hash that is not known"
    text = _escaped(one.digest)
    return (
        _tag("span", "digest", text)
        if one.place is None
        else f'<a class="digest joined" href="#site-{one.number}">{text}</a>'
    )


def _json(value: Any, numbers: dict[str, int], linked: set[int]) -> str:
    """A value as it is signed."""
    if isinstance(value, Unread):
        return _tag("p", "said", f"Not shown: {_escaped(value)}.")
    return _tag("div", "json", _node(signed(value, numbers), linked))


def _node(node: Node, linked: set[int] | None) -> str:
    """A JSON value in HTML, as one line for each leaf. `linked` has the disclosures to which a digest leads already."""
    label = "" if node.label is None else f'{_tag("span", "name", _escaped(json_text(node.label)))}: '
    if node.kind in ("object", "array"):
        opening, closing = ("{", "}") if node.kind == "object" else ("[", "]")
        if not node.children:
            return _line(node, f"{label}{opening}{closing}")
        inner = "".join(_node(child, linked) for child in node.children)
        return _line(node, f"{label}{opening}") + _tag("div", "in", inner) + _tag("div", "row", closing)
    return _line(node, label + _leaf(node, linked))


def _line(node: Node, content: str) -> str:
    is_opened = node.kind != "digest" and node.opened is not None
    return _tag("div", "row opened" if is_opened else "row", content + (_link_to(node.opened) if is_opened else ""))


def _link_to(number: int | None) -> str:
    return f' <a class="from" href="#disclosure-{number}">disclosure {number}</a>'


def _leaf(node: Node, linked: set[int] | None) -> str:
    if node.kind == "cut":
        return _tag("em", "said", "nests too deep to be shown")
    if node.kind == "value":
        return _tag("span", "value", _cut(value_text(node.value)))
    text = _cut(value_text(node.value))
    if linked is None:
        return f'{_tag("span", "unopened", HIDDEN)} {_tag("span", "digest", text)}'
    if node.opened is None:
        return f'{_tag("span", "digest", text)} {_tag("span", "unopened", HIDDEN)}'
    name = "" if node.opened in linked else f' id="site-{node.opened}" data-opens="{node.opened}"'
    linked.add(node.opened)
    return f'<a class="digest joined"{name} href="#disclosure-{node.opened}">{text}</a>'


def _times(jwt: Jwt, now: int) -> str:
    said = times(jwt.payload, now)
    return _list("times", ((name, f"{jwt.payload[name]}: {words}") for name, words in said.items()))


def _list(kind: str, rows: Iterable[tuple[str, str]]) -> str:
    """Names and what is said of them."""
    content = "".join(f"<dt>{_escaped(name)}</dt><dd>{_escaped(said)}</dd>" for name, said in rows)
    return _tag("dl", kind, content) if content else ""


def _sides(inside: Inside) -> str:
    """What a verifier sees, beside what it can't see."""
    hidden = inside.hidden()
    if hidden:
        count = f"{letters(len(hidden), 'digest')} that no disclosure of this token opens:"
        items = "".join(f"<li>{_tag('span', 'digest', _cut(value_text(node.value)))}</li>" for node in hidden)
        cannot = f"<p>{count}</p><ul>{items}</ul>" + _tag(
            "p",
            "said",
            "Each hides a claim that was kept back, or is a decoy, which " "hides nothing. Nobody can tell which.",
        )
    else:
        cannot = "<p>Nothing: each digest is opened by a disclosure.</p>"
    sees = (
        _tag("div", "json", _node(inside.joined, None))
        if not isinstance(inside.jwt.payload, Unread)
        else _json(inside.jwt.payload, {}, set())
    )
    columns = _tag("div", "column", f"<h3>A verifier sees</h3>{sees}") + _tag(
        "div", "column cannot", f"<h3>It can't see</h3>{cannot}"
    )
    return _section(
        "sides",
        "What a verifier sees, and what it can't",
        "The claims with all disclosures of this token put in their " "places, and the digests that stay closed.",
        _tag("div", "sides", columns),
    )


def _binding(inside: Inside) -> str:
    if inside.binding is None:
        return _section(
            "binding", "Key binding", "There is no key binding token: whoever has a copy of this token can present it."
        )
    jwt = inside.binding.jwt
    return _section(
        "binding",
        "Key binding",
        "The holder signed this small JWT. It binds the presentation to a verifier (aud), to one "
        "request (nonce), to a time (iat), and to this JWT with these disclosures (sd_hash).",
        _list("bound", _bound(inside.binding, inside.now)),
        _tag(
            "div",
            "sides",
            "".join(
                _tag("div", "column", f"<h3>{title}</h3>{_json(value, {}, set())}")
                for title, value in (("Header", jwt.header), ("Payload", jwt.payload))
            ),
        ),
    )


def _bound(binding: Binding, now: int) -> Iterable[tuple[str, str]]:
    """What a key binding token binds."""
    claims = binding.jwt.payload if isinstance(binding.jwt.payload, dict) else {}
    for name in ("aud", "nonce"):
        if name in claims:
            yield name, value_text(claims[name])
    if is_time(claims.get("iat")):
        yield "iat", f"{claims['iat']}: signed at {in_words(claims['iat'], now)}"
    yield "sd_hash", hash_words(binding)


def _judged(verdict: Verdict | None) -> str:
    """The conditions, with what the library says of them."""
    if verdict is None:
        return ""
    rows = "".join(_condition(condition) for condition in verdict.conditions)
    remedy = (
        "" if verdict.refused is None else _tag("p", "said", f"What to do: {_of_refusals(verdict.refused.remedy)}")
    )
    return _section(
        "policy",
        "What the policy says",
        "The library judges the token by these conditions and names the first that fails. "
        "Those before it hold, and those after it are not judged. 4 and 27 to 38 are asked only by a policy with "
        "<code>binding</code>.",
        _outcome(verdict),
        remedy,
        _tag("ol", "conditions", rows),
    )


def _condition(condition: Condition) -> str:
    state = condition.state.replace(" ", "-")
    return (
        f'<li class="{state}"><span class="mark">{_STATES[condition.state]}</span> {condition.number} '
        f"<b>{condition.name}</b> <small>{condition.state}</small><p>Fails if: "
        f"{_of_refusals(condition.meaning)}</p></li>"
    )

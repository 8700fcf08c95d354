"""A token and its three serializations: RFC 9901 sections 4 and 8, RFC 7515 section 7; and what its parts carry."""

from __future__ import annotations
import re
from collections import namedtuple
from dataclasses import dataclass, field
from outcome import COMPACT_MAX, COUNT_MAX, FILE_MAX, Refused, Unreadable, refuse
from texts import HASHES, Members, carried, is_base64url, read, write

Disclosure = namedtuple("Disclosure", "text salt name value")  # The name is None for an element of an array.
_L = "[A-Za-z0-9_-]+"
JWT = re.compile(rf"{_L}\.{_L}\.{_L}")
TOKEN = re.compile(rf"({_L})\.({_L})\.({_L})~((?:{_L}~)*)({_L}\.{_L}\.{_L})?")
# The longest front that begins some token: what may follow is optional at each point.
_LAST = rf"{_L}(?:\.(?:{_L}(?:\.(?:{_L})?)?)?)?"
FRONT = re.compile(rf"(?:{_L}(?:\.(?:{_L}(?:\.(?:{_L}(?:~(?:{_L}~)*(?:{_LAST})?)?)?)?)?)?)?")

@dataclass
class Token:
    """The parts of a token, and the unprotected header beside them."""

    protected: str
    payload: str
    signature: str
    disclosures: list[str]
    binding: str | None = None
    unprotected: Members = field(default_factory=dict)

    def hashed(self) -> str:
        """The token up to and with its last tilde (RFC 9901 section 4.3.1)."""
        return "~".join([f"{self.protected}.{self.payload}.{self.signature}", *self.disclosures, ""])

    def compact(self) -> str:
        """The compact serialization (RFC 9901 section 4)."""
        return self.hashed() + (self.binding or "")

    def as_json(self, general: bool) -> str:
        """The flattened or the general serialization (RFC 9901 section 8)."""
        bound = {} if self.binding is None else {"kb_jwt": self.binding}
        entry = {"protected": self.protected, "signature": self.signature,
                 "header": {**self.unprotected, "disclosures": self.disclosures, **bound}}
        return write({"payload": self.payload, **({"signatures": [entry]} if general else entry)})

    def showing(self, numbers: list[int]) -> Token:
        """The issuer's part with some of the disclosures."""
        return Token(self.protected, self.payload, self.signature, [self.disclosures[number] for number in numbers])

def read_token(data: bytes) -> Token:
    """The token in a file, or the lowest of conditions 1 to 3 that fails."""
    refuse(1, len(data) > FILE_MAX)
    data = data.strip(b" \t\n\r")
    is_json = data[:1] == b"{"
    refuse(1, not is_json and len(data) > COMPACT_MAX)
    token = _read_json(data) if is_json else _read_compact(data.decode("latin-1"))
    refuse(3, len(token.disclosures) > COUNT_MAX or len(token.compact()) > COMPACT_MAX)
    return token

def _read_compact(text: str) -> Token:
    found, front = TOKEN.fullmatch(text), FRONT.match(text)
    if found is None:
        raise Refused(2, front.end() if front else 0)
    return Token(found[1], found[2], found[3], found[4].split("~")[:-1], found[5])

def _read_json(data: bytes) -> Token:
    """RFC 9901 section 8, RFC 7515 section 7.2; the first place of the table that applies is named."""
    try:
        whole = read(data)
    except Unreadable as fault:
        raise Refused(2, fault) from None
    payload = _text_member(whole, "payload")
    entries = whole.get("signatures", [whole])
    beside = "signatures" in whole and not {"protected", "signature", "header"}.isdisjoint(whole)
    are_objects = isinstance(entries, list) and entries and all(isinstance(each, dict) for each in entries)
    refuse(2, beside or not are_objects, "wrong signatures")
    protected, signature = _text_member(entries[0], "protected"), _text_member(entries[0], "signature")
    header = entries[0].get("header", {})
    refuse(2, not isinstance(header, dict), "wrong header")
    texts, binding = header.get("disclosures", []), header.get("kb_jwt", "a.b.c")
    refuse(2, not isinstance(texts, list) or not all(map(is_base64url, texts)), "wrong disclosures")
    refuse(2, not isinstance(binding, str) or not JWT.fullmatch(binding), "wrong kb_jwt")
    for number, each in enumerate(entries[1:], 1):
        stray = each.get("header")
        refuse(2, isinstance(stray, dict) and ("disclosures" in stray or "kb_jwt" in stray), f"stray {number}")
    others = {name: value for name, value in header.items() if name not in ("disclosures", "kb_jwt")}
    return Token(protected, payload, signature, texts, header.get("kb_jwt"), others)

def _text_member(members: Members, name: str) -> str:
    refuse(2, name not in members, f"missing {name}")
    refuse(2, not is_base64url(members[name]), f"wrong {name}")
    return members[name]

def read_header(protected: str, unprotected: Members, number: int = 5) -> Members:
    """The protected header with kid and crit of the unprotected one (RFC 7515 section 4); or a condition, mostly 5."""
    members = carried(protected)
    refuse(number, members is None or not unprotected.keys().isdisjoint(members))
    both = {**{name: unprotected[name] for name in ("kid", "crit") if name in unprotected}, **members}
    refuse(number, not all(isinstance(one, str) for one in (both.get("alg"), both.get("typ", ""), both.get("kid", ""))))
    return both

def read_content(token: Token) -> tuple[Members, list[Disclosure], str]:
    """The claims that are signed, the disclosures (RFC 9901 section 4.2) and the hash; or condition 11, 12 or 13."""
    claims = carried(token.payload)
    refuse(11, claims is None)
    hash_name = claims.get("_sd_alg", "sha-256")  # RFC 9901 section 4.1.1.
    refuse(12, not isinstance(hash_name, str) or hash_name not in HASHES)
    given = []
    for number, text in enumerate(token.disclosures):
        parts = carried(text, list) or []
        is_member = len(parts) == 3 and isinstance(parts[1], str)
        refuse(13, not is_member and len(parts) != 2, number)
        given.append(Disclosure(text, parts[0], parts[1] if is_member else None, parts[-1]))
    return claims, given, hash_name

"""Grows what the fuzz tries: recipes of tokens, policies, orders, present orders and queries, from a seed.

A recipe is made of dicts, lists, texts and numbers alone, so that what differs can be shrunk whatever it is: it has the
JSON of each part as a text, in which <3> stands for the digest of disclosure 3, and it is signed when it is rendered.
Bytes that are not UTF-8 stand in a text as lone surrogates.
"""

import hashlib
import json
import random
import re
from typing import Any, Callable, Dict, List, Optional, Tuple

from texts import ALGORITHMS, HASHES, decode, digest_of, encode, sign, write as compact_json
from tokens import Token

Recipe = Dict[str, Any]

KEYS: Dict[str, bytes] = {
    "office": b"the ticket office key, long enough for the longest of the three algorithms",
    "exact": b"a key of exactly as many bytes as a block of SHA-256 has, or 64.",
    "huge": b"a key with more bytes than a block of SHA-512 has, so that each of the three algorithms hashes it first, "
            b"and never signs with the bytes themselves",
    "short": b"another office, of 32 bytes or so",
    "middle": b"another office, whose key has enough bytes for HS384",
    "ada": b"the key in Ada's phone, not ours",
    "stranger": b"the key of somebody quite unknown to all of the others, and long enough, too",
}
NAMES = ["a", "b", "c", "iss", "exp", "nbf", "aud", "iat", "cnf", "kid", "", "0", "1", "-", "a/b", "m~n", "~1",
         "\u00e9", "\U0001f600", "\uffff", "nul\u0000", "\u007f", "x\u0080", "quote\"", "back\\", "_sd", "...",
         "_sd_alg", "_sd_", "...."]
PLAIN_NAMES = [name for name in NAMES if name not in ("_sd", "...", "_sd_alg")]
TEXTS = ["", "x", "tickets", "hall", "B12", "\u00e9", "\U0001f600", "\u2028", "/", "\\", "\"", "\b\f\n\r\t",
         "\u0000\u001f\u007f", "eyJ", "...", "_sd", "https://door.example", "4711", "ada"]
NUMBERS = [0, 0, 1, 1, -1, 7, 4102444800, 2**53, 2**53 + 1, 2**63 - 1, 2**63, 2**64 - 1, -2**63, 10**18, 10**19]
ODD = ["1.5", "1e2", "-0", "0.0", "1e400", "-1e400", "1e-400", "0e999", "18446744073709551616", "-9223372036854775809",
       "1E5", "1" + "0" * 308, "1" + "0" * 309, "9" * 309, "17976931348623158" + "0" * 292,
       "179769313486231580793728971405" + "0" * 279, "1.7976931348623157e308", "1.7976931348623159e308",
       "01", "+1", "1.", ".5", "1e", "NaN", "Infinity", "-Infinity", "-", "tru", "nul", "''", "\"\\ud800\"",
       *[f'"{text}"' for text in (
           "\\ud83d\\ude00", "\\udc00\\ud800", "\\u00e9", "\\u12", "\\x41", "\\/", "\t", "\udcff", "\udced\udca0\udc80",
           "\udcc0\udc80", "\udcf4\udc90\udc80\udc80", "\\ud800\\u0041", "\\uD83D\\uDE00")],
       "\ufeff1", "1 2", "[1,]", "{\"a\":1,}", "1e309", "123456789012345678901234567890", "-00", "0x1", "1_0",
       "\u00a01"]


_PLAIN = json.JSONEncoder(ensure_ascii=False, separators=(",", ":"))


class Raw:
    """A piece of text that is written where JSON would stand, as it is."""

    def __init__(self, text: str) -> None:
        self.text = text


class Grower:
    """Everything that is drawn comes from one generator of random numbers."""

    def __init__(self, seed: int) -> None:
        self.rng = random.Random(seed)
        self.issuer = self.one(["office"] * 4 + ["exact", "huge"])

    def maybe(self, share: float) -> bool:
        return self.rng.random() < share

    def one(self, values: Any) -> Any:
        return self.rng.choice(values)

    # JSON -----------------------------------------------------------------------------------------------------------

    def leaf(self) -> Any:
        kind = self.rng.randrange(6)
        if kind == 0:
            return self.one([None, True, False])
        return self.one(NUMBERS) if kind < 3 else self.one(TEXTS)

    def tree(self, levels: int, names: Optional[List[str]] = None) -> Any:
        kind = self.rng.randrange(5) if levels else 0
        if kind < 2:
            return self.leaf()
        if kind == 2:
            return [self.tree(levels - 1, names) for _ in range(self.rng.randrange(4))]
        return {self.one(names or PLAIN_NAMES): self.tree(levels - 1, names) for _ in range(self.rng.randrange(4))}

    def deep(self, levels: int) -> Any:
        tree: Any = self.one([[], {}, 1])
        for _ in range(levels):
            tree = [tree] if self.maybe(0.5) else {"a": tree}
        return tree

    def write(self, tree: Any, blanks: float = 0.0, twice: float = 0.0) -> str:
        """JSON, with blanks, escapes and members that stand twice here and there."""
        if not blanks and not twice:
            try:
                return _PLAIN.encode(tree)
            except TypeError:
                pass  # There is a raw piece in it.
        space = self.one([" ", "\t", "\r", "  "]) if blanks and self.maybe(blanks) else ""
        if isinstance(tree, Raw):
            return tree.text
        if isinstance(tree, dict):
            pairs = list(tree.items())
            if blanks:
                self.rng.shuffle(pairs)
            if pairs and twice and self.maybe(twice):
                earlier = self.one([1, "x", [], {}, Raw("1.5"), Raw("1e999"), Raw("-0"), self.deep(126)])
                pairs.insert(0, (self.one(pairs)[0], Raw(self.write(earlier))))
            inner = ("," + space).join(f"{self.write(name, blanks)}{space}:{space}{self.write(value, blanks, twice)}"
                                       for name, value in pairs)
            return "{" + space + inner + space + "}"
        if isinstance(tree, list):
            return "[" + space + ("," + space).join(self.write(each, blanks, twice) for each in tree) + space + "]"
        return json.dumps(tree, ensure_ascii=bool(blanks) and self.maybe(0.2))

    def number(self) -> str:
        """A number, mostly about the greatest of a float, or what is nearly a number."""
        rng = self.rng
        digits = self.one(["0", "1", "9", "17976931348623157", "17976931348623158", "179769313486231580793", "2", "00"])
        digits += "".join(self.one("0123456789") for _ in range(self.one([0, 0, 1, 3, 17])))
        digits += self.one(["0", "9", "5"]) * self.one([0, 0, 1, rng.randrange(320)])
        fraction = self.one(["", "", ".0", ".5", "." + "0" * rng.randrange(330) + "1", "."])
        power = rng.randrange(330) - self.one([0, 0, len(digits), 400])
        exponent = self.one(["", "", f"e{power}", f"E{power}", f"e{310 - len(digits)}", f"e{309 - len(digits)}",
                             f"e+{abs(power):05}", "e99999999999999999999", "e-99999999999999999999", "e", "e+"])
        return self.one(["", "", "-", "-", "+"]) + digits + fraction + exponent

    def string(self) -> str:
        """A text in quotes, with escapes and bytes that may be none of a text."""
        pieces = ["a", "\u00e9", "\U0001f600", "\\n", "\\u0041", "\\uD83D", "\\uDE00", "\\ud83d\\ude00", "\\",
                  "\\\\", "\\/", "\\\"", "\\u00", "\\uFFFF", "\\u0000", "\\U0041", "\udcc3", "\udca9",
                  "\udcf0\udc9f\udc98\udc80", "\udce2\udc82", "\udced\udcbf\udcbf", "\udcc1\udcbf",
                  "\udce0\udc80\udcaf", "\udcf4\udc8f\udcbf\udcbf", "\udcf5\udc80\udc80\udc80", "\x1f", "\x7f",
                  "\\b", "\\v", "\ufeff", "\u2028", "\udcff"]
        return '"' + "".join(self.one(pieces) for _ in range(self.one([1, 1, 2, 2, 3, 5]))) + '"'

    def odd(self) -> str:
        """A value that may be none."""
        return self.one([lambda: self.one(ODD), self.number, self.string])()

    def spots(self, tree: Any) -> List[Tuple[Any, Any]]:
        """Each member and each element of a tree, as what holds it and by which name or position."""
        found: List[Tuple[Any, Any]] = []
        if isinstance(tree, dict):
            found = [(tree, name) for name in tree]
        elif isinstance(tree, list):
            found = [(tree, position) for position in range(len(tree))]
        return found + [spot for holder, step in list(found) for spot in self.spots(holder[step])]

    def scratch(self, text: str) -> str:
        """A text with one change of a few letters."""
        place = self.rng.randrange(len(text) + 1)
        kind = self.rng.randrange(5)
        if kind == 0:
            return text[:place] + text[place + self.one([1, 1, 2, 5]):]
        if kind == 1:
            piece = self.one(list("{}[]:,\"\\ 0-.eE~aA_=+/\x00\x1f") + ["\udcff", "\u00e9", "null"])
            return text[:place] + piece + text[place:]
        if kind == 2:
            return text[:place] + self.one(list("{}[]:,\"\\ 01-.e~aA_=")) + text[place + 1:]
        if kind == 3:
            return text[:place] + text[max(0, place - self.rng.randrange(1, 9)):]
        return text[:place] if self.maybe(0.3) else text.replace(self.one(TEXTS) or "a", self.one(TEXTS), 1)

    # Tokens ---------------------------------------------------------------------------------------------------------

    def claims(self, now: int) -> Dict[str, Any]:
        claims: Dict[str, Any] = {self.one(PLAIN_NAMES): self.tree(3, PLAIN_NAMES + ["_sd_alg"] * 3)
                                  for _ in range(self.rng.randrange(1, 5))}
        for name in ("iss", "exp", "nbf", "cnf", "aud"):
            claims.pop(name, None)
        if self.maybe(0.8):
            claims["iss"] = "tickets"
        if self.maybe(0.4):
            claims["exp"] = self.moment(now, True)
        if self.maybe(0.3):
            claims["nbf"] = self.moment(now, False)
        if self.maybe(0.9):
            claims["cnf"] = {"kid": "ada"}
        return claims

    def moment(self, now: int, late: bool) -> int:
        far = self.one([10, 31, 1000, 10**9, 2**62])
        return now + far if late else max(-2**63, now - far)

    def hide(self, tree: Any, share: float, recipe: Recipe) -> Any:
        """A tree with some of its places hidden in disclosures of a recipe."""
        if isinstance(tree, dict):
            shown: Dict[str, Any] = {}
            digests = [self.decoy() for _ in range(self.one([0, 0, 0, 1, 2]))]
            for name, value in tree.items():
                value = self.hide(value, share, recipe)
                if self.maybe(share):
                    digests.append(self.close([name, value], recipe))
                else:
                    shown[name] = value
            if digests or self.maybe(0.05):
                self.rng.shuffle(digests)
                shown["_sd"] = digests
            return shown
        if not isinstance(tree, list):
            return tree
        elements = []
        for value in tree:
            value = self.hide(value, share, recipe)
            elements.append({"...": self.close([value], recipe)} if self.maybe(share) else value)
            if self.maybe(0.1):
                elements.append({"...": self.decoy()})
        return elements

    def decoy(self) -> str:
        return self.one([encode(self.rng.randbytes(32)), self.one(TEXTS) + str(self.rng.randrange(10**6))])

    def close(self, parts: List[Any], recipe: Recipe) -> str:
        salt: Any = f"salt {self.rng.randrange(10**9)}" if self.maybe(0.95) else self.one([None, 5, [], {}, ""])
        recipe["disclosures"].append(self.write([salt, *parts], self.one([0.0, 0.0, 0.3]), self.one([0, 0, 0.05])))
        return f"<{len(recipe['disclosures']) - 1}>"

    def token(self, now: int, bound: float = 0.4) -> Recipe:
        """A recipe of a good token."""
        alg = self.one(["HS256"] * 5 + ["HS384", "HS512"])
        hash_name = self.one(["sha-256"] * 4 + ["sha-384", "sha-512"])
        header: Dict[str, Any] = {"alg": alg}
        if self.maybe(0.7):
            header["kid"] = "tickets-1"
        if self.maybe(0.6):
            header["typ"] = self.one(["ticket+sd-jwt", "JWT"])
        recipe: Recipe = {"header": "", "payload": "", "disclosures": [], "send": [], "hash": hash_name, "alg": alg,
                          "signer": self.issuer, "binding": None, "form": "compact", "layout": {}, "code": [],
                          "edits": []}
        claims = self.claims(now)
        share = self.one([0.0, 0.2, 0.5, 0.9])
        kept = {name: claims.pop(name) for name in ("iss", "exp", "nbf", "cnf") if name in claims and self.maybe(0.9)}
        payload = {**self.hide(claims, share, recipe), **kept}
        if hash_name != "sha-256" or self.maybe(0.5):
            payload["_sd_alg"] = hash_name
        blanks, twice = self.one([(0.0, 0.0), (0.0, 0.0), (0.4, 0.0), (0.2, 0.1)])
        recipe["payload"] = self.write(payload, blanks, twice)
        recipe["send"] = list(range(len(recipe["disclosures"])))
        if self.maybe(0.3):
            self.rng.shuffle(recipe["send"])
        if self.maybe(bound):
            said = {"aud": self.one(["https://door.example"] * 3 + ["side"]), "nonce": "4711",
                    "iat": now - self.one([0, 0, 5, 300]), "sd_hash": "<hash>"}
            if self.maybe(0.1):
                said["exp"] = self.moment(now, True)
            if self.maybe(0.1):
                said["nbf"] = self.moment(now, False)
            recipe["binding"] = {"header": self.write({"alg": "HS256", "typ": "kb+jwt"}, blanks),
                                 "payload": self.write(said, blanks), "signer": "ada", "alg": "HS256"}
        recipe["form"] = self.one(["compact"] * 3 + ["flat", "general"])
        if recipe["form"] != "compact" and self.maybe(0.3):
            recipe["layout"]["unprotected"] = self.write({self.one(["x", "y", "\u00e9"]): self.tree(2)}, blanks)
        if recipe["form"] != "compact" and "kid" not in header and self.maybe(0.3):
            recipe["layout"]["unprotected"] = '{"kid":"tickets-1"}'
        recipe["header"] = self.write(header, blanks, twice)
        return recipe

    def spoil(self, recipe: Recipe, now: int, spoilers: Optional[List[Any]] = None) -> None:
        """One change after which the token may fail a condition; none where earlier ones left nothing to change."""
        if spoilers is None:
            groups = ["header", "claims", "processing", "processing", "processing", "texts", "layout"]
            spoilers = SPOILERS[self.one(groups + ["binding"] * 5 if recipe["binding"] else groups)]
        try:
            self.one(spoilers)(self, recipe, now)
        except (RecursionError, LookupError, AttributeError, TypeError, ValueError):
            pass

    def change(self, recipe: Recipe, part: str, change: Callable[[Any], Any]) -> None:
        """A change of the tree that a part of a recipe says."""
        where = recipe["binding"] if part.startswith("binding ") else recipe
        name = part.split(" ")[-1]
        if where is None:
            return
        index: Any = None
        if name == "disclosures":
            if not where[name]:
                return
            index = self.rng.randrange(len(where[name]))
        text = where[name] if index is None else where[name][index]
        try:
            tree = json.loads(text)
        except ValueError:
            return
        tree = change(tree)
        text = self.write(tree)
        if recipe.get("sorted") is not None and self.maybe(0.95):
            try:
                text = compact_json(tree)
            except (ValueError, TypeError, RecursionError):
                pass
        if index is None:
            where[name] = text
        else:
            where[name][index] = text


def _spoil_member(part: str, name: str, values: List[Any]) -> Callable[[Grower, Recipe, int], None]:
    """A member of a part is taken out, or gets another value."""
    def spoiler(grower: Grower, recipe: Recipe, _now: int) -> None:
        def change(tree: Any) -> Any:
            if isinstance(tree, dict):
                if grower.maybe(0.25):
                    tree.pop(name, None)
                else:
                    tree[name] = grower.one(values)
            return tree
        grower.change(recipe, part, change)
    return spoiler


def _spoil_time(part: str, name: str) -> Callable[[Grower, Recipe, int], None]:
    """A moment is moved about now, or is no whole number."""
    def spoiler(grower: Grower, recipe: Recipe, now: int) -> None:
        near = now + grower.one([0, 0, 0, 1, -1, 1, -1, 30, -30, 29, -29, 31, -31, -300, -301, -330, -331, -600, -601,
                                 -630, 3600, -3600, -3601, -3900])
        value = grower.one([near] * 20 + [0, -1, -2**63, 2**63, 2**64 - 1, "1", None, True, [], {}, Raw("1.5"),
                                         Raw("1e400"), Raw("-0")])

        def change(tree: Any) -> Any:
            if isinstance(tree, dict):
                tree[name] = value
            return tree
        grower.change(recipe, part, change)
    return spoiler


def _spoil_tree(part: str) -> Callable[[Grower, Recipe, int], None]:
    """A place inside a part gets another value, is taken out, or gets an odd member beside it."""
    def spoiler(grower: Grower, recipe: Recipe, _now: int) -> None:
        def change(tree: Any) -> Any:
            spots = grower.spots(tree)
            if not spots:
                return grower.tree(2)
            holder, step = grower.one(spots)
            count = max(1, len(recipe["disclosures"]))
            digest = f"<{grower.rng.randrange(count)}>"
            kind = grower.rng.randrange(12)
            if kind == 0:
                del holder[step]
            elif kind == 1:
                holder[step] = grower.tree(2, NAMES)
            elif kind == 2:
                holder[step] = Raw(grower.odd())
            elif kind == 3:
                holder[step] = grower.deep(grower.one([90, 95, 97, 98, 99, 100, 101, 124, 125, 126, 127, 128]))
            elif kind in (4, 5, 6) and isinstance(holder, dict):
                name = grower.one(["_sd", "...", "_sd_alg", grower.one(NAMES)])
                holder[name] = grower.one([[], [digest], [digest, digest], "x", None, digest, [1], ["x"], {}, 7,
                                           [["x"]], "sha-256", "sha-512", grower.tree(1, NAMES)])
            elif kind in (4, 5, 6, 7) and isinstance(holder, list):
                holder.insert(grower.rng.randrange(len(holder) + 1), grower.one(
                    [{"...": digest}, {"...": digest, "a": 1}, {"...": 5}, {"_sd": [digest]}, {"...": "x"},
                     [{"...": digest}], {"a": {"...": digest}}, {"...": [digest]}, {"_sd": digest}]))
            elif kind == 8 and isinstance(holder, dict):
                holder[grower.one(NAMES)] = holder[step]
            elif kind == 9:
                other, there = grower.one(spots)
                holder[step], other[there] = other[there], holder[step]
            elif kind == 10:
                holder[step] = [holder[step]]
            else:
                holder[step] = {"a": holder[step], "_sd": [digest]}
            return tree
        try:
            grower.change(recipe, part, change)
        except (IndexError, KeyError, TypeError, RecursionError, ValueError):
            pass
    return spoiler


def _spoil_disclosure(grower: Grower, recipe: Recipe, _now: int) -> None:
    """A disclosure gets more or fewer elements, or another name or value."""
    def change(tree: Any) -> Any:
        if not isinstance(tree, list) or not tree:
            return tree
        kind = grower.rng.randrange(8)
        if kind == 0:
            return tree[:-1]
        if kind == 1:
            return tree + [grower.leaf()]
        if kind == 2 and len(tree) == 3:
            return [tree[0], grower.one([1, None, [], {}, True]), tree[2]]
        if kind == 3 and len(tree) == 3:
            return [tree[0], grower.one(["_sd", "...", "_sd_alg", "iss", "exp", "a", "b", "cnf"]), tree[2]]
        if kind == 4:
            return [tree[0], tree[-1]]
        if kind == 5:
            return [tree[0], grower.one(NAMES), tree[-1]]
        if kind == 6:
            return tree[:-1] + [grower.one([{"...": "x"}, {"_sd": "x"}, {"_sd": []}, {"_sd_alg": "x"}, {"...": 1},
                                            [{"...": "x"}], grower.deep(grower.one([97, 98, 99, 100, 125, 126, 127]))])]
        return grower.one([{"0": tree}, tree[0], None, "x", 5, [], [tree]])
    grower.change(recipe, "disclosures", change)


def _spoil_raw(part: str) -> Callable[[Grower, Recipe, int], None]:
    """The JSON text of a part gets another letter, before it is signed."""
    def spoiler(grower: Grower, recipe: Recipe, _now: int) -> None:
        where = recipe["binding"] if part.startswith("binding ") else recipe
        name = part.split(" ")[-1]
        if where is None or not where[name]:
            return
        if name == "disclosures":
            index = grower.rng.randrange(len(where[name]))
            where[name][index] = grower.scratch(where[name][index])
        else:
            where[name] = grower.scratch(where[name])
    return spoiler


def _spoil_send(grower: Grower, recipe: Recipe, _now: int) -> None:
    """A disclosure is left out, sent twice, or belongs to nobody."""
    kind, send = grower.rng.randrange(4), recipe["send"]
    if kind == 0 and send:
        send.pop(grower.rng.randrange(len(send)))
    elif kind == 1 and send:
        send.insert(grower.rng.randrange(len(send) + 1), grower.one(send))
    elif kind == 2:
        recipe["disclosures"].append(grower.write(["salt", grower.one(NAMES), grower.tree(1)]))
        send.insert(grower.rng.randrange(len(send) + 1), len(recipe["disclosures"]) - 1)
    else:
        grower.rng.shuffle(send)


def _spoil_signer(grower: Grower, recipe: Recipe, _now: int) -> None:
    recipe["signer"] = grower.one(list(KEYS))
    if grower.maybe(0.3):
        recipe["alg"] = grower.one(list(ALGORITHMS))


def _spoil_both_algs(grower: Grower, recipe: Recipe, now: int) -> None:
    recipe["alg"] = grower.one(list(ALGORITHMS))
    grower.change(recipe, "header", lambda tree: {**tree, "alg": recipe["alg"]} if isinstance(tree, dict) else tree)
    if grower.maybe(0.3):
        _spoil_signer(grower, recipe, now)


def _spoil_code(grower: Grower, recipe: Recipe, _now: int) -> None:
    """The base64url of a part is spoilt before it is hashed or signed."""
    part = grower.one(["header", "payload", "signature", "binding header", "binding payload", "binding signature"]
                      + [str(grower.one(recipe["send"]))] * 3 if recipe["send"] else ["header", "payload", "signature"])
    recipe["code"].append([part, grower.one(["bits", "letter", "cut", "pad", "plus", "empty", "blank"])])


def _spoil_edit(grower: Grower, recipe: Recipe, _now: int) -> None:
    """A byte of the whole text is changed when all is done."""
    for _ in range(grower.one([1, 1, 1, 2, 4])):
        recipe["edits"].append([grower.one(["cut", "put", "set", "end", "front"]), grower.rng.randrange(10**6),
                                grower.one(list("~~~..aZ_-= \t{}\"=+\n\r\x00\u00e9\udcff"))])


def _spoil_binding(grower: Grower, recipe: Recipe, _now: int) -> None:
    if recipe["binding"] is None or grower.maybe(0.2):
        recipe["binding"] = None
    elif grower.maybe(0.5):
        recipe["binding"]["signer"] = grower.one(list(KEYS))
    else:
        recipe["binding"]["alg"] = grower.one(list(ALGORITHMS))


def _spoil_layout(grower: Grower, recipe: Recipe, _now: int) -> None:
    """A JSON serialization with another header, with further members, or without some."""
    recipe["form"] = grower.one(["flat", "general"])
    layout = recipe["layout"]
    kind = grower.rng.randrange(9)
    odd = [None, True, 5, "", "x", "a=b", "eyJ.x", "a.b.c", [], {}, [1], ["x"], ["a.b"], [""], [{}],
           {"disclosures": []}]
    if kind == 0:
        layout["unprotected"] = grower.write({grower.one(["alg", "kid", "typ", "crit", "x", "b64", "\u00e9"]):
                                              grower.one(odd + ["HS256", "tickets-1", "tickets-2"])})
    elif kind == 1:
        layout["members"] = {grower.one(["payload", "protected", "signature", "header", "signatures", "disclosures",
                                         "kb_jwt", "x"]): grower.write(grower.one(odd))}
    elif kind == 2:
        layout["entry"] = {grower.one(["payload", "protected", "signature", "header", "signatures", "x"]):
                           grower.write(grower.one(odd))}
    elif kind == 3:
        layout["header"] = {grower.one(["disclosures", "kb_jwt", "x"]): grower.write(grower.one(odd))}
    elif kind == 4:
        layout["without"] = grower.one(["payload", "protected", "signature", "header", "signatures", "disclosures",
                                        "kb_jwt"])
    elif kind == 5:
        entry = grower.one([{}, {"header": {}}, {"header": {"disclosures": 5}}, {"header": {"kb_jwt": None}}, 5, [],
                            {"header": []}, {"protected": 7}, {"header": {"x": 1}}, {"header": {"disclosures": []}}])
        layout["behind"] = [grower.write(entry) for _ in range(grower.rng.randrange(1, 3))] + (
            [grower.write({"header": {"disclosures": ["x"]}})] if grower.maybe(0.4) else [])
        recipe["form"] = "general"
    elif kind == 6:
        layout["members"] = {grower.one(["x", "x", "x", "header", "payload"]): grower.odd()}
    elif kind == 7:
        layout["members"] = {"x": grower.write(grower.deep(grower.one([124, 125, 126, 127, 128])))}
    else:
        layout["unprotected"] = grower.write({"x": grower.deep(grower.one([120, 123, 124, 125, 126, 127]))})


def _spoil_clash(grower: Grower, recipe: Recipe, _now: int) -> None:
    """A disclosure gets the name of a member of its object, or of another disclosure that stands in it."""
    texts = [recipe["payload"], *recipe["disclosures"]]
    found = [(holder, number) for text in texts for holder, number in _references(text) if isinstance(holder, dict)]
    found = [(holder, number) for holder, number in found if number < len(recipe["disclosures"])]
    if not found:
        return
    holder, number = grower.one(found)
    names = [name for name in holder if name != "_sd"]
    for other in re.findall("<([0-9]+)>", json.dumps(holder["_sd"])):
        try:
            names.append(json.loads(recipe["disclosures"][int(other)])[1])
        except (ValueError, IndexError, TypeError, KeyError):
            pass
    if names:
        try:
            parts = json.loads(recipe["disclosures"][number])
            recipe["disclosures"][number] = grower.write([parts[0], grower.one(names), parts[-1]])
        except (ValueError, IndexError, TypeError, KeyError):
            pass


def _references(text: str) -> List[Tuple[Any, int]]:
    """Where the digests of disclosures stand in a text: in the _sd of an object, or beside a member '...'."""
    try:
        tree = json.loads(text)
    except ValueError:
        return []
    holders = [tree, *(holder[step] for holder, step in Grower(0).spots(tree))]
    found = []
    for holder in holders:
        if isinstance(holder, dict) and isinstance(holder.get("_sd"), list):
            found += [(holder, int(each[1:-1])) for each in holder["_sd"]
                      if isinstance(each, str) and re.fullmatch("<[0-9]+>", each)]
    return found


def _spoil_reference(grower: Grower, recipe: Recipe, _now: int) -> None:
    """A digest stands twice, in another object, as an element, or nowhere."""
    count = len(recipe["disclosures"])
    if not count:
        return
    digest = f"<{grower.rng.randrange(count)}>"
    kind = grower.rng.randrange(6)

    def change(tree: Any) -> Any:
        holders = [each for each in [tree, *(holder[step] for holder, step in grower.spots(tree))]
                   if isinstance(each, (dict, list))]
        lists = [each["_sd"] for each in holders if isinstance(each, dict) and isinstance(each.get("_sd"), list)]
        if kind < 2 and lists:
            grower.one(lists).insert(0, digest)
        elif kind == 2 and lists and grower.one(lists):
            digests = grower.one([each for each in lists if each] or [[None]])
            digests[grower.rng.randrange(len(digests))] = digest
        elif kind == 3 and lists:
            digests = grower.one(lists)
            if digests:
                tree["b"] = [{"...": digests.pop()}]
        elif holders:
            holder = grower.one(holders)
            if isinstance(holder, dict):
                holder["_sd"] = [*holder["_sd"], digest] if isinstance(holder.get("_sd"), list) else [digest]
            else:
                holder.append({"...": digest})
        return tree
    try:
        grower.change(recipe, grower.one(["payload", "payload", "disclosures"]), change)
    except TypeError:
        pass


def _spoil_chain(grower: Grower, recipe: Recipe, _now: int) -> None:
    """Disclosures that stand inside each other, about as deep as they may."""
    value: Any = grower.one([1, {}, [], [[]], grower.deep(grower.one([1, 2, 50]))])
    for _ in range(grower.one([2, 5, 49, 50, 51, 96, 97, 98, 99, 100])):
        number = len(recipe["disclosures"])
        member = grower.maybe(0.5)
        recipe["disclosures"].append(grower.write(["", "a", value] if member else ["", value]))
        value = {"_sd": [f"<{number}>"]} if member else [{"...": f"<{number}>"}]
        recipe["send"].append(number)
    if grower.maybe(0.3):
        recipe["send"].reverse()
    if grower.maybe(0.1):
        recipe["send"].pop(grower.rng.randrange(len(recipe["send"])))
    grower.change(recipe, "payload", lambda tree: {**tree, "b": value} if isinstance(tree, dict) else tree)


def _spoil_many(grower: Grower, recipe: Recipe, _now: int) -> None:
    """Many disclosures in one object or one array, and many digests that belong to none."""
    count, member = grower.one([10, 10, 10, 30, 30, 100, 300]), grower.maybe(0.5)
    digests = [f"decoy {number}" for number in range(grower.one([0, 10, 100]))]
    for each in range(count):
        number = len(recipe["disclosures"])
        recipe["disclosures"].append(grower.write(["", f"name {each}", each] if member else ["", each]))
        digests.append(f"<{number}>")
        if grower.maybe(0.9):
            recipe["send"].insert(grower.rng.randrange(len(recipe["send"]) + 1), number)
    grower.rng.shuffle(digests)
    value = {"_sd": digests} if member else [{"...": digest} for digest in digests]
    grower.change(recipe, "payload", lambda tree: {**tree, "b": value} if isinstance(tree, dict) else tree)


def _spoil_writing(grower: Grower, recipe: Recipe, _now: int) -> None:
    """A JSON serialization with blanks or escapes."""
    recipe["form"] = grower.one(["flat", "general"])
    recipe["layout"]["write"] = grower.one(["blanks", "escapes"])


Spoiler = Callable[[Grower, Recipe, int], None]
SPOILERS: Dict[str, List[Spoiler]] = {
    "header": [
        _spoil_member("header", "alg", ["HS256", "HS384", "HS512", "hs256", "none", "", "ES256", 5, None, []]),
        _spoil_member("header", "kid", ["tickets-1", "tickets-2", "", 5, None]),
        _spoil_member("header", "typ", ["ticket+sd-jwt", "JWT", "", 5, None]),
        _spoil_member("header", "crit", [[], ["exp"], None]),
        _spoil_tree("header"), _spoil_raw("header"), _spoil_signer, _spoil_both_algs],
    "claims": [
        _spoil_member("payload", "iss", ["tickets", "hall", "elsewhere", "", 5, None, ["tickets"]]),
        _spoil_member("payload", "_sd_alg", ["sha-256", "sha-384", "sha-512", "SHA-256", "", None, 5, ["sha-256"]]),
        _spoil_member("payload", "cnf", [{"kid": "eve"}, {"kid": 5}, {}, "ada", None, {"kid": "ada", "x": 1}, [],
                                         {"jwk": {}}]),
        *[_spoil_time("payload", "exp"), _spoil_time("payload", "nbf")] * 3, *[_spoil_raw("payload")] * 2],
    "processing": [
        _spoil_member("payload", "a", [{"...": "x"}, {"_sd": []}, [{"...": "x"}], 5]), _spoil_tree("payload"),
        _spoil_tree("payload"), _spoil_tree("disclosures"), _spoil_tree("disclosures"), _spoil_disclosure,
        _spoil_disclosure, _spoil_disclosure, _spoil_raw("disclosures"), _spoil_send, _spoil_send, _spoil_clash,
        _spoil_clash, *[_spoil_reference] * 4, _spoil_chain, _spoil_many],
    "texts": [_spoil_code, _spoil_code, _spoil_edit],
    "layout": [_spoil_layout, _spoil_layout, _spoil_writing],
    "binding": [
        _spoil_member("binding header", "alg", ["HS384", "HS512", "none", "", 5, None]),
        _spoil_member("binding header", "typ", ["JWT", "KB+JWT", "", 5, None]), _spoil_binding,
        _spoil_member("binding header", "kid", ["x", 5]), _spoil_member("binding header", "crit", [[], None]),
        _spoil_member("binding payload", "aud", ["side", "elsewhere", "", ["https://door.example"], None]),
        _spoil_member("binding payload", "nonce", ["4710", "", 4711, None]),
        _spoil_member("binding payload", "sd_hash", ["x", "", 5, "<0>"]),
        _spoil_member("binding payload", "x", [1, Raw("1.5"), Raw("1e400"), {}]),
        _spoil_time("binding payload", "iat"), _spoil_time("binding payload", "iat"),
        _spoil_time("binding payload", "exp"), _spoil_time("binding payload", "nbf"), _spoil_raw("binding header"),
        _spoil_raw("binding payload"),
        _spoil_member("payload", "cnf", [{"kid": "eve"}, {"kid": 5}, {}, None, {"kid": "ada", "x": 1}])],
}


# Rendering ------------------------------------------------------------------------------------------------------------

def octets(text: str) -> bytes:
    """The bytes of a text of a recipe. In it a surrogate stands for a byte that is no UTF-8, or for half of a pair."""
    try:
        return text.encode("utf-8", "surrogateescape")
    except UnicodeEncodeError:
        return b"".join(one.encode("utf-8", "surrogateescape" if "\udc80" <= one <= "\udcff" else "surrogatepass")
                        for one in text)


def _spoilt(code: str, part: str, recipe: Recipe) -> str:
    for name, how in recipe["code"]:
        if name == part:
            changes = {"letter": code + "A", "cut": code[:-1], "pad": code + "=", "plus": code[:-1] + "+", "empty": "",
                       "blank": code + " ", "bits": code[:-1] + chr(ord(code[-1:] or "A") + 1)}
            code = changes[how]
    return code


def _with_sorted_digests(text: str) -> str:
    """A text whose lists of digests ascend, where it is compact JSON."""
    try:
        tree = json.loads(text)
    except ValueError:
        return text
    if compact_json(tree) != text:
        return text
    for holder, step in Grower(0).spots(tree):
        if step == "_sd" and isinstance(holder[step], list):
            holder[step].sort(key=str)
    return compact_json(tree)


def render(recipe: Recipe) -> bytes:
    """The token of a recipe."""
    texts: List[str] = []
    digests: List[str] = []

    def filled(text: str) -> str:
        text = re.sub("<([0-9]+)>", lambda found: dict(enumerate(digests)).get(int(found[1]), found[0]), text)
        return _with_sorted_digests(text) if recipe.get("sorted") else text

    for number, said in enumerate(recipe["disclosures"]):
        texts.append(_spoilt(encode(octets(filled(said))), str(number), recipe))
        digests.append(encode(hashlib.new(HASHES[recipe["hash"]], octets(texts[-1])).digest()))
    protected = _spoilt(encode(octets(filled(recipe["header"]))), "header", recipe)
    said = re.sub("<fill ([0-9]+)>", lambda found: "x" * int(found[1]), filled(recipe["payload"]))
    payload = _spoilt(encode(octets(said)), "payload", recipe)
    signature = sign(protected, payload, KEYS[recipe["signer"]], recipe["alg"])
    signature = _spoilt(signature, "signature", recipe)
    token = Token(protected, payload, signature, [texts[number] for number in recipe["send"]])
    binding = recipe["binding"]
    if binding is not None:
        sd_hash = digest_of(token.hashed(), recipe["hash"])
        head = _spoilt(encode(octets(binding["header"])), "binding header", recipe)
        said = filled(binding["payload"].replace("<hash>", sd_hash))
        body = _spoilt(encode(octets(said)), "binding payload", recipe)
        signed = sign(head, body, KEYS[binding["signer"]], binding["alg"])
        token.binding = f"{head}.{body}.{_spoilt(signed, 'binding signature', recipe)}"
    data = octets(token.compact() if recipe["form"] == "compact" else _laid_out(token, recipe))
    return _edited(data, recipe["edits"])


def _laid_out(token: Token, recipe: Recipe) -> str:
    layout = recipe["layout"]
    without = layout.get("without")

    def members(pairs: List[Tuple[str, str]]) -> str:
        comma, colon = (" ,\t", " :\r ") if layout.get("write") == "blanks" else (",", ":")
        return "{" + comma.join(f"{quoted(name)}{colon}{text}" for name, text in pairs if name != without) + "}"

    def quoted(text: str) -> str:
        written = json.dumps(text)
        if layout.get("write") == "escapes" and len(text) > 1 and text.isascii():
            written = f'"\\u{ord(text[0]):04x}{written[2:-2]}\\u{ord(text[-1]):04X}"'
        return written

    header = [("disclosures", "[" + ",".join(map(quoted, token.disclosures)) + "]")]
    if not token.disclosures and recipe["form"] == "flat" and "unprotected" not in layout:
        header = []
    if token.binding is not None:
        header.append(("kb_jwt", quoted(token.binding)))
    inner = layout.get("unprotected", "{}")[1:-1]
    header_text = members(header + list(layout.get("header", {}).items()))
    if inner:
        header_text = header_text[:-1] + ("," if len(header_text) > 2 else "") + inner + "}"
    entry = [("protected", quoted(token.protected)), ("signature", quoted(token.signature)), ("header", header_text)]
    whole = [("payload", quoted(token.payload))]
    extra = list(layout.get("members", {}).items())
    entry += list(layout.get("entry", {}).items())
    if recipe["form"] == "flat":
        return members(whole + entry + extra)
    return members(whole + [("signatures", "[" + ",".join([members(entry), *layout.get("behind", [])]) + "]")] + extra)


def _edited(data: bytes, edits: List[List[Any]]) -> bytes:
    for how, place, letter in edits:
        at = place % (len(data) + 1)
        piece = octets(letter)
        if how == "cut":
            data = data[:at] + data[at + 1:]
        elif how == "put":
            data = data[:at] + piece + data[at:]
        elif how == "set":
            data = data[:at] + piece + data[at + 1:]
        else:
            data = data + piece if how == "end" else piece + data
    return data


# Audits ---------------------------------------------------------------------------------------------------------------

def recipe_of(token: Token, order: Dict[str, Any]) -> Recipe:
    """The recipe of a token that was issued, with its digests as places of it."""
    hash_name = order.get("sd_alg", "sha-256")
    texts = [(decode(text) or b"").decode() for text in token.disclosures]
    digests = [digest_of(text, hash_name) for text in token.disclosures]

    def marked(text: str) -> str:
        for number, digest in enumerate(digests):
            text = text.replace(digest, f"<{number}>")
        return text

    signer = next(name for name, key in KEYS.items() if encode(key) == order["key"])
    return {"header": (decode(token.protected) or b"").decode(), "hash": hash_name, "signer": signer,
            "payload": marked((decode(token.payload) or b"").decode()),
            "disclosures": list(map(marked, texts)), "send": list(range(len(texts))),
            "alg": order.get("alg", "HS256"), "binding": None, "form": "compact", "layout": {}, "code": [],
            "edits": [], "sorted": True}


def _digest_lists(tree: Any) -> List[Any]:
    return [holder["_sd"] for holder, step in Grower(0).spots(tree)
            if step == "_sd" and isinstance(holder["_sd"], list)]


def _audit_digests(grower: Grower, recipe: Recipe, _now: int) -> None:
    """A digest list is empty, lacks one, has one more, or one stands elsewhere."""
    def change(tree: Any) -> Any:
        lists = _digest_lists(tree)
        holders = [holder for holder, step in grower.spots(tree) if isinstance(holder, dict) and step != "_sd"]
        kind = grower.rng.randrange(6)
        extra = encode(grower.rng.randbytes(grower.one([32, 48, 64, 32, 31])))
        if kind == 0 and lists:
            digests = grower.one(lists)
            if digests:
                digests.pop(grower.rng.randrange(len(digests)))
        elif kind == 1 and holders:
            grower.one(holders).setdefault("_sd", []).append(extra)
        elif kind == 2 and lists:
            digests = grower.one(lists)
            if digests:
                digests[grower.rng.randrange(len(digests))] = extra
        elif kind == 3 and len(lists) > 1:
            one, other = grower.rng.sample(lists, 2)
            if one:
                other.append(one.pop())
        elif kind == 4 and holders:
            grower.one(holders).setdefault("_sd", [])
        else:
            arrays = [holder for holder, step in grower.spots(tree) if isinstance(holder, list)]
            arrays = [array for array in arrays if any(isinstance(each, dict) and "..." in each for each in array)]
            if arrays:
                array = grower.one(arrays)
                array.insert(grower.rng.randrange(len(array)), array.pop() if grower.maybe(0.7) else {"...": extra})
        return tree
    grower.change(recipe, grower.one(["payload", "payload", "disclosures"]), change)


def _audit_order(grower: Grower, recipe: Recipe, _now: int) -> None:
    """A digest list in another order, or an empty one."""
    def change(tree: Any) -> Any:
        lists = _digest_lists(tree)
        if lists:
            digests = grower.one(lists)
            grower.rng.shuffle(digests)
        elif isinstance(tree, dict):
            tree["_sd"] = []
        return json.loads(json.dumps(tree, sort_keys=True))
    recipe["sorted"] = False
    grower.change(recipe, grower.one(["payload", "payload", "disclosures"]), change)


def _audit_value(grower: Grower, recipe: Recipe, _now: int) -> None:
    """A claim, a name or a salt is another one."""
    def change(tree: Any) -> Any:
        spots = [(holder, step) for holder, step in grower.spots(tree) if not isinstance(holder[step], (dict, list))]
        if spots:
            holder, step = grower.one(spots)
            holder[step] = grower.one([1, True, "1", None, 2**64 - 1, encode(grower.rng.randbytes(16)),
                                       encode(grower.rng.randbytes(15)),
                                       encode(bytes(16))[:-1] + "B", "sha-384"])
        return tree
    grower.change(recipe, grower.one(["payload", "disclosures", "disclosures"]), change)


def _audit_swap(grower: Grower, recipe: Recipe, _now: int) -> None:
    """The references to two disclosures change places, or the disclosures are sent in another order."""
    send = recipe["send"]
    if len(send) > 1 and grower.maybe(0.5):
        one, other = grower.rng.sample(range(len(send)), 2)
        send[one], send[other] = send[other], send[one]
    elif len(recipe["disclosures"]) > 1:
        one, other = grower.rng.sample(range(len(recipe["disclosures"])), 2)
        swap = {f"<{one}>": f"<{other}>", f"<{other}>": f"<{one}>"}
        recipe["payload"] = re.sub("<[0-9]+>", lambda found: swap.get(found[0], found[0]), recipe["payload"])


AUDIT_SPOILERS: List[Spoiler] = [
    *[_audit_digests] * 10, *[_audit_order] * 4, *[_audit_value] * 3, *[_audit_swap] * 3, _spoil_send,
    _spoil_disclosure, _spoil_tree("payload"), _spoil_tree("disclosures"), _spoil_raw("payload"),
    _spoil_raw("disclosures"), _spoil_clash,
    _spoil_reference, _spoil_raw("header"), _spoil_code, _spoil_edit, _spoil_layout, _spoil_signer, _spoil_both_algs,
    _spoil_member("payload", "_sd_alg", ["sha-256", "sha-384", "sha-512", None]), _spoil_member("header", "kid", ["x"]),
    _spoil_member("payload", "a", [1, {"...": "x"}])]

"""Issuing: RFC 9901 section 4.2, by the refusals of an order in their order; the command gen; and the audit."""

import struct
from collections import Counter
from collections.abc import Iterator
from files import Said, read_order, read_policy, read_present_order
from outcome import COUNT_MAX, DEPTH_MAX, ISSUE_MAX, Refused, refuse, refuse_first
from texts import Path, Tree, at, carried, decode, depth, digest_of, encode, inside, sign, write, written
from tokens import Token, read_content, read_token
from verify import is_hidden, present, process, repeats, sites, verify

def judge_order(order: Said) -> None:
    """The lowest of the refusals 51 to 59 that applies."""
    payload, hide = order["payload"], order["hide"]
    refuse(51, not isinstance(payload, dict))
    for pointer in _reserved(payload, ""):
        raise Refused(52, write(pointer))
    refuse(53, depth(payload) > DEPTH_MAX)
    refuse_first(54, (not path for path in hide))
    refuse_first(55, (not at(payload, path)[0] for path in hide))
    refuse_first(56, (path[0] in ("iss", "aud", "exp", "nbf", "cnf") for path in hide))  # Section 9.7.
    refuse_first(57, (not isinstance(at(payload, entry["at"])[1], (dict, list)) for entry in order["decoys"]))
    refuse(58, len(set(hide)) > COUNT_MAX)
    refuse(59, sum(entry["count"] for entry in order["decoys"]) > COUNT_MAX)

def _reserved(tree: Tree, pointer: str) -> Iterator[str]:
    """The pointers (RFC 6901 section 5) of reserved names in a tree."""
    for step, value in sorted(inside(tree), key=lambda member: member[0] != "_sd"):  # This one first.
        inner = pointer + "/" + step.replace("~", "~0").replace("/", "~1")
        if isinstance(tree, dict) and step in ("_sd", "_sd_alg", "..."):
            yield inner
        yield from _reserved(value, inner)

def closing_order(tree: Tree, hidden: set[Path], path: Path = ()) -> Iterator[Path]:
    """The hidden places, each behind all that is inside it."""
    for step, value in inside(tree):
        yield from closing_order(value, hidden, (*path, step))
    if path in hidden:
        yield path

def header_text(order: Said) -> str:
    """The protected header that the issuer writes."""
    return written({name: order[name] for name in ("alg", "kid", "typ") if order[name] is not None})

class _Hiding:
    """Hides the places of an order, with the salts of a seed."""

    def __init__(self, order: Said, seed: bytes) -> None:
        self.hash_name, self.hidden, self.texts = order["sd_alg"], set(order["hide"]), list[str]()
        count = len(self.hidden) + sum(entry["count"] for entry in order["decoys"])
        codes = [encode(piece) for piece in chacha_pieces(seed, count)]
        self.salts, spare = iter(codes), iter(codes[len(self.hidden):])
        self.decoys: dict[Path, list[str]] = {}
        for entry in order["decoys"]:  # RFC 9901 section 4.2.5.
            made = [digest_of(next(spare), self.hash_name) for _ in range(entry["count"])]
            self.decoys.setdefault(entry["at"], []).extend(made)

    def _close(self, parts: list[Tree]) -> str:
        self.texts.append(written([next(self.salts), *parts]))
        return digest_of(self.texts[-1], self.hash_name)

    def hide(self, tree: Tree, path: Path = ()) -> Tree:
        """The tree with each hidden place in it hidden, and its decoys."""
        digests, shown = list(self.decoys.get(path, [])), dict[str, Tree]()
        for step, inner in inside(tree):
            shown[step] = self.hide(inner, (*path, step))
            if (*path, step) in self.hidden and isinstance(tree, dict):  # RFC 9901 section 4.2.4.1.
                digests.append(self._close([step, shown.pop(step)]))
            elif (*path, step) in self.hidden:  # RFC 9901 section 4.2.4.2.
                shown[step] = {"...": self._close([shown[step]])}
        if isinstance(tree, dict):
            return {**shown, "_sd": sorted(digests)} if digests else shown
        return [*shown.values(), *({"...": digest} for digest in digests)] if isinstance(tree, list) else tree

def issue(order: Said, seed: bytes) -> Token:
    """The token of an order and a seed, or the refusal that applies."""
    judge_order(order)
    hiding = _Hiding(order, seed)
    protected = header_text(order)
    payload = written({**hiding.hide(order["payload"]), "_sd_alg": order["sd_alg"]})
    made = [digest_of(text, order["sd_alg"]) for text in hiding.texts]
    made += [digest for entry in hiding.decoys.values() for digest in entry]
    for number, again in enumerate(repeats(made)):
        if again:
            raise Refused(60, f"{made.index(made[number])} {number}")
    token = Token(protected, payload, sign(protected, payload, order["key"], order["alg"]), hiding.texts)
    refuse(61, len(token.compact()) > ISSUE_MAX)
    return token

def chacha_pieces(seed: bytes, count: int) -> list[bytes]:
    """RFC 8439 section 2.3 with a nonce of zeros: pieces of four words, four of them a block."""
    stream = b"".join(_chacha_block(seed, number) for number in range((count + 3) // 4))
    return [stream[16 * number:16 * number + 16] for number in range(count)]

_QUARTERS = [(each, each + 4, each + 8, each + 12) for each in range(4)]
_QUARTERS += [(each, (each + 1) % 4 + 4, (each + 2) % 4 + 8, (each + 3) % 4 + 12) for each in range(4)]

def _chacha_block(seed: bytes, counter: int) -> bytes:
    start = [*struct.unpack("<4L", b"expand 32-byte k"), *struct.unpack("<8L", seed), counter, 0, 0, 0]
    words = list(start)
    for a, b, c, d in _QUARTERS * 10:
        for one, other, last, bits in ((a, b, d, 16), (c, d, b, 12), (a, b, d, 8), (c, d, b, 7)):
            words[one] = (words[one] + words[other]) & 0xffffffff
            mixed = words[last] ^ words[one]
            words[last] = (mixed << bits | mixed >> 32 - bits) & 0xffffffff
    return struct.pack("<16L", *((one + other) & 0xffffffff for one, other in zip(words, start)))

def generate(count: int) -> str:
    """The command gen: an order of its own is issued, presented and verified, and four counts of it are printed."""
    hide = [f"/m{i}" for i in range(0, count, 2)] + [f"/m{i}/a" for i in range(0, count, 3)]
    hide += [f"/m{i}/b/1" for i in range(0, count, 5)]
    key = encode(b"\1" * 32)
    keys = {"keys": [{"kty": "oct", "k": key}]}
    order = {"payload": {f"m{i}": {"a": i, "b": [i, i + 1]} for i in range(count)}, "hide": hide, "key": key,
             "decoys": [{"at": "", "count": 1}]}
    asked = {"keys": keys, "want": [f"/m{i}/a" for i in range(0, count, 4)]}
    shown = present(read_present_order(write(asked).encode()), issue(read_order(write(order).encode()), bytes(32)), 0)
    claims = verify(read_policy(write({"keys": keys}).encode()), shown, 0)
    signed, given, _ = read_content(shown)
    digests = sum(len(list(sites(tree))) for tree in [signed, *(each.value for each in given)])
    return (f"hidden {len(hide)}\npresented {len(shown.disclosures)}\ndigests {digests}\n"
            f"bytes {len(write(claims).encode())}")

def audit(order: Said, data: bytes) -> str:
    """Whether a token is what an order asks for: yes, or the first of refusals 80, 1 to 3 and 81 to 86."""
    try:
        judge_order(order)
    except Refused as refusal:
        raise Refused(80, refusal.number) from None
    token = read_token(data)
    refuse(81, token.protected != header_text(order) or token.binding is not None or token.unprotected
           or token.signature != sign(token.protected, token.payload, order["key"], order["alg"]))
    places = list(closing_order(order["payload"], set(order["hide"])))
    try:
        claims, given, _ = read_content(token)
    except Refused:
        raise Refused(82) from None
    trees = [claims, *(carried(text, list) for text in token.disclosures)]
    refuse(82, [written(tree) for tree in trees] != [token.payload, *token.disclosures])
    salts = all(isinstance(each.salt, str) and len(decode(each.salt) or b"") == 16 for each in given)
    refuse(82, not salts or claims.get("_sd_alg") != order["sd_alg"] or len(given) != len(places))
    try:
        opened = process(claims, given, order["sd_alg"])
    except Refused:
        raise Refused(83) from None
    refuse(83, write(opened.claims) != write(order["payload"]) or opened.places != places)
    roots = dict(zip([(), *places], [claims, *(each.value for each in given)]))
    digests = [site.digest for tree in roots.values() for site in sites(tree)]
    own = {digest_of(each.text, order["sd_alg"]) for each in given}
    decoys = set(digests) - own
    length = len(digest_of("", order["sd_alg"]))
    refuse(84, len(digests) != len(places) + sum(entry["count"] for entry in order["decoys"])
           or len(set(digests)) < len(digests) or not own <= set(digests)
           or any(len(each) != length or decode(each) is None for each in decoys))
    wanted = Counter(entry["at"] for entry in order["decoys"] for _ in range(entry["count"]))
    refuse(85, not all(_decoys_stand(tree, place, wanted, decoys) for place, tree in roots.items()))
    refuse(86, not all(map(_is_sorted, roots.values())))
    return "yes"

def _decoys_stand(tree: Tree, place: Path, wanted: Counter[Path], decoys: set[str]) -> bool:
    """Whether there are as many decoys as wanted in each object, and in each array behind its elements."""
    found = [is_hidden(element) and element["..."] in decoys for element in tree] if isinstance(tree, list) else []
    if isinstance(tree, dict):
        found = sorted(digest in decoys for digest in tree.get("_sd", []))
    return sum(found) == wanted[place] and found == sorted(found) and all(
        _decoys_stand(value, (*place, step), wanted, decoys) for step, value in inside(tree)
        if step != "_sd" and not is_hidden(value))

def _is_sorted(tree: Tree) -> bool:
    """Whether each list of digests in a tree ascends and has one."""
    digests = tree.get("_sd", [""]) if isinstance(tree, dict) else [""]
    return bool(digests) and digests == sorted(digests) and all(
        _is_sorted(value) for name, value in inside(tree) if name != "_sd")

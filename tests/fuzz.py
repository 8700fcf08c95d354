"""Compares the programs with the second reading in tests/reference, over cases that grow from a seed.

    python3 tests/fuzz.py PROGRAM TOOLS [--seed N] [--count N] [--seconds S] [--commands a,b,..] [--coverage]

PROGRAM is a built sdjwt and TOOLS a built sdjwt_tools. Each case is a run: words, and files of which some are recipes
(tests/grow.py). Status, standard output and the line on standard error are compared. A case that differs is shrunk and
printed with its files, and the last line tells how many cases ran and how many differed. The cases of one seed are the
same in each run but for the moments in them, which stand about the moment of the run. With --seconds the commands share
the time, so that a dear one has fewer cases; the limits are tried once.

Beside the names of commands there are these: feed judges tokens, a hundred in one run under one policy; texts are
short lines that are nearly tokens, five hundred in one run; most is a feed whose input is about as long as it may be;
words are command lines; and limits are files, tokens and orders of the greatest size.
"""

import argparse
import collections
import copy
import json
import os
import re
import subprocess
import sys
import tempfile
import time
from typing import Any, Callable, Counter, Dict, Iterable, Iterator, List, Tuple

HERE = os.path.dirname(os.path.abspath(__file__))
sys.path[:0] = [os.path.join(HERE, "reference"), HERE]
sys.setrecursionlimit(20_000)

import grow  # noqa: E402
import main as reference  # noqa: E402
from files import pointer  # noqa: E402
from main import Answer  # noqa: E402
from texts import HASHES, Key, at, encode  # noqa: E402
from verify import judge_held  # noqa: E402

Case = Dict[str, Any]
TOOL_COMMANDS = ("feed", "audit", "wallet")
COMMANDS = ("feed", "texts", "most", "verify", "present", "show", "split", "convert", "issue", "audit", "wallet", "gen",
            "words", "limits")
LINES = 100
# What stands in the place of a value of a file that a user writes.
FILE_VALUES: List[Any] = [
    None, True, 0, 1, 2, 3, -1, 256, 3600, 3601, 2**32 - 1, 2**32, "", "x", [], {}, ["x"], "/", "/a", "a", "/~", "/~2",
    "/a~0~1", "\u00e9" * 128, "\u00e9" * 128 + "x", "HS256", "HS512", "sha-384", "ES256", [5], ["HS384"], {"keys": []}]
ODD_LINES = ["", " ", "~", "{", "{}", "[]", "\ufeff", "a.b.c", "a.b.c~~", "a.b.c~d.", "\t{}\r"]
FIRST_WORDS = ["split", "show", "verify", "issue", "present", "convert", "gen", "feed", "audit", "wallet", "", "help",
               "--help", "Verify"]
FURTHER_WORDS = ["policy.json", "token.txt", "nobody", "compact", "flat", "general", "Flat", "1", "7", "0", "07",
                 "3001", "+1", "-1", "1 ", "\u0661", "1073741824", "1073741825", "99999999999999999999", "", "\u00e9",
                 ".", "\udcff"]


def content(part: Dict[str, Any]) -> bytes:
    """The bytes of a file of a case."""
    if "token" in part:
        return grow.render(part["token"])
    if "lines" in part:
        data = b"".join(content(line).replace(b"\n", b" ") + b"\n" for line in part["lines"])
        return data[:-1] if part.get("open") else data
    if "repeated" in part:
        return b"".join(grow.octets(text) * times for text, times in part["repeated"])
    if "padded" in part:
        return content(part["padded"]).ljust(part["to"])
    return grow.octets(part["text"])


class Runner:
    """Runs the programs and the reading over the same files."""

    def __init__(self, program: str, tools: str, folder: str) -> None:
        self.program, self.tools, self.folder = os.path.abspath(program), os.path.abspath(tools), folder

    def outside(self, words: List[str], files: Dict[str, bytes]) -> Tuple[Answer, int, int]:
        """What the program answers, and the moments before and after its run."""
        for name in os.listdir(self.folder):
            os.remove(os.path.join(self.folder, name))
        for name, data in files.items():
            with open(os.path.join(self.folder, name), "wb") as file:
                file.write(data)
        program = self.tools if words[:1] and words[0] in TOOL_COMMANDS else self.program
        before = int(time.time())
        done = subprocess.run([program, *words], cwd=self.folder, input=files.get("source", b""), capture_output=True,
                              check=False)
        return (Answer(done.returncode, done.stdout, done.stderr.decode("utf-8", "replace").removesuffix("\n")),
                before, int(time.time()))

    def compare(self, case: Case) -> Tuple[Answer, Answer]:
        """The answer of the program, and the same one or another one of the reading."""
        files = {name: content(part) for name, part in case["files"].items()}
        told, before, after = self.outside(case["words"], files)
        for now in range(before, after + 1):
            answer = reference.run(case["words"], files.get, now, files.get("source", b""))
            if answer == told:
                break
        return told, answer


# Growing cases --------------------------------------------------------------------------------------------------------

class Cases:
    """Grows a case for each command."""

    def __init__(self, seed: int) -> None:
        self.grower = grow.Grower(seed)

    def token(self, now: int, spoils: List[int], bound: float = 0.4) -> Dict[str, Any]:
        recipe = self.grower.token(now, bound)
        for _ in range(self.grower.one(spoils)):
            self.grower.spoil(recipe, now)
        return {"token": recipe}

    def spoilt_text(self, tree: Any, share: float) -> Dict[str, Any]:
        """A file of JSON, which has a fault with some likelihood."""
        grower = self.grower
        text = ""
        kind = grower.rng.random() / share if share else 1.0
        if kind < 0.7:
            tree = copy.deepcopy(tree)
            spots = [spot for spot in grower.spots(tree) if spot[0] is not tree or grower.maybe(0.5)]
            if spots:
                holder, step = grower.one(spots)
                change = grower.rng.randrange(6)
                if change == 0:
                    del holder[step]
                elif change == 1 and isinstance(holder, dict):
                    holder[grower.one(["x", "kid", "iss", "version", "a", "count", "want", "alg"])] = grower.tree(2)
                elif change == 2:
                    holder[step] = grow.Raw(grower.odd())
                elif change == 3:
                    holder[step] = [holder[step]]
                else:
                    holder[step] = grower.one(FILE_VALUES + [grower.deep(grower.one([2, 123, 124, 125, 126, 127]))])
        text = grower.write(tree, grower.one([0.0, 0.3]), grower.one([0.0, 0.0, 0.05]))
        if 0.7 <= kind < 1:
            text = grower.scratch(text)
        return {"text": text}

    def key_set(self, names: List[str], kid: str) -> Dict[str, Any]:
        grower = self.grower
        keys: List[Any] = []
        for name in names:
            key: Dict[str, Any] = {"kty": "oct", "k": encode(grow.KEYS[name])}
            if grower.maybe(0.95):
                key["kid"] = kid if grower.maybe(0.95) else "other"
            if grower.maybe(0.1):
                key["alg"] = grower.tree(1)
            keys.append(key)
        if grower.maybe(0.1):
            keys.insert(grower.rng.randrange(len(keys) + 1), {"kty": grower.one(["EC", "OCT", ""]), "k": 5, "kid": kid})
        return {"keys": keys}

    def issuer_keys(self, mild: bool = True) -> Dict[str, Any]:
        own = self.grower.issuer
        rare = [["short", own], ["middle", own], ["stranger"], [], [own, "short"], ["short", "middle", own]]
        return self.key_set(self.grower.one([[own]] * (20 if mild else 3) + rare), "tickets-1")

    def policy(self, bound: bool) -> Dict[str, Any]:
        """A policy that mostly lets its tokens come to the conditions behind the signature."""
        grower = self.grower
        mild = grower.maybe(0.8)
        keys = self.key_set([grower.issuer], "tickets-1") if mild else self.issuer_keys(False)
        policy: Dict[str, Any] = {"keys": keys}
        second = grower.maybe(0.3)
        if second or grower.maybe(0.1):
            policy["version"] = 2 if second else 1
        if mild or grower.maybe(0.8):
            policy["algs"] = ["HS256", "HS384", "HS512"] if mild or grower.maybe(0.5) else grower.one(
                [["HS256"], [], ["HS384", "HS512"], ["ES256"], ["HS256", "HS384"]])
        if not mild and grower.maybe(0.4):
            policy["typ"] = grower.one(["ticket+sd-jwt", "JWT", ""])
        if grower.maybe(0.3):
            iss = "tickets" if mild else grower.one(["tickets", "hall"])
            policy["iss"] = grower.one([[iss], [iss, "tickets"], ["hall", iss]]) if second else iss
        if grower.maybe(0.4):
            names = ["iss", "iss", "iss", "cnf"] if mild else ["iss", "cnf", "a", "b", "_sd", "...", "exp", "", "/a"]
            policy["require"] = [grower.one(names) for _ in range(grower.rng.randrange(3))]
        if grower.maybe(0.4):
            policy["skew"] = grower.one([0, 1, 30, 3600])
        if bound:
            aud = "https://door.example"
            policy["binding"] = {
                "aud": grower.one([[aud], [aud, "side"], ["side"]]) if second else aud, "nonce": "4711",
                "keys": self.key_set(grower.one([["ada"]] * 8 + [["ada", "short"], ["short", "ada"], []]), "ada"),
                "max_age": grower.one([0, 300, 600, 600, 2**32 - 1])}
        return policy

    def paths(self, claims: Any) -> List[str]:
        grower = self.grower
        found = [""]

        def walk(tree: Any, pointer: str) -> None:
            if isinstance(tree, (dict, list)) and len(pointer) < 60:
                for step in tree if isinstance(tree, dict) else range(len(tree)):
                    inner = pointer + "/" + str(step).replace("~", "~0").replace("/", "~1")
                    found.append(inner)
                    walk(tree[step], inner)
        walk(claims, "")
        picked = [grower.one(found) for _ in range(grower.one([0, 1, 1, 2, 3, 5]))]
        if grower.maybe(0.1):
            behind = [grower.one(found) + step for step in ("/-", "/01", "/0", "/99999999999999999999")]
            behind += ["/nobody", "/", "/a/0", "/iss/0", "/cnf/kid", "/_sd", "/_sd/0", "/_sd_alg"]
            picked.append(grower.one(behind))
        return picked

    def said(self, part: Dict[str, Any]) -> Any:
        """What the reading finds in a token with all that is disclosed, to name places of it; or nothing."""
        try:
            token = reference.tokens.read_token(content(part))
            token.binding = None
            kid = reference.tokens.read_header(token.protected, token.unprotected).get("kid")
            return judge_held(token, [Key(grow.KEYS[self.grower.issuer], kid)]).claims
        except reference.Refused:
            return {"a": [{"b": 1}], "iss": 1}

    def present_order(self, claims: Any) -> Dict[str, Any]:
        grower = self.grower
        order: Dict[str, Any] = {"keys": self.issuer_keys(), "want": self.paths(claims)}
        if grower.maybe(0.4):
            order["never"] = self.paths(claims)
        if grower.maybe(0.4):
            order["binding"] = {"key": encode(grow.KEYS["ada"]), "kid": grower.one(["ada"] * 8 + ["eve"]),
                                "aud": grower.one(grow.TEXTS), "nonce": grower.one(grow.TEXTS)}
        return order

    def order(self) -> Dict[str, Any]:
        grower = self.grower
        payload = {grower.one(grow.PLAIN_NAMES): grower.tree(4) for _ in range(grower.rng.randrange(6))}
        key = grower.one([grower.issuer] * 5 + ["short", "middle"])
        order: Dict[str, Any] = {"payload": payload, "key": encode(grow.KEYS[key])}
        if grower.maybe(0.9):
            order["hide"] = [path for _ in range(3) for path in self.paths(payload)
                             if grower.maybe(0.02) or (path and not re.match("/(iss|aud|exp|nbf|cnf)(/|$)", path))]
        if grower.maybe(0.6):
            holders = [path for path in self.paths(payload) + self.paths(payload) + [""] if grower.maybe(0.02)
                       or isinstance(at(payload, pointer(path))[1], (dict, list))]
            order["decoys"] = [{"at": path, "count": grower.one([0, 1, 1, 2, 3])} for path in holders]
        for name, texts in (("kid", ["tickets-1", "", "\u00e9"]), ("typ", ["ticket+sd-jwt", ""]),
                            ("alg", ["HS256", "HS256", "HS384", "HS512"] if key == grower.issuer else ["HS256"]),
                            ("sd_alg", list(HASHES))):
            if grower.maybe(0.3):
                order[name] = grower.one(texts)
        return order

    def _odd_order(self) -> Dict[str, Any]:
        """An order that issue may refuse."""
        grower = self.grower
        order = self.order()
        kind = grower.rng.randrange(9)
        spots = [spot for spot in grower.spots(order["payload"]) if isinstance(spot[0], dict)]
        if kind == 0:
            order["payload"] = grower.one([[], None, 5, "x", True, [{}]])
        elif kind in (1, 2) and spots:
            grower.one(spots)[0][grower.one(["_sd", "_sd_alg", "..."])] = grower.tree(1, grow.NAMES)
        elif kind == 3:
            order["payload"]["a"] = grower.deep(grower.one([97, 98, 99, 100, 101, 124, 125]))
        elif kind == 4:
            order["decoys"] = [{"at": "", "count": grower.one([16384, 20000])} for _ in range(2)]
            order["payload"] = {"a": 1}
            order["hide"] = []
        elif kind == 5:
            path = grower.one(["", "/nobody", "/a/0", "/iss", "/cnf/kid", "/exp", "/aud/0"])
            order["hide"] = order.get("hide", []) + [path]
        elif kind == 6:
            path = grower.one(["/nobody", "/a", "/a/0", "/", ""])
            order["decoys"] = order.get("decoys", []) + [{"at": path, "count": 1}]
        else:
            order["hide"] = self.paths(order["payload"]) + self.paths(order["payload"])
        return order

    def seed_text(self) -> Dict[str, Any]:
        text = "".join(chr(self.grower.rng.randrange(33, 127)) for _ in range(self.grower.one([32, 32, 32, 33, 40])))
        return {"text": text[:self.grower.rng.randrange(33)] if self.grower.maybe(0.03) else text}

    def audited(self) -> Tuple[Dict[str, Any], Dict[str, Any]]:
        """An order, and a token that was issued for it, with something else in it here and there."""
        grower = self.grower
        for _ in range(50):
            order = self.order()
            read = reference.files.read_order
            try:
                seed = grower.rng.randbytes(32)
                token = reference.issue(read(grow.octets(grower.write(order))), seed)
                break
            except (reference.Refused, reference.Unreadable):
                continue
        recipe = grow.recipe_of(token, order)
        for _ in range(grower.one([0, 1, 1, 1, 2])):
            grower.spoil(recipe, 0, grow.AUDIT_SPOILERS)
        return order, {"token": recipe}

    def grow(self, command: str, now: int) -> Case:
        """A case of a command."""
        grower = self.grower
        if command == "feed":
            bound = grower.maybe(0.5)
            lines = [self.token(now, [0, 1, 1, 1, 2], 0.97 if bound else 0.2) for _ in range(LINES)]
            if grower.maybe(0.2):
                lines[0] = {"text": grower.one(ODD_LINES)}
            return {"words": ["feed", "policy.json", "100000000"],
                    "files": {"policy.json": self.spoilt_text(self.policy(bound), 0.03), "source": {"lines": lines}}}
        if command == "texts":
            lines = [{"text": self._text()} for _ in range(5 * LINES)]
            return {"words": ["feed", "policy.json", "100000000"],
                    "files": {"policy.json": self.spoilt_text(self.policy(False), 0.0), "source": {"lines": lines}}}
        if command == "most":
            return self._most(now)
        if command == "verify":
            bound = grower.maybe(0.6)
            return {"words": ["verify", "policy.json", "token.txt"], "files": {
                "policy.json": self.spoilt_text(self.policy(bound), 0.4),
                "token.txt": self.token(now, [0, 0, 1], 0.9 if bound else 0.2)}}
        if command == "present":
            token = self.token(now, [0, 0, 0, 1], 0.05)
            order = self.present_order(self.said(token))
            return {"words": ["present", "order.json", "token.txt"],
                    "files": {"order.json": self.spoilt_text(order, 0.2), "token.txt": token}}
        if command in ("show", "split", "convert"):
            forms = [grower.one(["compact", "flat", "general"])] if command == "convert" else []
            words = [command, *forms, "token.txt"]
            return {"words": words, "files": {"token.txt": self.token(now, [0, 1, 1, 2])}}
        if command == "issue":
            order = self.order() if grower.maybe(0.6) else self._odd_order()
            return {"words": ["issue", "order.json", "seed.txt"],
                    "files": {"order.json": self.spoilt_text(order, 0.2), "seed.txt": self.seed_text()}}
        if command == "audit":
            order, token = self.audited()
            if grower.maybe(0.1):
                order = self._odd_order()
            return {"words": ["audit", "order.json", "token.txt"],
                    "files": {"order.json": self.spoilt_text(order, 0.05), "token.txt": token}}
        if command == "wallet":
            return self._wallet(now)
        if command == "gen":
            return {"words": ["gen", str(grower.one([grower.rng.randrange(1, 60), grower.rng.randrange(1, 3001)]))],
                    "files": {}}
        return self._words()

    def _wallet(self, now: int) -> Case:
        grower = self.grower
        tokens = [self.token(now, [0, 0, 0, 1], 0.05) for _ in range(grower.rng.randrange(1, 5))]
        if grower.maybe(0.5):  # One credential twice, the other time with other disclosures.
            other = copy.deepcopy(grower.one(tokens))
            grower.spoil(other["token"], now)
            tokens.append(other)
        claims = self.said(grower.one(tokens))
        query: Dict[str, Any] = {"keys": self.issuer_keys(), "want": self.paths(claims)}
        if grower.maybe(0.5):
            query["equal"] = []
            for path in self.paths(claims):
                there, value = at(claims, pointer(path))
                if there and not isinstance(value, (dict, list)) or grower.maybe(0.05):
                    if isinstance(value, int) and value in (0, 1) and grower.maybe(0.3):
                        value = int(value) if isinstance(value, bool) else bool(value)  # True is not 1.
                    query["equal"].append({"at": path, "value": value if grower.maybe(0.9) else grower.leaf()})
        if grower.maybe(0.2):
            query["never"] = self.paths(claims)
        names = [f"token{number}.txt" for number in range(len(tokens))]
        return {"words": ["wallet", "query.json", *names],
                "files": {"query.json": self.spoilt_text(query, 0.1), **dict(zip(names, tokens))}}

    def _text(self) -> str:
        """A short text that is nearly a token, in its grammar or in the JSON about it."""
        grower = self.grower
        if grower.maybe(0.4):
            pieces = ["a", "a", "a", ".", ".", "~", "~", "_-9", "=", " ", "\t", "a.a.a~", "a.a.a", "{", "\u00e9", "+",
                      "\x0b"]
            return "".join(grower.one(pieces) for _ in range(grower.rng.randrange(9)))
        if grower.maybe(0.2):
            letters = list("{}[]:,\"\\ 1-.eauf\x0c\x0d")
            return "{" + "".join(grower.one(letters) for _ in range(grower.rng.randrange(9))) + "}"
        pairs = ['"payload":"b"', '"protected":"a"', '"signature":"c"']
        if grower.maybe(0.3):
            behind = grower.one(["", ",{}", ',{"header":{"kb_jwt":1}}'])
            pairs[1:] = ['"signatures":[{' + ",".join(pairs[1:]) + "}" + behind + "]"]
        value = grower.one(["{}", "[{}]", "{\"a\":{}}", "[1,{}]"]).replace("{}", grower.odd())
        name = grower.one(['"x"', '"x"', '"payload"', '"header"', '"kb_jwt"', grower.string()])
        pairs.insert(grower.rng.randrange(len(pairs) + 1), f"{name}:{value}")
        if grower.maybe(0.2):
            pairs.append(f'"x":{grower.one(["1", "1.5", "{}"])}')
        return "{" + ",".join(pairs) + "}"

    def _most(self, now: int) -> Case:
        """A feed whose input is about as long as it may be."""
        grower = self.grower
        texts = ["", "~", " ", "{}", "a.b.c~", "\r"]
        lines = [{"text": grower.one(texts)} if grower.maybe(0.7) else self.token(now, [0, 1])
                 for _ in range(grower.rng.randrange(4))]
        source = {"lines": lines, "open": grower.one([0, 1])}
        length = len(content(source))
        most = grower.one([length, length, length - 1, length - 2, length + 1, grower.rng.randrange(1, length + 9)])
        policy = self.spoilt_text(self.policy(False), 0.1)
        return {"words": ["feed", "policy.json", str(max(1, most))], "files": {"policy.json": policy, "source": source}}

    def _words(self) -> Case:
        grower = self.grower
        words = [grower.one(FIRST_WORDS)]
        words += [grower.one(FURTHER_WORDS) for _ in range(grower.one([0, 1, 2, 2, 2, 3, 65, 66]))]
        texts = {"policy.json": "{}", "token.txt": "a.b.c~", "source": "a"}
        return {"words": words, "files": {name: {"text": text} for name, text in texts.items()}}


def limit_cases() -> List[Case]:
    """Files, tokens and orders that are as large as they may be, or larger by a little."""
    key = encode(grow.KEYS["office"])
    policy = {"text": json.dumps({"keys": {"keys": [{"kty": "oct", "k": key}]}})}
    recipe: grow.Recipe = {
        "header": '{"alg":"HS256"}', "payload": '{"a":1}', "disclosures": [], "send": [], "hash": "sha-256",
        "alg": "HS256", "signer": "office", "binding": None, "form": "compact", "layout": {}, "code": [], "edits": []}
    good = {"token": recipe}
    file_max, compact_max, count_max = 16_777_216, 8_388_608, 32_768
    cases: List[Case] = []

    def other(words: List[str], **files: Dict[str, Any]) -> None:
        cases.append({"words": words, "files": {name.replace("_", "."): part for name, part in files.items()}})

    def verify(token: Dict[str, Any], wish: Dict[str, Any] = policy) -> None:
        other(["verify", "policy.json", "token.txt"], policy_json=wish, token_txt=token)

    for more in (0, 1):
        verify({"padded": good, "to": file_max + more})
        verify(good, {"padded": policy, "to": file_max + more})
        verify({"repeated": [["a.b.c~", 1], ["x", compact_max - 6 + more]]})
        verify({"repeated": [["a.b.c~", 1], ["x", compact_max - 7 + more], ["~", 1]]})
        verify({"repeated": [["{", 1], ["x", compact_max - 1 + more]]})
        verify({"repeated": [["=", compact_max + more]]})
        other(["split", "token.txt"], token_txt={"repeated": [["a.b.c~", 1], ["x~", count_max + more]]})
        other(["show", "token.txt"], token_txt={"repeated": [["e30.e30.c~", 1], ["x~", count_max + more]]})
        flat = [['{"payload":"b","protected":"a","signature":"c","header":{"disclosures":["', 1]]
        other(["split", "token.txt"], token_txt={"repeated": flat + [['x","', count_max - 1 + more], ['x"]}}', 1]]})
        other(["convert", "compact", "token.txt"],
              token_txt={"repeated": flat + [["x", compact_max - 7 + more], ['"]}}', 1]]})
        elements = ",".join(["1"] * (count_max + 1))
        hide = ",".join(f'"/a/{number}"' for number in range(count_max + more))
        other(["issue", "order.json", "seed.txt"], seed_txt={"text": "x" * 32}, order_json={
            "text": f'{{"payload":{{"a":[{elements}]}},"hide":[{hide},{hide}],"key":"{key}"}}'})
        other(["issue", "order.json", "seed.txt"], seed_txt={"text": "x" * 32}, order_json={
            "text": json.dumps({"payload": {}, "decoys": [{"at": "", "count": each} for each in (count_max, more)],
                                "key": key})})
    header = {"x": ""}
    for form in ("flat", "general"):  # The line of convert, with and without its end, at the most that it may have.
        written = len(reference.tokens.Token("a", "b", "c", [], None, header).as_json(form == "general"))
        for more in (-1, 0, 1):
            other(["convert", form, "token.txt"], token_txt={"repeated": [
                ['{"payload":"b","protected":"a","signature":"c","header":{"x":"', 1], ["x", file_max - written + more],
                ['"}}', 1]]})
    bound = {"text": json.dumps({"keys": {"keys": [{"kty": "oct", "k": key}]}, "want": ["/b"], "binding": {
        "key": encode(grow.KEYS["ada"]), "kid": "ada", "aud": "d", "nonce": "n"}})}
    for more in range(-3, 4):  # What is issued, and what is presented, at the most that it may have.
        for hidden in (0, 1):
            fill = (8_380_416 - 69 - hidden * 61) * 3 // 4 - 28 - hidden * 36 + more
            hide = json.dumps(["/a"] * hidden)
            other(["issue", "order.json", "seed.txt"], seed_txt={"text": "x" * 32}, order_json={"repeated": [
                ['{"payload":{"a":"', 1], ["x", fill], [f'"}},"hide":{hide},"key":"{key}"}}', 1]]})
        payload = f'{{"cnf":{{"kid":"ada"}},"b":1,"a":"<fill {(compact_max - 64 - 274) * 3 // 4 + 8 + more}>"}}'
        token = {"token": {**recipe, "payload": payload}}
        other(["present", "order.json", "token.txt"], order_json=bound, token_txt=token)
    return cases


# Shrinking ------------------------------------------------------------------------------------------------------------

def smaller(value: Any) -> Iterator[Any]:
    """Values that are a little smaller: without a disclosure, a member, an element or some letters."""
    if isinstance(value, dict):
        if "send" in value:
            yield from smaller_recipes(value)
        for name in value:
            if name not in ("words", "hash", "alg", "signer", "form", "send"):
                for inner in smaller(value[name]):
                    yield {**value, name: inner}
    elif isinstance(value, list):
        for position in range(len(value) - 1, -1, -1) if value and not isinstance(value[0], str) else ():
            yield value[:position] + value[position + 1:]
        for position, each in enumerate(value):
            for inner in smaller(each):
                yield value[:position] + [inner] + value[position + 1:]
    elif isinstance(value, str):
        yield from smaller_texts(value)


def smaller_recipes(recipe: grow.Recipe) -> Iterator[grow.Recipe]:
    """A recipe in a simpler form, or without a disclosure; what refers to those behind it is numbered anew."""
    for name, simple in (("binding", None), ("edits", []), ("code", []), ("layout", {}), ("form", "compact")):
        if recipe[name] != simple:
            yield {**recipe, name: simple}
    for number in range(len(recipe["disclosures"])):
        if number in recipe["send"]:
            yield {**recipe, "send": [each for each in recipe["send"] if each != number]}

        def renumbered(text: str, gone: int = number) -> str:
            text = re.sub(f'"<{gone}>",?|,"<{gone}>"', "", text) if gone >= 0 else text
            return re.sub("<([0-9]+)>", lambda found: f"<{int(found[1]) - (int(found[1]) > gone)}>", text)

        yield {**recipe, "payload": renumbered(recipe["payload"]),
               "disclosures": [renumbered(text) for place, text in enumerate(recipe["disclosures"]) if place != number],
               "send": [each - (each > number) for each in recipe["send"] if each != number]}


def smaller_texts(text: str) -> Iterator[str]:
    """JSON without a member or an element, or with a simpler value; another text without some letters."""
    try:
        tree = json.loads(text)
    except ValueError:
        tree = None
    spots = grow.Grower(0).spots(tree)
    for number in range(len(spots)):
        for simple in (None, 0, ""):
            changed = copy.deepcopy(tree)
            holder, step = grow.Grower(0).spots(changed)[number]
            if simple is None:
                del holder[step]
            elif isinstance(holder[step], (list, dict)) == (simple == 0) and holder[step] not in (0, ""):
                holder[step] = simple
            else:
                continue
            yield json.dumps(changed, ensure_ascii=False, separators=(",", ":"))
    size = len(text) // 2 if not spots or len(text) < 100 else 0
    while size:
        for start in range(0, len(text), size):
            yield text[:start] + text[start + size:]
        size //= 2


def shrink(case: Case, still: Callable[[Case], bool], seconds: float) -> Case:
    """The smallest case found that still differs."""
    end = time.time() + seconds
    place, failed, trials = 0, 0, list(smaller(case["files"]))
    while time.time() < end and failed < len(trials):
        place %= len(trials)
        trial = {"words": case["words"], "files": trials[place]}
        try:
            differs = still(trial)
        except (ValueError, IndexError, KeyError, TypeError, AttributeError):
            differs = False
        place, failed = place + 1, failed + 1
        if differs:
            case, failed, trials = trial, 0, list(smaller(trial["files"]))
    return case


# Running --------------------------------------------------------------------------------------------------------------

def kind_of(line: str) -> str:
    """A line without what differs from case to case in its place."""
    found = re.fullmatch(r"(refused \d+ \S+)(?: at (.*))?", line)
    if found is None or found[2] is None:
        return line
    place = found[2]
    if place[:1] == '"':
        return f"{found[1]} at a pointer"
    if re.fullmatch(r"\d+( \d+)?", place) and " orderRefused" not in line:
        return f"{found[1]} at a number"
    return line if not place.startswith("stray") else f"{found[1]} at stray"


def form_of(part: Dict[str, Any]) -> str:
    if "token" not in part:
        return "a text"
    return str(part["token"]["form"]) + (" with key binding" if part["token"]["binding"] else "")


class Fuzz:
    """A run of cases, with what it counts."""

    def __init__(self, runner: Runner, seed: int) -> None:
        self.runner, self.seed = runner, seed
        self.ran: Counter[str] = collections.Counter()
        self.differed: Counter[str] = collections.Counter()
        self.seen: Counter[str] = collections.Counter()
        self.told: set = set()
        self.limits = limit_cases()
        self.passing = 0  # Lines that differed in a feed and not alone, as where its run came to a next second.

    def count(self, command: str, answer: Answer, case: Case) -> None:
        self.ran[command] += 1
        self.seen[f"{command}: status {answer.status}" + (f", {kind_of(answer.line)}" if answer.line else "")] += 1
        for part in case["files"].values():
            if "token" in part:
                self.seen[f"form: {form_of(part)}"] += 1

    def grow(self, command: str, number: int, now: int) -> Case:
        """The case of this number, which is the same each time but for its moments."""
        if command == "limits":
            return self.limits[number % len(self.limits)]
        return Cases(self.seed * 1_000_003 + number * 17 + COMMANDS.index(command)).grow(command, now)

    def one(self, command: str, number: int) -> None:
        """One case, or of a feed as many as it has lines."""
        case = self.grow(command, number, int(time.time()))
        told, answer = self.runner.compare(case)
        if command not in ("feed", "texts") or told.status:
            self.count(command, told, case)
            if told != answer:
                self.report(command, case, told, answer)
            return
        lines = case["files"]["source"]["lines"]
        answers, wanted = told.output.split(b"\n"), answer.output.split(b"\n")
        if told != answer and (len(answers) != len(wanted) or answers[:-2] == wanted[:-2]):
            self.report(command, case, told, answer)  # No single line is to blame.
        for line, verdict, other in zip(lines, answers, wanted):
            said = verdict.decode()
            one = {"words": ["verify", "policy.json", "token.txt"],
                   "files": {"policy.json": case["files"]["policy.json"], "token.txt": line}}
            self.count(command, Answer(0, b"", "accepted" if said.startswith("accepted ") else said), one)
            if verdict != other:
                alone = {"words": case["words"], "files": {"policy.json": case["files"]["policy.json"],
                                                           "source": {"lines": [line]}}}
                for trial in (one, alone):
                    told, answer = self.runner.compare(trial)
                    if told != answer:
                        self.report(command, trial, told, answer)
                        break
                else:
                    self.passing += 1

    def report(self, command: str, case: Case, told: Answer, answer: Answer) -> None:
        """Shrinks and prints a case, the first of each pair of answers."""
        self.differed[command] += 1
        pair = (command, told.status, kind_of(told.line), answer.status, kind_of(answer.line))
        if pair in self.told:
            return
        self.told.add(pair)

        def still(trial: Case) -> bool:
            one, other = self.runner.compare(trial)
            return one != other and pair == (command, one.status, kind_of(one.line), other.status, kind_of(other.line))

        small = shrink(case, still, 20.0)
        told, answer = self.runner.compare(small)
        print(f"differs: {' '.join(small['words'])}")
        for who, said in (("the program", told), ("the reading", answer)):
            print(f"  {who}: status {said.status} {said.line!r} {said.output[:600]!r}")
        for name, part in small["files"].items():
            print(f"  {name}: {content(part)[:20_000]!r}")
            if "token" in part:
                print(f"    recipe {part['token']!r}")
        sys.stdout.flush()


    def go(self, most: Dict[str, int], seconds: float) -> None:
        """So many cases of each command; or for so many seconds, which the commands share."""
        numbers = dict.fromkeys(most, 0)
        spent = dict.fromkeys(most, 0.0)
        begun = time.time()
        try:
            while not seconds or time.time() - begun < seconds:
                wanted = [command for command in most if self.ran[command] < most[command]]
                if not wanted:
                    break
                command = min(wanted, key=lambda each: spent[each])
                start = time.time()
                self.one(command, numbers[command])
                numbers[command] += 1
                spent[command] += time.time() - start
        except KeyboardInterrupt:
            pass  # What has run is told.

    def tell(self, commands: List[str], seconds: float, coverage: bool) -> int:
        """Prints what ran; the status of the whole."""
        if coverage:
            for what, times in sorted(self.seen.items()):
                print(f"{times:8} {what}")
        for command in commands:
            print(f"{command}: {self.ran[command]} cases, {self.differed[command]} differ")
        if self.passing:
            print(f"{self.passing} lines of feeds differed once, and not again when they were judged alone")
        print(f"{sum(self.ran.values())} cases in {seconds:.0f} seconds, {sum(self.differed.values())} differ")
        return 1 if self.differed else 0


def options(description: str, commands: Iterable[str]) -> argparse.ArgumentParser:
    """What a run of cases takes, but for what it runs."""
    def some_of(text: str) -> List[str]:
        others = set(text.split(",")) - set(commands)
        if others:
            raise argparse.ArgumentTypeError(f"there is no command {min(others)!r}")
        return text.split(",")

    words = argparse.ArgumentParser(description=description)
    words.add_argument("--seed", type=int, default=1)
    words.add_argument("--count", type=int, default=1000, help="how many cases of each command; of feed, lines")
    words.add_argument("--seconds", type=float, default=0.0, help="run cases for so long; the commands share the time")
    words.add_argument("--commands", type=some_of, default=list(commands))
    words.add_argument("--coverage", action="store_true")
    return words


def main() -> int:
    """A run of the fuzz."""
    words = options("Compares the programs with a second reading of the specification.", COMMANDS)
    words.add_argument("program")
    words.add_argument("tools")
    said = words.parse_args()
    begun = time.time()
    with tempfile.TemporaryDirectory(dir="/dev/shm" if os.path.isdir("/dev/shm") else None) as folder:
        fuzz = Fuzz(Runner(said.program, said.tools, folder), said.seed)
        most = dict.fromkeys(said.commands, sys.maxsize if said.seconds else said.count)
        if not said.seconds and "gen" in most:
            most["gen"] = min(said.count, 40)
        if "limits" in most:
            most["limits"] = len(fuzz.limits)  # They are the same cases each time.
        fuzz.go(most, said.seconds)
    return fuzz.tell(list(most), time.time() - begun, said.coverage)


if __name__ == "__main__":
    sys.exit(main())

"""The laws of the programs as properties, checked at random over the programs themselves.

    python3 tests/properties.py PROGRAM TOOLS [--seed N] [--count N] [--laws a,b,..] [--wrong]

PROGRAM is a built sdjwt and TOOLS a built sdjwt_tools. The laws are those of docs/PROVED.md: there they are proved of
the definitions, here they are seen of what runs. Tokens and files grow from a seed (tests/grow.py). A law that does not
hold is told with the smallest case that was found, and the status is 1. The last line tells how many runs there were.

  presented     what is presented of an issued token is accepted, as the payload without the places not chosen
  no_forgery    with a disclosure more, another one, or one of another token, no claim is shown that was not signed
  same_verdict  each serialization of a token has one verdict
  any_cut       a feed gives the same verdicts, wherever its input is cut
  audited       what is issued for an order passes its audit
  IsFewest      no credential answers a query with fewer disclosures than the one that the wallet picks
  version_one   a policy of version 1, and the same with lists of one in version 2, decide alike

With --wrong each law is tried over programs that are wrong on purpose (tests/wrong.py), and has to be seen failing.
"""

import argparse
import array
import fcntl
import itertools
import json
import os
import subprocess
import sys
import tempfile
import termios
import time
from typing import Any, Callable, Dict, List, Optional, Set, Tuple

import fuzz
import grow
from files import read_order, read_present_order, read_query
from issue import closing_order
from outcome import Refused, Unreadable
from texts import Path, Tree, at, carried, depth, encode, is_whole, pick, write
from tokens import Token, read_token
from verify import judge_held

Case = Dict[str, Any]
MOST = "1000000000"
FORMS = ("compact", "flat", "general")
KIDS = (None, "tickets-1", "", "\u00e9")  # Those of the orders that fuzz.py grows.
AUD, NONCE = "https://door.example", "4711"


class Against(Exception):
    """What was seen is against a law: of what kind it is, what it was, and a smaller case that should show it too."""

    def __init__(self, kind: str, seen: str, narrow: Optional[Case] = None) -> None:
        super().__init__(f"{kind}: {seen}")
        self.kind, self.narrow = kind, narrow or {}


def expect(holds: object, kind: str, seen: str, narrow: Optional[Case] = None) -> None:
    """It is against the law where this does not hold."""
    if not holds:
        raise Against(kind, seen, narrow)


class World:
    """The programs."""

    def __init__(self, program: str, tools: str, folder: str) -> None:
        self.runner = fuzz.Runner(program, tools, folder)

    def run(self, *words: str, **files: bytes) -> fuzz.Answer:
        """What a run answers over some files, each by its name."""
        return self.runner.outside(list(words), files)[0]

    def feed(self, policy: str, lines: List[bytes]) -> List[str]:
        """The verdicts on some lines."""
        answer = self.run("feed", "policy", MOST, policy=grow.octets(policy), source=b"\n".join([*lines, b""]))
        verdicts = answer.output.decode().split("\n")
        expect(answer.status == 0 and verdicts[-2:] == [f"lines {len(lines)}", ""], "the feed ended", repr(answer))
        return verdicts[:-2]

    def feed_pieces(self, policy: str, most: int, pieces: List[bytes]) -> Tuple[int, bytes, bytes]:
        """What a feed answers where its input comes in these pieces: each is written when the one before was read."""
        path = os.path.join(self.runner.folder, "policy")
        with open(path, "wb") as file:
            file.write(grow.octets(policy))
        with tempfile.TemporaryFile() as out, subprocess.Popen(
                [self.runner.tools, "feed", path, str(most)], bufsize=0, stdin=subprocess.PIPE, stdout=out,
                stderr=subprocess.PIPE) as feed:
            assert feed.stdin is not None and feed.stderr is not None
            try:
                for piece in pieces:
                    feed.stdin.write(piece)
                    while _unread(feed.stdin.fileno()) and feed.poll() is None:
                        time.sleep(0.0001)
                feed.stdin.close()
            except BrokenPipeError:
                pass  # It has taken as much as it may.
            line = feed.stderr.read()
            feed.wait()
            out.seek(0)
            return feed.returncode, out.read(), line


def _unread(pipe: int) -> int:
    """How many bytes of a pipe nobody has read so far."""
    count = array.array("i", [0])
    fcntl.ioctl(pipe, termios.FIONREAD, count)
    return count[0]


# What the laws speak of -----------------------------------------------------------------------------------------------

def leads_to(path: Path, other: Path) -> bool:
    """Whether a path is a front of another."""
    return other[:len(path)] == path


def without(tree: Tree, gone: Set[Path], path: Path = ()) -> Tree:
    """A tree without some places."""
    if isinstance(tree, dict):
        return {name: without(value, gone, (*path, name)) for name, value in tree.items() if (*path, name) not in gone}
    if isinstance(tree, list):
        places = [(value, (*path, str(position))) for position, value in enumerate(tree)]
        return [without(value, gone, place) for value, place in places if place not in gone]
    return tree


def accepted(claims: Tree) -> str:
    """The verdict that accepts with these claims."""
    return f"accepted {write(claims)}"


def in_form(token: Token, form: str) -> bytes:
    """A token in a form, on one line."""
    return grow.octets(token.compact() if form == "compact" else token.as_json(form == "general"))


def keys_of(name: str) -> Dict[str, Any]:
    """The key of an issuer, for each kid that an order may have."""
    key = {"kty": "oct", "k": encode(grow.KEYS[name])}
    return {"keys": [key if kid is None else {**key, "kid": kid} for kid in KIDS]}


def policy_for(order: Dict[str, Any], bound: bool) -> str:
    """A policy that suits an order, with and without a key binding token."""
    name = next(name for name, key in grow.KEYS.items() if key == order["key"])
    policy: Dict[str, Any] = {"keys": keys_of(name), "algs": ["HS256", "HS384", "HS512"]}
    if bound:
        holders = {"keys": [{"kty": "oct", "kid": "ada", "k": encode(grow.KEYS["ada"])}]}
        policy["binding"] = {"aud": AUD, "nonce": NONCE, "keys": holders, "max_age": 3600}
    return write(policy)


def grown_order(cases: fuzz.Cases, now: int, bound: bool = False) -> Dict[str, Any]:
    """An order whose token is neither expired nor early, and whose payload tells the holder's key where one is."""
    order = cases.order()
    order["key"] = encode(grow.KEYS[cases.grower.issuer])
    for name, moment in (("exp", now + 1_000_000), ("nbf", now - 1_000)):
        if name in order["payload"]:
            order["payload"][name] = moment
    if bound:
        order["payload"]["cnf"] = {"kid": "ada"}
    return order


def issued(world: World, item: Case) -> Tuple[Dict[str, Any], Optional[Token]]:
    """What the order of an item says, and the token that is issued for it or nothing where the order is refused."""
    answer = world.run("issue", "order", "seed", order=grow.octets(item["order"]), seed=grow.octets(item["seed"]))
    return read_order(grow.octets(item["order"])), None if answer.status else read_token(answer.output)


# The laws: how a case grows, and what is expected of it ---------------------------------------------------------------

def grow_presented(cases: fuzz.Cases, now: int) -> Case:
    """Orders with what is asked of their tokens, all under one policy."""
    bound = cases.grower.maybe(0.4)
    items = []
    for _ in range(20):
        order = grown_order(cases, now, bound)
        asked = {"keys": keys_of(cases.grower.issuer), "want": cases.paths(order["payload"])}
        if cases.grower.maybe(0.4):
            asked["never"] = cases.paths(order["payload"])
        if bound:
            asked["binding"] = {"key": encode(grow.KEYS["ada"]), "kid": "ada", "aud": AUD, "nonce": NONCE}
        items.append({"order": write(order), "asked": write(asked), "seed": cases.seed_text()["text"],
                      "forms": [cases.grower.one(FORMS) for _ in range(2)]})
    return {"items": items}


def chosen_of(order: Dict[str, Any], asked: Dict[str, Any]) -> Optional[List[Path]]:
    """The hidden places that lead to a wanted one, or nothing where what is asked for does not suit the order."""
    payload = order["payload"]
    chosen = [place for place in closing_order(payload, set(order["hide"]))
              if any(leads_to(place, path) for path in asked["want"])]
    key = pick(asked["keys"], order["alg"], order["kid"])
    suits = (key is not None and key.octets == order["key"] and all(at(payload, path)[0] for path in asked["want"])
             and not any(leads_to(path, place) for place in chosen for path in asked["never"])
             and (asked["binding"] is None or payload.get("cnf") == {"kid": "ada"})
             and all(is_whole(payload.get(name, 0)) for name in ("exp", "nbf")))
    return chosen if suits else None


def presented(world: World, case: Case) -> int:
    """What is presented of an issued token is accepted, as the payload without the places not chosen."""
    asks: Dict[str, List[Tuple[Case, bytes, str]]] = {}
    for item in case["items"]:
        asked = read_present_order(grow.octets(item["asked"]))
        order, token = issued(world, item)
        chosen = None if token is None else chosen_of(order, asked)
        if token is None or chosen is None:
            continue
        answer = world.run("present", "asked", "token", asked=grow.octets(item["asked"]),
                           token=in_form(token, item["forms"][0]))
        expect(answer.status == 0, "nothing was presented", repr(answer), {"items": [item]})
        due = accepted(without(order["payload"], set(order["hide"]) - set(chosen)))
        line = in_form(read_token(answer.output), item["forms"][1])
        asks.setdefault(policy_for(order, asked["binding"] is not None), []).append((item, line, due))
    for policy, lines in asks.items():
        verdicts = world.feed(policy, [line for _, line, _ in lines])
        for (item, _, due), verdict in zip(lines, verdicts):
            expect(verdict == due, "another verdict", f"{verdict}\n  and not {due}", {"items": [item]})
    return sum(map(len, asks.values()))


def grow_forgery(cases: fuzz.Cases, now: int) -> Case:
    """Orders, and changes of the disclosures of their tokens."""
    grower = cases.grower
    items = []
    for _ in range(10):
        order = grown_order(cases, now)
        names = [*order["payload"], *grow.NAMES, "admin"]
        forgeries = []
        for _ in range(20):
            changes: List[List[Any]] = []
            for _ in range(grower.one([1, 1, 2, 3])):
                how = grower.one(["drop", "drop", "append", "exchange", "value", "foreign", "twice", "move", "letter"])
                made = ["salt", grower.one(names), grower.tree(2)] if grower.maybe(0.7) else ["salt", grower.tree(2)]
                changes.append([how, grower.rng.randrange(1000), grower.rng.randrange(1000), write(made)])
            forgeries.append({"form": grower.one(FORMS), "changes": changes})
        items.append({"order": write(order), "seed": cases.seed_text()["text"], "forgeries": forgeries})
    return {"items": items}


def forged(texts: List[str], changes: List[List[Any]], others: List[str]) -> List[str]:
    """The disclosures of a token after some changes."""
    texts = list(texts)
    for how, one, other, made in changes:
        text = texts.pop(one % len(texts)) if texts and how not in ("append", "foreign") else ""
        again = {"append": [encode(grow.octets(made))], "drop": [], "exchange": [encode(grow.octets(made))],
                 "foreign": [others[other % len(others)]] if others else [], "twice": [text, text], "move": [text]}
        if how == "value":  # The same salt and name, with another value.
            parts = carried(text, list) or [""]
            again["value"] = [encode(grow.octets(write([*parts[:-1], json.loads(made)[-1]])))]
        elif how == "letter":
            place = other % max(1, len(text))
            again["letter"] = [text[:place] + "A" + text[place + 1:]]
        place = other % (len(texts) + 1)
        texts[place:place] = again[how]
    return texts


def no_forgery(world: World, case: Case) -> int:
    """With a disclosure more, another one, or one of another token, no claim is shown that was not signed."""
    tokens = [issued(world, item) for item in case["items"]]
    ran = 0
    for item, (order, token) in zip(case["items"], tokens):
        if token is None:
            continue
        others = [text for _, other in tokens if other not in (None, token) for text in other.disclosures]
        sent = [forged(token.disclosures, forgery["changes"], others) for forgery in item["forgeries"]]
        lines = [in_form(Token(token.protected, token.payload, token.signature, texts), forgery["form"])
                 for texts, forgery in zip(sent, item["forgeries"])]
        place_of = dict(zip(token.disclosures, closing_order(order["payload"], set(order["hide"]))))
        for texts, forgery, verdict in zip(sent, item["forgeries"], world.feed(policy_for(order, False), lines)):
            if verdict.startswith("accepted "):
                narrow = {"items": [{**each, "forgeries": [forgery] if each is item else []} for each in case["items"]]}
                expect(set(texts) <= set(place_of), "accepted with another disclosure", repr(texts), narrow)
                due = accepted(without(order["payload"], set(place_of.values()) - {place_of[text] for text in texts}))
                expect(verdict == due, "another payload", f"{verdict}\n  and not {due}", narrow)
        ran += len(lines)
    return ran


def grow_tokens(cases: fuzz.Cases, now: int) -> Case:
    """A policy, and tokens of which some fail a condition."""
    bound = cases.grower.maybe(0.5)
    items = [cases.token(now, [0, 0, 1, 1, 2], 0.97 if bound else 0.2) for _ in range(50)]
    return {"policy": write(cases.policy(bound)), "items": items}


def spellings(token: Token) -> List[bytes]:
    """A token in each of its forms, and in two that are written another way; compact where it can say all."""
    flat, general = (json.loads(token.as_json(is_general)) for is_general in (False, True))
    flat["x"] = [{"header": 1}]
    general["signatures"].append({"protected": 7, "header": {"kid": "x"}})
    forms = FORMS[1:] if token.unprotected else FORMS
    return [*(in_form(token, form) for form in forms), json.dumps(flat, separators=(" ,\t", " :")).encode(),
            json.dumps(dict(reversed(list(general.items())))).encode()]


def same_verdict(world: World, case: Case) -> int:
    """Each serialization of a token has one verdict."""
    ran = 0
    lines: List[bytes] = []
    owners: List[int] = []
    for number, item in enumerate(case["items"]):
        try:
            token = read_token(fuzz.content(item))
        except Refused:
            continue
        if depth(token.unprotected) <= 120:  # Deeper ones can't be read in the general form.
            spelled = spellings(token)
            lines += spelled
            owners += [number] * len(spelled)
            ran += 1
    verdicts = world.feed(case["policy"], lines)
    first: Dict[int, str] = {}
    for number, line, verdict in zip(owners, lines, verdicts):
        due = first.setdefault(number, verdict)
        expect(verdict == due, "another verdict", f"{verdict}\n  and {due} before, of {line!r}",
               {"items": [case["items"][number]]})
    return ran


def grow_cuts(cases: fuzz.Cases, now: int) -> Case:
    """A policy, tokens and other lines, and where their text is cut."""
    grower = cases.grower
    items: List[Case] = [cases.token(now, [0, 0, 1]) if grower.maybe(0.6) else {"text": grower.one(fuzz.ODD_LINES)}
                         for _ in range(grower.rng.randrange(1, 7))]
    length = len(_joined(items, True))
    cuts = [[grower.rng.randrange(length + 1) for _ in range(grower.one([1, 1, 2, 5, 20]))] for _ in range(10)]
    most = grower.one([10**9, 10**9, max(1, length + grower.one([-2, -1, 0, 1])), grower.rng.randrange(1, length + 2)])
    return {"policy": write(cases.policy(False)), "items": items, "cuts": cuts, "most": most, "open": grower.maybe(0.5)}


def _joined(items: List[Case], is_open: bool) -> bytes:
    return b"\n".join(fuzz.content(item).replace(b"\n", b" ") for item in items) + (b"" if is_open else b"\n")


def any_cut(world: World, case: Case) -> int:
    """A feed gives the same verdicts, wherever its input is cut."""
    data = _joined(case["items"], case["open"])
    whole = world.feed_pieces(case["policy"], case["most"], [data])
    for cuts in case["cuts"]:
        ends = sorted({min(cut, len(data)) for cut in cuts} | {len(data)})
        pieces = [piece for start, end in zip([0, *ends], ends) if (piece := data[start:end])]
        for _ in range(3):  # In between a second may have passed.
            came = world.feed_pieces(case["policy"], case["most"], pieces)
            if came == whole:
                break
            whole = world.feed_pieces(case["policy"], case["most"], [data])
        expect(came == whole, "another output", f"{came}\n  and not {whole}", {"cuts": [cuts]})
    return len(case["cuts"])


def grow_audited(cases: fuzz.Cases, now: int) -> Case:
    """Orders and seeds."""
    return {"items": [{"order": write(grown_order(cases, now)), "seed": cases.seed_text()["text"],
                       "form": cases.grower.one(FORMS)} for _ in range(20)]}


def audited(world: World, case: Case) -> int:
    """What is issued for an order passes its audit."""
    ran = 0
    for item in case["items"]:
        token = issued(world, item)[1]
        if token is not None:
            answer = world.run("audit", "order", "token", order=grow.octets(item["order"]),
                               token=in_form(token, item["form"]))
            expect(answer == (0, b"yes\n", ""), "another answer", repr(answer), {"items": [item]})
            ran += 1
    return ran


def grow_wallet(cases: fuzz.Cases, now: int) -> Case:
    """A query, and credentials."""
    while True:
        query, *items = cases.grow("wallet", now)["files"].values()
        try:
            read_query(grow.octets(query["text"]))
        except Unreadable:
            continue
        if all(len(item["token"]["disclosures"]) <= 10 for item in items):  # All their sets are looked at.
            return {"query": query["text"], "items": items}


def meets(query: Dict[str, Any], places: List[Path], picked: Set[int]) -> bool:
    """Whether a set of disclosures is closed, shows what a query wants, and nothing that it never shows."""
    paths = [*query["want"], *(entry["at"] for entry in query["equal"])]
    for number, place in enumerate(places):
        above = any(leads_to(place, places[other]) for other in picked)
        wanted = any(leads_to(place, path) for path in paths)
        if number not in picked and (above or wanted):
            return False
    return not any(leads_to(path, places[number]) for number in picked for path in query["never"])


def answers(query: Dict[str, Any], data: bytes) -> Tuple[Token, List[Path], Optional[int]]:
    """A credential with the places of its disclosures, and the size of the least of all sets that meet the query."""
    token = read_token(data)
    held = judge_held(token, query["keys"])
    values = [(at(held.claims, entry["at"]), entry["value"]) for entry in query["equal"]]
    count = len(held.places)
    if (not all(at(held.claims, path)[0] for path in query["want"])
            or not all(there and write(value) == write(due) for (there, value), due in values)):
        return token, held.places, None
    sizes = (size for size in range(count + 1) for picked in itertools.combinations(range(count), size)
             if meets(query, held.places, set(picked)))
    return token, held.places, next(sizes, None)


def is_fewest(world: World, case: Case) -> int:
    """No credential answers a query with fewer disclosures than the one that the wallet picks."""
    credentials = list(map(fuzz.content, case["items"]))
    query = read_query(grow.octets(case["query"]))
    found: List[Tuple[int, int]] = []
    for number, data in enumerate(credentials):
        try:
            size = answers(query, data)[2]
        except Refused:
            continue
        if size is not None:
            found.append((size, number))
    files = {f"token{number}": data for number, data in enumerate(credentials)}
    answer = world.run("wallet", "query", *files, query=grow.octets(case["query"]), **files)
    if not found:
        expect(answer == (1, b"", "refused 77 noCredentialAnswers"), "none answers", repr(answer))
        return 1
    size, number = min(found)
    expect(answer.status == 0, "no answer", f"{answer!r}, and {size} disclosures of credential {number} are enough")
    told, text = answer.output.decode().splitlines()
    token, places, _ = answers(query, credentials[number])
    shown = read_token(text.encode()).disclosures
    expect(told == f"credential {number}" and len(shown) <= size, "not the fewest",
           f"{told} with {len(shown)} disclosures, and {size} of credential {number} are enough")
    expect(set(shown) <= set(token.disclosures) and meets(query, places, set(map(token.disclosures.index, shown))),
           "the query is not met", text)
    return 1


def grow_version_one(cases: fuzz.Cases, now: int) -> Case:
    """A policy of version 1, and tokens."""
    case = grow_tokens(cases, now)
    policy = json.loads(case["policy"])
    if policy.pop("version", 1) == 2 and "iss" in policy:
        policy["iss"] = policy["iss"][0]
    if isinstance(policy.get("binding", {}).get("aud"), list):
        policy["binding"]["aud"] = policy["binding"]["aud"][0]
    return {**case, "policy": write(policy)}


def version_one(world: World, case: Case) -> int:
    """A policy of version 1, and the same with lists of one in version 2, decide alike."""
    second = {**json.loads(case["policy"]), "version": 2}
    if "iss" in second:
        second["iss"] = [second["iss"]]
    if "binding" in second:
        second["binding"] = {**second["binding"], "aud": [second["binding"]["aud"]]}
    lines = [fuzz.content(item).replace(b"\n", b" ") for item in case["items"]]
    for _ in range(3):  # In between a second may have passed.
        one, other = world.feed(case["policy"], lines), world.feed(write(second), lines)
        if one == other:
            return len(lines)
    number = next(number for number, pair in enumerate(zip(one, other)) if pair[0] != pair[1])
    raise Against("another verdict", f"{one[number]}\n  and by version 2 {other[number]}",
                  {"items": [case["items"][number]]})


LAWS: Dict[str, Tuple[Callable[[fuzz.Cases, int], Case], Callable[[World, Case], int]]] = {
    "presented": (grow_presented, presented), "no_forgery": (grow_forgery, no_forgery),
    "same_verdict": (grow_tokens, same_verdict), "any_cut": (grow_cuts, any_cut), "audited": (grow_audited, audited),
    "IsFewest": (grow_wallet, is_fewest), "version_one": (grow_version_one, version_one)}


# Running --------------------------------------------------------------------------------------------------------------

def smallest(law: str, world: World, case: Case, fault: Against) -> Case:
    """The smallest case found that is against a law in the same way."""
    def still(trial: Case) -> bool:
        try:
            LAWS[law][1](world, trial["files"])
        except Against as again:
            return again.kind == fault.kind
        except (Refused, Unreadable):
            pass
        return False

    narrow = {**case, **fault.narrow}
    return fuzz.shrink({"words": [], "files": narrow if still({"files": narrow}) else case}, still, 30.0)["files"]


def tried(law: str, world: World, seed: int, count: int) -> Tuple[int, Optional[Tuple[Case, Against]]]:
    """How many runs a law came to, and the first case that is against it."""
    grown, holds = LAWS[law]
    ran = number = 0
    while ran < count:
        cases = fuzz.Cases(seed * 1_000_003 + number * 17 + list(LAWS).index(law))
        case = grown(cases, int(time.time()))
        try:
            ran += holds(world, case)
        except Against as fault:
            return ran, (case, fault)
        number += 1
    return ran, None


def tell(law: str, world: World, case: Case, fault: Against) -> None:
    """Prints the smallest case that is against a law."""
    small = smallest(law, world, case, fault)
    try:
        LAWS[law][1](world, small)
    except Against as again:
        fault = again
    print(f"{law} does not hold: {fault}")
    for name, part in small.items():
        for each in part if name == "items" else [part]:
            print(f"  {name}: {each!r}")
            if isinstance(each, dict) and ("token" in each or "text" in each):
                print(f"    that is {fuzz.content(each)!r}")


def stand_in(law: str, program: str, folder: str) -> str:
    """A script that is a program with an answer turned, so that a law does not hold."""
    path = os.path.join(folder, f"{law}-{os.path.basename(program)}")
    with open(path, "w", encoding="utf-8") as file:
        file.write(f"#!/bin/sh\nexec {sys.executable} {fuzz.HERE}/wrong.py {law} {os.path.abspath(program)} \"$@\"\n")
    os.chmod(path, 0o755)
    return path


def main() -> int:
    """A run over the laws."""
    words = argparse.ArgumentParser(description="Checks the laws of the programs at random.")
    words.add_argument("program")
    words.add_argument("tools")
    words.add_argument("--seed", type=int, default=1)
    words.add_argument("--count", type=int, default=2000, help="how many runs of each law")
    words.add_argument("--laws", default=",".join(LAWS))
    words.add_argument("--wrong", action="store_true", help="over programs that are wrong on purpose")
    said = words.parse_args()
    failed = runs = 0
    begun = time.time()
    with tempfile.TemporaryDirectory(dir="/dev/shm" if os.path.isdir("/dev/shm") else None) as folder:
        os.mkdir(os.path.join(folder, "files"))
        for law in said.laws.split(","):
            programs = [said.program, said.tools]
            if said.wrong:
                programs = [stand_in(law, program, folder) for program in programs]
            world = World(*programs, os.path.join(folder, "files"))
            ran, against = tried(law, world, said.seed, said.count)
            runs += ran
            if against is not None:
                tell(law, world, *against)
            print(f"{law}: {ran} runs, and {'it holds' if against is None else 'it does not hold'}", flush=True)
            failed += (against is None) if said.wrong else (against is not None)
    print(f"{runs} runs in {time.time() - begun:.0f} seconds, "
          f"{failed} laws {'were not seen failing' if said.wrong else 'do not hold'}")
    return 1 if failed else 0


if __name__ == "__main__":
    sys.exit(main())

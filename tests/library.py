"""Compares the calls of the C library with a second reading.

    python3 tests/library.py LIBRARY [--seed N] [--count N] [--seconds S] [--commands a,b,..] [--coverage]

LIBRARY is a built libsdjwt.so, as c/build.sh leaves it in c/out/lib. The reading is tests/reference; for the calls
whose caller checks and makes the signatures it stands here, by docs/SPECIFICATION.md, docs/FILES.md and c/sdjwt.h. Each
case is one call, named by a command, at one moment. What a caller says of a signature is drawn too, so that a question
comes, or a verdict over what was said, or none; of a question each part is compared. What is judged under a policy is
judged by a handle of it as well. The command presented_to_caller is the law of this name: a token that a caller signs
is presented, which another one signs, and judged by a third, who is told the payload of the order without the places
not chosen. Cases are grown, compared, shrunk and counted as those of tests/fuzz.py, but more come in a second: no
program is run.
"""

import ctypes
import os
import re
import sys
import time
from ctypes import byref, c_char_p, c_size_t, c_uint8, c_uint64
from typing import Any, Callable, Dict, List, Optional, Tuple

sys.path[:0] = [os.path.dirname(os.path.abspath(__file__))]
import fuzz  # noqa: E402
import grow  # noqa: E402
from files import PLACES, array, members, pointer, read_policy, read_seed, read_table, short_text, text  # noqa: E402
from files import one_of, whole  # noqa: E402
from fuzz import Answer, Case, Cases, content, reference  # noqa: E402
from issue import closing_order, header_text, issue  # noqa: E402
from outcome import COMPACT_MAX, ISSUE_MAX, Refused, Unreadable, refuse  # noqa: E402
from properties import AUD, NONCE, grown_order, leads_to, without  # noqa: E402
from texts import HASHES, at, carried, decode, digest_of, encode, is_whole, read, write, written  # noqa: E402
from tokens import Token, read_content, read_header, read_token  # noqa: E402
from verify import Judged, choose, holder_kid, judge_binding, judge_claims, process  # noqa: E402

DONE, REFUSED, USAGE, UNWRITTEN, UNREADABLE, ASKS, NOT_ASKED, TO_SIGN, MISSING = 0, 1, 2, 4, 6, 7, 8, 9, 10
UNSAID, UNKNOWN, BAD, GOOD = 0, 1, 2, 3
NOW = 1_800_000_000
FORMS = ("compact", "flat", "general")
# The parameters of each call: bytes, a moment, numbers, and the tokens of a wallet.
OF_CALLERS = {"judge": "bbbmnn", "issue_ask": "bbb", "issue_sign": "bbbb", "present_ask": "bbmn",
              "present_sign": "bbmnb"}
CALLS = {"verify": "bbm", "present": "bbm", "issue": "bb", "show": "b", "split": "b", "convert": "nb", "audit": "bb",
         "wallet": "bt", **OF_CALLERS}
LAW = "presented_to_caller"
COMMANDS = (*CALLS, LAW)
TAKEN = ["ES256", "ES256", "EdDSA", "PS256", "HS256", "HS512", "HSX", "\u00e9", "es256", "None", "hs256"]
NEVER_TAKEN = ["none", ""]


# The reading ----------------------------------------------------------------------------------------------------------

class Ended(Exception):
    """A call that ends by another status than a refusal or a fault of a file, and with this output."""


class Caller:
    """What a caller says of the signatures, in the order in which it is asked."""

    def __init__(self, *words: int) -> None:
        self.words = list(words)

    def judge(self, unknown: int, bad: int, jwt: List[str], question: Dict[str, Any]) -> None:
        """Asks about a signature, or refuses by one of two conditions where it is not called good."""
        refuse(bad, decode(jwt[2]) is None)
        word = self.words.pop(0)
        if word == UNSAID:
            raise Ended(ASKS, question_line({**question, "text": f"{jwt[0]}.{jwt[1]}", "signature": jwt[2]}))
        refuse(unknown, word == UNKNOWN)
        refuse(bad, word == BAD)


def question_line(members: Dict[str, Any]) -> str:
    """The line of a question: the members by their names, and the payload behind them."""
    front = write({name: value for name, value in members.items() if name != "payload"})
    return (f'{front[:-1]},"payload":{write(members["payload"])}}}' if "payload" in members else front) + "\n"


def is_taken(alg: str, algs: List[str]) -> bool:
    """Whether a caller takes an algorithm: one of its list, but never `none`."""
    return alg in algs and alg not in ("", "none")


def named(asked: str, header: Dict[str, Any]) -> Dict[str, Any]:
    """Of whom a question asks, with what the header names."""
    return {"ask": asked, **{name: header[name] for name in ("alg", "kid", "typ") if name in header}}


def judge_issued(token: Token, algs: List[str], caller: Caller, typ: Optional[str] = None) -> Judged:
    """Conditions 5 to 21, where the caller checks the issuer's signature."""
    header = read_header(token.protected, token.unprotected)
    refuse(6, "crit" in header)
    refuse(7, not is_taken(header["alg"], algs))
    refuse(8, typ is not None and header.get("typ") != typ)
    caller.judge(9, 10, [token.protected, token.payload, token.signature], named("issuer", header))
    return process(*read_content(token))


def verdict(policy: Dict[str, Any], algs: List[str], token: Token, caller: Caller) -> Dict[str, Any]:
    """The processed payload, or the lowest of conditions 4 to 38 that fails over what the caller says."""
    refuse(4, policy["binding"] is not None and token.binding is None)
    judged = judge_issued(token, policy["algs"], caller, policy["typ"])
    judge_claims(policy, judged.claims, NOW)
    if policy["binding"] is not None:
        jwt = str(token.binding).split(".")
        header = read_header(jwt[0], {}, 28)
        refuse(28, "crit" in header)
        refuse(29, not is_taken(header["alg"], algs))
        caller.judge(27, 30, jwt, {**named("holder", header), "payload": judged.claims})
        said, sd_hash = carried(jwt[1]) or {}, digest_of(token.hashed(), judged.hash_name)
        judge_binding(policy, header.get("typ"), said, sd_hash, NOW)
    return judged.claims


def read_algs(data: bytes, policy: Dict[str, Any]) -> List[str]:
    """The algorithms that are taken of the holder."""
    if not data:
        return policy["algs"]
    try:
        return array(text)(read(data))
    except Unreadable:
        raise Ended(UNREADABLE, "unreadable 2 wrong algs\n") from None


def judge(policy_file: bytes, algs_file: bytes, token_file: bytes, issuer: int, holder: int) -> str:
    if issuer > GOOD or holder > GOOD or (holder != UNSAID and issuer != GOOD):
        raise Ended(USAGE, "")
    policy = read_policy(policy_file)
    algs, caller = read_algs(algs_file, policy), Caller(issuer, holder)
    try:
        told: Any = write(verdict(policy, algs, read_token(token_file), caller)) + "\n"
    except Refused as refusal:
        told = refusal
    if any(caller.words):  # Something was said that is not asked for.
        raise Ended(NOT_ASKED, "notAsked\n")
    if isinstance(told, Refused):
        raise told
    return told


def is_algorithm(alg: bytes) -> bool:
    """Whether a caller may sign by what is called so."""
    try:
        return alg.decode() not in ("", "none")
    except UnicodeDecodeError:
        return False


def read_order_apart(data: bytes) -> Dict[str, Any]:
    """What an issuer is asked for who signs elsewhere."""
    decoys = array(members(at=pointer, count=whole(0, 32_768)))
    return read_table(data, lambda _: {
        "payload": (lambda any_value: any_value,), "hide": PLACES, "decoys": (decoys, []), "kid": (text, None),
        "typ": (text, None), "sd_alg": (one_of(HASHES), "sha-256")})


def laid_out(order_file: bytes, alg: bytes, seed_file: bytes) -> Token:
    """The token of an order without keys, whose signature is not there yet."""
    if not is_algorithm(alg):
        raise Ended(USAGE, "")
    order = read_order_apart(order_file)
    token = issue({**order, "key": b"", "alg": "HS256"}, read_seed(seed_file))
    return Token(header_text({**order, "alg": alg.decode()}), token.payload, "", token.disclosures)


def issue_ask(order_file: bytes, alg: bytes, seed_file: bytes) -> str:
    token = laid_out(order_file, alg, seed_file)
    return f"{token.protected}.{token.payload}"


def issue_sign(order_file: bytes, alg: bytes, seed_file: bytes, signature: bytes) -> str:
    if not signature:
        raise Ended(USAGE, "")
    token = laid_out(order_file, alg, seed_file)
    token.signature = encode(signature)
    refuse(61, len(token.compact()) > ISSUE_MAX)
    return token.compact() + "\n"


def read_binding(value: Any) -> Dict[str, Any]:
    """The key binding token that a present order without keys asks for."""
    forms = {"aud": short_text, "nonce": short_text, "alg": text, "kid": text}
    if isinstance(value, dict) and "kid" not in value:
        del forms["kid"]
    said = {"kid": None, **members(**forms)(value)}
    if said["alg"] in ("", "none"):
        raise Unreadable("wrong")
    return said


def read_asked(data: bytes) -> Dict[str, Any]:
    """What a holder is asked to show who signs elsewhere."""
    return read_table(data, lambda _: {
        "algs": (array(text),), "want": PLACES, "never": PLACES, "binding": (read_binding, None)})


def unsigned(order_file: bytes, token_file: bytes, issuer: int) -> Tuple[Token, Optional[str]]:
    """What is shown, and the text of the key binding token that is asked for."""
    order = read_asked(order_file)
    token = read_token(token_file)
    refuse(71, token.binding is not None)
    held = judge_issued(token, order["algs"], Caller(issuer))
    shown, wish = token.showing(choose(order, held)), order["binding"]
    if wish is None:
        return shown, None
    told = holder_kid(process(*read_content(shown)).claims)
    refuse(74, wish["kid"] is not None and told != wish["kid"])
    payload = {"aud": wish["aud"], "iat": NOW, "nonce": wish["nonce"],
               "sd_hash": digest_of(shown.hashed(), held.hash_name)}
    return shown, f"{written({'alg': wish['alg'], 'typ': 'kb+jwt'})}.{written(payload)}"


def present_ask(order_file: bytes, token_file: bytes, issuer: int) -> str:
    if issuer > GOOD:
        raise Ended(USAGE, "")
    shown, asked = unsigned(order_file, token_file, issuer)
    if asked is not None:
        raise Ended(TO_SIGN, asked)
    refuse(75, len(shown.compact()) > COMPACT_MAX)
    return shown.compact() + "\n"


def present_sign(order_file: bytes, token_file: bytes, issuer: int, signature: bytes) -> str:
    if issuer not in (UNKNOWN, BAD, GOOD) or not signature:
        raise Ended(USAGE, "")
    shown, asked = unsigned(order_file, token_file, issuer)
    shown.binding = asked and f"{asked}.{encode(signature)}"
    refuse(75, len(shown.compact()) > COMPACT_MAX)
    return shown.compact() + "\n"


READINGS: Dict[str, Callable[..., str]] = {
    "judge": judge, "issue_ask": issue_ask, "issue_sign": issue_sign, "present_ask": present_ask,
    "present_sign": present_sign}


def answer_of(status: int, output: bytes) -> Answer:
    """An answer, in which a line that tells why there is none stands by itself, without its end."""
    if status in (REFUSED, UNREADABLE, NOT_ASKED) and output.endswith(b"\n"):
        return Answer(status, b"", output[:-1].decode())
    return Answer(status, output, "")


def reading(call: str, inputs: List[Any]) -> Answer:
    """What a call whose caller checks and signs answers by the reading."""
    try:
        return answer_of(DONE, READINGS[call](*inputs).encode())
    except Refused as refusal:
        return answer_of(REFUSED, f"{refusal}\n".encode())
    except Unreadable as fault:
        return answer_of(UNREADABLE, f"unreadable {2 if fault.args[0] == 'short' else 1} {fault}\n".encode())
    except Ended as end:
        return answer_of(end.args[0], end.args[1].encode())


def claims_due(order_file: bytes, asked_file: bytes) -> Any:
    """The payload of an order without the hidden places that lead to no wanted one; nothing where they don't suit."""
    try:
        order, asked = read_order_apart(order_file), read_asked(asked_file)
    except Unreadable:
        return None
    payload = order["payload"]
    hidden = list(closing_order(payload, set(order["hide"])))
    chosen = [place for place in hidden if any(leads_to(place, path) for path in asked["want"])]
    suits = (all(at(payload, path)[0] for path in asked["want"])
             and not any(leads_to(path, place) for place in chosen for path in asked["never"])
             and all(is_whole(payload.get(name, 0)) for name in ("exp", "nbf")))
    return without(payload, set(hidden) - set(chosen)) if suits else None


# Running --------------------------------------------------------------------------------------------------------------

def parameters_of(call: str, inputs: List[Any]) -> List[Any]:
    """The parameters of a call in C, but for its room."""
    made: List[Any] = []
    waiting = list(inputs)
    for kind in CALLS[call]:
        if kind == "m":
            made.append(c_uint64(NOW))
        elif kind == "n":
            made.append(c_uint8(waiting.pop(0)))
        elif kind == "t":
            tokens = b"".join(waiting)
            lengths = (c_size_t * len(waiting))(*map(len, waiting))
            made += [c_char_p(tokens), c_size_t(len(tokens)), lengths, c_size_t(len(waiting))]
        else:
            data = waiting.pop(0)
            made += [c_char_p(data), c_size_t(len(data))]
    return made


class Library:
    """Runs the library and the reading over the same bytes."""

    def __init__(self, path: str) -> None:
        self.library = ctypes.CDLL(os.path.abspath(path))
        self.room = ctypes.create_string_buffer(1 << 16)

    def call(self, name: str, *parameters: Any) -> Answer:
        function, length = getattr(self.library, "sdjwt_" + name), c_size_t()
        function.restype = c_uint8
        status = function(*parameters, self.room, c_size_t(len(self.room)), byref(length))
        if status == UNWRITTEN:
            self.room = ctypes.create_string_buffer(length.value)
            return self.call(name, *parameters)
        return answer_of(status, self.room.raw[:length.value])

    def by_handle(self, call: str, policy: bytes, others: List[Any]) -> Answer:
        """What the call answers by a handle of the policy, or why the policy is none."""
        handle = ctypes.c_void_p()
        made = self.call("policy_new", byref(handle), c_char_p(policy), c_size_t(len(policy)))
        answer = made if made.status != DONE else self.call("policy_" + call, byref(handle), *others)
        self.library.sdjwt_policy_free(byref(handle))
        return answer

    def made(self, call: str, *inputs: Any) -> Answer:
        """What a call answers over these inputs."""
        return self.call(call, *parameters_of(call, list(inputs)))

    def part(self, name: str, question: bytes, *more: bytes) -> Answer:
        """A part of a question."""
        given = [each for data in (question, *more) for each in (c_char_p(data), c_size_t(len(data)))]
        return self.call("question_" + name, *given)

    def by_parts(self, question: bytes) -> Tuple[Answer, Answer]:
        """A part of a question, and what it has to be by the reading: the first that is another, or the last."""
        said = read(question)
        told = [(name, self.part(name, question)) for name in ("text", "alg", "kid")]
        told += [(name, self.part("at", question, b"/" + name.encode())) for name in ("ask", "typ")]
        due = {name: value.encode() for name, value in said.items() if isinstance(value, str)}
        due["signature"] = decode(said["signature"]) or b""
        pairs = [(answer, Answer(DONE, due[name], "") if name in due else Answer(MISSING, b"", ""))
                 for name, answer in (*told, ("signature", self.part("signature", question)))]
        return next((pair for pair in pairs if pair[0] != pair[1]), pairs[-1])

    def presented_to_caller(self, files: Dict[str, bytes]) -> Tuple[Answer, Answer]:
        """What the last of three callers is told, each of whom calls all signatures good, and what is due."""
        order, asked, policy, alg = files["order.json"], files["asked.json"], files["policy.json"], files["alg.txt"]
        issued = self.made("issue_sign", order, alg, files["seed.txt"], b"of the issuer")
        if issued.status != DONE:
            return issued, issued
        due = claims_due(order, asked)
        if due is None:
            return (Answer(DONE, b"", "what is asked for does not suit the order"),) * 2
        question = self.made("present_ask", asked, issued.output, UNSAID)
        shown = self.made("present_sign", asked, issued.output, GOOD, b"of the holder")
        asks = [self.made("judge", policy, b"", shown.output, GOOD if holder else UNSAID, UNSAID)
                for holder in range(2 if b'"binding"' in policy else 1)]
        if [each.status for each in (question, shown, *asks)] != [ASKS, DONE, *[ASKS] * len(asks)]:
            return question if question.status != ASKS else shown, Answer(DONE, b"", "each step as it is due")
        told = self.made("judge", policy, b"", shown.output, GOOD, GOOD if len(asks) == 2 else UNSAID)
        return told, answer_of(DONE, f"{write(due)}\n".encode())

    def compare(self, case: Case) -> Tuple[Answer, Answer]:
        """The answer of the library, and that of the reading."""
        call, *words = case["words"]
        if call == LAW:
            return self.presented_to_caller({name: content(part) for name, part in case["files"].items()})
        files = {name: content(part) for name, part in case["files"].items()}
        inputs = [files[word] if word in files else FORMS.index(word) if word in FORMS else int(word) for word in words]
        answer = reading(call, inputs) if call in OF_CALLERS else reference.run(case["words"], files.get, NOW)
        parameters = parameters_of(call, inputs)
        told = self.call(call, *parameters)
        if call in ("verify", "judge") and told == answer and told.status != USAGE:
            told = self.by_handle(call, inputs[0], parameters[2:])
        return self.by_parts(told.output) if told == answer and told.status == ASKS else (told, answer)


class LibraryCases(Cases):
    """Grows a case for each call."""

    def signed(self, spoils: List[int], bound: float) -> Dict[str, Any]:
        """A token by an algorithm that a caller may check, whose key binding token is so too."""
        grower = self.grower
        recipe = grower.token(NOW, bound)
        for part in (recipe, recipe["binding"]):
            if part:
                alg = grower.one(TAKEN if grower.maybe(0.95) else NEVER_TAKEN)
                part["header"] = re.sub("HS(256|384|512)", alg, part["header"])
        for _ in range(grower.one(spoils)):
            grower.spoil(recipe, NOW)
        return {"token": recipe}

    def claims_of(self, part: Dict[str, Any]) -> Any:
        """What is in a token whose signature is called good, to name places of it; or nothing."""
        try:
            token = read_token(content(part))
            token.binding = None
            algs = [read_header(token.protected, token.unprotected)["alg"]]
            return judge_issued(token, algs, Caller(GOOD)).claims
        except Refused:
            return {"a": [{"b": 1}], "iss": 1}

    def algs(self) -> List[str]:
        """Mostly a list with each algorithm that is taken of some."""
        grower = self.grower
        return grower.one([TAKEN + NEVER_TAKEN] * 20 + [TAKEN[:1], NEVER_TAKEN, []])

    def word(self, good: float) -> int:
        """What is said of a signature, or a number that says nothing."""
        return GOOD if self.grower.maybe(good) else self.grower.one([UNSAID, UNSAID, UNSAID, UNKNOWN, BAD, 4, 255])

    def signature(self) -> Dict[str, Any]:
        return {"text": "".join(self.grower.one("sig\0\u00e9\udcff") for _ in range(self.grower.one([0, 1, 2, 3, 64])))}

    def judged(self) -> Case:
        grower = self.grower
        bound = grower.maybe(0.6)
        policy = self.policy(bound)
        policy["algs"] = self.algs()
        issuer = self.word(0.8)
        holder = self.word(0.7) if issuer == GOOD and grower.maybe(0.7 if bound else 0.1) else UNSAID
        algs = {"text": ""} if grower.maybe(0.5) else self.spoilt_text(self.algs(), 0.2)
        return {"words": ["judge", "policy.json", "algs.json", "token.txt", str(issuer), str(holder)],
                "files": {"policy.json": self.spoilt_text(policy, 0.2), "algs.json": algs,
                          "token.txt": self.signed([0, 0, 1, 1, 2], 0.95 if bound else 0.2)}}

    def issued(self, call: str) -> Case:
        grower = self.grower
        order = self.order() if grower.maybe(0.6) else self._odd_order()
        for name in ("key", "alg"):
            if grower.maybe(0.98):
                order.pop(name, None)
        alg = grower.one(TAKEN + NEVER_TAKEN + ["A\0B", "\udcff"])
        files = {"order.json": self.spoilt_text(order, 0.2), "alg.txt": {"text": alg}, "seed.txt": self.seed_text()}
        if call == "issue_sign":
            files["signature"] = self.signature()
        return {"words": [call, *files], "files": files}

    def presented(self, call: str) -> Case:
        grower = self.grower
        token = self.signed([0, 0, 0, 1], 0.05)
        order = {**self.present_order(self.claims_of(token)), "algs": self.algs()}
        if grower.maybe(0.98):
            del order["keys"]
        if "binding" in order:
            order["binding"]["alg"] = grower.one(TAKEN * 2 + NEVER_TAKEN)
            for name, share in (("key", 0.98), ("kid", 0.5)):
                if grower.maybe(share):
                    del order["binding"][name]
        files = {"order.json": self.spoilt_text(order, 0.2), "token.txt": token}
        words = [call, *files, str(self.word(0.85))]
        if call == "present_sign":
            files["signature"] = self.signature()
            words.append("signature")
        return {"words": words, "files": files}

    def of_law(self) -> Case:
        """An order, what is asked of its token, and a policy that suits them."""
        bound = self.grower.maybe(0.5)
        order = grown_order(self, NOW, bound)
        asked: Dict[str, Any] = {"algs": TAKEN, "want": self.paths(order["payload"])}
        policy: Dict[str, Any] = {"keys": {"keys": []}, "algs": TAKEN}
        for name in ("key", "alg"):
            order.pop(name, None)
        if self.grower.maybe(0.3):
            asked["never"] = self.paths(order["payload"])
        if bound:
            asked["binding"] = {"aud": AUD, "nonce": NONCE, "alg": self.grower.one(TAKEN)}
            policy["binding"] = {"aud": AUD, "nonce": NONCE, "keys": {"keys": []}, "max_age": 0}
        texts = {"order.json": write(order), "asked.json": write(asked), "policy.json": write(policy),
                 "alg.txt": self.grower.one(TAKEN)}
        return {"words": [LAW], "files": {"seed.txt": self.seed_text(), **{
            name: {"text": each} for name, each in texts.items()}}}

    def grow(self, command: str, now: int) -> Case:
        if command == LAW:
            return self.of_law()
        if command not in OF_CALLERS:
            return super().grow(command, now)
        if command == "judge":
            return self.judged()
        return self.issued(command) if command.startswith("issue") else self.presented(command)


class LibraryFuzz(fuzz.Fuzz):
    """A run of cases of calls."""

    def grow(self, command: str, number: int, now: int) -> Case:
        return LibraryCases(self.seed * 1_000_003 + number * 17 + COMMANDS.index(command)).grow(command, NOW)


def main() -> int:
    """A run over the library."""
    words = fuzz.options("Compares the calls of the C library with a second reading of the specification.", COMMANDS)
    words.add_argument("library")
    said = words.parse_args()
    begun = time.time()
    try:
        run = LibraryFuzz(Library(said.library), said.seed)
    except OSError as fault:
        words.error(str(fault))
    run.go(dict.fromkeys(said.commands, sys.maxsize if said.seconds else said.count), said.seconds)
    return run.tell(said.commands, time.time() - begun, said.coverage)


if __name__ == "__main__":
    sys.exit(main())

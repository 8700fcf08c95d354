"""A second reading of the programs sdjwt and sdjwt_tools: python3 tests/reference/main.py WORDS..

It is written from docs/SPECIFICATION.md and the RFCs that it names, not from the code. Best read are outcome (limits,
numbers and names), texts, tokens, files, verify (with present and the wallet) and issue (with gen and the audit), in
this order. Left out are want of memory, and an output or a source that fails.
"""

from __future__ import annotations
import re
import sys
import time
from collections import namedtuple
from collections.abc import Callable
import files
import tokens
from issue import audit, generate, issue
from outcome import FILE_MAX, Refused, Unreadable, refuse
from texts import carried, digest_of, write
from verify import present, verify, wallet

Answer = namedtuple("Answer", "status output line")  # The line on standard error, or nothing.
_FILE = "\0[^\0]*"
_LINE = re.compile(  # The words of a command line, with a zero byte between two: none has one in it.
    f"(split|show){_FILE}|(verify|issue|present|audit){_FILE}{_FILE}|convert\0(compact|flat|general){_FILE}|"
    f"wallet({_FILE}){{2,65}}|gen\0[1-9][0-9]{{0,3}}|feed{_FILE}\0[1-9][0-9]{{0,9}}")
_MOST = {"gen": 3000, "feed": 1_073_741_824}

def _lines(token: tokens.Token, lines: list[str]) -> str:
    return "\n".join(lines + ([] if token.binding is None else [f"binding {token.binding}"]))

def split(token: tokens.Token) -> str:
    """The parts of a token, as they stand."""
    lines = [f"protected {token.protected}", f"payload {token.payload}", f"signature {token.signature}"]
    return _lines(token, lines + [f"disclosure {number} {text}" for number, text in enumerate(token.disclosures)])

def show(token: tokens.Token) -> str:
    """What the parts carry; conditions 5, 11, 12 and 13 are judged, and no signature."""
    tokens.read_header(token.protected, token.unprotected)
    claims, given, hash_name = tokens.read_content(token)
    lines = [f"header {write(carried(token.protected))}", f"payload {write(claims)}"]
    for number, each in enumerate(given):
        kind = "element" if each.name is None else f"member {write(each.name)}"
        lines.append(f"disclosure {number} {digest_of(each.text, hash_name)} {kind} {write(each.value)}")
    return _lines(token, lines)

def convert(form: str, token: tokens.Token) -> str:
    """Another serialization of a token, as it stands."""
    text = token.compact() if form == "compact" else token.as_json(form == "general")
    refuse(3, len(text.encode()) + 1 > FILE_MAX)  # The line with its end.
    return text

def feed(policy: files.Said, most: int, source: bytes, now: int) -> Answer:
    """A verdict for each line of the source that has ended within the bytes that are taken."""
    lines = source[:most].split(b"\n")
    if len(source) > most or not lines[-1]:
        lines.pop()
    said = ""
    for line in lines:
        try:
            said += f"accepted {write(verify(policy, tokens.read_token(line), now))}\n"
        except Refused as refusal:
            said += f"{refusal}\n"
    if len(source) > most:
        return Answer(1, said.encode(), str(Refused(87)))
    return Answer(0, f"{said}lines {len(lines)}\n".encode(), "")

def run(words: list[str], fetch: Callable[[str], bytes | None], now: int, source: bytes = b"") -> Answer:
    """What a run answers; fetch tells what a file has, or None where it cannot be read."""
    names = _file_words(words)
    if names is None:
        return Answer(2, b"", "usage")
    data = [fetch(name) for _, name in names]
    if None in data:
        return Answer(3, b"", f"unread {names[data.index(None)][0]}")
    answers: dict[str, Callable[[], str]] = {
        "split": lambda: split(tokens.read_token(data[0])), "show": lambda: show(tokens.read_token(data[0])),
        "verify": lambda: write(verify(files.read_policy(data[0]), tokens.read_token(data[1]), now)),
        "issue": lambda: issue(files.read_order(data[0]), files.read_seed(data[1])).compact(),
        "present": lambda: present(files.read_present_order(data[0]), tokens.read_token(data[1]), now).compact(),
        "convert": lambda: convert(words[1], tokens.read_token(data[0])),
        "gen": lambda: generate(int(words[1])),
        "audit": lambda: audit(files.read_order(data[0]), data[1]),
        "wallet": lambda: wallet(files.read_query(data[0]), data[1:])}
    try:
        if words[0] == "feed":
            return feed(files.read_policy(data[0]), int(words[2]), source, now)
        return Answer(0, f"{answers[words[0]]()}\n".encode(), "")
    except Unreadable as fault:
        return Answer(6, b"", f"unreadable {2 if fault.args[0] == 'short' else 1} {fault}")
    except Refused as refusal:
        return Answer(1, b"", str(refusal))

def _file_words(words: list[str]) -> list[tuple[int, str]] | None:
    """The words that name files, each with its number behind the command; None where the words are no command."""
    line, numbered = "\0".join(words), list(enumerate(words[1:], 1))
    if not _LINE.fullmatch(line) or re.search("[\udc80-\udcff]", line):  # So Python hands on a word that is no UTF-8.
        return None
    if words[0] in _MOST:
        return numbered[:-1] if int(words[-1]) <= _MOST[words[0]] else None
    return numbered[1:] if words[0] == "convert" else numbered

def fetch_file(name: str) -> bytes | None:
    """The first bytes of a file, one more than a file may have."""
    try:
        with open(name, "rb") as file:
            return file.read(FILE_MAX + 1)
    except (OSError, ValueError):
        return None

def main() -> int:
    """One run over the words of the command line."""
    words = sys.argv[1:]
    source = sys.stdin.buffer.read() if words[:1] == ["feed"] else b""
    answer = run(words, fetch_file, max(0, int(time.time())), source)
    sys.stdout.buffer.write(answer.output)
    if answer.line:
        print(answer.line, file=sys.stderr)
    return answer.status

if __name__ == "__main__":
    sys.exit(main())

#!/usr/bin/env python3
"""The inputs with which fuzz.c begins.

    python3 c/fuzz/corpus.py FOLDER           writes them to FOLDER/CALL, a file each
    python3 c/fuzz/corpus.py --keep FOLDER    puts those of FOLDER/CALL into found.tar.xz, for each call that is there

Each run of a vector of vectors/ is an input: the files that it reads, with a zero byte between two. One of verify is
one of judge too, with what is said of the signatures, and one of nonce. The parts of a question are taken of QUESTIONS.
What an earlier run keeps is found by tests/reference. To these come cases that tests/fuzz.py and tests/library.py grow.
Runs of other commands, of files that are not there, of files with a zero byte, and of more than 16 KiB are left out.
found.tar.xz has what a fuzzer found beside these: texts that reach other code.
"""
import hashlib
import io
import json
import sys
import tarfile
from pathlib import Path

TOP = Path(__file__).resolve().parent.parent.parent
sys.dont_write_bytecode = True
sys.setrecursionlimit(20_000)
sys.path[:0] = [str(TOP / "tests"), str(TOP / "tests" / "reference"), str(TOP / "vectors")]
import fuzz  # noqa: E402
import library  # noqa: E402
import main as reading  # noqa: E402
import write  # noqa: E402

FOUND = Path(__file__).resolve().parent / "found.tar.xz"
CALLS = ("verify", "present", "issue", "show", "split", "convert", "audit", "wallet")
OF_CALLERS = {"judge": "judge", "issue_ask": "ask", "issue_sign": "sign", "present_ask": "step", "present_sign": "sent"}
ALL_CALLS = (*CALLS, *OF_CALLERS.values(), "policy", "nonce", "part")
# Questions, and bytes that are none.
QUESTIONS = (
    b'{"alg":"ES256","ask":"issuer","kid":"k","signature":"AAEC","text":"eyJhbGciOiJFUzI1NiJ9.e30"}\n',
    b'{"alg":"ES256","ask":"holder","signature":"AA","text":"a.b","typ":"kb+jwt",'
    b'"payload":{"cnf":{"jwk":{"x":"A"}},"text":1}}\n',
    b'{"alg":"\\u00e9\\"","kid":null,"signature":"A=","text":[]}', b"notAsked\n", b"[1]", b'{"text":1.5}', b"")
POINTERS = (b"/payload/cnf/jwk/x", b"/a~1b/0", b"text", b"")
GROWN = 200
LONGEST = 16_384


def name_of(data):
    return hashlib.sha256(data).hexdigest()[:16]


def without_key(order):
    """An order for who signs, where it is JSON that has a key."""
    try:
        members = json.loads(order)
        return json.dumps({name: value for name, value in members.items() if name not in ("key", "alg")}).encode()
    except (ValueError, AttributeError, RecursionError):
        return order


def apart(order, token):
    """A present order for who checks and signs, and a token for it, where they are JSON with keys and a token of HS256."""
    try:
        members = json.loads(order)
        binding = members.get("binding")
        if isinstance(binding, dict):
            members["binding"] = {**{name: value for name, value in binding.items() if name != "key"}, "alg": "ES256"}
        order = json.dumps({"algs": ["ES256"], **{name: value for name, value in members.items() if name != "keys"}}).encode()
    except (ValueError, AttributeError, RecursionError):
        pass
    # the header with HS256 in its first member, and with ES256
    return [order, token.replace(b"eyJhbGciOiJIUzI1NiI", b"eyJhbGciOiJFUzI1NiI")]


def inputs(vector):
    """The calls of a vector's runs, each with the bytes of its files."""
    files = {name: content.encode() for name, content in vector["files"].items()}
    for run in vector["runs"]:
        call, *words = run["words"] or [""]
        parts = [files.get(word) for word in words]
        if call == "convert" and words[0] in library.FORMS:
            parts = [*parts[1:], b"x" * library.FORMS.index(words[0])]
        if call in CALLS and parts and None not in parts:
            yield call, parts
        if call == "verify" and len(parts) == 2 and None not in parts:
            for said in ((library.UNSAID, library.UNSAID), (library.GOOD, library.UNSAID), (library.GOOD, library.GOOD)):
                yield "judge", [parts[0], b'["HS256"]', parts[1], *(b"x" * word for word in said)]
            for nonce in (b"4711", b"n" * 257):
                yield "nonce", [*parts, nonce]
        if call == "issue" and len(parts) == 2 and None not in parts:
            asked = [without_key(parts[0]), b"ES256", parts[1]]
            yield "ask", asked
            yield "sign", [*asked, b"a signature"]
        if call == "present" and len(parts) == 2 and None not in parts:
            for word in (b"", b"no", b"yes"):
                yield "step", [*apart(*parts), word]
            yield "sent", [*apart(*parts), b"a signature"]
        answer = reading.run(run["words"], files.get, run.get("moment", library.NOW), files.get("source", b""))
        if "kept_as" in run:
            files[run["kept_as"]] = answer.output


def joined(call, parts):
    """The input of a call as its bytes, for each call that takes it; of one that can't be an input nothing."""
    data = b"\0".join(parts)
    if data.count(b"\0") == len(parts) - 1 and len(data) <= LONGEST:
        for name in (call, "policy") if call == "verify" else (call,):
            yield name, data


def of_vectors():
    """The inputs of all vectors, as pairs of a call and its bytes."""
    found = [each for path in sorted((TOP / "vectors").glob("*.json")) for each in json.loads(path.read_text("utf-8"))]
    for vector in found + write.of_tools():
        for call, parts in inputs(vector):
            yield from joined(call, parts)


def of_questions():
    """The inputs of the parts of questions, as such pairs."""
    for question in QUESTIONS:
        for which in range(5):
            for pointer in POINTERS if which == 0 else POINTERS[:1]:
                yield from joined("part", [question, pointer, b"x" * which])


def of_growers():
    """The inputs that are grown, as such pairs."""
    for number in range(GROWN):
        for command in CALLS:
            case = fuzz.Cases(number).grow(command, library.NOW)
            parts = [fuzz.content(part) for part in case["files"].values()]
            forms = [b"x" * library.FORMS.index(word) for word in case["words"] if word in library.FORMS]
            yield from joined(command, parts + forms)
        for command, call in OF_CALLERS.items():
            case = library.LibraryCases(number).grow(command, library.NOW)
            parts = [fuzz.content(part) for part in case["files"].values()]
            words = [b"x" * int(word) for word in case["words"] if word.isdigit() and call != "sent"]
            yield from joined(call, parts + words)


def of_fuzzers():
    """The inputs of found.tar.xz, as such pairs."""
    if FOUND.exists():
        with tarfile.open(FOUND) as archive:
            for entry in archive:
                yield entry.name.split("/")[0], archive.extractfile(entry).read()


def write_inputs(folder):
    for call in ALL_CALLS:
        (folder / call).mkdir(parents=True, exist_ok=True)
    for call, data in (*of_vectors(), *of_questions(), *of_growers(), *of_fuzzers()):
        (folder / call / name_of(data)).write_bytes(data)
    print(", ".join(f"{call.name}: {len(list(call.iterdir()))}" for call in sorted(folder.iterdir())))


def keep(folder):
    """The new archive: what is in the folder and in no vector and not grown, and the old inputs of calls not in it."""
    known = {*of_vectors(), *of_questions(), *of_growers()}
    new = {(call.name, path.read_bytes()) for call in folder.iterdir() for path in call.iterdir()} - known
    calls = {call.name for call in folder.iterdir()}
    kept = sorted(new | {(call, data) for call, data in of_fuzzers() if call not in calls})
    with tarfile.open(FOUND, "w:xz", preset=9) as archive:
        for call, data in kept:
            entry = tarfile.TarInfo(f"{call}/{name_of(data)}")
            entry.size = len(data)
            archive.addfile(entry, io.BytesIO(data))
    print(f"{FOUND.name}: {len(kept)} inputs, {FOUND.stat().st_size} bytes")


def main():
    *words, folder = sys.argv[1:]
    (keep if words == ["--keep"] else write_inputs)(Path(folder))


if __name__ == "__main__":
    main()

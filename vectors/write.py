#!/usr/bin/env python3
"""Writes the tables of crates/sd_vectors/data as JSON, one file for each table, into this folder.

    python3 vectors/write.py            writes them
    python3 vectors/write.py --check    says whether they are as the tables say, and writes nothing

The language of the tables stands in crates/sd_vectors/data/README.md. A row becomes a vector, whose shape README.md
of this folder tells. A row that limits the room on standard output is left out, since no caller can set it; so is a
row with more than 5,000 bytes of files. The tables of the other program, `sdjwt_tools`, are left out whole.
"""
import base64
import hashlib
import hmac
import json
import re
import sys
from pathlib import Path

HERE = Path(__file__).resolve().parent
DATA = HERE.parent / "crates" / "sd_vectors" / "data"
MOST_BYTES = 5_000
OF_TOOLS = {"audits.rows", "feeds.rows", "wallet.rows"}
NOW = 1_700_000_000
CHARACTERS = {"nul": "\0", "tab": "\t", "return": "\r", "blank": " ", "bom": "\ufeff"}


def b64url(data):
    return base64.urlsafe_b64encode(data).rstrip(b"=").decode()


def from_b64url(text):
    return base64.urlsafe_b64decode(text + "=" * (-len(text) % 4))


def digest(text):
    return b64url(hashlib.sha256(text.encode()).digest())


class Unread(Exception):
    """A line that is not of the language."""


def meant(names, short):
    """The text for which a bracket stands."""
    times = re.fullmatch(r"(\d+)([*^/])(.*)", short, re.S)
    if times:
        count, kind, piece = int(times[1]), times[2], times[3]
        if kind == "/":
            return names[piece][:count]
        if kind == "^":
            return ",".join(f'"{piece * (i + 1)}"' for i in range(count))
        if "#" in piece:
            return "".join(piece.replace("#", str(i)) for i in range(count))
        return piece * count
    if short in names:
        return names[short]
    if short in CHARACTERS:
        return CHARACTERS[short]
    raise Unread(f"no text has the name {short}")


def spelled(names, text):
    """The text with each bracket written out, from the last to the first."""
    for _ in range(text.count("<")):
        if "<" not in text:
            break
        front, tail = text.rsplit("<", 1)
        short, rest = tail.split(">", 1)
        text = front + meant(names, short) + rest
    return text


def filled(digests, files, text):
    """The text with the digest for which each `$` stands."""

    def of(match):
        name = match[1]
        return digests[int(name)] if name.isdigit() else digest(files[name])

    return re.sub(r"\$([A-Za-z0-9]*)", of, text)


def signed(key, header, payload):
    text = f"{b64url(header.encode())}.{b64url(payload.encode())}"
    mac = hmac.new(from_b64url(key), text.encode(), hashlib.sha256).digest()
    return f"{text}.{b64url(mac)}"


def token(files, words):
    """The compact token of a key, a header, a payload and disclosures."""
    key, header, payload, *disclosures = words.split(" ")
    sent, digests = "", []
    for word in filter(None, disclosures):
        text = b64url(filled(digests, files, word.removeprefix("!")).encode())
        sent += "" if word.startswith("!") else text + "~"
        digests.append(digest(text))
    return signed(key, header, filled(digests, files, payload)) + "~" + sent


def binding(files, words):
    key, header, claims = words.split(" ", 2)
    return signed(key, header, filled([], files, claims))


def flattened(compact, members):
    jwt, rest = compact.split("~", 1)
    protected, payload, signature = jwt.split(".", 2)
    texts, _, bound = rest.rpartition("~")
    header = '{"disclosures":[' + ",".join(f'"{text}"' for text in texts.split("~") if text) + "]"
    header += f',"kb_jwt":"{bound}"' if bound else ""
    members = members.split("{", 1)[1]
    header += ("" if members == "}" else ",") + members
    return f'{{"payload":"{payload}","protected":"{protected}","signature":"{signature}","header":{header}}}'


def speaks_of_time(text):
    """Whether a file speaks of time: a key binding token that is wanted, or a claim that a moment is held against."""
    pieces = [text] + re.findall(r"[A-Za-z0-9_-]{8,}", text)
    decoded = [text.encode()]
    for piece in pieces[1:]:
        try:
            decoded.append(from_b64url(piece))
        except ValueError:
            continue
    return any(word in data for data in decoded for word in (b'"binding"', b'"exp"', b'"nbf"'))


def outcome(due):
    """The status, the output and the line of an outcome."""
    shown, _, line = due.partition(" 2> ") if " 2> " in due else (due, "", "")
    status, _, output = shown.partition(" ")
    return int(status), output, line.removesuffix("\n")


def replace_output(runs, name):
    """A file takes the place of what a run before it kept under this name."""
    for run in runs:
        if run.get("kept_as") == name:
            del run["kept_as"]


def vector_of(row):
    """The vector of a row that is written out, or None where it limits the room on standard output."""
    if " = " in row:
        steps, due = row.split(" = ", 1)
        status, output, line = outcome(due)
        same_as = None
    else:
        steps, same_as = row.split(" == ", 1)
        status, output, line = 0, None, ""
    files, runs, moment = {}, [], None
    for step in steps.split("; "):
        name, _, rest = step.partition(" ")
        if name == "room:":
            return None
        if name == "now:":
            moment = int(rest)
        elif name.endswith(":"):
            files[name[:-1]] = rest
            replace_output(runs, name[:-1])
        elif rest.startswith(":= "):
            files[name] = token(files, rest[3:])
            replace_output(runs, name)
        elif rest.startswith("+= "):
            files[name] += binding(files, rest[3:])
        elif rest.startswith("~= "):
            files[name] = flattened(files[name], rest[3:])
        else:
            words, _, kept = step.partition(" > ")
            run = {"words": words.split()}
            if kept:
                run["kept_as"] = kept
            if moment is not None:
                run["moment"] = moment
            runs.append(run)
    if any(map(speaks_of_time, files.values())):
        for run in runs:
            if run["words"][:1] in (["verify"], ["present"]):
                run.setdefault("moment", NOW)
    vector = {"files": files, "runs": runs}
    vector["status"] = status
    if same_as is None:
        vector["output"] = output
    else:
        vector["output_of_file"] = same_as
    vector["line"] = line
    return vector


def rows_of(path, names):
    """The rows of a table, written out, each with the number of its line and the comment that stands before it."""
    names, first, comment = dict(names), "", []
    fresh = False
    for number, line in enumerate(path.read_text(encoding="utf-8").split("\n"), 1):
        if line.startswith("#"):
            comment = comment + [line[1:].strip()] if fresh else [line[1:].strip()]
            fresh = True
            continue
        fresh = False
        if not line:
            continue
        if line.startswith("let "):
            name, text = line[4:].split(" = ", 1)
            names[name] = spelled(names, text)
        elif line.startswith("first "):
            first = line[6:] + "; "
        else:
            yield number, " ".join(comment), spelled(names, first + line).replace("|", "\n")


def names_of(path):
    names = {}
    for line in path.read_text(encoding="utf-8").split("\n"):
        if line.startswith("let "):
            name, text = line[4:].split(" = ", 1)
            names[name] = spelled(names, text)
    return names


def table(path, names, most=MOST_BYTES):
    """The vectors of a table, without those of which the files have more bytes."""
    vectors = []
    for number, about, row in rows_of(path, names):
        vector = vector_of(row)
        if vector is None or sum(len(text) for text in vector["files"].values()) > most:
            continue
        vectors.append({"name": f"{path.stem} {number}", "about": about, **vector})
    return vectors


def of_tools():
    """The vectors of the audit and of the wallet, for tests of a library that has them. They are not among those of this folder."""
    names = names_of(DATA / "names.txt")
    return [vector for name in ("audits.rows", "wallet.rows") for vector in table(DATA / name, names, 2**30)]


def written(vectors):
    """JSON with a vector on each line."""
    lines = ",\n".join(json.dumps(vector, ensure_ascii=True) for vector in vectors)
    return f"[\n{lines}\n]\n"


def main():
    names = names_of(DATA / "names.txt")
    check, stale, count = "--check" in sys.argv[1:], [], 0
    for path in sorted(path for path in DATA.glob("*.rows") if path.name not in OF_TOOLS):
        vectors = table(path, names)
        count += len(vectors)
        target = HERE / f"{path.stem}.json"
        if not check:
            target.write_text(written(vectors), encoding="utf-8")
        elif not target.exists() or target.read_text(encoding="utf-8") != written(vectors):
            stale.append(target.name)
    for name in stale:
        print(f"{name} is not as its table says")
    print(f"{count} vectors")
    return 1 if stale else 0


if __name__ == "__main__":
    sys.exit(main())

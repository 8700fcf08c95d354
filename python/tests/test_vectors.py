"""The vectors of vectors/, and those of the audit and the wallet, through the calls of the package."""
import json
import sys
from pathlib import Path

import pytest

import sdjwt
from sdjwt import _answers

VECTORS = Path(__file__).resolve().parent.parent.parent / "vectors"
sys.path.insert(0, str(VECTORS))
import write  # noqa: E402

SOME_MOMENT = 1_800_000_000
# more than a token may have, so that its length is for the library to judge
MOST = 2**25
FORMS = ("compact", "flat", "general")


COUNTS = {
    "issue": (2,),
    "present": (2,),
    "verify": (2,),
    "convert": (2,),
    "show": (1,),
    "split": (1,),
    "audit": (2,),
    "wallet": range(2, 66),
}


def lines_of(parts):
    """What the program prints of the parts that split tells."""
    lines = [f"{name} {parts[name]}" for name in ("protected", "payload", "signature")]
    lines += [f"disclosure {i} {text}" for i, text in enumerate(parts["disclosures"])]
    return "\n".join(lines + [f"binding {parts['binding']}"] * (parts["binding"] is not None))


def issued(order, seed):
    """The token of an order and a seed as the program has them, whose file may be longer than 32 bytes."""
    if len(seed) == 32:
        return sdjwt.issue(order, seed)
    with pytest.raises(ValueError, match=f"seed has {len(seed)} bytes"):
        sdjwt.issue(order, seed)
    # of another length it is for the library to judge, which the package does not ask
    called = sdjwt._library.call("issue", order, seed)
    return _answers.without_end(_answers.answered(*called, ("order", order), ("seed", seed)))


def answer_of(words, read, now):
    """The answer of a run. None where it is no call of the package."""
    command, *names = words or [""]
    if len(names) not in COUNTS.get(command, ()):
        return None
    form = names.pop(0) if command == "convert" else None
    if form not in (None, *FORMS) or any(name not in read for name in names):
        return None
    files = [read[name] for name in names]
    if command == "convert":
        return sdjwt.convert(form, *files, most=MOST)
    if command == "split":
        return lines_of(sdjwt.split(*files, most=MOST))
    if command == "show":
        inside = sdjwt.show(*files, most=MOST)
        assert len(inside["disclosures"]) == len(sdjwt.split(*files, most=MOST)["disclosures"])
        return inside
    if command == "issue":
        return issued(*files)
    if command == "present":
        return sdjwt.present(*files, now=now, most=MOST)
    if command == "audit":
        return sdjwt.audit(*files, most=MOST) or "yes"
    if command == "wallet":
        picked = sdjwt.wallet(files[0], iter(files[1:]), most=MOST)
        return f"credential {picked.index}\n{picked.token}"
    claims = sdjwt.verify(*files, now=now, most=MOST)
    assert sdjwt.Policy(files[0]).verify(files[1], now=now, most=MOST) == claims
    return claims


def is_due(said, text):
    """Whether an answer is this output, without the line end. What show tells is compared line by line."""
    if not isinstance(said, dict):
        return said == text
    if text.startswith("header "):
        lines = dict(line.split(" ", 1) for line in text.split("\n")[:2])
        return (said["header"], said["payload"]) == (json.loads(lines["header"]), json.loads(lines["payload"]))
    return said == json.loads(text)


def left_by(vector):
    """The status of the last run, its answer, and the files. None where a run is no call."""
    read = {name: text.encode() for name, text in vector["files"].items()}
    status, said = 0, None
    for run in vector["runs"]:
        try:
            status, said = 0, answer_of(run["words"], read, run.get("moment", SOME_MOMENT))
            if said is None:
                return None
        except sdjwt.Refused as refused:
            status, said = 1, refused.line
            assert refused.explanation and refused.remedy
        except sdjwt.Unreadable as unreadable:
            status, said = 6, unreadable.line
            assert unreadable.explanation
        if "kept_as" in run:
            read[run["kept_as"]] = said.encode() + b"\n" if status == 0 and isinstance(said, str) else b""
            if isinstance(said, dict):
                read[run["kept_as"]] = json.dumps(said).encode()
    return status, said, read


def hold(vectors):
    """Holds the package against vectors, and answers how many of them are calls."""
    count = 0
    for vector in vectors:
        left = left_by(vector)
        if left is None:
            continue
        count += 1
        status, said, read = left
        assert status == vector["status"], vector["name"]
        if status:
            assert said == vector["line"], vector["name"]
        elif "output_of_file" in vector:
            assert is_due(said, read[vector["output_of_file"]].decode().rstrip("\n")), vector["name"]
        else:
            assert is_due(said, vector["output"][:-1]), vector["name"]
    return count


@pytest.mark.parametrize("path", sorted(VECTORS.glob("*.json")), ids=lambda path: path.stem)
def test_vectors(path):
    hold(json.loads(path.read_text(encoding="utf-8")))


def test_the_audit_and_the_wallet():
    assert hold(write.of_tools()) > 60

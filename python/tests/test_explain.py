"""The program python/explain.py, which is installed as sdjwt-explain."""
import importlib.util
import json
import os
import re
import shutil
import signal
import subprocess
import sys
from pathlib import Path

import pytest

TOP = Path(__file__).resolve().parent.parent.parent
PAGE = (TOP / "docs/REFUSALS.md").read_text(encoding="utf-8")
ENTRIES = re.findall(r"^(?:### ([\w ]+?)(?: <a id=\"\d+\"></a>)?|\| `([A-Za-z_ ]+)` \|.*\|.*\|.*\|)$", PAGE, re.M)
HEADINGS = [heading or f"unreadable {reason}" for heading, reason in ENTRIES]
LINES = re.findall(
    r"^[^#\n].* = ([1-6]) (.*)$", (TOP / "examples/refusals/cases.txt").read_text(encoding="utf-8"), re.M
)
POLICY = TOP / "examples/refusals/policy_short_key.json"


def explain(*words, given=b"", program=TOP / "python/explain.py", **more):
    return subprocess.run([sys.executable, program, *words], input=given, capture_output=True, **more)


def said(run):
    """What a run printed, with each run of blanks and line ends as one blank: the lines are wrapped where they are
    long.
    """
    return b" ".join(run.stdout.split())


def loaded(path):
    source = importlib.util.spec_from_file_location(path.stem + "_in_test", path)
    module = importlib.util.module_from_spec(source)
    source.loader.exec_module(module)
    return module


def test_each_entry_is_found_by_its_number_its_name_and_its_line():
    program = loaded(TOP / "python/explain.py")
    entries = program.sections(PAGE)
    assert list(entries) == HEADINGS and len(HEADINGS) > 90
    for heading in HEADINGS:
        assert set(entries[heading]) == {"explanation", "cause", "remedy"} and all(entries[heading].values())
        assert not any("](" in part or "\n" in part for part in entries[heading].values()), heading
        words = heading.split()
        numbered = [words[1], words[2], " ".join(words[1:]), f"refused {words[1]}"] if words[0] == "refused" else []
        for wanted in (heading, *numbered, " ".join(words[words[0] == "unreadable":])):
            assert heading in program.found(wanted, entries), wanted
    run = explain("form")
    assert (
        run.returncode == 0
        and run.stdout.startswith(b"refused 2 form\n\nMeans: ")
        and b"\n\nLikely cause: " in run.stdout
    )


def test_each_line_of_a_pipe_is_explained():
    assert json.loads(explain(given=b'refused 52 reservedInPayload at "/a"b"').stdout)["place"] == '"/a"b"'
    others = ['accepted {"a":1}', "refused", "refused 10 badSignature too", "lines 3", "unreadable 3 wrong key", ""]
    run = explain(given="\n".join([line for _, line in LINES] + others).encode() + b"\n\xff\xfe")
    said = run.stdout.decode(errors="surrogateescape").splitlines()
    assert run.returncode == int(LINES[-1][0]) and said[len(LINES):] == [*others, "\udcff\udcfe"]
    for (status, line), text in zip(LINES, said):
        told = json.loads(text)
        assert told["status"] == int(status) and told["explanation"] and told["cause"] and told["remedy"], line
        assert told["name"] in line and (told["place"] is None or told["place"] in line)
        assert told["number"] is None or f" {told['number']} " in line
    assert explain(given=b"no refusal\n").returncode == 0


@pytest.mark.parametrize(
    "words",
    [
        ("88",),
        ("no", "entry"),
        ("",),
        ("refused 10 formDiffers",),
        ("wrong",),
        ("--version",),
        ("unreadable 1 x", POLICY),
    ],
)
def test_words_that_have_no_entry(words):
    run = explain(*words)
    assert (run.returncode, run.stdout) == (1, b"") and b"there is no entry" in run.stderr


@pytest.mark.parametrize(
    "line",
    [
        "refused 57",
        "refused 57 decoyPlace",
        "refused 73 consentRefused at 0",
        'refused 52 reservedInPayload at "/a b"',
        "unreadable 1 missing algs",
        "notAsked",
        "unread 2",
    ],
)
def test_a_line_or_its_front_is_taken_with_and_without_quotes(line):
    quoted, unquoted = explain(line), explain(*line.split(" "))
    assert quoted.returncode == 0 and quoted.stdout.startswith(b" ".join(line.encode().split()[:1])[:6])
    assert (unquoted.returncode, unquoted.stdout, unquoted.stderr) == (0, quoted.stdout, b"")


def test_what_is_said_of_a_file():
    for words in (
        ("unreadable 1 wrong keys",),
        ("unreadable", "1", "wrong", "keys"),
        ("wrong keys",),
        ("wrong", "keys"),
    ):
        run = explain(*words, POLICY.name, cwd=POLICY.parent)
        assert run.returncode == 0 and b"In policy_short_key.json: at /keys/keys/0/k: it codes 9 bytes" in said(run)
    assert b"no such fault is found" in said(explain("unreadable 1 notJson", POLICY))
    assert b"where the line begins with `unreadable`" in said(explain("refused 10 badSignature", POLICY))
    assert b"In /dev/stdin: it is a list" in said(explain("unreadable 1 notObject", "/dev/stdin", given=b"[]"))


@pytest.mark.parametrize("length", [1, 20, 40, 60, 80, 100, 120, 200])
def test_what_is_said_of_a_file_with_a_long_path(length, tmp_path):
    folder = tmp_path / ("x" * length)
    folder.mkdir()
    policy = shutil.copy(POLICY, folder)
    assert f"In {policy}: no such fault is found.".encode() in said(explain("unreadable 1 notJson", policy))
    assert f"In {policy}: at /keys/keys/0/k: it codes 9 bytes".encode() in said(explain("wrong keys", policy))


@pytest.mark.parametrize("words", [("17",), ("wrong keys", POLICY), ("--help",), ()])
def test_a_reader_that_wants_no_more_ends_it_without_a_word(words):
    given = b"refused 25 expired\n" * 10000
    reader, writer = os.pipe()
    os.close(reader)
    with open(writer, "wb") as out:
        run = subprocess.run(
            [sys.executable, TOP / "python/explain.py", *words], input=given, stdout=out, stderr=subprocess.PIPE
        )
    assert (run.returncode, run.stderr) == (-signal.SIGPIPE, b"")


@pytest.mark.parametrize("words", [("17",), ()])
def test_an_answer_that_can_not_be_written(words):
    given = b"refused 25 expired\n" * 10000
    with open("/dev/full", "wb") as out:
        run = subprocess.run(
            [sys.executable, TOP / "python/explain.py", *words], input=given, stdout=out, stderr=subprocess.PIPE
        )
    assert (run.returncode, run.stderr) == (
        4,
        b"sdjwt-explain: the answer could not be written: No space left on device\n",
    )
    for closed, due in ((">&-", b"it is closed"), ("</dev/null >&-", b"it is closed")):
        run = subprocess.run(["sh", "-c", f'"$0" "$@" {closed}', sys.executable, TOP / "python/explain.py", *words],
                             input=given, capture_output=True)
        assert run.returncode == 4 and due in run.stderr and b"Traceback" not in run.stderr


def test_without_standard_input_it_tells_its_use():
    run = subprocess.run(["sh", "-c", '"$0" "$@" <&-', sys.executable, TOP / "python/explain.py"], capture_output=True)
    assert run.returncode == 2 and run.stdout.startswith(b"Explains the lines") and run.stderr == b""


@pytest.mark.parametrize("name", ["no_such_file", "."])
def test_a_file_that_is_not_there(name):
    run = explain("unreadable 1 notJson", name, cwd=POLICY.parent)
    assert run.returncode == 1 and b"could not be read" in run.stderr


def test_it_finds_its_files_where_it_is_installed(tmp_path):
    for source, target in re.findall(
        r"^ *put \d+ (python/\S+|docs/REFUSALS.md) (\S+)$", (TOP / "install.sh").read_text(encoding="utf-8"), re.M
    ):
        (tmp_path / target).parent.mkdir(parents=True, exist_ok=True)
        shutil.copy(TOP / source, tmp_path / target)
    before = sorted(tmp_path.rglob("*"))
    run = explain("unreadable 1 wrong keys", POLICY, program=tmp_path / "bin/sdjwt-explain", cwd=tmp_path)
    assert run.returncode == 0 and b"it codes 9 bytes" in said(run)
    (tmp_path / "link").symlink_to("bin/sdjwt-explain")
    assert explain("17", program=tmp_path / "link").returncode == 0
    assert sorted(tmp_path.rglob("*")) == sorted([*before, tmp_path / "link"])

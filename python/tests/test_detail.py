"""What is said of a file that is not of its form: against the vectors, the worked refusals, and texts that are known to
be so.
"""
import json
import pickle
import re
import subprocess
import sys
from pathlib import Path

import pytest
from test_vectors import issued

import sdjwt
from sdjwt import _detail

TOP = Path(__file__).resolve().parent.parent.parent
REFUSALS = TOP / "examples/refusals"
sys.path.insert(0, str(TOP / "vectors"))
import write  # noqa: E402

# The kinds of the files of a command, in the order of its words.
KINDS = {
    "issue": ("order", "seed"),
    "present": ("present order",),
    "verify": ("policy",),
    "audit": ("order",),
    "wallet": ("query",),
}
KEY = "dGhlIHRpY2tldCBvZmZpY2Uga2V5LCBub3QgeW91cnM"
KEYS = '{"keys":[{"kty":"oct","k":"%s"}]}' % KEY
CALLS = {"policy": sdjwt.Policy, "order": sdjwt.issue, "present order": lambda given: sdjwt.present(given, ""),
         "query": lambda given: sdjwt.wallet(given, [""])}


def vectors():
    for path in sorted((TOP / "vectors").glob("*.json")):
        yield from json.loads(path.read_text(encoding="utf-8"))
    yield from write.of_tools()


def test_the_faults_are_those_of_the_vectors():
    """A file has a fault here exactly where the program says so, and the same one."""
    count = 0
    for vector in vectors():
        command, *names = vector["runs"][-1]["words"] or [""]
        for place, (kind, name) in enumerate(zip(KINDS.get(command, ()), names), 1):
            said = re.fullmatch(r"unreadable (\d+) (.*)\n?", vector["line"])
            if vector["status"] not in (0, 1, 6) or name not in vector["files"] or said and int(said[1]) != place:
                continue
            content = vector["files"][name].encode()
            found = _detail.fault(kind, content)
            assert (found and found.reason) == (said and said[2]), (vector["name"], found)
            assert not said or _detail.detail(said[2], content), vector["name"]
            count += 1
    assert count > 1_500


def cases():
    """Each file of examples/refusals that is not of its form, with its kind, its place among the words and its reason.
    """
    for line in (REFUSALS / "cases.txt").read_text(encoding="utf-8").splitlines():
        words = re.fullmatch(r"(\w+) (.*) = 6 unreadable (\d) (.*)", line)
        if words and "tooLong" not in line:
            place = int(words[3])
            yield pytest.param(
                KINDS[words[1]][place - 1], words[2].split()[place - 1], place, words[4], id=line.split(" = ")[0]
            )


@pytest.mark.parametrize("kind, name, place, reason", cases())
def test_each_refusal_of_a_file_says_more(kind, name, place, reason):
    content = (REFUSALS / name).read_bytes()
    with pytest.raises(sdjwt.Unreadable) as caught:
        if kind == "seed":
            issued((REFUSALS / "order.json").read_bytes(), content)
        else:
            CALLS[kind](content)
    assert caught.value.line == f"unreadable {place} {reason}"
    assert caught.value.detail == _detail.detail(reason, content, (kind,)) != ""
    assert pickle.loads(pickle.dumps(caught.value)).detail == caught.value.detail
    run = subprocess.run(
        [sys.executable, TOP / "python/explain.py", caught.value.line, REFUSALS / name], capture_output=True, text=True
    )
    assert run.returncode == 0 and reason in run.stdout
    assert caught.value.detail in run.stdout.replace("\n", " "), run.stdout


# A file of a kind, and its reason with what is said of it, or a part of that.
SAID = [
    ("policy", "", "notJson", "line 1, column 1: the file is empty"),
    ("policy", '{"keys": 1,\n  }', "notJson", "line 2, column 3: a comma stands behind the last member"),
    ("policy", '{"keys": 1\n "iss": 2}', "notJson", "line 2, column 2: a comma or } has to stand here"),
    ("policy", '{"keys": [1,]}', "notJson", "line 1, column 13: a comma stands behind the last element"),
    ("policy", '{"keys" 1}', "notJson", "line 1, column 9: a colon has to stand here"),
    ("policy", '{"keys": }', "notJson", "line 1, column 10: a value is missing before this bracket"),
    ("policy", '{keys: 1}', "notJson", "line 1, column 2: the name of a member has to stand here, in double quotes"),
    ("policy", "{'keys': 1}", "notJson", "line 1, column 2: the name of a member"),
    ("policy", '{"keys": True}', "notJson", "in small letters"),
    ("policy", '{"keys": NaN}', "notJson", "no NaN"),
    (
        "policy",
        '{"keys": 1} // the end',
        "notJson",
        "line 1, column 13: more stands behind the end of the JSON text: JSON has no comments",
    ),
    ("policy", '{"keys": 1', "notJson", "line 1, column 11: the file ends before the } of line 1, column 1"),
    ("policy", '{"keys": "a\nb"}', "notJson", "line 1, column 12: a line end, a tab or another control character"),
    ("policy", '{"keys": "a}', "notJson", "line 1, column 10: the text that begins here has no end"),
    ("policy", '{"keys": "\\x"}', "notJson", "line 1, column 11: this \\ begins no escape"),
    ("policy", '{"keys": "\\ud800"}', "notJson", "half of a surrogate pair"),
    ("policy", '{"keys": "\\udc00"}', "notJson", "half of a surrogate pair"),
    ("policy", '{"keys": 007}', "notJson", "no zero in front"),
    ("policy", '{"keys": -}', "notJson", "a digit has to stand behind this -"),
    ("policy", '{"keys": 1e400}', "notJson", "too great for a float"),
    ("policy", '{"keys": ' + "9" * 400 + "}", "notJson", "too great for a float"),
    ("policy", '{"keys": ' + "[" * 127, "notJson", "line 1, column 136: this is nested deeper than 127 levels"),
    ("policy", "\ufeff{}", "notJson", "line 1, column 1: the file begins with a byte order mark"),
    (
        "policy",
        "eyJh.eyJi.c2ln~",
        "notJson",
        "line 1, column 1: this is a token; the policy, the order or the query comes first",
    ),
    (
        "order",
        "\n1A.eyJi.c2ln\n",
        "notJson",
        "line 2, column 2: this is a token; the policy, the order or the query comes first",
    ),
    ("policy", "1.5.2 of a file", "notJson", "more stands behind the end"),
    ("policy", b'{\n"\xff"}', "notJson", "line 2, column 2: byte 3 of the file, counted from 0, is not UTF-8"),
    ("policy", '{"a": 1}'.encode("utf-16"), "notJson", "UTF-16"),
    (
        "order",
        '{"payload":\n {"a/b": [0, 12.50]}}',
        "notWhole",
        "line 2, column 14: the number at /payload/a~1b/1 has a fraction",
    ),
    ("order", '{"payload": 1e2}', "notWhole", "the number at /payload has an exponent"),
    ("order", '{"payload": -0}', "notWhole", "the number at /payload is -0"),
    ("order", '{"payload": 18446744073709551616}', "notWhole", "is greater than 18446744073709551615"),
    ("order", '{"payload": -9223372036854775809}', "notWhole", "is less than -9223372036854775808"),
    (
        "order",
        '{"payload": {"a": [1.5], "b": 2.5, "a": 1, "b": 3.5}}',
        "notWhole",
        "column 49: the number at /payload/b has a fraction",
    ),
    ("order", "[]", "notObject", "it is a list, and has to be an object"),
    ("policy", '{"keys":%s,"required":["a"]}' % KEYS, "unknown", '"required" is no member of a policy'),
    (
        "order",
        '{"keys":%s}' % KEYS,
        "unknown",
        'which has "payload", "hide", "decoys", "key", "kid", "typ", "alg", "sd_alg"',
    ),
    ("policy", '{"iss":"a"}', "missing keys", 'its members are "iss", and "keys" has to be one'),
    (
        "policy",
        '{"keys":[{"kty":"oct"}]}',
        "wrong keys",
        'at /keys: it is a list, and has to be an object with a list "keys"',
    ),
    ("policy", '{"keys":{"keys":[{"k":"a"}]}}', "wrong keys", 'at /keys/keys/0: it has no "kty"'),
    ("policy", '{"keys":{"keys":[{"kty":"RSA"},{"kty":"oct"}]}}', "wrong keys", 'at /keys/keys/1: it has no "k"'),
    (
        "policy",
        '{"keys":{"keys":[{"kty":"oct","k":"%s"},{"kty":"oct","k":"AAAA"}]}}' % KEY,
        "wrong keys",
        "at /keys/keys/1/k: it codes 3 bytes, of the at least 32 that a key has",
    ),
    (
        "policy",
        '{"keys":{"keys":[{"kty":"oct","k":"AAAA"},{"kty":"oct","k":"A"}]}}',
        "wrong keys",
        "at /keys/keys/1/k: it is too short: 1 letters",
    ),
    (
        "policy",
        '{"keys":{"keys":[{"kty":"oct","k":"secret"}]}}',
        "wrong keys",
        "at /keys/keys/0/k: it is too short: 6 letters, and a key has at least 43",
    ),
    (
        "order",
        '{"payload":{},"key":"my password!=="}',
        "wrong key",
        "at /key: it is too short: 12 letters, and a key has at least 43",
    ),
    (
        "policy",
        '{"keys":{"keys":[{"kty":"oct","k":"%s="}]}}' % KEY,
        "wrong keys",
        "at /keys/keys/0/k: it has = at its end",
    ),
    ("policy", '{"keys":{"keys":[{"kty":"oct","k":"+%s"}]}}' % KEY, "wrong keys", "letter 1 is + or /: this is base64"),
    (
        "policy",
        '{"keys":{"keys":[{"kty":"oct","k":"%s N"}]}}' % KEY[:-2],
        "wrong keys",
        "letter 42 is none of A-Z a-z 0-9 - _",
    ),
    (
        "policy",
        '{"keys":{"keys":[{"kty":"oct","k":"%s"}]}}' % (KEY[:-1] + "N"),
        "wrong keys",
        "the last 2 bits of its last letter",
    ),
    (
        "policy",
        '{"keys":{"keys":[{"kty":"oct","k":"%s","kid":7}]}}' % KEY,
        "wrong keys",
        "at /keys/keys/0/kid: it is a number",
    ),
    ("policy", '{"keys":%s,"skew":3601}' % KEYS, "wrong skew", "at /skew: it has to be from 0 to 3600"),
    (
        "policy",
        '{"keys":%s,"binding":{"aud":"a","nonce":"n","keys":%s}}' % (KEYS, KEYS),
        "wrong binding",
        'at /binding: "max_age" is missing',
    ),
    (
        "policy",
        '{"version":2,"keys":%s,"iss":"a"}' % KEYS,
        "wrong iss",
        "at /iss: it is a text, and has to be a list (in version 2",
    ),
    ("present order", '{"keys":%s,"want":["seat"]}' % KEYS, "wrong want", "at /want/0: a place begins with /"),
    (
        "present order",
        '{"keys":%s,"binding":{"key":"%s","kid":"k","aud":"a","nonce":"%s"}}' % (KEYS, KEY, "n" * 257),
        "wrong binding",
        "at /binding/nonce: it has 257 bytes, and may have 256",
    ),
    (
        "order",
        '{"payload":{},"key":"%s","alg":"HS512"}' % KEY,
        "wrong alg",
        'at /alg: "key" codes 32 bytes, of the at least 64 that HS512 wants',
    ),
    (
        "order",
        '{"payload":{},"key":"%s","decoys":[{"at":"/","n":1}]}' % KEY,
        "wrong decoys",
        'at /decoys/0: it has "n"',
    ),
    ("query", '{"keys":%s,"equal":[{"at":"/a","value":[]}]}' % KEYS, "wrong equal", "at /equal/0/value: it is a list"),
]


@pytest.mark.parametrize("kind, text, reason, said", SAID)
def test_what_is_said(kind, text, reason, said):
    with pytest.raises(sdjwt.Unreadable) as caught:
        CALLS[kind](text)
    assert caught.value.reason == reason
    assert said in caught.value.detail


@pytest.mark.parametrize(
    "text", ['{"payload":{"a":1.5,"a":1},"key":"%s"}' % KEY, '{"key":1,"payload":{},"key":"%s"}' % KEY]
)
def test_of_two_members_with_one_name_the_last_counts(text):
    assert _detail.fault("order", text.encode()) is None
    assert sdjwt.issue(text)


def test_what_is_said_of_a_dict_is_said_of_its_json():
    with pytest.raises(sdjwt.Unreadable) as caught:
        sdjwt.issue({"payload": {"price": 12.5}, "key": KEY})
    assert "the number at /payload/price has a fraction" in caught.value.detail


@pytest.mark.parametrize(
    "text",
    [
        '{"keys":{"keys":[{"kty":"oct","k":"SECRET"}]}}',
        '{"keys":{"keys":[{"kty":"oct","k":SECRET}]}}',
        '{"keys":"SECRET"}',
        '{"keys":{"keys":[{"kty":"oct","k":"SECRET=="}]}}',
        '{"keys":%s,"binding":{"SECRET":"SECRET"}}' % KEYS,
        '{"SECRET":1}',
        '{"keys":%s,"typ":["SECRET"]}' % KEYS,
        '"SECRET',
        '{"keys":{"SECRET":1.5}}',
        '{"keys":{"keys":[{"kty":"oct","k":1.5SECRET}]}}',
    ],
)
def test_no_key_is_repeated(text):
    secret = KEY[:-6] + "+Secret"
    with pytest.raises(sdjwt.Unreadable) as caught:
        sdjwt.Policy(text.replace("SECRET", secret))
    assert caught.value.detail
    assert not any(secret[at:at + 9] in caught.value.detail for at in range(len(secret) - 8))


@pytest.mark.parametrize("name", ["\x1b[2J", "\u202e", "\n", "x" * 1000])
def test_a_name_drives_no_terminal(name):
    for text in (json.dumps({name: 1}), json.dumps({"keys": {name: 1.5}})):
        with pytest.raises(sdjwt.Unreadable) as caught:
            sdjwt.Policy(text)
        assert caught.value.detail.isprintable() and caught.value.detail.isascii() and len(caught.value.detail) < 500


def test_a_line_that_only_the_libraries_write_is_explained():
    with pytest.raises(sdjwt.Unreadable, match="^unreadable 1 missing algs: ") as raised:
        sdjwt.present({"want": []}, "", check=lambda question: True)
    assert raised.value.explanation and raised.value.cause and raised.value.remedy

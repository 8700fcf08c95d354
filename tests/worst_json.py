#!/usr/bin/env python3
"""What texts that cost most cost the program, before a signature is checked. It stands beside the gate and proves
nothing.

    python3 tests/worst_json.py PROGRAM [WORD]...   PROGRAM is sdjwt, as prove.sh or install.sh makes it

Each text has the most bytes that a token file may have, and needs no key: nearly all of it stands where nobody signs.
Of each text in whose name one of the words stands, or of all of them, the peak memory in MB and the seconds of one
processor are printed, for four commands; and how the command ends.
"""
import os
import random
import subprocess
import sys
import tempfile

MOST = 16_777_216
SIGNED = '"payload":"e30","protected":"eyJhbGciOiJIUzI1NiJ9","signature":"AA"'
ENTRY = '"protected":"eyJhbGciOiJIUzI1NiJ9","signature":"AA"'


def repeated(part, length, between=","):
    """As many of one part as fit."""
    return between.join([part] * ((length + len(between)) // (len(part) + len(between))))


def deep_lists(length, depth=120):
    return "[" + repeated("[" * depth + "]" * depth, length - 2) + "]"


def deep_objects(length, depth=120):
    return "[" + repeated('{"":' * depth + "0" + "}" * depth, length - 2) + "]"


def split_lists(length, depth=12):
    """Lists of two lists."""
    text = "[]"
    for _ in range(depth):
        text = f"[{text},{text}]"
    return "[" + repeated(text, length - 2) + "]"


def random_names(length, value="0"):
    """An object whose names come in no order."""
    chosen = random.Random(1)
    count = length // (10 + len(value))
    return "{" + ",".join(f'"{chosen.randrange(10 ** 6):06d}":{value}' for _ in range(count)) + "}"


def in_header(inner):
    return "{" + SIGNED + ',"header":{"x":' + inner(MOST - 200) + "}}"


def passed_over(inner, behind=""):
    return "{" + SIGNED + ',"x":' + inner(MOST - 200) + behind + "}"


def in_entry(inner):
    return '{"payload":"e30","signatures":[{' + ENTRY + ',"x":' + inner(MOST - 200) + "}]}"


def in_later_entry(inner):
    return '{"payload":"e30","signatures":[{' + ENTRY + '},{"x":' + inner(MOST - 200) + "}]}"


def compact(inner):
    import base64

    text = '{"alg":"HS256","x":' + inner(6_291_000) + "}"
    return base64.urlsafe_b64encode(text.encode()).rstrip(b"=").decode() + ".e30.AA~"


TEXTS = {
    "header: deep lists": lambda: in_header(deep_lists),
    "header: deep objects": lambda: in_header(deep_objects),
    "header: lists of two": lambda: in_header(split_lists),
    "header: empty lists": lambda: in_header(lambda n: "[" + repeated("[]", n - 2) + "]"),
    "header: short texts": lambda: in_header(lambda n: "[" + repeated('"a"', n - 2) + "]"),
    "header: one text of escapes": lambda: in_header(lambda n: '"' + repeated("\\u00e9", n - 2, "") + '"'),
    "header: names in no order": lambda: in_header(random_names),
    "header: deep lists, 1.5 behind": lambda: in_header(lambda n: deep_lists(n - 8) + ',"y":1.5'),
    "header: deep lists, 1.5 replaced": lambda: in_header(lambda n: deep_lists(n - 20) + ',"y":1.5,"y":1'),
    "header: disclosures of a letter": lambda: "{" + SIGNED + ',"header":{"disclosures":['
    + repeated('"a"', MOST - 200) + "]}}",
    "passed over: deep lists": lambda: passed_over(deep_lists),
    "passed over: empty lists": lambda: passed_over(lambda n: "[" + repeated("[]", n - 2) + "]"),
    "passed over: names in no order": lambda: passed_over(random_names),
    "passed over: 1.5 under each name": lambda: passed_over(lambda n: random_names(n, "1.5")),
    "passed over: the same, replaced": lambda: passed_over(lambda n: random_names(n, "1.5"), ',"x":0'),
    "passed over: deep lists, not JSON": lambda: passed_over(lambda n: deep_lists(n - 8) + ",}"),
    "first entry: deep lists": lambda: in_entry(deep_lists),
    "later entry: deep lists": lambda: in_later_entry(deep_lists),
    "later entries: empty": lambda: '{"payload":"e30","signatures":[{' + ENTRY + "}," + repeated("{}", MOST - 200) + "]}",
    "compact: deep lists": lambda: compact(deep_lists),
}


def measured(words):
    """The peak memory in MB, the seconds of the processor, and the end of a run."""
    with subprocess.Popen(words, stdout=subprocess.DEVNULL, stderr=subprocess.PIPE, text=True) as run:
        line = run.stderr.read().strip().splitlines()
        _, status, used = os.wait4(run.pid, 0)
        run.returncode = os.waitstatus_to_exitcode(status)
    return used.ru_maxrss / 1024, used.ru_utime + used.ru_stime, line[-1] if line else f"status {run.returncode}"


def main():
    if len(sys.argv) < 2:
        sys.exit(__doc__.strip())
    program, words = sys.argv[1], sys.argv[2:]
    walk = os.path.join(os.path.dirname(os.path.abspath(__file__)), "..", "examples", "walk")
    commands = {
        "verify": ["verify", os.path.join(walk, "policy.json")],
        "present": ["present", os.path.join(walk, "present.json")],
        "show": ["show"],
        "convert": ["convert", "general"],
    }
    print(f"{'text':34}" + "".join(f"{name:>16}" for name in commands) + "  how verify ends")
    with tempfile.TemporaryDirectory() as made:
        path = os.path.join(made, "token")
        for name, text in TEXTS.items():
            if words and not any(word in name for word in words):
                continue
            with open(path, "w", encoding="ascii") as file:
                file.write(text())
            if os.path.getsize(path) > MOST:
                sys.exit(f"worst_json.py: {name}: {os.path.getsize(path)} bytes are too many")
            cells = [measured([program, *command, path]) for command in commands.values()]
            figures = "".join(f"{megabytes:>9,.0f} {seconds:>5.2f}s" for megabytes, seconds, _ in cells)
            print(f"{name:34}{figures}  {cells[0][2]}", flush=True)


main()

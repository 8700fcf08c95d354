#!/usr/bin/env python3
"""Measures what files and tokens cost at their limits. It stands beside the gate and proves nothing.

    python3 tests/limits.py PROGRAM TOOLS [WORD]

PROGRAM is sdjwt and TOOLS is sdjwt_tools, as prove.sh or install.sh makes them. Each list that a file may have fills
the 16,777,216 bytes of a file, or has the most entries that are taken, and stands beside a token of 32,768 disclosures.
A token is wide, with all of them side by side, or deep, with most of them at the end of 96 hidden steps. Each run has to
end with status 0, and none may take more than 2 seconds of the processor, and 0.2 seconds for each token after the
first, since tokens are read one after the other. A line that is printed has the seconds of one run, those of the system
with them, and its peak memory. With WORD, only the lines with this word are measured.
"""
import base64
import os
import sys
import tempfile

MOST = 16777216
COUNT = 32768
SECONDS = 2
TOKEN_SECONDS = 0.2
TOKENS = 64
STEPS = 96
KEY = base64.urlsafe_b64encode(bytes(range(32))).rstrip(b"=").decode()
OWN = '{"kty":"oct","kid":"own","k":"%s"}' % KEY
OTHER = '{"kty":"oct","kid":"other","k":"%s"}' % KEY


def filled(start, entries, end):
    """A file that begins and ends so, with the entries between as often as they fit."""
    left = MOST - len(start) - len(end) + 1
    taken = []
    while True:
        for entry in entries:
            left -= len(entry) + 1
            if left < 0:
                return start + ",".join(taken) + end
            taken.append(entry)


def names(count):
    return [f"m{i:05}" for i in range(count)]


def ways():
    return ["/a" * length for length in range(1, STEPS + 1)]


def places(form):
    """Where the 32,768 hidden claims of a token stand."""
    if form == "wide":
        return ["/" + name for name in names(COUNT)]
    return ways() + [f"{ways()[-1]}/{name}" for name in names(COUNT - STEPS)]


def quoted(texts):
    return [f'"{text}"' for text in texts]


def payload(form):
    if form == "wide":
        return '{"iss":"limits",%s}' % ",".join(f'"{name}":1' for name in names(COUNT))
    inside = ",".join(f'"{name}":1' for name in names(COUNT - STEPS))
    return '{"iss":"limits","cnf":{"kid":"own"},%s{%s}%s}' % ('"a":{' * (STEPS - 1) + '"a":', inside, "}" * (STEPS - 1))


def empties():
    return '{"iss":"limits",%s}' % ",".join(f'"{name}":{{}}' for name in names(COUNT))


def order(claims):
    return '{"key":"%s","kid":"own","payload":%s,' % (KEY, claims)


def decoys(count):
    return ['{"at":"%s","count":%d}' % (place, count) for place in places("wide")]


def listed(entries):
    return ",".join(entries)


def keyed(more, keys=OWN):
    return '{"keys":{"keys":[%s]},%s' % (keys, more)


def wants(form):
    return keyed('"want":[%s]' % listed(quoted(places(form))))


def misses(form):
    """Places that differ from those of the token at their very ends."""
    return quoted(place + "x" for place in places(form))


def equals(form):
    return ['{"at":"%s","value":1}' % place for place in places(form)[0 if form == "wide" else STEPS:]]


def holder(member):
    return '"binding":{"aud":"door","nonce":"once",%s}}' % member


FORMS = ("wide", "deep")
ISSUE = [
    (f"hide, {COUNT:,} places, {form}", f"order.{form}", f"issued.{form}",
     lambda form=form: order(payload(form)) + '"hide":[%s]}' % listed(quoted(places(form)))) for form in FORMS
] + [
    (f"hide, filled, {form}", f"refill.{form}", "", lambda form=form:
     filled(order(payload(form)) + '"hide":[', quoted(places(form)), "]}")) for form in FORMS
] + [
    (f"decoys, one at each of {COUNT:,} places", "decoys", "issued.decoys",
     lambda: order(empties()) + '"decoys":[%s]}' % listed(decoys(1))),
    ("decoys, filled with counts of 0", "decoys.filled", "issued.none",
     lambda: filled(order(empties()) + '"decoys":[', decoys(0), "]}")),
]
PRESENT = [line for form in FORMS for line in [
    (f"want, {COUNT:,} places, {form}", form, lambda form=form: wants(form) + "}"),
    (f"want, filled, {form}", form,
     lambda form=form: filled(keyed('"want":['), quoted(places(form)), "]}")),
    (f"want and never, {COUNT:,} places each, {form}", form,
     lambda form=form: wants(form) + ',"never":[%s]}' % listed(misses(form))),
    (f"never, filled beside {COUNT:,} of want, {form}", form,
     lambda form=form: filled(wants(form) + ',"never":[', misses(form), "]}")),
]] + [
    ("keys, filled", "wide", lambda: filled('{"keys":{"keys":[', [OTHER], "," + OWN + "]}}")),
]
VERIFY = [
    ("require, filled", "wide", lambda: filled(keyed('"require":['), quoted(names(COUNT)), "]}")),
    ("algs, filled", "wide", lambda: filled(keyed('"algs":['), ['"HS384"'], ',"HS256"]}')),
    ("iss of version 2, filled", "wide", lambda: filled(keyed('"version":2,"iss":['), ['"other"'], ',"limits"]}')),
    ("keys, filled", "wide", lambda: filled('{"keys":{"keys":[', [OTHER], "," + OWN + "]}}")),
    ("keys of binding, filled", "bound", lambda: filled(
        keyed('"binding":{"aud":"door","nonce":"once","max_age":600,"keys":{"keys":['), [OTHER], "," + OWN + "]}}}")),
    ("aud of version 2, 16 texts of 256 bytes", "bound", lambda: keyed(
        '"version":2,"binding":{"aud":[%s],"nonce":"once","max_age":600,"keys":{"keys":[%s]}}}' % (
            listed(quoted(["x" * 256] * 15 + ["door"])), OWN))),
]
WALLET = [line for form in FORMS for line in [
    (f"want, filled, {form}", form, lambda form=form: filled(keyed('"want":['), quoted(places(form)), "]}")),
    (f"equal, filled, {form}", form, lambda form=form: filled(keyed('"equal":['), equals(form), "]}")),
    (f"never, filled beside {COUNT:,} of want, {form}", form,
     lambda form=form: filled(wants(form) + ',"never":[', misses(form), "]}")),
]] + [
    ("keys, filled", "wide", lambda: filled('{"keys":{"keys":[', [OTHER], "," + OWN + "]}}")),
]


def write(name, made):
    """Writes what is made, in a process of its own, since the memory of this one counts for those that it starts."""
    child = os.fork()
    if child == 0:
        with open(name, "w", encoding="ascii") as file:
            file.write(made())
        os._exit(0)
    if os.waitpid(child, 0)[1] != 0:
        sys.exit(f"limits.py: {name} could not be written")


def run(words, answer):
    """The seconds of the processor and the peak memory in MB of one run, whose answer goes to this file."""
    child = os.fork()
    if child == 0:
        os.dup2(os.open(answer or os.devnull, os.O_WRONLY | os.O_CREAT | os.O_TRUNC), 1)
        os.execv(words[0], words)
    _, status, used = os.wait4(child, 0)
    if status != 0:
        sys.exit(f"limits.py: {' '.join(words)}: status {os.waitstatus_to_exitcode(status)}")
    return used.ru_utime + used.ru_stime, used.ru_maxrss / 1024


class Table:
    def __init__(self, word):
        self.word = word
        self.slow = 0
        print("| Command | What is at its limit | Seconds | Peak memory, MB |\n|---|---|---|---|")

    def row(self, command, what, words, answer="", tokens=1):
        seconds, memory = run(words, answer)
        if self.word not in f"{command} {what}":
            return
        self.slow += seconds > SECONDS + TOKEN_SECONDS * (tokens - 1)
        print(f"| `{command}` | {what} | {seconds:.2f} | {memory:.0f} |", flush=True)


def issued(table, program, tools):
    write("seed", lambda: "a seed for the limits, used twice")
    for what, name, answer, made in ISSUE:
        write(name, made)
        table.row("issue", what, [program, "issue", name, "seed"], answer or "answer")
        table.row("audit", what, [tools, "audit", name, answer or "answer"])


def main():
    if len(sys.argv) not in (3, 4):
        sys.exit(__doc__)
    program, tools = (os.path.abspath(path) for path in sys.argv[1:3])
    table = Table(sys.argv[3] if len(sys.argv) == 4 else "")
    with tempfile.TemporaryDirectory() as folder:
        os.chdir(folder)
        issued(table, program, tools)
        write("bind", lambda: wants("deep") + "," + holder('"kid":"own","key":"%s"' % KEY))
        run([program, "present", "bind", "issued.deep"], "issued.bound")
        for command, lines in (("present", PRESENT), ("verify", VERIFY), ("wallet", WALLET)):
            for what, form, made in lines:
                if table.word not in f"{command} {what}":
                    continue
                write("file", made)
                table.row(command, what, [tools if command == "wallet" else program, command, "file", f"issued.{form}"])
        write("file", lambda: wants("wide") + "}")
        words = [tools, "wallet", "file"] + ["issued.wide"] * TOKENS
        table.row("wallet", f"{TOKENS} tokens, each wide", words, tokens=TOKENS)
        os.chdir("/")
    if table.slow:
        sys.exit(f"limits.py: {table.slow} runs took too long")
    print(f"each run took at most {SECONDS} seconds, and {TOKEN_SECONDS} for each token after the first")


if __name__ == "__main__":
    main()

"""A program with an answer turned, for tests/properties.py --wrong, which makes a script of it for each law.

    python3 tests/wrong.py LAW PROGRAM WORDS ..

It runs PROGRAM, and turns the first piece of its output that has the form that is named here for the law.
"""

import os
import re
import subprocess
import sys

# For each law the command whose output is turned, what is sought in it, and what stands there then.
TURNS = {
    "presented": ("feed", rb"accepted \{.+\}", rb'accepted {"another":"payload"}'),
    "no_forgery": ("feed", rb"refused 17 .*", rb'accepted {"admin":true}'),
    "same_verdict": ("feed", rb"accepted .*", rb"refused 10 badSignature"),
    "any_cut": ("none", rb"", rb""),  # Its input is turned: a line ends wherever a piece does.
    "audited": ("audit", rb"yes", rb"no"),
    "IsFewest": ("wallet", rb"~[^~\n]+~\n", rb"~\n"),  # It leaves out the last disclosure.
    "version_one": ("feed", rb"accepted .*", rb"refused 22 issuerRefused"),  # Under a policy of version 2 alone.
}


def pieces() -> bytes:
    """Standard input, with a line end behind each piece of it."""
    taken = b""
    while piece := os.read(0, 65536):
        taken += piece if piece.endswith(b"\n") else piece + b"\n"
    return taken


def main() -> int:
    """A run of the program."""
    law, program, *words = sys.argv[1:]
    given = b""
    if words[:1] == ["feed"]:
        given = pieces() if law == "any_cut" else sys.stdin.buffer.read()
    done = subprocess.run([program, *words], input=given, capture_output=True, check=False)
    command, sought, other = TURNS[law]
    output = done.stdout
    if words[0] == command and (law != "version_one" or b'"version":2' in open(words[1], "rb").read()):
        output = re.sub(sought, other, output, count=1)
    sys.stdout.buffer.write(output)
    sys.stderr.buffer.write(done.stderr)
    return done.returncode


if __name__ == "__main__":
    sys.exit(main())

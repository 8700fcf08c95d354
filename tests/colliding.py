#!/usr/bin/env python3
"""Times `verify` for tokens whose digests collide. It stands beside the gate and proves nothing.

    python3 tests/colliding.py PROGRAM      PROGRAM is sdjwt, as prove.sh or install.sh makes it

A token is signed, and has 12,000 digests in the `_sd` of its payload and no disclosure. The digests are random, or
collide under a hash with no seed: that of the kit's maps (`fold`), or that of an index with the seed 0 (`sip`). The
program has to accept each.

Another token is signed by an honest issuer, and has no digest. Whoever has it sends 3,000 disclosures with it, which are
random, or chosen so that their digests collide under the seed that the signature alone gives (`sent`). The program has
to refuse each, since no disclosure has a place.

No token may take more than twice as long as the one of its kind with random digests. Finding texts that collide takes a
C compiler and a minute or two.
"""
import base64
import hashlib
import hmac
import json
import os
import resource
import subprocess
import sys
import tempfile

COUNT = 12000
SENT = 3000
UNREFERENCED = "refused 17 unreferencedDisclosure at 0"
KEY = b"a key of thirty-two bytes or more"
STARTS = 15


def encoded(octets):
    return base64.urlsafe_b64encode(octets).rstrip(b"=").decode()


def token(claims):
    header = encoded(json.dumps({"alg": "HS256"}).encode())
    payload = encoded(json.dumps({"iss": "stranger", **claims}).encode())
    signature = hmac.new(KEY, f"{header}.{payload}".encode(), hashlib.sha256).digest()
    return f"{header}.{payload}.{encoded(signature)}~"


def random_digests():
    return [encoded(hashlib.sha256(str(i).encode()).digest()) for i in range(COUNT)]


def random_disclosures():
    return [encoded(f'["BBBBBB{salt:016x}",1]'.encode()) for salt in range(SENT)]


def colliding(tool, *words):
    made = subprocess.run([tool, *words], check=True, stdout=subprocess.PIPE)
    return made.stdout.decode().split()


def tokens_of_digests(tool):
    """Tokens by name, each with its digests in the payload. The first is that of random ones."""
    sets = {"random": random_digests()}
    for name in ("fold", "sip"):
        sets[name] = colliding(tool, name, str(COUNT))
    return {name: token({"_sd": digests}) for name, digests in sets.items()}


def tokens_with_disclosures(tool):
    """Tokens by name, each with disclosures of whoever sends it. The first is that of random ones."""
    signed = token({})
    signature = signed.split(".")[2].rstrip("~")
    sets = {"random": random_disclosures(), "sent": colliding(tool, "sent", str(SENT), signature)}
    return {name: signed + "".join(text + "~" for text in texts) for name, texts in sets.items()}


def spent():
    used = resource.getrusage(resource.RUSAGE_CHILDREN)
    return used.ru_utime + used.ru_stime


def least_time(program, policy, path, refusal):
    """The least time of some runs, in milliseconds of user and system time. Each says this refusal, or none."""
    least = None
    for _ in range(STARTS):
        before = spent()
        done = subprocess.run([program, "verify", policy, path], stdout=subprocess.DEVNULL, stderr=subprocess.PIPE)
        said = done.stderr.decode().strip()
        if said != refusal:
            sys.exit(f"colliding.py: {path}: '{said}' in the place of '{refusal}'")
        taken = spent() - before
        least = taken if least is None else min(least, taken)
    return 1000 * least


def written(folder, name, text):
    path = os.path.join(folder, name)
    with open(path, "w", encoding="utf-8") as file:
        file.write(text)
    return path


def slow_ones(program, folder, policy, kind, tokens, refusal):
    """Those of the tokens that take more than twice the time of the first."""
    times = {}
    for name, text in tokens.items():
        times[name] = least_time(program, policy, written(folder, name, text), refusal)
        print(f"{kind}, {name}: {times[name]:.1f} ms")
    return [f"{kind}, {name}" for name in times if times[name] > 2 * times["random"]]


def main():
    if len(sys.argv) != 2:
        sys.exit("usage: python3 tests/colliding.py PROGRAM")
    program = os.path.abspath(sys.argv[1])
    here = os.path.dirname(os.path.abspath(__file__))
    with tempfile.TemporaryDirectory() as folder:
        tool = os.path.join(folder, "colliding")
        subprocess.run(["cc", "-O2", "-o", tool, os.path.join(here, "colliding.c")], check=True)
        key = {"kty": "oct", "k": encoded(KEY)}
        policy = written(folder, "policy.json", json.dumps({"keys": {"keys": [key]}, "iss": "stranger"}))
        slow = slow_ones(program, folder, policy, "digests of a payload", tokens_of_digests(tool), "")
        slow += slow_ones(program, folder, policy, "disclosures", tokens_with_disclosures(tool), UNREFERENCED)
    if slow:
        sys.exit(f"colliding.py: more than twice the time of random digests: {'; '.join(slow)}")


if __name__ == "__main__":
    main()

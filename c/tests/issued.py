#!/usr/bin/env python3
"""Runs c/examples/signed.c, which issues with a key of OpenSSL: issued.py PROGRAM

Its token has the header and the claims of its order, and a signature that the program openssl finds good under the public
key, and under no other; each of its tokens has another salt. With a key of another kind, or with none, it issues nothing.
"""
import base64
import hashlib
import json
import subprocess
import sys
import tempfile
from pathlib import Path

P_256 = ("EC", "-pkeyopt", "ec_paramgen_curve:P-256")
OTHERS = (("EC", "-pkeyopt", "ec_paramgen_curve:P-384"), ("EC", "-pkeyopt", "ec_paramgen_curve:secp256k1"), ("ED25519",), ("RSA",))
PAYLOAD = {"iss": "https://tickets.example", "cnf": {"kid": "ada"}, "_sd_alg": "sha-256"}


def made_key(folder, name, kind):
    private, public = folder / f"{name}.pem", folder / f"{name}.pub"
    subprocess.run(["openssl", "genpkey", "-quiet", "-algorithm", *kind, "-out", private], check=True, stderr=subprocess.DEVNULL)
    subprocess.run(["openssl", "pkey", "-in", private, "-pubout", "-out", public], check=True)
    return private, public


def ran(program, given):
    """The status, the token and the line."""
    run = subprocess.run([program], input=given, capture_output=True, check=False)
    return run.returncode, run.stdout.decode(), run.stderr.decode()


def decoded(text):
    return base64.urlsafe_b64decode(text + "=" * (-len(text) % 4))


def as_der(pair):
    """r and s as OpenSSL has them."""
    numbers = b""
    for half in (pair[:32], pair[32:]):
        number = half.lstrip(b"\0") or b"\0"
        number = b"\0" * (number[0] >> 7) + number
        numbers += bytes([2, len(number)]) + number
    return bytes([0x30, len(numbers)]) + numbers


def is_good(folder, public, text, pair):
    (folder / "signature").write_bytes(as_der(pair))
    words = ["openssl", "dgst", "-sha256", "-verify", public, "-signature", folder / "signature"]
    return subprocess.run(words, input=text, capture_output=True, check=False).returncode == 0


def main():
    program = sys.argv[1]
    with tempfile.TemporaryDirectory() as name:
        folder, salts = Path(name), set()
        (private, public), (_, other) = (made_key(folder, key, P_256) for key in ("key", "other"))
        for _ in range(20):
            status, token, line = ran(program, private.read_bytes())
            assert (status, line) == (0, ""), (status, line)
            jwt, *disclosures, end = token.split("~")
            head, body, signature = jwt.split(".")
            digests = [base64.urlsafe_b64encode(hashlib.sha256(text.encode()).digest()).rstrip(b"=").decode() for text in disclosures]
            assert json.loads(decoded(head)) == {"alg": "ES256", "kid": "tickets-1"} and end == "\n", token
            assert json.loads(decoded(body)) == {**PAYLOAD, "_sd": sorted(digests)}, token
            claims = [json.loads(decoded(text)) for text in disclosures]
            assert [claim[1:] for claim in claims] == [["name", "Ada"], ["seat", "B12"]], claims
            salts.update(claim[0] for claim in claims)
            text, pair = f"{head}.{body}".encode(), decoded(signature)
            assert len(pair) == 64 and is_good(folder, public, text, pair)
            assert not is_good(folder, other, text, pair) and not is_good(folder, public, text + b".", pair)
        assert len(salts) == 40, salts
        for number, kind in enumerate(OTHERS):
            assert ran(program, made_key(folder, str(number), kind)[0].read_bytes()) == (2, "", ""), kind
        for given in (b"", b"no key", public.read_bytes()):
            assert ran(program, given) == (2, "", ""), given
    print("20 tokens of c/examples/signed.c are signed, and of other keys none")


if __name__ == "__main__":
    main()

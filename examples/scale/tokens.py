#!/usr/bin/env python3
"""Writes small tokens, each another, one a line, as the issuer of policy.json signs them.

    python3 examples/scale/tokens.py 1000000 >tokens.txt

Each has two hidden claims, of which one is shown, and some 297 bytes. They are made with hashlib and hmac alone.
"""
import base64
import hashlib
import hmac
import json
import signal
import sys

KEY = bytes([1]) * 32
HEADER = {"alg": "HS256"}


def b64url(data):
    return base64.urlsafe_b64encode(data).rstrip(b"=").decode()


def encoded(value):
    return b64url(json.dumps(value, separators=(",", ":")).encode())


def token(number):
    hidden = [encoded([f"salt {number:08}", "name", f"user {number}"]),
              encoded([f"Salt {number:08}", "age", number % 100])]
    digests = sorted(b64url(hashlib.sha256(text.encode()).digest()) for text in hidden)
    signed = encoded(HEADER) + "." + encoded({"_sd": digests, "exp": 4102444800, "iss": "office"})
    mac = hmac.new(KEY, signed.encode(), hashlib.sha256).digest()
    return f"{signed}.{b64url(mac)}~{hidden[0]}~\n"


def main():
    if len(sys.argv) != 2 or not sys.argv[1].isdecimal():
        sys.exit(__doc__)
    # whoever reads no more ends this without a word
    signal.signal(signal.SIGPIPE, signal.SIG_DFL)
    for number in range(int(sys.argv[1])):
        sys.stdout.write(token(number))


if __name__ == "__main__":
    main()

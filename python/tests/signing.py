"""Tokens that are signed anew: an HMAC token under another algorithm, with the same claims and the same disclosures.

An algorithm of three letters and three digits has as many letters as `HS256`, so a header keeps its length.
"""
import base64
import hashlib
import hmac
import json
import re

import sdjwt

KNOWN = ("HS256", "HS384", "HS512")
HASHES = {"256": hashlib.sha256, "384": hashlib.sha384, "512": hashlib.sha512}


def encoded(content):
    return base64.urlsafe_b64encode(content).rstrip(b"=").decode()


def decoded(text):
    return base64.urlsafe_b64decode(text + "=" * (-len(text) % 4))


def mac(key, alg, text):
    """The HMAC of a text, by the digits of the algorithm."""
    return hmac.new(key, text, HASHES[alg[2:]]).digest()


def hashed(make, text):
    return encoded(make(text.encode()).digest()).encode()


class Resigner:
    """Gives tokens another algorithm in the place of `HS256` and the like, of which only the first two letters differ.

    What was signed with one of the keys is signed anew by `sign`, with the key, the algorithm and the text. Another
    signature stays as it is.
    """

    def __init__(self, letters, keys, sign):
        self.letters, self.keys, self.sign = letters.encode(), keys, sign

    def jwt(self, text, hashes=()):
        """A JWT anew. Of each pair of hashes the second stands in the place of the first."""
        try:
            head, body, signature = text.split(".")
            header = json.loads(decoded(head))
            alg = header["alg"] if header["alg"] in KNOWN else "HS256"
            # what is no base64url text of anything stays what it is
            assert encoded(decoded(head)) == head and encoded(decoded(body)) == body
            old = f"{head}.{body}".encode()
            signer = next((key for key in self.keys if encoded(mac(key, alg, old)) == signature), None)
        except (ValueError, KeyError, TypeError, AssertionError):
            return text
        head = encoded(re.sub(rb'"HS(256|384|512)"', rb'"' + self.letters + rb'\1"', decoded(head)))
        content = decoded(body)
        for before, after in hashes:
            content = content.replace(before, after)
        body = encoded(content)
        if signer is not None:
            signature = encoded(self.sign(signer, self.letters.decode() + alg[2:], f"{head}.{body}".encode()))
        return f"{head}.{body}.{signature}"

    def token(self, token):
        """A token anew, in the form that it has, with its key binding token."""
        try:
            parts = sdjwt.split(token, most=2**25)
        except sdjwt.Refused:
            return token
        old = ".".join(parts[name] for name in ("protected", "payload", "signature"))
        new = self.jwt(old)
        if parts["binding"] is not None:
            shown = "~" + "".join(f"{text}~" for text in parts["disclosures"])
            hashes = [(hashed(make, old + shown), hashed(make, new + shown)) for make in HASHES.values()]
            token = token.replace(parts["binding"].encode(), self.jwt(parts["binding"], hashes).encode())
        for before, after in zip(old.split("."), new.split(".")):
            token = token.replace(before.encode(), after.encode())
        return token


def verdict(policy, token, now, **more):
    """The claims, or the line of the refusal."""
    try:
        return policy.verify(token, now, most=2**25, **more)
    except sdjwt.Refused as refused:
        return refused.line

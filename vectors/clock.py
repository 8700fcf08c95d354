"""Vectors that tell whether a program knows what time it is.

They are made for the time at which they are made, and are true for some minutes behind it. All others are true at any
time, or at the one that they name.
"""
import base64
import hashlib
import hmac
import json

HOUR = 3600
WHEN = {-1: "an hour ago", 0: "now", 1: "in an hour"}
ISSUER, HOLDER = bytes([1]) * 32, bytes([2]) * 32


def b64url(data):
    return base64.urlsafe_b64encode(data).rstrip(b"=").decode()


def written(value):
    return json.dumps(value, sort_keys=True, separators=(",", ":"))


def signed(key, header, payload):
    text = ".".join(b64url(written(part).encode()) for part in (header, payload))
    return f"{text}.{b64url(hmac.new(key, text.encode(), hashlib.sha256).digest())}"


def key_set(key, **names):
    return {"keys": [{"kty": "oct", "k": b64url(key), **names}]}


POLICY = written({"keys": key_set(ISSUER)})
BOUND = written({"keys": key_set(ISSUER), "binding": {
    "aud": "v", "nonce": "n", "max_age": HOUR // 2, "keys": key_set(HOLDER, kid="h")}})
ORDER = written({"keys": key_set(ISSUER), "binding": {"aud": "v", "nonce": "n", "kid": "h", "key": b64url(HOLDER)}})
CLAIMS = {"cnf": {"kid": "h"}}


def token(claims):
    return signed(ISSUER, {"alg": "HS256"}, claims) + "~"


def bound(iat):
    """A token with a key binding token of this time."""
    front = token(CLAIMS)
    says = {"aud": "v", "nonce": "n", "iat": iat, "sd_hash": b64url(hashlib.sha256(front.encode()).digest())}
    return front + signed(HOLDER, {"alg": "HS256", "typ": "kb+jwt"}, says)


def verified(about, policy, text, claims, line):
    return {"about": about, "files": {"p": policy, "t": text}, "runs": [{"words": ["verify", "p", "t"]}],
            "status": 1 if line else 0, "output": "" if line else written(claims) + "\n", "line": line}


def vectors(now):
    """The vectors for this time, in seconds since 1970."""
    found = []
    for claim, hours, line in (("exp", 1, ""), ("exp", -1, "refused 25 expired"),
                               ("nbf", -1, ""), ("nbf", 1, "refused 26 notYet")):
        claims = {claim: now + hours * HOUR}
        found.append(verified(f"A token with `{claim}` {WHEN[hours]}.", POLICY, token(claims), claims, line))
    for hours, line in ((0, ""), (-1, "refused 33 bindingStale"), (1, "refused 34 bindingEarly")):
        about = f"A key binding token with `iat` {WHEN[hours]}."
        found.append(verified(about, BOUND, bound(now + hours * HOUR), CLAIMS, line))
    presented = verified("A token that is presented now.", BOUND, token(CLAIMS), CLAIMS, "")
    presented["files"]["o"] = ORDER
    presented["runs"] = [{"words": ["present", "o", "t"], "kept_as": "s"}, {"words": ["verify", "p", "s"]}]
    return [{"name": f"clock {number}", **vector} for number, vector in enumerate([*found, presented], 1)]

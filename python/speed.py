#!/usr/bin/env python3
"""How many tokens a second: the package, the program, and the bare signature check of other libraries, side by side.

    python3 speed.py [--program sdjwt] [--seconds 2] [--json FILE]

The token has ten disclosures, of which all are shown, and the policy has two keys. It is signed with HS256, and then
with ES256. Each figure is the best of five rounds of so many seconds, on 1, 2 and 4 threads. Beside the calls a second
stands the time of the processor that a call takes on one thread, which other work on the machine disturbs less. With
--json the figures are written to a file too; bench/report.py reads it.
"""
import argparse
import base64
import json
import subprocess
import tempfile
import threading
import time
from pathlib import Path

import sdjwt


def encoded(content):
    return base64.urlsafe_b64encode(content).rstrip(b"=").decode()


KEY = bytes(range(1, 33))
TEXT = encoded(KEY)
OTHER = encoded(bytes(32))
HEADER = b'"alg":"ES256","kid":"one"'
ORDER = {"payload": {"iss": "office", "exp": 4102444800, **{f"claim_{i}": f"value of claim {i}" for i in range(10)}},
         "hide": [f"/claim_{i}" for i in range(10)], "key": TEXT, "kid": "one"}
POLICY = {"keys": {"keys": [{"kty": "oct", "kid": "other", "k": OTHER}, {"kty": "oct", "kid": "one", "k": TEXT}]},
          "iss": "office", "require": ["claim_3"]}


def rate(call, seconds, threads=1):
    """Calls a second on so many threads, the best of five rounds."""
    best = 0.0
    for _ in range(5):
        counts = [0] * threads
        end = time.perf_counter() + seconds

        def work(which):
            done = 0
            while time.perf_counter() < end:
                for _ in range(20):
                    call()
                done += 20
            counts[which] = done

        start = time.perf_counter()
        running = [threading.Thread(target=work, args=(which,)) for which in range(threads)]
        for thread in running:
            thread.start()
        for thread in running:
            thread.join()
        best = max(best, sum(counts) / (time.perf_counter() - start))
    return best


def time_of(call, rounds=9, calls=1000):
    """Microseconds of the processor for a call, the best of some rounds."""
    best = float("inf")
    for _ in range(rounds):
        start = time.thread_time()
        for _ in range(calls):
            call()
        best = min(best, (time.thread_time() - start) / calls)
    return best * 1e6


THREADS = (1, 2, 4)
FIGURES = {}


def calls_for(seconds):
    """How many calls are timed in a round: fewer if the rounds are short."""
    return 1000 if seconds >= 1 else 20


def tell(name, call, seconds, on=THREADS):
    rates = {str(threads): rate(call, seconds, threads) for threads in on}
    FIGURES[name] = {"us": time_of(call, calls=calls_for(seconds)), **rates}
    told = ", ".join(f"{each:,.0f} a second on {threads}" for threads, each in rates.items())
    print(f"{name}: {told} threads, {FIGURES[name]['us']:.0f} us of the processor")


def of_joserfc(jwt, public):
    from joserfc import jwk, jws
    key = jwk.ECKey.import_key(public) if public else jwk.OctKey.import_key(KEY)
    return "joserfc, signature alone", lambda: jws.deserialize_compact(jwt, key)


def of_jwcrypto(jwt, public):
    from jwcrypto import jwk as keys
    from jwcrypto import jws as tokens
    key = keys.JWK(**(public or {"kty": "oct", "k": TEXT}))

    def check():
        token = tokens.JWS()
        token.deserialize(jwt, key)

    return "jwcrypto, signature alone", check


def of_pyjwt(jwt, public):
    import jwt as tokens
    from jwt.algorithms import ECAlgorithm
    key, alg = (ECAlgorithm.from_jwk(json.dumps(public)), "ES256") if public else (KEY, "HS256")
    return "PyJWT, signature, exp and payload", lambda: tokens.decode(jwt, key, algorithms=[alg])


def tell_peers(jwt, alg, seconds, public=None):
    """The check of the signature by others, where they are installed: no disclosure is looked at."""
    for name, peer in (("joserfc", of_joserfc), ("jwcrypto", of_jwcrypto), ("PyJWT", of_pyjwt)):
        try:
            who, check = peer(jwt, public)
        except ImportError:
            print(f"skipped: {name} is not installed")
            continue
        tell(f"{alg}: {who}", check, seconds)


class Pair:
    """A key pair of P-256: how it signs, and its public key as a JWK."""

    def __init__(self):
        from cryptography.hazmat.primitives import hashes
        from cryptography.hazmat.primitives.asymmetric import ec
        from cryptography.hazmat.primitives.asymmetric.utils import decode_dss_signature
        pair = ec.generate_private_key(ec.SECP256R1())
        numbers = pair.public_key().public_numbers()
        self.jwk = {
            "kty": "EC",
            "crv": "P-256",
            **{name: encoded(getattr(numbers, name).to_bytes(32, "big")) for name in "xy"},
        }
        self.private = pair
        self.sign = lambda text: b"".join(
            number.to_bytes(32, "big") for number in decode_dss_signature(pair.sign(text, ec.ECDSA(hashes.SHA256()))))


class Public:
    """The same token signed with ES256, and the parts of its verification; and a policy for both kinds of keys."""

    def __init__(self, shown):
        pair = Pair()
        jwk = {**pair.jwk, "kid": "one"}
        jwt, behind = shown.split("~", 1)
        text = f"{encoded(b'{%s}' % HEADER)}.{jwt.split('.')[1]}"
        signature = pair.sign(text.encode())
        self.jwt, self.jwk = f"{text}.{encoded(signature)}", jwk
        self.token = f"{self.jwt}~{behind}".encode()
        self.policy = sdjwt.Policy({**POLICY, "keys": {"keys": [jwk]}, "algs": ["ES256"]})
        check = self.policy._asking._checking.issuers[0].checks["ES256"]
        self.check = lambda: check(signature, text.encode())
        self.mixed = sdjwt.Policy(
            {**POLICY, "keys": {"keys": [jwk, *POLICY["keys"]["keys"]]}, "algs": ["ES256", "HS256"]}
        )
        # the same, where the answer costs nothing
        self.unchecked = sdjwt.Policy({**POLICY, "keys": {"keys": []}, "algs": ["ES256"]}, check=lambda question: True)


class Bound:
    """A presentation with a key binding token, and 21 keys of issuers: the nonce is the policy's, or each call gives
    it.
    """

    def __init__(self):
        issuers, holder = [Pair() for _ in range(21)], Pair()
        keys = {"keys": [{**issuer.jwk, "kid": str(number)} for number, issuer in enumerate(issuers)]}
        token = sdjwt.issue(
            {"payload": {**ORDER["payload"], "cnf": {"jwk": holder.jwk}}, "hide": ORDER["hide"], "kid": "20"},
            sign=issuers[20].private,
        )
        order = {"keys": keys, "algs": ["ES256"], "want": ORDER["hide"], "binding": {"aud": "door", "nonce": "4711"}}
        self.token = sdjwt.present(order, token, sign=holder.private).encode()
        binding = {"aud": "door", "keys": {"keys": []}, "max_age": 2**31}
        self.kept = sdjwt.Policy({"keys": keys, "algs": ["ES256"], "binding": {**binding, "nonce": "4711"}})
        self.open = sdjwt.Policy({"keys": keys, "algs": ["ES256"], "binding": binding})


def tell_bound(seconds):
    """What a nonce for each call costs."""
    bound, calls = Bound(), calls_for(seconds)
    # by turns, since the machine may be faster at one time than at another
    times = [
        (
            time_of(lambda: bound.kept.verify(bound.token), 1, calls),
            time_of(lambda: bound.open.verify(bound.token, nonce="4711"), 1, calls),
        )
        for _ in range(9)
    ]
    kept, given = map(min, zip(*times))
    print(
        f"Policy.verify of ES256 with key binding, 21 keys: {kept:.0f} us of the processor; with a nonce for each call "
        f"{given:.0f} us, {given / kept:.2f} times as much"
    )


def tell_public(shown, seconds):
    """How long a token of ES256 takes, with its signature and without, and one of HS256 beside a public key."""
    try:
        public = Public(shown)
    except ImportError:
        print("skipped: cryptography")
        return
    tell("ES256: Policy.verify", lambda: public.policy.verify(public.token), seconds)
    tell_peers(public.jwt, "ES256", seconds, public.jwk)
    tell("ES256: signature alone, by cryptography", public.check, seconds)
    tell("ES256: Policy.verify, but for the signature", lambda: public.unchecked.verify(public.token), seconds)
    tell("HS256: Policy.verify beside a public key", lambda: public.mixed.verify(shown.encode()), seconds)
    tell_bound(seconds)


def main():
    parser = argparse.ArgumentParser(description=__doc__, formatter_class=argparse.RawDescriptionHelpFormatter)
    parser.add_argument("--program")
    parser.add_argument("--seconds", type=float, default=2)
    parser.add_argument("--json")
    words = parser.parse_args()
    token = sdjwt.issue(ORDER, seed=bytes(32))
    shown = sdjwt.present({"keys": POLICY["keys"], "want": ORDER["hide"]}, token).encode()
    text = json.dumps(POLICY).encode()
    policy = sdjwt.Policy(POLICY)
    print(f"a token of {len(shown)} bytes with 10 disclosures")
    tell("HS256: Policy.verify", lambda: policy.verify(shown), words.seconds)
    tell_peers(shown.decode().split("~")[0], "HS256", words.seconds)
    handle = policy._handles[0]
    # a handle is for one thread at a time
    tell("HS256: the call of the library in it", lambda: handle.verify(shown, 1_800_000_000), words.seconds, (1,))
    tell("HS256: verify, the policy read each time", lambda: sdjwt.verify(text, shown), words.seconds)
    tell_public(shown.decode(), words.seconds)
    if words.program:
        tell_program(words.program, text, shown, words.seconds)
    if words.json:
        Path(words.json).write_text(json.dumps(FIGURES, indent=1) + "\n", encoding="utf-8")


def tell_program(program, policy, token, seconds):
    """A run of the program for each token."""
    with tempfile.TemporaryDirectory() as made:
        (Path(made) / "policy").write_bytes(policy)
        (Path(made) / "token").write_bytes(token)
        run = [program, "verify", "policy", "token"]

        def run_program():
            subprocess.run(run, cwd=made, check=True, stdout=subprocess.DEVNULL)

        print(f"the program, one run a token: {rate(run_program, seconds):,.0f} a second")


if __name__ == "__main__":
    main()

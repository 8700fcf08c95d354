#!/usr/bin/env python3
"""Runs c/examples/signed.c, which presents with keys of OpenSSL, and the calls for it: presented.py PROGRAM LIBRARY

What the program presents has the seat, a key binding token for it, and two signatures that the program openssl finds good, each
under its key and no other. The library judges it so, by the checks of openssl, and so it does what is presented by ES384, EdDSA
and PS256. Of a token that another issuer signed, that was changed, or that has a key binding token, nothing is presented.
"""
import base64
import ctypes
import hashlib
import json
import subprocess
import sys
import tempfile
import time
from pathlib import Path

from issued import P_256, as_der, decoded, made_key, ran

DONE, REFUSED, USAGE, UNWRITTEN, UNREADABLE, ASKS, TO_SIGN = 0, 1, 2, 4, 6, 7, 9
UNSAID, BAD, GOOD = 0, 2, 3
NOW = 1_800_000_000
AUD, NONCE = "https://door.example", "4711"
KINDS = {
    "ES256": P_256, "ES384": ("EC", "-pkeyopt", "ec_paramgen_curve:P-384"), "EdDSA": ("ED25519",),
    "PS256": ("RSA", "-pkeyopt", "rsa_keygen_bits:2048"),
}
PSS = ("-sigopt", "rsa_padding_mode:pss", "-sigopt", "rsa_pss_saltlen:digest")


def call(function, *given):
    """The status and the answer of a call, with just as much room as it needs."""
    words = []
    for word in given:
        words += [word, ctypes.c_size_t(len(word))] if isinstance(word, bytes) else [word]
    length, room = ctypes.c_size_t(), ctypes.create_string_buffer(0)
    status = function(*words, room, ctypes.c_size_t(0), ctypes.byref(length))
    if status == UNWRITTEN:
        room = ctypes.create_string_buffer(length.value)
        status = function(*words, room, length, ctypes.byref(length))
    return status, room.raw[: length.value]


def openssl(*words, **given):
    return subprocess.run(["openssl", *words], capture_output=True, check=False, **given)


def signature_of(folder, alg, private, text):
    (folder / "text").write_bytes(text)
    if alg == "EdDSA":
        return openssl("pkeyutl", "-sign", "-rawin", "-inkey", private, "-in", folder / "text").stdout
    der = openssl("dgst", f"-sha{alg[2:]}", "-sign", private, *(PSS if alg == "PS256" else ()), folder / "text").stdout
    if alg == "PS256":
        return der
    size, halves, at = int(alg[2:]) // 8, b"", 2
    for _ in range(2):
        number = int.from_bytes(der[at + 2:at + 2 + der[at + 1]], "big")
        halves, at = halves + number.to_bytes(size, "big"), at + 2 + der[at + 1]
    return halves


def der_of(pair):
    return as_der(pair) if len(pair) == 64 else der_of_long(pair)


def der_of_long(pair):
    """The same of longer numbers, of which each still has less than 128 bytes."""
    numbers = b""
    for half in (pair[: len(pair) // 2], pair[len(pair) // 2:]):
        number = half.lstrip(b"\0") or b"\0"
        number = b"\0" * (number[0] >> 7) + number
        numbers += bytes([2, len(number)]) + number
    return bytes([0x30, len(numbers)]) + numbers


def is_good(folder, alg, public, text, signature):
    (folder / "text").write_bytes(text)
    (folder / "signature").write_bytes(der_of(signature) if alg.startswith("ES") else signature)
    if alg == "EdDSA":
        words = ("pkeyutl", "-verify", "-rawin", "-pubin", "-inkey", public, "-in", folder / "text", "-sigfile", folder / "signature")
    else:
        padding = PSS if alg == "PS256" else ()
        words = ("dgst", f"-sha{alg[2:]}", "-verify", public, *padding, "-signature", folder / "signature", folder / "text")
    return openssl(*words).returncode == 0


def judged(library, folder, alg, issuer, holder, shown, now=NOW):
    """What the library says of a presentation, with openssl's word on its signatures."""
    policy = {"version": 2, "keys": {"keys": []}, "algs": [alg], "binding": {
        "aud": [AUD], "nonce": NONCE, "max_age": 300, "keys": {"keys": []}}}
    said = [UNSAID, UNSAID]
    for at, public in enumerate((issuer, holder)):
        status, answer = call(library.sdjwt_judge, json.dumps(policy).encode(), b"", shown, ctypes.c_uint64(now), *map(ctypes.c_uint8, said))
        if status != ASKS:
            return status, answer
        asked = json.loads(answer)
        good = is_good(folder, alg, public, asked["text"].encode(), decoded(asked["signature"]))
        said[at] = GOOD if good else BAD
    return call(library.sdjwt_judge, json.dumps(policy).encode(), b"", shown, ctypes.c_uint64(now), *map(ctypes.c_uint8, said))


def by_program(program, library, folder):
    """What the program presents."""
    (issuer, issuer_pub), (ada, ada_pub), (_, other_pub) = (made_key(folder, name, P_256) for name in ("issuer", "ada", "other"))
    status, token, line = ran(program, issuer.read_bytes())
    assert (status, line) == (0, ""), (status, line)
    held = folder / "token"

    def present(public, text, private):
        held.write_text(text)
        run = subprocess.run([program, public, held], input=private.read_bytes(), capture_output=True, check=False)
        return run.returncode, run.stdout.decode(), run.stderr.decode()

    status, shown, line = present(issuer_pub, token, ada)
    assert (status, line) == (0, ""), (status, line)
    jwt, disclosure, binding = shown.rstrip("\n").split("~")
    head, body, signature = binding.split(".")
    digest = base64.urlsafe_b64encode(hashlib.sha256(f"{jwt}~{disclosure}~".encode()).digest()).rstrip(b"=").decode()
    said = json.loads(decoded(body))
    assert jwt == token.split("~")[0] and json.loads(decoded(disclosure))[1:] == ["seat", "B12"], shown
    assert json.loads(decoded(head)) == {"alg": "ES256", "typ": "kb+jwt"}, head
    assert {**said, "iat": 0} == {"aud": AUD, "iat": 0, "nonce": NONCE, "sd_hash": digest} and abs(said["iat"] - time.time()) < 60, said
    for public, text in ((issuer_pub, jwt), (ada_pub, binding)):
        signed, _, word = text.rpartition(".")
        assert is_good(folder, "ES256", public, signed.encode(), decoded(word)) and not is_good(folder, "ES256", other_pub, signed.encode(), decoded(word))
    claims = {"cnf": {"kid": "ada"}, "iss": "https://tickets.example", "seat": "B12"}
    status, answer = judged(library, folder, "ES256", issuer_pub, ada_pub, shown.encode(), said["iat"])
    assert status == DONE and json.loads(answer) == claims, answer
    for publics, due in (((other_pub, ada_pub), b"refused 10 "), ((issuer_pub, other_pub), b"refused 30 ")):
        status, answer = judged(library, folder, "ES256", *publics, shown.encode(), said["iat"])
        assert status == REFUSED and answer.startswith(due), answer
    for public, text, due in ((other_pub, token, "refused 10 "), (issuer_pub, shown, "refused 71 "), (issuer_pub, "", "refused 2 "),
                              (issuer_pub, token.replace("~", "~~", 1), "refused 2 ")):
        status, out, line = present(public, text, ada)
        assert (status, out) == (1, "") and line.startswith(due), (status, out, line)
    for at in range(0, len(jwt), 7):
        changed = jwt[:at] + ("A" if jwt[at] != "A" else "B") + jwt[at + 1:]
        status, out, line = present(issuer_pub, changed + token[len(jwt):], ada)
        assert (status, out) == (1, "") and line.startswith("refused "), (at, status, out, line)
    return shown


def by_calls(library, folder, alg):
    """What is presented by these calls, with the signatures of openssl."""
    (issuer, issuer_pub), (ada, ada_pub), (_, other_pub) = (made_key(folder, f"{name}-{alg}", KINDS[alg]) for name in ("issuer", "ada", "other"))
    order = {"payload": {"cnf": {"kid": "ada"}, "name": "Ada", "seat": "B12"}, "hide": ["/name", "/seat"]}
    issuing = (json.dumps(order).encode(), alg.encode(), bytes(32))
    status, text = call(library.sdjwt_issue_ask, *issuing)
    assert status == DONE, text
    status, token = call(library.sdjwt_issue_sign, *issuing, signature_of(folder, alg, issuer, text))
    assert status == DONE, token
    wish = {"algs": [alg], "want": ["/seat"], "binding": {"alg": alg, "kid": "ada", "aud": AUD, "nonce": NONCE}}

    def ask(said, **more):
        return call(library.sdjwt_present_ask, json.dumps({**wish, **more}).encode(), token, ctypes.c_uint64(NOW), ctypes.c_uint8(said))

    def sign(said, signature):
        return call(library.sdjwt_present_sign, json.dumps(wish).encode(), token, ctypes.c_uint64(NOW), ctypes.c_uint8(said), signature)

    status, answer = ask(UNSAID)
    question = json.loads(answer)
    assert status == ASKS and (question["ask"], question["alg"]) == ("issuer", alg), answer
    checked = question["text"].encode(), decoded(question["signature"])
    assert is_good(folder, alg, issuer_pub, *checked) and not is_good(folder, alg, other_pub, *checked)
    for said, due in ((BAD, b"refused 10 badSignature\n"), (1, b"refused 9 issuerKeyUnknown\n")):
        assert ask(said) == sign(said, b"s") == (REFUSED, due)
    assert ask(4) == ask(255) == sign(UNSAID, b"s") == sign(4, b"s") == sign(GOOD, b"") == (USAGE, b"")
    status, text = ask(GOOD)
    assert status == TO_SIGN and text.count(b".") == 1 and not text.endswith(b"\n"), text
    signature = signature_of(folder, alg, ada, text)
    status, shown = sign(GOOD, signature)
    assert status == DONE and shown.endswith(text + b"." + base64.urlsafe_b64encode(signature).rstrip(b"=") + b"\n"), shown
    status, answer = judged(library, folder, alg, issuer_pub, ada_pub, shown)
    assert status == DONE and json.loads(answer) == {"cnf": {"kid": "ada"}, "seat": "B12"}, answer
    status, answer = judged(library, folder, alg, issuer_pub, other_pub, shown)
    assert status == REFUSED and answer.startswith(b"refused 30 "), answer
    for more, due in (({"binding": {**wish["binding"], "kid": "eve"}}, b"refused 74 "), ({"want": ["/none"]}, b"refused 72 "),
                      ({"never": ["/seat"]}, b"refused 73 "), ({"algs": []}, b"refused 7 ")):
        status, answer = ask(GOOD, **more)
        assert status == REFUSED and answer.startswith(due), answer
    for more, due in (({"keys": {"keys": []}}, b"unreadable 1 unknown\n"), ({"algs": alg}, b"unreadable 1 wrong algs\n"),
                      ({"binding": {**wish["binding"], "alg": "none"}}, b"unreadable 1 wrong binding\n"),
                      ({"binding": {**wish["binding"], "key": "k"}}, b"unreadable 1 wrong binding\n")):
        assert ask(GOOD, **more) == (UNREADABLE, due)


def main():
    program, library = sys.argv[1], ctypes.CDLL(str(Path(sys.argv[2]).resolve()))
    for name in ("issue_ask", "issue_sign", "present_ask", "present_sign", "judge"):
        getattr(library, "sdjwt_" + name).restype = ctypes.c_uint8
    with tempfile.TemporaryDirectory() as name:
        by_program(program, library, Path(name))
        for alg in KINDS:
            by_calls(library, Path(name), alg)
    print(f"c/examples/signed.c presents, and so do the calls by {', '.join(KINDS)}")


if __name__ == "__main__":
    main()

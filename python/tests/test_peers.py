"""Against implementations that others wrote: of JWS for the signature, and of hashlib for the digests."""
import base64
import hashlib
import json
import os

import pytest

import sdjwt

KEY = bytes(range(1, 41))
TEXT = base64.urlsafe_b64encode(KEY).rstrip(b"=").decode()
ORDER = {"payload": {"iss": "tickets", "seat": "B12", "name": "Ada"}, "hide": ["/seat", "/name"], "key": TEXT}
POLICY = {"keys": {"keys": [{"kty": "oct", "k": TEXT}]}}


def decoded(text):
    return base64.urlsafe_b64decode(text + "=" * (-len(text) % 4))


def encoded(content):
    return base64.urlsafe_b64encode(content).rstrip(b"=").decode()


def jwcrypto_peer():
    jwk = pytest.importorskip("jwcrypto.jwk")
    jws = pytest.importorskip("jwcrypto.jws")
    key = jwk.JWK(kty="oct", k=TEXT)

    def verify(jwt):
        token = jws.JWS()
        token.deserialize(jwt, key)
        return token.payload

    def sign(header, payload):
        token = jws.JWS(payload)
        token.add_signature(key, None, json.dumps(header), None)
        return token.serialize(compact=True)

    return verify, sign


def joserfc_peer():
    jws = pytest.importorskip("joserfc.jws")
    jwk = pytest.importorskip("joserfc.jwk")
    key = jwk.OctKey.import_key(KEY)
    return (lambda jwt: jws.deserialize_compact(jwt, key).payload), (
        lambda header, payload: jws.serialize_compact(header, payload, key)
    )


# those that SDJWT_PEERS names, where it does
PEERS = pytest.mark.parametrize(
    "peer",
    [
        peer
        for name, peer in (("jwcrypto", jwcrypto_peer), ("joserfc", joserfc_peer))
        if name in os.environ.get("SDJWT_PEERS", name)
    ],
)


@PEERS
def test_a_peer_accepts_what_is_issued(peer):
    verify, _ = peer()
    token = sdjwt.issue(ORDER)
    jwt, *disclosures = token.split("~")[:-1]
    payload = json.loads(verify(jwt))
    digests = {encoded(hashlib.sha256(text.encode()).digest()) for text in disclosures}
    assert set(payload["_sd"]) == digests
    assert {json.loads(decoded(text))[1] for text in disclosures} == {"seat", "name"}
    assert payload["iss"] == "tickets" and "seat" not in payload


@PEERS
def test_what_a_peer_signs_is_accepted(peer):
    _, sign = peer()
    disclosure = encoded(json.dumps(["salt of a peer", "seat", "B12"]).encode())
    digest = encoded(hashlib.sha256(disclosure.encode()).digest())
    token = sign({"alg": "HS256"}, json.dumps({"_sd": [digest], "iss": "tickets"}).encode()) + f"~{disclosure}~"
    assert sdjwt.verify(POLICY, token) == {"iss": "tickets", "seat": "B12"}


@PEERS
def test_both_refuse_a_changed_signature(peer):
    verify, _ = peer()
    token = sdjwt.issue(ORDER)
    jwt = token.split("~")[0]
    changed = jwt[:-2] + ("A" if jwt[-2] != "A" else "B") + jwt[-1]
    with pytest.raises(Exception):
        verify(changed)
    with pytest.raises(sdjwt.Refused) as caught:
        sdjwt.verify(POLICY, token.replace(jwt, changed))
    assert caught.value.name == "badSignature"

"""Public keys against implementations that others wrote: what they sign is accepted, and they accept what is accepted
here.
"""
import json
import os

import pytest

import sdjwt

pytest.importorskip("cryptography")
from public import ALGORITHMS, Key, bound, disclosed, signed  # noqa: E402

NOW = 1_800_000_000
# the name of RFC 9864 is not known to all of them
COMMON = [alg for alg in ALGORITHMS if alg != "Ed25519"]


def jwcrypto_peer(key):
    jwk = pytest.importorskip("jwcrypto.jwk")
    jws = pytest.importorskip("jwcrypto.jws")
    pair = jwk.JWK.from_pem(key.private_pem())

    def sign(header, payload):
        token = jws.JWS(json.dumps(payload).encode())
        token.add_signature(pair, None, json.dumps(header), None)
        return token.serialize(compact=True)

    def verify(jwt, public):
        token = jws.JWS()
        token.deserialize(jwt, jwk.JWK(**public))
        return json.loads(token.payload)

    return sign, verify, json.loads(pair.export_public())


def joserfc_peer(key):
    jws = pytest.importorskip("joserfc.jws")
    jwk = pytest.importorskip("joserfc.jwk")
    kind = {"E": jwk.ECKey, "O": jwk.OKPKey, "R": jwk.RSAKey}[key.jwk()["kty"][0]]
    pair = kind.import_key(key.private_pem())
    public = {name: value for name, value in pair.as_dict(private=False).items() if name != "kid"}

    def sign(header, payload):
        return jws.serialize_compact(header, json.dumps(payload).encode(), pair, algorithms=[key.alg])

    def verify(jwt, public):
        return json.loads(jws.deserialize_compact(jwt, kind.import_key(public), algorithms=[key.alg]).payload)

    return sign, verify, public


# those that SDJWT_PEERS names, where it does
PEERS = pytest.mark.parametrize(
    "peer",
    [
        peer
        for name, peer in (("jwcrypto", jwcrypto_peer), ("joserfc", joserfc_peer))
        if name in os.environ.get("SDJWT_PEERS", name)
    ],
)
each = pytest.mark.parametrize


@PEERS
@each("alg", COMMON)
def test_what_a_peer_signs_is_accepted(peer, alg):
    sign, verify, public = peer(Key(alg))
    token = disclosed(lambda payload: sign({"alg": alg}, payload), {"iss": "office"}, seat="B12", name="Ada")
    policy = sdjwt.Policy({"keys": {"keys": [public]}, "algs": [alg]})
    assert policy.verify(token) == {"iss": "office", "name": "Ada", "seat": "B12"}
    jwt = token.split("~")[0]
    assert verify(jwt, public)["iss"] == "office"
    changed = jwt[:-9] + ("A" if jwt[-9] != "A" else "B") + jwt[-8:]
    with pytest.raises(sdjwt.Refused) as caught:
        policy.verify(token.replace(jwt, changed))
    assert caught.value.name == "badSignature"
    with pytest.raises(Exception):
        verify(changed, public)


@PEERS
@each("alg", COMMON)
def test_a_peer_accepts_the_jwt_in_what_is_accepted(peer, alg):
    key = Key(alg)
    _, verify, _ = peer(key)
    token = signed(key, {"alg": alg}, {"a": 1}) + "~"
    assert sdjwt.Policy({"keys": {"keys": [key.jwk()]}, "algs": [alg]}).verify(token) == {"a": 1}
    assert verify(token[:-1], key.jwk()) == {"a": 1}


@PEERS
@each("alg", COMMON)
def test_a_key_binding_token_of_a_peer(peer, alg):
    issuer, holder = Key("ES256", 1), Key(alg, 2)
    sign, verify, public = peer(holder)
    token = disclosed(lambda payload: signed(issuer, {"alg": "ES256"}, payload), {"cnf": {"jwk": public}}, seat="B12")
    made = bound(token, holder, {"alg": alg, "typ": "kb+jwt"}, {"aud": "door", "nonce": "7", "iat": NOW})
    claims = verify(made.rsplit("~", 1)[1], public)
    by_peer = token + sign({"alg": alg, "typ": "kb+jwt"}, claims)
    policy = sdjwt.Policy({"keys": {"keys": [issuer.jwk()]}, "algs": ["ES256"], "binding": {
        "aud": "door", "nonce": "7", "max_age": 60, "keys": {"keys": []}, "algs": [alg]}})
    for presented in (made, by_peer):
        assert policy.verify(presented, NOW) == {"cnf": {"jwk": public}, "seat": "B12"}

"""Keys as PEM, as JWKs and as objects of the package cryptography, and functions that give the keys of an issuer."""
import base64
import copy
import json
import pickle
import warnings
from datetime import datetime, timedelta, timezone

import pytest

pytest.importorskip("cryptography")

from cryptography import x509  # noqa: E402
from cryptography.hazmat.primitives import hashes  # noqa: E402
from cryptography.hazmat.primitives.asymmetric import ec  # noqa: E402
from cryptography.hazmat.primitives.serialization import (  # noqa: E402
    BestAvailableEncryption,
    Encoding,
    NoEncryption,
    PrivateFormat,
    PublicFormat,
)
from public import Key, bound, signed  # noqa: E402
from signing import encoded  # noqa: E402

import sdjwt  # noqa: E402
from sdjwt import _key_forms  # noqa: E402

SHARED = "dGhlIHRpY2tldCBvZmZpY2Uga2V5LCBub3QgeW91cnM"
ORDER = {"payload": {"iss": "tickets", "seat": "B12"}, "hide": ["/seat"]}
CLAIMS = ORDER["payload"]
ALGS = ["ES256", "ES384", "ES512", "EdDSA", "PS256"]
KEYS = {alg: Key(alg) for alg in ALGS}
each = pytest.mark.parametrize


def named(alg):
    """A private key of RSA does not say by which algorithm it signs."""
    return {"alg": alg} if alg.startswith("PS") else {}


def private_jwk(key, **said):
    """The private key as a JWK."""
    numbers = getattr(key.pair, "private_numbers", lambda: None)()
    if key.alg.startswith("ES"):
        size = {"ES256": 32, "ES384": 48, "ES512": 66}[key.alg]
        secret = {"d": encoded(numbers.private_value.to_bytes(size, "big"))}
    elif key.alg == "EdDSA":
        secret = {"d": encoded(key.pair.private_bytes(Encoding.Raw, PrivateFormat.Raw, NoEncryption()))}
    else:
        secret = {
            "d": encoded(numbers.d.to_bytes(256, "big").lstrip(b"\0")),
            "p": encoded(numbers.p.to_bytes(128, "big")),
            "q": encoded(numbers.q.to_bytes(128, "big")),
        }
    return {**key.jwk(**said), **secret}


def private_forms(key):
    pem = key.private_pem()
    return [key.pair, pem, pem.decode(), bytearray(pem), b"\n " + pem, pem.replace(b"\n", b"\r\n"), private_jwk(key)]


def public_forms(key):
    pem, public = key.pem(), key.pair.public_key()
    jwk = key.jwk(kid="one")
    of_one = [public, pem, pem.decode(), memoryview(pem), jwk]
    other = Key("EdDSA" if key.alg == "ES256" else "ES256", 7)
    return [
        *of_one,
        *([one] for one in of_one),
        *({"keys": [one]} for one in of_one),
        [other.pem(), public],
        (other.jwk(), pem),
        [other.pem() + pem],
        other.pem() + pem,
    ]


@each("alg", ALGS)
def test_each_form_of_a_private_key_signs(alg):
    for form in private_forms(KEYS[alg]):
        token = sdjwt.issue(ORDER, sign=form, **named(alg))
        assert sdjwt.verify({"keys": {"keys": [KEYS[alg].jwk()]}, "algs": [alg]}, token) == CLAIMS


@each("alg", ALGS)
def test_each_form_of_a_public_key_verifies(alg):
    token = sdjwt.issue(ORDER, sign=KEYS[alg].pair, **named(alg))
    for form in public_forms(KEYS[alg]):
        for policy in (
            sdjwt.Policy({"keys": form, "algs": [alg]}),
            sdjwt.Policy({"algs": [alg]}, keys=form),
            sdjwt.Policy(json.dumps({"algs": [alg]}), keys=form),
            sdjwt.Policy({"algs": [alg]}, keys=lambda iss, header, it=form: it),
        ):
            assert policy.verify(token) == CLAIMS
            assert policy.check(token).key["kty"] == KEYS[alg].jwk()["kty"]
        assert (
            sdjwt.verify({"algs": [alg]}, token, keys=form)
            == sdjwt.verify({"algs": [alg], "keys": form}, token)
            == CLAIMS
        )


@each("alg", ALGS)
def test_a_holder_presents_with_each_form_under_each_form(alg):
    holder = Key("ES256", 5)
    order = {"payload": {"cnf": {"jwk": sdjwt.public_jwk(holder.pem())}}}
    token = sdjwt.issue(order, sign=KEYS[alg].private_pem(), **named(alg))
    binding = {"aud": "door", "nonce": "4711"}
    for keys, sign in zip(public_forms(KEYS[alg])[:5], private_forms(holder)):
        shown = sdjwt.present({"keys": keys, "algs": [alg], "binding": binding}, token, sign=sign)
        policy = {
            "keys": keys,
            "algs": [alg],
            "binding": {"aud": "door", "max_age": 60, "keys": {"keys": []}, "algs": ["ES256"]},
        }
        assert sdjwt.verify(policy, shown, nonce="4711") == order["payload"]


def test_the_keys_of_holders_in_each_form():
    holder = Key("ES256", 5)
    token = sdjwt.issue({"payload": {"cnf": {"kid": "ada"}}, "key": SHARED})
    shown = sdjwt.present(
        {"keys": {"keys": [{"kty": "oct", "k": SHARED}]}, "algs": ["HS256"], "binding": {"aud": "door", "nonce": "1"}},
        token,
        sign=holder.private_pem(),
    )
    for keys, is_named in (
        ({"keys": [holder.jwk(kid="ada")]}, True),
        ([holder.jwk(kid="ada")], True),
        (holder.jwk(kid="ada"), True),
        (holder.pem(), False),
    ):
        policy = sdjwt.Policy(
            {
                "keys": {"kty": "oct", "k": SHARED},
                "binding": {"keys": keys, "algs": ["ES256"], "aud": "door", "nonce": "1", "max_age": 60},
            }
        )
        if is_named:
            assert policy.verify(shown) == {"cnf": {"kid": "ada"}}
        else:
            with pytest.raises(sdjwt.BindingRefused, match="27 holderKeyUnknown"):
                policy.verify(shown)


def test_objects_of_jwcrypto():
    jwk = pytest.importorskip("jwcrypto.jwk")
    for alg in ALGS:
        private = jwk.JWK.from_pem(KEYS[alg].private_pem())
        token = sdjwt.issue(ORDER, sign=private, **named(alg))
        public = jwk.JWK.from_pem(KEYS[alg].pem())
        keys = jwk.JWKSet()
        keys.add(public)
        for form in (public, [public], keys, {"keys": [public]}):
            assert (
                sdjwt.verify({"algs": [alg]}, token, keys=form)
                == sdjwt.verify({"algs": [alg], "keys": form}, token)
                == CLAIMS
            )
        assert sdjwt.public_jwk(private) == sdjwt.public_jwk(public) == sdjwt.public_jwk(KEYS[alg].pem())
        assert sdjwt.public_jwk(public, kid=True)["kid"] == public.thumbprint()


# ---- what is no key

def encrypted(encoding):
    return KEYS["ES256"].pair.private_bytes(Encoding.PEM, encoding, BestAvailableEncryption(b"secret"))


def certificate(key):
    name = x509.Name([x509.NameAttribute(x509.NameOID.COMMON_NAME, "tickets")])
    now = datetime.now(timezone.utc)
    made = (
        x509.CertificateBuilder()
        .subject_name(name)
        .issuer_name(name)
        .public_key(key.pair.public_key())
        .serial_number(1)
    )
    return (
        made.not_valid_before(now - timedelta(days=1))
        .not_valid_after(now + timedelta(days=1))
        .sign(key.pair, hashes.SHA256())
    )


BROKEN = b"-----BEGIN %s-----\nAAAA\n-----END %s-----\n"
PRIVATE_FAULTS = [
    (encrypted(PrivateFormat.PKCS8), "encrypted"),
    (encrypted(PrivateFormat.TraditionalOpenSSL), "encrypted"),
    (KEYS["ES256"].pem(), "0 private keys"),
    (KEYS["ES256"].private_pem() * 2, "2 private keys"),
    (BROKEN % (b"PRIVATE KEY", b"PRIVATE KEY"), "no PEM of a private key"),
    (KEYS["ES256"].private_pem()[:-20], "with an end"),
    (certificate(KEYS["ES256"]).public_bytes(Encoding.PEM), "certificate"),
    (Key("ES256").jwk(), "a public key"),
    ({"kty": "oct", "k": SHARED}, "shared key"),
    (private_jwk(KEYS["ES256"], use="enc"), "use"),
    (private_jwk(KEYS["ES256"], key_ops=["verify"]), "key_ops"),
    (private_jwk(KEYS["ES256"], key_ops="sign"), "key_ops"),
    ({**private_jwk(KEYS["ES256"]), "x": Key("ES256", 1).jwk()["x"]}, "not of one key"),
    ({**private_jwk(KEYS["ES256"]), "d": "AA"}, "no private key"),
    ({**private_jwk(KEYS["ES256"]), "d": 5}, "d is no base64url"),
    ({**private_jwk(KEYS["EdDSA"]), "d": "AA"}, "d has not just 32 bytes"),
    ({**private_jwk(KEYS["EdDSA"]), "x": Key("EdDSA", 1).jwk()["x"]}, "not of one key"),
    ({**private_jwk(KEYS["PS256"]), "p": "AQAB"}, "no private key"),
    ({**private_jwk(KEYS["ES256"]), "crv": "secp256k1"}, "no JWK of"),
    ({"kty": ["EC"], "d": "AA"}, "no JWK of"),
    (private_jwk(KEYS["ES256"], alg=7), "alg is no text"),
]


@each("sign, said", PRIVATE_FAULTS, ids=[said for _, said in PRIVATE_FAULTS])
def test_what_is_no_key_that_signs(sign, said):
    for alg in (None, "ES256"):
        with pytest.raises(ValueError) as caught:
            sdjwt.issue(ORDER, sign=sign, alg=alg)
        assert said in str(caught.value) and "sign" in str(caught.value)
        secret = private_jwk(KEYS["ES256"])["d"]
        assert secret[:8] not in str(caught.value) and "secret" not in str(caught.value)


def test_the_algorithm_that_a_jwk_names():
    for alg, more in (("PS384", {}), ("PS384", {"alg": "PS384"})):
        token = sdjwt.issue(ORDER, sign=private_jwk(KEYS["PS256"], alg=alg), **more)
        assert sdjwt.show(token)["header"] == {"alg": alg}
    for jwk, alg in (
        (private_jwk(KEYS["PS256"], alg="PS384"), "PS256"),
        (private_jwk(KEYS["ES256"], alg="ES384"), None),
        (private_jwk(KEYS["EdDSA"], alg="Ed25519"), "EdDSA"),
    ):
        with pytest.raises(ValueError, match="alg does not fit"):
            sdjwt.issue(ORDER, sign=jwk, alg=alg)


def test_a_file_of_openssl():
    pem = KEYS["ES256"].pair.private_bytes(Encoding.PEM, PrivateFormat.TraditionalOpenSSL, NoEncryption())
    parameters = b"-----BEGIN EC PARAMETERS-----\nBggqhkjOPQMBBw==\n-----END EC PARAMETERS-----\n"
    token = sdjwt.issue(ORDER, sign=parameters + pem)
    assert sdjwt.verify({"algs": ["ES256"], "keys": KEYS["ES256"].pem()}, token) == CLAIMS


@each(
    "keys, said",
    [
        (BROKEN % (b"PUBLIC KEY", b"PUBLIC KEY"), "no PEM of a public key"),
        (KEYS["ES256"].pem()[:-9], "with an end"),
        (encrypted(PrivateFormat.PKCS8), "encrypted"),
        (certificate(KEYS["ES256"]).public_bytes(Encoding.PEM), "certificate"),
        (ec.generate_private_key(ec.SECP256K1()).public_key(), "secp256k1"),
    ],
    ids=lambda it: it if isinstance(it, str) else "",
)
def test_what_is_no_public_key_is_told_with_its_place(keys, said):
    good = KEYS["ES256"].pem()
    for policy, more, place in (
        ({"keys": keys}, {}, "/keys/0" if not isinstance(keys, bytes) else "/keys/0"),
        ({"keys": [good, keys]}, {}, "/keys/1"),
        ({"keys": {"keys": [good, good, keys]}}, {}, "/keys/keys/2"),
        ({}, {"keys": [good, keys]}, "/keys/1"),
        ({"keys": good, "binding": {"keys": keys}}, {}, "/binding/keys/0"),
    ):
        with pytest.raises(ValueError) as caught:
            sdjwt.Policy({"algs": ["ES256"], **policy}, **more)
        assert str(caught.value).startswith(f"sdjwt: the key at {place} can't be read: ") and said in str(caught.value)


@each("keys", [5, True, "no key", b"no key", {"a": 1}, object()], ids=repr)
def test_keys_of_another_type(keys):
    with pytest.raises((sdjwt.Unreadable, TypeError)):
        sdjwt.Policy({"algs": ["ES256"], "keys": keys})
    with pytest.raises((sdjwt.Unreadable, TypeError), match="keys"):
        sdjwt.Policy({"algs": ["ES256"]}, keys=keys)


@each("keys", [[], (), set(), iter(())], ids=repr)
def test_no_keys_at_all(keys):
    with pytest.raises((sdjwt.Unreadable, TypeError)):
        sdjwt.Policy({"algs": ["ES256"], "keys": keys})
    with pytest.raises(TypeError, match="keys"):
        sdjwt.Policy({"algs": ["ES256"]}, keys=keys)


def test_keys_are_given_once():
    for keys in (KEYS["ES256"].pem(), lambda iss, header: None):
        for policy in ({"keys": KEYS["ES256"].pem(), "algs": ["ES256"]}, '{"keys":{"keys":[]},"algs":["ES256"]}'):
            with pytest.raises(ValueError, match="keys is given, and the policy has keys too"):
                sdjwt.Policy(policy, keys=keys)


def test_keys_for_what_is_no_policy():
    for text in (
        "",
        "[]",
        '{"algs":["ES256"],"skew":1.5}',
        '{"algs":["ES256"],"skew":NaN}',
        '{"algs":["ES256"],"other":1}',
    ):
        with pytest.raises(sdjwt.Unreadable):
            sdjwt.Policy(text, keys=KEYS["ES256"].pem())
        with pytest.raises(sdjwt.Unreadable):
            sdjwt.Policy(text, keys=lambda iss, header: None)


def test_a_private_key_in_a_policy_is_told():
    token = sdjwt.issue(ORDER, sign=KEYS["ES256"].pair)
    for form in (KEYS["ES256"].private_pem(), KEYS["ES256"].pair, private_jwk(KEYS["ES256"])):
        with warnings.catch_warnings(record=True) as said:
            warnings.simplefilter("always")
            assert sdjwt.Policy({"keys": form, "algs": ["ES256"]}).verify(token) == CLAIMS
        assert [warning.category for warning in said] == [sdjwt.PrivateKeyWarning] and said[0].filename == __file__


# ---- a function that gives keys

def test_the_function_is_given_the_issuer_and_the_header():
    asked = []

    def keys(iss, header):
        asked.append((iss, header))
        return {"tickets": KEYS["ES256"].pem(), "hall": KEYS["EdDSA"].pair.public_key()}.get(iss)

    policy = sdjwt.Policy({"algs": ["ES256", "EdDSA"]}, keys=keys)
    for iss, alg in (("tickets", "ES256"), ("hall", "EdDSA")):
        token = signed(KEYS[alg], {"alg": alg, "kid": "k", "typ": "x", "other": [1]}, {"iss": iss}) + "~"
        assert policy.verify(token) == {"iss": iss}
        # a key that the function names without a kid is meant for this token
        assert policy.check(token).key == sdjwt.public_jwk(KEYS[alg].pem())
        assert asked == [(iss, {"alg": alg, "kid": "k", "typ": "x", "other": [1]})] * 2
        asked.clear()
        other = "EdDSA" if alg == "ES256" else "ES256"
        with pytest.raises(sdjwt.UnknownKey):
            policy.verify(signed(KEYS[other], {"alg": other}, {"iss": iss}) + "~")
        with pytest.raises(sdjwt.BadSignature):
            policy.verify(signed(Key(alg, 9), {"alg": alg}, {"iss": iss}) + "~")
        asked.clear()


@each(
    "payload, iss",
    [({}, None), ({"iss": 7}, None), ({"iss": None}, None), ({"iss": ["a"]}, None), ({"iss": ""}, "")],
    ids=str,
)
def test_an_issuer_that_is_no_text(payload, iss):
    asked = []
    policy = sdjwt.Policy({"algs": ["ES256"]}, keys=lambda *given: asked.append(given) or KEYS["ES256"].pem())
    assert policy.verify(signed(KEYS["ES256"], {"alg": "ES256"}, payload) + "~") == payload
    assert asked == [(iss, {"alg": "ES256"})]


@each(
    "token",
    [
        "",
        "a.b.c~",
        "a",
        signed(KEYS["ES256"], {"alg": "none"}, {}) + "~",
        signed(KEYS["ES256"], {"alg": "ES256", "crit": []}, {}) + "~",
        signed(KEYS["ES256"], {"alg": "ES384"}, {}) + "~",
    ],
    ids=range(6),
)
def test_the_function_is_not_asked_of_what_is_refused_before(token):
    def keys(iss, header):
        raise AssertionError("it is asked")

    with pytest.raises(sdjwt.Refused):
        sdjwt.Policy({"algs": ["ES256"]}, keys=keys).verify(token)


def test_a_payload_that_cannot_be_read_has_no_issuer():
    asked = []
    policy = sdjwt.Policy({"algs": ["ES256"]}, keys=lambda *given: asked.append(given) or KEYS["ES256"].pem())
    head = encoded(b'{"alg":"ES256"}')
    for payload in (b"no json", b"[1]", b"\xff", b"[" * 100_000, b'{"iss":"a","n":1.5}', b"9" * 5000):
        text = f"{head}.{encoded(payload)}"
        with pytest.raises(sdjwt.Refused) as caught:
            policy.verify(f"{text}.{encoded(KEYS['ES256'].sign(text.encode()))}~")
        assert caught.value.name == "payloadUnreadable"
    assert {iss for iss, _ in asked} == {None, "a"}


def test_keys_with_a_name_need_the_name():
    right, wrong = KEYS["ES256"].jwk(kid="right"), Key("ES256", 3).jwk(kid="wrong")
    policy = sdjwt.Policy({"algs": ["ES256"]}, keys=lambda iss, header: [wrong, right])
    assert policy.check(signed(KEYS["ES256"], {"alg": "ES256", "kid": "right"}, {}) + "~").key["kid"] == "right"
    with pytest.raises(sdjwt.UnknownKey):
        policy.verify(signed(KEYS["ES256"], {"alg": "ES256", "kid": "third"}, {}) + "~")


def test_an_x5c():
    made = certificate(KEYS["ES256"])

    def keys(iss, header):
        chain = [x509.load_der_x509_certificate(base64.b64decode(text)) for text in header["x5c"]]
        return chain[0].public_key() if chain[0] == made else None

    policy = sdjwt.Policy({"algs": ["ES256"]}, keys=keys)
    header = {"alg": "ES256", "x5c": [base64.b64encode(made.public_bytes(Encoding.DER)).decode()]}
    assert policy.verify(signed(KEYS["ES256"], header, {"a": 1}) + "~") == {"a": 1}
    other = {
        "alg": "ES256",
        "x5c": [base64.b64encode(certificate(Key("ES256", 4)).public_bytes(Encoding.DER)).decode()],
    }
    with pytest.raises(sdjwt.UnknownKey):
        policy.verify(signed(Key("ES256", 4), other, {"a": 1}) + "~")


def test_a_shared_key_of_an_issuer():
    policy = sdjwt.Policy(
        {"algs": ["HS256", "ES256"]},
        keys=lambda iss, header: {"kty": "oct", "k": SHARED} if iss == "tickets" else KEYS["ES256"].pem(),
    )
    assert policy.verify(sdjwt.issue({**ORDER, "key": SHARED})) == CLAIMS
    # never is a public key taken for a shared one
    confused = signed(
        type(
            "", (), {"sign": staticmethod(lambda text: __import__("hmac").digest(KEYS["ES256"].pem(), text, "sha256"))}
        ),
        {"alg": "HS256"},
        {},
    )
    with pytest.raises(sdjwt.UnknownKey):
        policy.verify(confused + "~")


@each("answer", [5, True, "no key", b"no key", {}, {"a": 1}, object()], ids=repr)
def test_a_function_returns_keys_or_none(answer):
    policy = sdjwt.Policy({"algs": ["ES256"]}, keys=lambda iss, header: answer)
    with pytest.raises(TypeError, match=f"keys returned a value of type {type(answer).__name__}"):
        policy.verify(sdjwt.issue(ORDER, sign=KEYS["ES256"].pair))


@each("answer", [None, [], (), {"keys": []}, [None], ["x"], [{"kty": "EC"}], Key("EdDSA").pem(), iter(())], ids=str)
def test_no_key_that_fits_is_an_unknown_key(answer):
    with pytest.raises(sdjwt.UnknownKey):
        sdjwt.Policy({"algs": ["ES256"]}, keys=lambda iss, header: answer).verify(
            sdjwt.issue(ORDER, sign=KEYS["ES256"].pair)
        )


def test_what_the_function_raises_comes_out():
    def keys(iss, header):
        raise ConnectionError("no answer")

    policy = sdjwt.Policy({"algs": ["ES256"]}, keys=keys)
    with pytest.raises(ConnectionError):
        policy.verify(sdjwt.issue(ORDER, sign=KEYS["ES256"].pair))
    assert len(policy._handles) == 1


def test_where_it_has_no_key_check_is_asked():
    asked = []
    policy = sdjwt.Policy(
        {"algs": ["ES256"]}, keys=lambda iss, header: None, check=lambda question: asked.append(question) or True
    )
    token = sdjwt.issue(ORDER, sign=KEYS["ES256"].pair)
    assert policy.verify(token) == CLAIMS
    question, = asked
    assert question.header == {"alg": "ES256"} and question.iss == "tickets" and question.payload is None


def test_a_question_about_a_holder():
    holder, asked = Key("ES256", 5), []
    token = sdjwt.issue({"payload": {"iss": "tickets", "cnf": {"jwk": holder.jwk()}}}, sign=KEYS["ES256"].pair)
    shown = bound(token, holder, {"alg": "ES256K", "typ": "kb+jwt"}, {"aud": "door", "nonce": "1", "iat": 1000})
    policy = sdjwt.Policy(
        {
            "algs": ["ES256"],
            "binding": {"algs": ["ES256K"], "aud": "door", "nonce": "1", "max_age": 60, "keys": {"keys": []}},
        },
        keys=lambda iss, header: KEYS["ES256"].pem(),
        check=lambda question: asked.append(question) or True,
    )
    assert policy.verify(shown, now=1000)["iss"] == "tickets"
    question, = asked
    assert question.asks == "holder" and question.header == {"alg": "ES256K", "typ": "kb+jwt"} and question.iss is None
    for text in (b"", b".", b"a", b"a.b", b"\xff.\xff"):
        made = sdjwt.Question("issuer", "ES256", None, None, text, b"", None)
        assert made.header == {} and made.iss is None


@each("make", [lambda policy: pickle.loads(pickle.dumps(policy)), copy.copy, copy.deepcopy])
def test_a_policy_pickles_and_copies(make):
    token = sdjwt.issue(ORDER, sign=KEYS["ES256"].pair)
    for policy in (
        sdjwt.Policy({"keys": KEYS["ES256"].pair.public_key(), "algs": ["ES256"]}),
        sdjwt.Policy({"algs": ["ES256"]}, keys=found_keys),
        sdjwt.Policy({"keys": {"keys": []}, "algs": ["ES256"]}, check=always),
    ):
        again = make(policy)
        assert again is not policy and again._handles is not policy._handles
        assert again.verify(token) == policy.verify(token) == CLAIMS
    shared = make(sdjwt.Policy({"keys": {"kty": "oct", "k": SHARED}, "iss": "tickets"}))
    assert shared.verify(sdjwt.issue({**ORDER, "key": SHARED})) == CLAIMS


def found_keys(iss, header):
    return KEYS["ES256"].pem()


def always(question):
    return True


# ---- public_jwk

@each("alg", ALGS)
def test_public_jwk_of_each_form(alg):
    due = KEYS[alg].jwk()
    for form in (
        *private_forms(KEYS[alg]),
        KEYS[alg].pem(),
        KEYS[alg].pair.public_key(),
        KEYS[alg].jwk(use="sig", kid="x", alg=alg),
    ):
        made = sdjwt.public_jwk(form)
        assert made == due
        assert sdjwt.public_jwk(form, kid="mine") == {**due, "kid": "mine"}
        assert sdjwt.public_jwk(form, kid=True) == {**due, "kid": sdjwt.public_jwk(made, kid=True)["kid"]}


def test_a_thumbprint_is_that_of_the_rfcs():
    """RFC 7638 section 3.1 and RFC 8037 appendix A.3."""
    n = (
        "0vx7agoebGcQSuuPiLJXZptN9nndrQmbXEps2aiAFbWhM78LhWx4cbbfAAtVT86zwu1RK7aPF"
        "FxuhDR1L6tSoc_BJECPebWKRXjBZCiFV4n3oknjhMstn64tZ_2W-5JsGY4Hc5n9yBXArwl93l"
        "qt7_RN5w6Cf0h4QyQ5v-65YGjQR0_FDW2QvzqY368QQMicAtaSqzs8KJZgnYb9c7d0zgdAZHzu"
        "6qMQvRL5hajrn1n91CbOpbISD08qNLyrdkt-bFTWhAI4vMQFh6WeZu0fM4lFd2NcRwr3XPksIN"
        "HaQ-G_xBniIqbw0Ls1jF44-csFCur-kEgU8awapJzKnqDKgw"
    )
    assert (
        sdjwt.public_jwk({"kty": "RSA", "n": n, "e": "AQAB", "alg": "RS256", "kid": "2011-04-29"}, kid=True)["kid"]
        == "NzbLsXh8uDCcd-6MNwXF4W_7noWXFZAfHkxZsRGC9Xs"
    )
    curve = {"kty": "OKP", "crv": "Ed25519", "x": "11qYAYKxCrfVS_7TyWQHOg7hcvPapiMlrwIaaPcHURo"}
    assert sdjwt.public_jwk(curve, kid=True)["kid"] == "kPrK_qmxVWaYVA9wwBF6Iuo3vVzz7TxHCTwXBygrS4k"


@each(
    "key, kind",
    [
        (5, TypeError),
        (None, TypeError),
        ("no key", TypeError),
        (object(), TypeError),
        ([KEYS["ES256"].pem()], TypeError),
        ({}, ValueError),
        ({"kty": "oct", "k": SHARED}, ValueError),
        ({"kty": "EC", "crv": "P-256", "x": "AA", "y": "AA"}, ValueError),
        ({"kty": 5}, ValueError),
        (KEYS["ES256"].pem() * 2, ValueError),
        (b"-----BEGIN PUBLIC KEY-----", ValueError),
    ],
    ids=lambda it: "",
)
def test_what_has_no_public_key(key, kind):
    with pytest.raises(kind, match="sdjwt: key") as caught:
        sdjwt.public_jwk(key)
    assert SHARED not in str(caught.value) and not isinstance(caught.value, sdjwt.SdJwtError)


@each("kid", [5, None, b"x", ["x"]], ids=repr)
def test_a_kid_of_another_type(kid):
    with pytest.raises(TypeError, match="sdjwt: kid"):
        sdjwt.public_jwk(KEYS["ES256"].pem(), kid=kid)


def test_without_cryptography_the_library_does_as_before(monkeypatch):
    real = __import__

    def without(name, *words, **more):
        if name.split(".")[0] == "cryptography" or "_objects" in (words[2] if len(words) > 2 and words[2] else ()):
            raise ImportError(name)
        return real(name, *words, **more)

    monkeypatch.setattr("builtins.__import__", without)
    token = sdjwt.issue({**ORDER, "key": SHARED})
    assert sdjwt.verify({"keys": {"kty": "oct", "k": SHARED}}, token) == CLAIMS
    with pytest.raises(sdjwt.NoCryptography, match="pip install cryptography"):
        sdjwt.Policy({"keys": KEYS["ES256"].pem(), "algs": ["ES256"]})
    assert _key_forms.as_key_set(object, "/keys") is object


def test_a_public_key_of_a_holder_goes_into_cnf():
    holder = Key("EdDSA", 2)
    token = sdjwt.issue(
        {"payload": {"cnf": {"jwk": sdjwt.public_jwk(holder.private_pem())}}}, sign=KEYS["ES256"].private_pem()
    )
    assert sdjwt.show(token)["payload"]["cnf"]["jwk"] == holder.jwk()
    pem = holder.pair.public_key().public_bytes(Encoding.PEM, PublicFormat.SubjectPublicKeyInfo)
    assert sdjwt.public_jwk(pem) == holder.jwk()

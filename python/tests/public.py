"""Key pairs and tokens that are signed with them, by the package cryptography."""
import hashlib
import json
from functools import lru_cache

from cryptography.hazmat.primitives import hashes, serialization
from cryptography.hazmat.primitives.asymmetric import ec, padding, rsa
from cryptography.hazmat.primitives.asymmetric.ed25519 import Ed25519PrivateKey
from cryptography.hazmat.primitives.asymmetric.utils import decode_dss_signature
from signing import encoded

CURVES = {
    "ES256": ("P-256", ec.SECP256R1(), 32),
    "ES384": ("P-384", ec.SECP384R1(), 48),
    "ES512": ("P-521", ec.SECP521R1(), 66),
}
ALGORITHMS = [*CURVES, "EdDSA", "Ed25519", "PS256", "PS384", "PS512", "RS256", "RS384", "RS512"]
HASHES = {"256": hashes.SHA256(), "384": hashes.SHA384(), "512": hashes.SHA512()}


@lru_cache(maxsize=None)
def _rsa(number):
    return rsa.generate_private_key(65537, 2048)


class Key:
    """A key pair for an algorithm, the same for the same number in a run."""

    def __init__(self, alg, number=0):
        self.alg = alg
        if alg in CURVES:
            self.pair = ec.derive_private_key(1_234_567 + number, CURVES[alg][1])
        elif alg in ("EdDSA", "Ed25519"):
            self.pair = Ed25519PrivateKey.from_private_bytes(bytes([number]) * 32)
        else:
            self.pair = _rsa(number)

    def der(self, text):
        """A signature as the package gives it."""
        if self.alg in CURVES:
            return self.pair.sign(text, ec.ECDSA(HASHES[{"521": "512"}.get(self.alg[2:], self.alg[2:])]))
        if self.alg in ("EdDSA", "Ed25519"):
            return self.pair.sign(text)
        hash_alg = HASHES[self.alg[2:]]
        pad = (
            padding.PSS(padding.MGF1(hash_alg), hash_alg.digest_size)
            if self.alg.startswith("PS")
            else padding.PKCS1v15()
        )
        return self.pair.sign(text, pad, hash_alg)

    def sign(self, text):
        """A signature as a JWS has it."""
        if self.alg not in CURVES:
            return self.der(text)
        size = CURVES[self.alg][2]
        return b"".join(number.to_bytes(size, "big") for number in decode_dss_signature(self.der(text)))

    def jwk(self, **said):
        """The public key as a JWK, with what it says of itself."""
        if self.alg in CURVES:
            curve, _, size = CURVES[self.alg]
            numbers = self.pair.public_key().public_numbers()
            parts = {
                "kty": "EC",
                "crv": curve,
                "x": encoded(numbers.x.to_bytes(size, "big")),
                "y": encoded(numbers.y.to_bytes(size, "big")),
            }
        elif self.alg in ("EdDSA", "Ed25519"):
            raw = self.pair.public_key().public_bytes(serialization.Encoding.Raw, serialization.PublicFormat.Raw)
            parts = {"kty": "OKP", "crv": "Ed25519", "x": encoded(raw)}
        else:
            numbers = self.pair.public_key().public_numbers()
            parts = {
                "kty": "RSA",
                "n": encoded(numbers.n.to_bytes(256, "big")),
                "e": encoded(numbers.e.to_bytes(3, "big")),
            }
        return {**parts, **said}

    def pem(self):
        return self.pair.public_key().public_bytes(
            serialization.Encoding.PEM, serialization.PublicFormat.SubjectPublicKeyInfo
        )

    def private_pem(self):
        return self.pair.private_bytes(
            serialization.Encoding.PEM, serialization.PrivateFormat.PKCS8, serialization.NoEncryption()
        )


def signed(key, header, payload):
    """A JWT."""
    text = f"{encoded(json.dumps(header).encode())}.{encoded(json.dumps(payload).encode())}"
    return f"{text}.{encoded(key.sign(text.encode()))}"


def disclosed(sign, payload, **hidden):
    """A token that hides these claims, with all of its disclosures. `sign` makes the JWT of a payload."""
    texts = [
        encoded(json.dumps([f"salt {number}", name, value]).encode())
        for number, (name, value) in enumerate(hidden.items())
    ]
    digests = sorted(encoded(hashlib.sha256(text.encode()).digest()) for text in texts)
    return "~".join([sign({**payload, "_sd": digests, "_sd_alg": "sha-256"}), *texts, ""])


def bound(token, key, header, claims):
    """The token with a key binding token."""
    return token + signed(key, header, {**claims, "sd_hash": encoded(hashlib.sha256(token.encode()).digest())})

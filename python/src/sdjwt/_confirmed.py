"""The key of a holder in an order: the claim `cnf` of its payload (RFC 7800)."""
from __future__ import annotations

from typing import Any

from sdjwt._asking import read_object
from sdjwt._key_sets import PRIVATE

_SECRET = (*PRIVATE, "k")


def refuse_secret_key(order: bytes) -> None:
    """Refuses a private or symmetric key in `cnf.jwk`, because anyone who sees the token can read it (RFC 7800 section
    3.2).
    """
    # the only other way to write a name in JSON is with escapes
    value: Any = read_object(order, True) if b'"cnf"' in order or b"\\u" in order else None
    for name in ("payload", "cnf", "jwk"):
        value = value.get(name) if isinstance(value, dict) else None
    found = [name for name in _SECRET if isinstance(value, dict) and name in value]
    if found:
        raise ValueError(
            f"sdjwt: cnf.jwk in the payload of the order has the private member {found[0]}, and anyone who sees the "
            "token "
            "can read it: give only the public key of the holder"
        )

"""A wallet whose query has public keys of issuers.

No rule of SD-JWT stands here. The library asks for each token whether the issuer's signature is good, which is checked
under the keys of the query. The tokens with a good one are signed anew, under a key that is drawn for this call, so
that the library, which knows shared keys, can choose among them. What it shows has the disclosures of the token that it
chose.
"""
from __future__ import annotations

import base64
import hmac
import json
import secrets
from typing import Any

from sdjwt import _library
from sdjwt._asking import Checking, Functions, is_no_object, read_object
from sdjwt._errors import Refused
from sdjwt._key_sets import is_oct, jwks, need_a_key, read_set
from sdjwt._parts import parted
from sdjwt._steps import finish

_HEADER = '{"alg":"HS256"}'


def _encoded(content: bytes) -> str:
    return base64.urlsafe_b64encode(content).rstrip(b"=").decode()


class Wallet:
    """What checks the signatures of tokens, and lets the library choose among those that are good."""

    def __init__(self, query: dict[str, Any]) -> None:
        found = read_set(query, "keys", "", "query")
        algs = sorted({alg for key in found.keys for alg in key.checks})
        need_a_key(found, algs, "keys")
        self._checking = Checking(Functions())
        self._checking.issuers = found.keys
        self._order = json.dumps({"algs": algs}).encode()
        self._secret = secrets.token_bytes(32)
        self._query = json.dumps({**query, "keys": {"keys": [{"kty": "oct", "k": _encoded(self._secret)}]}}).encode()

    def choose(self, tokens: list[bytes]) -> tuple[int, bytes]:
        """The status, and what a wallet prints or the line."""
        status, said = _library.call_wallet(
            self._query, [self._signed_anew(token) if self._is_good(token) else b"" for token in tokens]
        )
        if status != _library.DONE:
            return status, said
        number, chosen = said.decode().split("\n", 1)
        parts = parted(tokens[int(number.removeprefix("credential "))])
        jwt = ".".join(parts[name] for name in ("protected", "payload", "signature"))
        return status, f"{number}\n{jwt}~{chosen.partition('~')[2]}".encode()

    def _is_good(self, token: bytes) -> bool:
        """Whether the issuer's signature is good and the token is in order."""
        status, said = _library.call("present_ask", self._order, token, 0, _library.UNSAID)
        if status == _library.ASKS:
            judged = finish(self._checking.answer(said))
            status, _ = _library.call("present_ask", self._order, token, 0, judged.said)
        return status == _library.DONE

    def _signed_anew(self, token: bytes) -> bytes:
        try:
            parts = parted(token)
        except Refused:
            return b""
        text = f"{_encoded(_HEADER.encode())}.{parts['payload']}"
        signature = _encoded(hmac.digest(self._secret, text.encode(), "sha256"))
        return "~".join([f"{text}.{signature}", *parts["disclosures"], ""]).encode()


def wallet_of(query: bytes) -> Wallet | None:
    """How a query is answered. None if it has shared keys only, so that the library checks the signatures."""
    asked = read_object(query, b'"keys"' in query or b"\\u" in query)
    if asked is None or all(map(is_oct, jwks(asked))) or is_no_object(query):
        return None
    return Wallet(asked)

"""What Ada's browser needs of the package. It keeps nothing: her key and her tickets are in her browser (wallet.js)."""
from __future__ import annotations

import re
import time
from base64 import urlsafe_b64decode
from typing import Any

import sdjwt

import words
from forms import Form, WrongField, text_of, texts_of
from view import view_of

LONGEST = 64 * 1024


class _ToSign(Exception):
    """Raised in the middle of `present`, since Ada's browser has to sign this text first."""

    def __init__(self, text: bytes) -> None:
        super().__init__()
        self.text = text.decode()


class Wallet:
    """The holder's end. It takes tickets of the office whose public key it is given."""

    def __init__(self, issuer: dict[str, str]) -> None:
        self._issuer = issuer

    def look(self, form: Form) -> dict[str, Any]:
        """What is in a ticket, for display."""
        return {"view": view_of(text_of(form, "ticket", LONGEST))}

    def present(self, form: Form) -> dict[str, Any]:
        """The chosen claims of a ticket, bound to the door and its nonce.

        The private key is in the browser, so this takes two requests. The first has no `signature`, and gets the text
        to sign with its time; the second has these two besides, and gets the presentation.
        """
        order = {"keys": [self._issuer], "algs": ["ES256"], "want": texts_of(form, "show", 50),
                 "binding": {"aud": text_of(form, "audience", 256), "nonce": text_of(form, "nonce", 256)}}
        ticket, at, signature = text_of(form, "ticket", LONGEST), _time_of(form), _signature_of(form)

        def sign(text: bytes) -> bytes:
            if signature is None:
                raise _ToSign(text)
            return signature

        try:
            return {"presentation": sdjwt.present(order, ticket, at, most=LONGEST, sign=sign, alg="ES256")}
        except _ToSign as asked:
            return {"sign": asked.text, "at": at}
        except sdjwt.SdJwtError as refusal:
            raise WrongField("ticket", words.of_wallet(refusal)) from refusal


def _time_of(form: Form) -> int:
    at = form.get("at")
    if at is None:
        return int(time.time())
    if type(at) is not int or not 0 <= at < 2**53:
        raise WrongField("at", "This has to be a time in seconds since 1970.")
    return at


def _signature_of(form: Form) -> bytes | None:
    if form.get("signature") is None:
        return None
    text = text_of(form, "signature", 86)
    if not re.fullmatch(r"[\w-]{86}", text, re.A):
        raise WrongField("signature", "This has to be a signature by ES256.")
    return urlsafe_b64decode(text + "==")

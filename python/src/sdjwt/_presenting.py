"""Presenting under the public and symmetric keys of issuers, with a signature of the holder that is made here or by a
function.

No rule of SD-JWT stands here. The library asks whether the issuer's signature is good, says what is to be signed, and
makes the presentation of the signature; what is decided is only under which key the one is checked, and by which
algorithm the other is made.
"""
from __future__ import annotations

import json
from typing import Any

from sdjwt import _library
from sdjwt._asking import AsyncCheckFunction, CheckFunction, Checking, Functions, has_other, need_function, read_object
from sdjwt._detail import key_set_fault, text_fault
from sdjwt._errors import Unreadable
from sdjwt._key_sets import need_a_key, read_set, warn_of_private
from sdjwt._signing import Signer, signer_of
from sdjwt._steps import Steps


class Presenting:
    """What checks the issuer's signature and makes the holder's. `file` is the order as the library takes it."""

    __slots__ = ("_checking", "_signer", "file")

    def __init__(
        self, order: dict[str, Any], check: CheckFunction | AsyncCheckFunction | None, signer: Signer | None
    ) -> None:
        self._checking, self._signer = Checking(Functions(check)), signer
        if "keys" in order or check is None:
            _need_keys(order)
            issuers = read_set(order, "keys", "", "present order")
            if check is None:
                need_a_key(issuers, order.get("algs"), "keys")
            self._checking.issuers = issuers.keys
        rest = {name: value for name, value in order.items() if name != "keys"}
        if "binding" in order:
            if signer is None:
                raise ValueError(
                    "sdjwt: sign is missing, by which the key binding token is made that the order asks for"
                )
            if isinstance(order["binding"], dict):
                rest["binding"] = {**order["binding"], "alg": signer.alg.decode()}
        self.file = json.dumps(rest).encode()

    def present(self, token: bytes, now: int) -> Steps[tuple[int, bytes]]:
        """The status, and what is presented or the line."""
        said = _library.UNSAID
        status, answer = _library.call("present_ask", self.file, token, now, said)
        if status == _library.ASKS:
            said = (yield from self._checking.answer(answer)).said
            status, answer = _library.call("present_ask", self.file, token, now, said)
        if status != _library.TO_SIGN or self._signer is None:
            return status, answer
        signature = yield from self._signer.signature(answer)
        status, answer = _library.call("present_sign", self.file, token, now, said, signature)
        if status == _library.USAGE:
            raise ValueError("sdjwt: what sign answered has no bytes, and is no signature")
        return status, answer


def presenting_of(
    text: bytes, check: CheckFunction | AsyncCheckFunction | None, sign: object, alg: object
) -> Presenting | None:
    """How an order is presented. None where the library does so by itself, with the shared keys of the order."""
    need_function(check)
    is_asked = check is not None or sign is not None
    if alg is not None and sign is None:
        raise ValueError("sdjwt: alg is given without sign; a shared key signs by HS256")
    order = read_object(text, is_asked)
    if order is None:
        return None
    if not is_asked and not has_other(order.get("algs")):
        warn_of_private(order, "", "present order")
        return None
    return Presenting(order, check, None if sign is None else _signer(order, sign, alg))


def _signer(order: dict[str, Any], sign: object, alg: object) -> Signer:
    """Who signs. The algorithm may be named by the order too."""
    binding = order.get("binding")
    named = None
    if isinstance(binding, dict) and "alg" in binding:
        named = binding["alg"]
        wrong = text_fault(named, "/binding/alg")
        if wrong:
            raise Unreadable("unreadable 1 wrong binding", wrong)
    if alg is not None and named is not None and alg != named:
        raise ValueError("sdjwt: alg is another than the alg in the binding of the order")
    signer = signer_of(sign, named if alg is None else alg)
    if signer.alg in (b"", b"none"):
        raise ValueError("sdjwt: alg is no name of an algorithm by which a token is signed")
    return signer


def _need_keys(order: dict[str, Any]) -> None:
    """The order has to have a key set, which the library does not see."""
    if "keys" not in order:
        raise Unreadable("unreadable 1 missing keys", "the keys of the issuers have to be there, or a function check")
    wrong = key_set_fault(order["keys"])
    if wrong:
        raise Unreadable("unreadable 1 wrong keys", wrong)

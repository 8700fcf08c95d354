"""The office, which issues tickets. It has a private key, and knows all that it wrote into each ticket."""
from __future__ import annotations

import threading
from collections import deque
from datetime import date, datetime, timedelta, timezone
from typing import Any

import sdjwt
from cryptography.hazmat.primitives.asymmetric import ec

from forms import Form, WrongField, filled

ISSUER = "https://office.example"
TYPE = "ticket+sd-jwt"
HIDDEN = ["/name", "/seat", "/birthdate", "/over_18", "/over_65"]
REMEMBERED = 20


class Office:
    """The issuer. Its private key is made at the start, and only its public key leaves it."""

    def __init__(self) -> None:
        self._key = ec.generate_private_key(ec.SECP256R1())
        self.public_key = sdjwt.public_jwk(self._key, kid=True)
        self._lock = threading.Lock()
        self._register: deque[dict[str, Any]] = deque(maxlen=REMEMBERED)

    def issue(self, form: Form) -> dict[str, Any]:
        """A new ticket, for the holder whose public key is in the form."""
        claims = {name: filled(form, name, most) for name, most in (("event", 60), ("name", 60), ("seat", 10))}
        born, until = _day(form, "born"), _day(form, "until")
        age = _age(born)
        payload = {
            "iss": ISSUER, "exp": _end_of(until), "cnf": {"jwk": _holder_key(form)}, **claims,
            "birthdate": born.isoformat(), "over_18": age >= 18, "over_65": age >= 65}
        order = {"payload": payload, "hide": HIDDEN, "kid": self.public_key["kid"], "typ": TYPE}
        ticket = sdjwt.issue(order, sign=self._key)
        with self._lock:
            self._register.append({**claims, "birthdate": born.isoformat(), "until": until.isoformat()})
        return {"ticket": ticket}

    def state(self) -> dict[str, Any]:
        """What the office knows: its key, and each ticket with all of its claims, the newest first."""
        with self._lock:
            return {"issuer": ISSUER, "kid": self.public_key["kid"], "tickets": list(reversed(self._register))}


def _today() -> date:
    return datetime.now(timezone.utc).date()


def _day(form: Form, field: str) -> date:
    try:
        return date.fromisoformat(filled(form, field, 10))
    except ValueError:
        raise WrongField(field, "This is not a day. Write it as 1990-12-31.") from None


def _age(born: date) -> int:
    today = _today()
    if born > today:
        raise WrongField("born", "This day is in the future. Write the day of birth.")
    return today.year - born.year - ((today.month, today.day) < (born.month, born.day))


def _end_of(last: date) -> int:
    """The time at which a day ends, in seconds since 1970."""
    if not date(2000, 1, 1) <= last <= date(2100, 1, 1):
        raise WrongField("until", "Write a day between 2000 and 2100.")
    midnight = datetime(last.year, last.month, last.day, tzinfo=timezone.utc)
    return int((midnight + timedelta(days=1)).timestamp())


def _holder_key(form: Form) -> dict[str, str]:
    """The wallet's public key, without any other member that came with it."""
    try:
        key = sdjwt.public_jwk(form["holder"])
    except (KeyError, TypeError, ValueError):
        key = {}
    if key.get("crv") != "P-256":
        raise WrongField("holder", "The wallet sent no public key of P-256. Load the page again.")
    return key

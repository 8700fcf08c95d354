"""The door, which verifies. It asks for one claim, gives each visitor a nonce, and takes each nonce once."""
from __future__ import annotations

import secrets
import threading
import time
from collections import deque
from dataclasses import asdict, dataclass
from typing import Any

import sdjwt

import words
from forms import Form, text_of
from office import ISSUER, TYPE
from view import view_of
from words import Words

AUDIENCE = "https://door.example"
CLAIM = "over_18"
LONGEST = 64 * 1024
REMEMBERED = 20
MOST_VISITS = 1_000


@dataclass(frozen=True)
class Verdict:
    """What the door says to a visitor. `line` is what the library said, for whoever runs the door."""

    admitted: bool
    title: str
    why: str
    todo: str = ""
    line: str = ""


@dataclass
class _Visit:
    began: float
    is_used: bool = False


class Door:
    """The verifier. Many visitors may come at once: the lock is for its own lists, and not held during a check."""

    def __init__(self, issuer: dict[str, str], visit_seconds: float = 300) -> None:
        self._policy = sdjwt.Policy({
            "keys": [issuer], "algs": ["ES256"], "typ": TYPE, "iss": ISSUER, "require": [CLAIM], "skew": 30,
            "binding": {"aud": AUDIENCE, "max_age": 300}})
        self._visit_seconds = visit_seconds
        self._lock = threading.Lock()
        self._visits: dict[str, _Visit] = {}
        self._verdicts: deque[dict[str, str]] = deque(maxlen=REMEMBERED)

    def ask(self, _: Form) -> dict[str, Any]:
        """What a visitor is asked for, with a nonce for this visit."""
        nonce = secrets.token_urlsafe(16)
        with self._lock:
            self._visits[nonce] = _Visit(time.monotonic())
            while len(self._visits) > MOST_VISITS:
                del self._visits[next(iter(self._visits))]
        return {"audience": AUDIENCE, "nonce": nonce, "claim": CLAIM}

    def admit(self, form: Form) -> dict[str, Any]:
        """The verdict about a presentation, and what the door sees of it."""
        nonce, presented = text_of(form, "nonce", 256), text_of(form, "presented", LONGEST).strip()
        verdict = self._judge(nonce, presented)
        with self._lock:
            self._verdicts.append({"at": time.strftime("%H:%M:%S", time.gmtime()), "title": verdict.title})
        return {"verdict": asdict(verdict), "view": view_of(presented)}

    def state(self) -> dict[str, Any]:
        """What the door remembers: its verdicts, the newest first."""
        with self._lock:
            return {"verdicts": list(reversed(self._verdicts))}

    def _judge(self, nonce: str, presented: str) -> Verdict:
        if not presented:
            return _refused(words.NOTHING)
        fault = self._use(nonce)
        if fault is not None:
            return _refused(fault)
        try:
            claims = self._policy.verify(presented, nonce=nonce, most=LONGEST)
        except sdjwt.SdJwtError as refusal:
            return _refused(words.of(refusal), refusal.line)
        # `require` asks only that the claim is there. Its value may be "no", which Python takes for true.
        if claims[CLAIM] is not True:
            return _refused(words.TOO_YOUNG)
        return Verdict(True, "Admitted: over 18", "The office signed it, and the visitor holds the key of this ticket.")

    def _use(self, nonce: str) -> Words | None:
        """Uses up a nonce, or says why it cannot be used. Of two requests with one nonce, one gets it."""
        with self._lock:
            visit = self._visits.get(nonce)
            if visit is None:
                return words.UNKNOWN_VISIT
            if visit.is_used:
                return words.USED_VISIT
            visit.is_used = True
            is_old = time.monotonic() - visit.began > self._visit_seconds
        return words.OLD_VISIT if is_old else None


def _refused(said: Words, line: str = "") -> Verdict:
    return Verdict(False, f"Not admitted: {said.title}", said.why, said.todo, line)

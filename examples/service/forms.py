"""Reads what a request has in its JSON object, member by member."""
from __future__ import annotations

from typing import Any

Form = dict[str, Any]


class WrongField(Exception):
    """A member of a form that cannot be used. `words` tell a person what to do about it."""

    def __init__(self, field: str, words: str) -> None:
        super().__init__(f"{field}: {words}")
        self.field, self.words = field, words


def text_of(form: Form, field: str, most: int) -> str:
    """A string of at most so many characters."""
    text = form.get(field)
    if not isinstance(text, str):
        raise WrongField(field, "This has to be text.")
    if len(text) > most:
        raise WrongField(field, f"This is too long: use at most {most:,} characters.")
    if any("\ud800" <= character <= "\udfff" for character in text):
        raise WrongField(field, "This has half of a character, which cannot be written. Type it again.")
    return text


def filled(form: Form, field: str, most: int) -> str:
    """A string that is not blank."""
    text = text_of(form, field, most).strip()
    if not text:
        raise WrongField(field, "This is empty. Fill it in.")
    return text


def texts_of(form: Form, field: str, most: int) -> list[str]:
    """A list of at most so many strings."""
    texts = form.get(field)
    if not isinstance(texts, list) or len(texts) > most:
        raise WrongField(field, f"This has to be a list of at most {most} texts.")
    return [text_of({field: text}, field, 1_000) for text in texts]

"""The handles of a policy. A call borrows one and gives it back, so that no handle is used by two calls at once."""
from __future__ import annotations

import json
from collections.abc import Iterator
from contextlib import contextmanager
from typing import Any, NamedTuple, Optional

from sdjwt._answers import answered
from sdjwt._asking import is_no_object, read_object
from sdjwt._errors import OutOfMemory, Unreadable
from sdjwt._given import named_text
from sdjwt._library import DONE, KEPT, MEMORY, Handle, new_handle

# What a call may give in place of a member of `binding`: the argument, and the name of the member.
_OF_CALLS = {"nonce": "nonce", "audience": "aud"}
# What stands in a policy for what each call has to give.
_STAND_IN = "given by the call"
_Entry = tuple[Optional[str], Handle]


class Filled(NamedTuple):
    """A policy, with stand-ins for the members of `binding` that are left to the calls; and the arguments for these."""

    file: bytes
    missing: tuple[str, ...]


def filled(text: bytes) -> Filled:
    """A policy with all members of `binding` that a call may give."""
    # the only other way to write a name in JSON is with escapes
    policy = read_object(text, True) if b'"binding"' in text or b"\\u" in text else None
    binding = policy.get("binding") if policy is not None else None
    if policy is None or not isinstance(binding, dict):
        return Filled(text, ())
    missing = tuple(argument for argument, name in _OF_CALLS.items() if name not in binding)
    if not missing or is_no_object(text):
        return Filled(text, ())
    return Filled(_with(policy, *(_STAND_IN if argument in missing else None for argument in _OF_CALLS)), missing)


def _with(policy: dict[str, Any], nonce: Optional[str], audience: Optional[str]) -> bytes:
    """A policy with another nonce and audience, if they are given. A policy of version 2 has a list of audiences."""
    binding = dict(policy["binding"])
    if nonce is not None:
        binding["nonce"] = nonce
    if audience is not None:
        binding["aud"] = [audience] if policy.get("version") == 2 else audience
    return json.dumps({**policy, "binding": binding}).encode()


class Handles:
    """The handles of a policy that no call uses.

    `own` are those of the policy as it is. The others are for calls that give a nonce or an audience: each with the
    audience for which its policy was read, which is None for that of the policy. Their nonce is set for each call anew.
    """

    __slots__ = ("_file", "_others", "_policy", "missing", "own")

    def __init__(self, file: bytes, missing: tuple[str, ...]) -> None:
        self._file, self.missing = file, missing
        self._policy: Optional[dict[str, Any]] = None
        self._others: list[_Entry] = []
        # a policy with stand-ins is read only to see whether it is one
        first = self.new()
        self.own = [] if missing else [first]

    @property
    def has_binding(self) -> bool:
        """Whether the policy asks for a key binding token."""
        return "binding" in self._read_policy()

    def new(self) -> Handle:
        """One more handle of the policy as it is."""
        return _read(self._file)

    @contextmanager
    def lent(self, nonce: object, audience: object) -> Iterator[Handle]:
        """A handle for one call."""
        if nonce is None and audience is None and not self.missing:
            handles = self.own
            try:
                handle = handles.pop()
            except IndexError:
                handle = self.new()
            try:
                yield handle
            finally:
                if len(handles) < KEPT:
                    handles.append(handle)
            return
        entry = self._other(nonce, audience)
        try:
            yield entry[1]
        finally:
            self._others.append(entry)
            # the one that was used longest ago goes
            if len(self._others) > KEPT:
                del self._others[:1]

    def _other(self, nonce: object, audience: object) -> _Entry:
        """A handle with the nonce and for the audience of a call, that no other call uses."""
        texts = {
            name: None if value is None else named_text(value, name)
            for name, value in (("nonce", nonce), ("audience", audience))
        }
        binding = self._binding(texts)
        entry = self._idle(texts["audience"]) or (texts["audience"], self._read_for(texts["audience"]))
        named = texts["nonce"]
        self._set_nonce(entry, binding["nonce"] if named is None else named)
        return entry

    def _binding(self, given: dict[str, Optional[str]]) -> dict[str, Any]:
        """The binding of the policy, if what is given fits it."""
        binding: Optional[dict[str, Any]] = self._read_policy().get("binding")
        if binding is None:
            name = next(name for name, text in given.items() if text is not None)
            raise ValueError(
                f"sdjwt: {name} is given, and the policy has no binding, so no key binding token is checked"
            )
        for name in self.missing:
            if given[name] is None:
                raise Unreadable(
                    "unreadable 1 wrong binding",
                    f'at /binding: "{_OF_CALLS[name]}" is missing, and the call gives no {name}',
                )
        return binding

    def _read_policy(self) -> dict[str, Any]:
        if self._policy is None:
            read: dict[str, Any] = json.loads(self._file)
            self._policy = read
        return self._policy

    def _idle(self, audience: Optional[str]) -> Optional[_Entry]:
        """A handle for an audience that no call uses. It is this call's from now on."""
        for entry in tuple(self._others):
            if entry[0] == audience:
                try:
                    self._others.remove(entry)
                except ValueError:
                    # another call took it
                    continue
                return entry
        return None

    def _read_for(self, audience: Optional[str]) -> Handle:
        if audience is None:
            return self.new()
        try:
            return _read(_with(self._read_policy(), None, audience))
        except Unreadable:
            # the policy is good with another text
            raise _too_long("audience", audience) from None

    def _set_nonce(self, entry: _Entry, nonce: str) -> None:
        audience, handle = entry
        status = handle.set_nonce(nonce.encode(), lambda: _with(self._read_policy(), nonce, audience))
        if status == MEMORY:
            raise OutOfMemory("sdjwt: there is no memory")
        if status != DONE:
            raise _too_long("nonce", nonce)


def _read(file: bytes) -> Handle:
    status, line, handle = new_handle(file)
    answered(status, line, ("policy", file))
    return handle


def _too_long(name: str, text: str) -> ValueError:
    return ValueError(f"sdjwt: {name} has {len(text.encode())} bytes, and may have 256")

"""The program sdjwt-keys: SD-JWT on the command line, with public keys.

It reads files and options, calls the package, and prints what the package returns. Its statuses and first lines are
those of the program sdjwt.
"""
from __future__ import annotations

import argparse
import hmac
import io
import os
import shutil
import signal
import sys
import warnings
from collections.abc import Callable
from typing import TYPE_CHECKING, Any

import sdjwt
from sdjwt._detail import FILE_MAX
from sdjwt._errors import _explanations
from sdjwt._key_sets import is_oct
from sdjwt._keys import MACS, BadKey, decoded, key_of
from sdjwt._lines import PARTS, found
from sdjwt._program_faults import REFUSED, UNREADABLE, UNWRITTEN, Fault, fault_of, json_line, plain, usage
from sdjwt._program_files import Input, print_json, shown_name, write_page
from sdjwt._program_keys import Signing, algorithms_of, make, public_keys, signing_key
from sdjwt._program_policies import is_asked, moment, order_of, policy_of
from sdjwt._program_words import NAME, parser

if TYPE_CHECKING:
    from sdjwt._inspect import Verdict

# One byte more than a token may have, so that the library says that it is too long.
_MOST = FILE_MAX + 1
# The status of a program that Ctrl-C ends.
_INTERRUPTED = 130
_PROVED = {
    True: "the library is proved",
    False: "the library is not proved",
    None: "it is not known whether the library is proved",
}


def _version() -> str:
    return f"{NAME} {sdjwt.__version__}: {_PROVED[sdjwt.proved]}"


def _keygen(given: Input, said: argparse.Namespace) -> int:
    print_json(make(said.alg, said.form, said.kid, said.name))
    return 0


def _with_alg(key: Signing, alg: str | None) -> Signing:
    """A key with the algorithm of an option."""
    return key if alg is None else key._replace(alg=alg)


def _issue(given: Input, said: argparse.Namespace) -> int:
    if said.alg is not None and said.key is None:
        raise usage("--alg is the algorithm of --key, which is missing")
    key = None if said.key is None else _with_alg(signing_key(given, said.key), said.alg)
    order = order_of(given, given.order(said.order), said.holder, key)
    if key is None or key.private is None:
        print(sdjwt.issue(order))
    else:
        print(sdjwt.issue(order, sign=key.private, alg=key.alg))
    return 0


def _signer(name: str, key: Signing) -> tuple[Any, str | None]:
    """What signs by a key of the holder, and its algorithm."""
    if key.shared is None:
        return key.private, key.alg
    alg = key.alg or "HS256"
    try:
        if alg not in key_of(key.shared).checks:
            raise BadKey(f"it can't be used for {alg}")
    except BadKey as fault:
        raise Fault(
            UNREADABLE, f"unreadable {shown_name(name)}", f"{shown_name(name)} is no key that signs: {fault}."
        ) from None
    secret = decoded(key.shared["k"])
    return lambda text: hmac.digest(secret, text, MACS[alg].hash_name), alg


def _binding(given: Input, said: argparse.Namespace) -> tuple[dict[str, Any], Any, str | None]:
    """The members of a present order that ask for a key binding token, with what signs it and the algorithm."""
    if said.aud is None and said.nonce is None:
        if said.key is not None or said.alg is not None:
            raise usage("--key signs a key binding token, which --aud and --nonce ask for")
        return {}, None, None
    if said.aud is None or said.nonce is None:
        raise usage("--aud and --nonce belong together: both are in a key binding token")
    if said.key is None:
        raise usage("the key of the holder is missing, which signs the key binding token: give --key FILE")
    sign, alg = _signer(said.key, _with_alg(signing_key(given, said.key), said.alg))
    return {"binding": {"aud": said.aud, "nonce": said.nonce}}, sign, alg


def _present(given: Input, said: argparse.Namespace) -> int:
    binding, sign, alg = _binding(given, said)
    token = given.token(said.token)
    order: dict[str, Any] = {"want": said.want, "never": said.never, **binding}
    check: Callable[[sdjwt.Question], bool] | None = None
    if said.issuer:
        keys = public_keys(given, said.issuer)
        order["keys"] = {"keys": keys}
        if sign is not None or not all(map(is_oct, keys)):
            order["algs"] = algorithms_of(keys)
    else:
        order["algs"] = [sdjwt.show(token, most=_MOST)["header"]["alg"]]
        check = _unchecked
        given.notes.append("the signature of the issuer is not checked; --issuer FILE checks it")
    print(sdjwt.present(order, token, moment(said.now), most=_MOST, sign=sign, alg=alg, check=check))
    return 0


def _unchecked(question: sdjwt.Question) -> bool:
    """Lets a holder present a token without the key of the issuer. The verifier checks the signature."""
    return True


def _policy(given: Input, said: argparse.Namespace) -> tuple[dict[str, Any] | bytes, sdjwt.Policy]:
    """The policy that is given, and what verifies under it."""
    asked = policy_of(given, said)
    policy = sdjwt.Policy(asked)
    for key in policy.skipped_keys:
        given.notes.append(f"key {key.index} of {key.where} is not used: {key.reason}")
    return asked, policy


def _verify(given: Input, said: argparse.Namespace) -> int:
    policy = _policy(given, said)[1]
    print_json(policy.verify(given.token(said.token), moment(said.now), most=_MOST))
    return 0


def _judged(given: Input, said: argparse.Namespace, token: bytes) -> Verdict | None:
    """What the library says of a token, if a policy is given."""
    from sdjwt._inspect import Verdict

    if not is_asked(said):
        return None
    asked, policy = _policy(given, said)
    try:
        policy.verify(token, moment(said.now), most=_MOST)
    except sdjwt.Refused as refused:
        return Verdict(asked, refused)
    return Verdict(asked, None)


def _inspect_token(given: Input, said: argparse.Namespace) -> int:
    # the other commands start faster without these
    from sdjwt import _inspect, _inspect_page, _inspect_text

    token = given.token(said.token)
    inside = _inspect.look(sdjwt.split(token, most=_MOST), moment(said.now))
    verdict = _judged(given, said, token)
    if said.html is not None:
        write_page(said.html, _inspect_page.page(inside, verdict))
    if said.html != "-":
        _inspect_text.show(inside, verdict, _is_coloured(said.color), said.full)
    return REFUSED if verdict is not None and verdict.refused is not None else 0


def _is_coloured(when: str) -> bool:
    """Whether output is coloured (https://no-color.org)."""
    if when != "auto":
        return when == "always"
    return sys.stdout.isatty() and not os.environ.get("NO_COLOR") and os.environ.get("TERM") != "dumb"


def _show(given: Input, said: argparse.Namespace) -> int:
    print_json(sdjwt.show(given.token(said.token), most=_MOST))
    return 0


def _convert(given: Input, said: argparse.Namespace) -> int:
    converted = sdjwt.convert(said.form, given.token(said.token), most=_MOST)
    if isinstance(converted, str):
        print(converted)
    else:
        print_json(converted)
    return 0


def _explain(given: Input, said: argparse.Namespace) -> int:
    wanted, entries = " ".join(said.words), _explanations()
    headings = found(wanted, entries)
    if not headings:
        raise usage(f"there is no entry of {wanted!r}; docs/REFUSALS.md has them all")
    if said.json:
        print_json([{"line": heading, **entries[heading]} for heading in headings])
        return 0
    for heading in headings:
        parts = [f"{label}: {plain(entries[heading][part])}" for label, part in PARTS.items()]
        print("\n".join([heading, *parts]))
    return 0


_COMMANDS: dict[str, Callable[[Input, argparse.Namespace], int]] = {
    "keygen": _keygen,
    "issue": _issue,
    "present": _present,
    "verify": _verify,
    "inspect": _inspect_token,
    "show": _show,
    "convert": _convert,
    "explain": _explain,
}


def _tell(fault: Fault | None, notes: list[str], is_json: bool) -> None:
    """Says on standard error why there is no result, and then what is no fault."""
    if sys.stderr is None:
        return
    width = min(shutil.get_terminal_size().columns, 120) if sys.stderr.isatty() else None
    if fault is not None:
        print(json_line(fault.object()) if is_json else fault.text(width), file=sys.stderr)
    for note in notes:
        print(json_line({"note": note}) if is_json else f"note: {note}", file=sys.stderr)


def run(words: list[str]) -> int:
    """Does what the words say, and returns the status."""
    given = Input()
    warnings.showwarning = lambda message, *_: given.notes.append(str(message).replace("sdjwt: ", "", 1))
    fault = None
    try:
        said = parser(_version()).parse_args(words)
        status = _COMMANDS[said.command](given, said)
    except SystemExit as ended:
        # argparse ends by it after --help and --version
        return int(ended.code or 0)
    except Exception as error:
        fault = fault_of(error)
        if fault is None:
            raise
        status = fault.status
    _tell(fault, given.notes, "--json" in words)
    return status


def main() -> int:
    """The program. A reader of its output that ends early ends it too, without a word."""
    signal.signal(signal.SIGPIPE, signal.SIG_DFL)
    try:
        if sys.stdout is None:
            raise OSError(0, "standard output is closed")
        for stream in (sys.stdout, sys.stderr):
            if isinstance(stream, io.TextIOWrapper):
                stream.reconfigure(encoding="utf-8", errors="backslashreplace")
        status = run(sys.argv[1:])
        sys.stdout.flush()
    except OSError as error:
        _tell(
            Fault(UNWRITTEN, "unwritten", f"The output could not be written: {error.strerror}."),
            [],
            "--json" in sys.argv,
        )
        # what is left of the output is not written at the end either
        os._exit(UNWRITTEN)
    except KeyboardInterrupt:
        return _INTERRUPTED
    return status

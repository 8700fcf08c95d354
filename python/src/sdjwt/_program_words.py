"""The commands and options of the program sdjwt-keys, with their help."""
from __future__ import annotations

import argparse
from collections.abc import Callable
from typing import Any, NoReturn

from sdjwt._program_faults import usage
from sdjwt._program_keys import ALGORITHMS, FORMS

NAME = "sdjwt-keys"
_ABOUT = """\
Issue, present, verify and look at SD-JWTs (RFC 9901): JWTs with hidden claims.

Signatures are made and checked with public keys (ES256, EdDSA, RS256 and the like) or symmetric keys (HS256).
All rules of SD-JWT are judged by the C library; this program reads files and options, and prints.
"""
_EXAMPLE = """\
A token of your own, in five commands:
  sdjwt-keys keygen office
  sdjwt-keys keygen ada
  sdjwt-keys issue '{"payload": {"iss": "tickets", "name": "Ada", "seat": "B12"}, "hide": ["/name", "/seat"]}' \\
      --key office.pem --holder ada.jwk > ticket.txt
  sdjwt-keys present ticket.txt --issuer office.jwk --want /seat --aud https://door.example --nonce 4711 \\
      --key ada.pem > shown.txt
  sdjwt-keys verify shown.txt --key office.jwk --aud https://door.example --nonce 4711 --require seat

`sdjwt-keys COMMAND --help` explains a command, and `man sdjwt-keys` all of them.
The status is 0, or 1 (refused), 2 (usage), 3 (a file could not be read), 4 (it could not be written), 5 (memory),
6 (a file does not have its form); then the first line on standard error says why, and the next ones explain it.
"""
_TOKEN = "a file with a token, - for standard input, or the token itself"
_FORM_HELP = {"compact": "one line of text", "flat": "flattened JSON", "general": "general JSON"}
FORMS_OF_TOKENS = tuple(_FORM_HELP)


class _Parser(argparse.ArgumentParser):
    """A parser whose faults are those of the program."""

    def __init__(self, **said: Any) -> None:
        super().__init__(allow_abbrev=False, formatter_class=argparse.RawDescriptionHelpFormatter, **said)

    def error(self, message: str) -> NoReturn:
        raise usage(f"{message}\n{self.format_usage().rstrip()}\n{self.prog} --help explains it.")


def parser(version: str) -> argparse.ArgumentParser:
    """The parser of the program. What it finds has `command`, and the options of that command."""
    program = _Parser(prog=NAME, description=_ABOUT, epilog=_EXAMPLE)
    program.add_argument("--version", action="version", version=version)
    commands = program.add_subparsers(dest="command", metavar="COMMAND", required=True, parser_class=_Parser)
    for add in (
        _add_keygen,
        _add_issue,
        _add_present,
        _add_verify,
        _add_inspect,
        _add_show,
        _add_convert,
        _add_explain,
    ):
        add(commands)
    return program


def _command(commands: Any, name: str, does: str, example: str, more: str = "") -> Callable[..., Any]:
    """Adds a command, and returns what adds an argument to it."""
    description = f"{does[0].upper()}{does[1:]}.{' ' + more if more else ''}"
    one = commands.add_parser(name, help=does, description=description, epilog=f"example:\n{example}")
    one.add_argument("--json", action="store_true", help="print errors as JSON objects")
    add: Callable[..., Any] = one.add_argument
    return add


def _add_keygen(commands: Any) -> None:
    add = _command(
        commands,
        "keygen",
        "make a key pair, or a symmetric key",
        "  sdjwt-keys keygen office --alg ES256 --kid office-1",
        "The private key goes into NAME.pem,\nwhich only you can read, and the public key into NAME.jwk. A key of "
        "HS256, HS384 "
        "or HS512 goes into\nNAME.shared.jwk. No file is overwritten. The names of the files are printed.",
    )
    add("name", metavar="NAME", help="the beginning of the names of the files")
    add(
        "--alg",
        choices=ALGORITHMS,
        default="ES256",
        metavar="ALG",
        help=f"one of {', '.join(ALGORITHMS)}; default ES256",
    )
    add("--form", choices=FORMS, metavar="FORM", help="the form of the private key: pem, or jwk (NAME.private.jwk)")
    add("--kid", help="a name of the key, for its JWK and for the headers of tokens")


def _add_issue(commands: Any) -> None:
    add = _command(
        commands,
        "issue",
        "print the token of an order",
        "  sdjwt-keys issue '{\"payload\": {\"name\": \"Ada\"}, \"hide\": [\"/name\"]}' --key office.pem",
        "An order has the claims in `payload` and the places to hide in\n`hide`, as JSON Pointers; docs/FILES.md has "
        "all its "
        "members. The salts are random.",
    )
    add("order", metavar="ORDER", help="a file with an order, - for standard input, or the JSON itself")
    add(
        "--key",
        metavar="FILE",
        help="the key that signs: a private key (PEM or JWK) or a symmetric JWK; not needed if the order has `key`",
    )
    add("--alg", metavar="ALG", help="the algorithm; needed for RSA keys only")
    add("--holder", metavar="FILE", help="the public key of the holder (PEM or JWK), for the claim `cnf`")


def _add_present(commands: Any) -> None:
    add = _command(
        commands,
        "present",
        "print a token with the disclosures that are wanted, and no others",
        "  sdjwt-keys present ticket.txt --issuer office.jwk --want /seat --aud https://door.example --nonce 4711 "
        "--key ada.pem",
        "With --aud and --nonce it\ngets a key binding token, signed with the key of the holder. PLACE is a JSON "
        "Pointer.",
    )
    add("token", metavar="TOKEN", help=_TOKEN)
    add(
        "--want",
        action="append",
        default=[],
        metavar="PLACE",
        help="a place to show, such as /seat or /address/city; may be repeated",
    )
    add("--never", action="append", default=[], metavar="PLACE", help="a place that is never shown; may be repeated")
    add("--aud", help="the verifier that the presentation is for")
    add("--nonce", help="what the verifier gave for this one presentation")
    add("--key", metavar="FILE", help="the key of the holder: a private key (PEM or JWK) or a symmetric JWK")
    add("--alg", metavar="ALG", help="the algorithm of the holder; needed for RSA keys only")
    add(
        "--issuer",
        action="append",
        default=[],
        metavar="FILE",
        help="the key of the issuer (PEM, JWK or key set), under "
        "which the signature of the token is checked first; may be repeated",
    )
    add("--now", metavar="TIME", help=_NOW)


_NOW = "the time of the run: seconds since 1970, or 2026-12-01T22:00:00Z; default now"


def _add_policy(add: Callable[..., Any]) -> None:
    add(
        "--policy",
        metavar="FILE",
        help="a file with a policy (docs/FILES.md), instead of the options below except --now",
    )
    add(
        "--key",
        action="append",
        default=[],
        metavar="FILE",
        help="a key of the issuer: PEM, JWK or key set; may be repeated",
    )
    add(
        "--alg",
        action="append",
        default=[],
        metavar="ALG",
        help="an algorithm to accept; may be repeated; default: those of the keys",
    )
    add("--typ", help="what `typ` in the header has to be")
    add("--iss", action="append", default=[], help="an issuer to accept, by the claim `iss`; may be repeated")
    add("--require", action="append", default=[], metavar="NAME", help="a claim that has to be there; may be repeated")
    add("--skew", type=int, metavar="SECONDS", help="by how much clocks may differ; default 0")
    add(
        "--aud",
        action="append",
        default=[],
        help="your own name, which the key binding token has to have; may be repeated",
    )
    add("--nonce", help="the nonce that you gave for this one presentation")
    add("--max-age", type=int, metavar="SECONDS", help="how old the key binding token may be; default 300")
    add(
        "--holder",
        action="append",
        default=[],
        metavar="FILE",
        help="keys of holders whose `cnf` names a `kid`; may be repeated",
    )
    add(
        "--holder-alg",
        action="append",
        default=[],
        metavar="ALG",
        help="an algorithm to accept of holders; may be repeated; default: all with public keys",
    )
    add("--now", metavar="TIME", help=_NOW)


def _add_verify(commands: Any) -> None:
    add = _command(
        commands,
        "verify",
        "print the claims of a token that is accepted",
        "  sdjwt-keys verify shown.txt --key office.jwk --iss tickets --require seat --aud https://door.example "
        "--nonce 4711",
        "With --aud and --nonce the token needs a\nkey binding token. What no option requires is not judged, except "
        "`exp` and `nbf`.",
    )
    add("token", metavar="TOKEN", help=_TOKEN)
    _add_policy(add)


def _add_inspect(commands: Any) -> None:
    add = _command(
        commands,
        "inspect",
        "show what is in a token, and which digest hides which claim",
        "  sdjwt-keys inspect shown.txt --html shown.html --policy policy.json",
        "inspect checks nothing: no signature,\nno time and no hash is judged, and the page and the tree are a "
        "display. "
        "With a policy, or --key, the library\njudges the token, and the 38 conditions are listed; the status is "
        "then 1 if it refuses.",
    )
    add("token", metavar="TOKEN", help=_TOKEN)
    add("--html", metavar="FILE", help="write one HTML page that needs no other file; - is standard output")
    add("--color", choices=("auto", "always", "never"), default="auto", metavar="WHEN",
        help="auto (on a terminal, if NO_COLOR is not set), always or never")
    add("--full", action="store_true", help="print long values whole")
    _add_policy(add)


def _add_show(commands: Any) -> None:
    add = _command(commands, "show", "print the JSON inside a token, unchecked", "  sdjwt-keys show ticket.txt")
    add("token", metavar="TOKEN", help=_TOKEN)


def _add_convert(commands: Any) -> None:
    forms = ", ".join(f"{form} ({said})" for form, said in _FORM_HELP.items())
    add = _command(
        commands, "convert", "print a token in another form, unchecked", "  sdjwt-keys convert flat ticket.txt"
    )
    add("form", choices=FORMS_OF_TOKENS, metavar="FORM", help=forms)
    add("token", metavar="TOKEN", help=_TOKEN)


def _add_explain(commands: Any) -> None:
    add = _command(
        commands,
        "explain",
        "explain why a token or a file is refused",
        "  sdjwt-keys explain refused 73 consentRefused at 0",
        "WORD is the number, the name, or the line.",
    )
    add("words", nargs="+", metavar="WORD", help="such as 73, consentRefused, wrong keys, or a whole line")

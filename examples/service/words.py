"""The verdicts of the door in words for a visitor: why not, and what to do. Which one it is, the library decides."""
from __future__ import annotations

from typing import NamedTuple

import sdjwt


class Words(NamedTuple):
    """`title` ends the sentence "Not admitted: ..."."""

    title: str
    why: str
    todo: str


SHOW_AGAIN = "Show the ticket from the wallet again."
NEW_TICKET = "Get a new ticket at the office, and show that one."

NOTHING = Words("no ticket", "No ticket was shown.", "Choose a ticket in the wallet, and show it.")
UNKNOWN_VISIT = Words(
    "unknown visit", "The door did not give out the number of this visit, or has forgotten it.", SHOW_AGAIN)
USED_VISIT = Words(
    "shown before", "The number of this visit was used before. Each number is good for one try.", SHOW_AGAIN)
OLD_VISIT = Words("too late", "The number of this visit is too old.", SHOW_AGAIN)
TOO_YOUNG = Words(
    "not over 18", "The ticket says that its holder is not over 18.", "Only visitors over 18 can come in.")

_NOT_A_TICKET = Words("not a ticket", "What was shown cannot be read as a ticket.", SHOW_AGAIN)
_TOO_LONG = Words("not a ticket", "What was shown is too long for a ticket.", SHOW_AGAIN)
_NOT_OURS = Words(
    "not from this office",
    "The office did not sign this ticket, or it was changed after that, or the service was started again since.",
    NEW_TICKET)
_CHANGED = Words("changed", "A claim was changed, added or repeated after the office signed the ticket.", SHOW_AGAIN)
_CHANGED_LATER = Words(
    "changed", "What is shown was changed after the holder signed it for this visit.", SHOW_AGAIN)
_NOT_BOUND = Words(
    "nobody vouches for it", "The ticket comes without the holder's signature for this visit. It may be a copy.",
    SHOW_AGAIN)
_ANOTHER_HOLDER = Words(
    "another person's ticket", "The signature for this visit is not by the key to which the office gave this ticket.",
    "Show it from the wallet to which it was issued.")
_ANOTHER_VISIT = Words(
    "made for another visit", "This was signed for another visit. It may be a copy of what somebody else has shown.",
    SHOW_AGAIN)
_ANOTHER_DOOR = Words("made for another door", "This was signed for another door.", SHOW_AGAIN)
_STALE = Words("too late", "This was signed too long ago.", SHOW_AGAIN)
_EARLY = Words(
    "signed in the future", "By the clock of the door, this was signed in the future.",
    "Set the clock of the wallet, and show it again.")
_KEPT_BACK = Words(
    "age not shown", "The ticket does not show whether its holder is over 18.",
    "Choose “Over 18” in the wallet, and show it again.")
_EXPIRED = Words("the ticket has expired", "The last day of this ticket is over.", NEW_TICKET)
_NOT_YET = Words("not valid yet", "This ticket is for a later day.", "Come again on that day.")
_OTHER = Words("the ticket is not accepted", "The ticket does not keep the rules of tickets.", NEW_TICKET)

_OF_NAME = {
    "tooLong": _TOO_LONG, "tooMuch": _TOO_LONG, "form": _NOT_A_TICKET, "headerUnreadable": _NOT_A_TICKET,
    "bindingMissing": _NOT_BOUND,
    "algRefused": _NOT_OURS, "typeRefused": _NOT_OURS, "issuerKeyUnknown": _NOT_OURS, "badSignature": _NOT_OURS,
    "issuerRefused": _NOT_OURS,
    "disclosureUnreadable": _CHANGED, "repeatedDisclosure": _CHANGED, "repeatedDigest": _CHANGED,
    "unreferencedDisclosure": _CHANGED, "wrongShape": _CHANGED, "nameClash": _CHANGED,
    "claimMissing": _KEPT_BACK, "expired": _EXPIRED, "notYet": _NOT_YET,
    "holderKeyUnknown": _ANOTHER_HOLDER, "bindingSignature": _ANOTHER_HOLDER,
    "bindingAlg": _NOT_BOUND, "bindingHeader": _NOT_BOUND, "bindingType": _NOT_BOUND, "bindingPayload": _NOT_BOUND,
    "bindingStale": _STALE, "bindingTime": _STALE, "bindingEarly": _EARLY,
    "nonceDiffers": _ANOTHER_VISIT, "audienceDiffers": _ANOTHER_DOOR, "hashDiffers": _CHANGED_LATER,
}

_OF_WALLET = {
    "wantedNotThere": "This ticket does not have all that you chose. Choose again.",
    "hasBinding": "This is what was shown at a door, and not a ticket. Take the ticket as the office issued it.",
    "form": "This cannot be read as a ticket. Get a new one at the office."}


def of_wallet(refusal: sdjwt.SdJwtError) -> str:
    """Why a wallet cannot show a ticket, and what to do."""
    usual = "The office did not sign this ticket, or the service was started again since. Remove it, and get a new one."
    return _OF_WALLET.get(getattr(refusal, "name", ""), usual)


def of(refusal: sdjwt.SdJwtError) -> Words:
    """What a refusal of the library means for a visitor."""
    if isinstance(refusal, sdjwt.TooLong):
        return _TOO_LONG
    if isinstance(refusal, sdjwt.Refused):
        return _OF_NAME.get(refusal.name, _OTHER)
    raise refusal  # the policy of the door itself is wrong

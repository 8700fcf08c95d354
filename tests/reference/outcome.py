"""How a run ends: the limits, the numbers and names of refusals, and the two ways in which a text is turned down."""

from collections.abc import Iterable

FILE_MAX, COMPACT_MAX, ISSUE_MAX, COUNT_MAX, DEPTH_MAX = 16_777_216, 8_388_608, 8_380_416, 32_768, 100
_ROWS = {
    1: "tooLong form tooMuch bindingMissing headerUnreadable headerCritical algRefused typeRefused issuerKeyUnknown "
       "badSignature payloadUnreadable hashUnknown disclosureUnreadable repeatedDisclosure reservedMisused "
       "repeatedDigest unreferencedDisclosure wrongShape reservedName nameClash tooDeep issuerRefused claimMissing "
       "timeUnreadable expired notYet holderKeyUnknown bindingHeader bindingAlg bindingSignature bindingType "
       "bindingPayload bindingStale bindingEarly nonceDiffers audienceDiffers hashDiffers bindingTime",
    51: "payloadNotObject reservedInPayload payloadTooDeep rootMarked noSuchPlace protectedClaim decoyPlace "
        "tooManyHidden tooManyDecoys digestClash issueTooLong",
    71: "hasBinding wantedNotThere consentRefused bindingKeyDiffers presentTooLong",
    77: "noCredentialAnswers",
    80: "orderRefused signedPartDiffers writtenFormDiffers payloadDiffers digestsDiffer decoysDiffer sdOrderDiffers",
    87: "feedTooLong"}
NAMES = {number: name for first, names in _ROWS.items() for number, name in enumerate(names.split(), first)}

class Refused(Exception):
    """A condition that fails, or a refusal that applies, by its line: status 1."""

    def __init__(self, number: int, place: object = None) -> None:
        super().__init__(f"refused {number} {NAMES[number]}" + ("" if place is None else f" at {place}"))
        self.number = number

class Unreadable(Exception):
    """JSON, or a file that a user writes, is not of its form, by the fault that is the argument: status 6."""

def refuse(number: int, applies: object, place: object = None) -> None:
    """Refuses by a number where it applies."""
    if applies:
        raise Refused(number, place)

def refuse_first(number: int, applies: Iterable[object]) -> None:
    """Refuses by a number at the first position where it applies."""
    for position, here in enumerate(applies):
        refuse(number, here, position)

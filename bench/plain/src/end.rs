//! How a run ends.
use std::fmt::Display;

/// A refusal: its number, and its place where it has one.
#[derive(Debug)]
pub struct Fault {
    pub number: u8,
    pub place: Option<String>,
}

impl Fault {
    pub fn new(number: u8) -> Fault {
        Fault { number, place: None }
    }

    pub fn at(number: u8, place: impl Display) -> Fault {
        Fault { number, place: Some(place.to_string()) }
    }

    pub fn line(&self) -> String {
        let place = self.place.as_ref().map_or(String::new(), |place| format!(" at {place}"));
        format!("refused {} {}{place}", self.number, name(self.number))
    }
}

#[derive(Debug)]
pub enum Stop {
    Refused(Fault),
    Usage,
    Unread(usize),
    UnreadSource,
    Unwritten,
    Unreadable(usize, String),
}

impl From<Fault> for Stop {
    fn from(fault: Fault) -> Stop {
        Stop::Refused(fault)
    }
}

impl Stop {
    pub fn status(&self) -> i32 {
        match self {
            Stop::Refused(_) => 1,
            Stop::Usage => 2,
            Stop::Unread(_) | Stop::UnreadSource => 3,
            Stop::Unwritten => 4,
            Stop::Unreadable(..) => 6,
        }
    }

    pub fn line(&self) -> String {
        match self {
            Stop::Refused(fault) => fault.line(),
            Stop::Usage => "usage".to_owned(),
            Stop::Unread(argument) => format!("unread {argument}"),
            Stop::UnreadSource => "unread source".to_owned(),
            Stop::Unwritten => "unwritten".to_owned(),
            Stop::Unreadable(argument, reason) => format!("unreadable {argument} {reason}"),
        }
    }
}

const OF_TOKENS: [&str; 38] = [
    "tooLong",
    "form",
    "tooMuch",
    "bindingMissing",
    "headerUnreadable",
    "headerCritical",
    "algRefused",
    "typeRefused",
    "issuerKeyUnknown",
    "badSignature",
    "payloadUnreadable",
    "hashUnknown",
    "disclosureUnreadable",
    "repeatedDisclosure",
    "reservedMisused",
    "repeatedDigest",
    "unreferencedDisclosure",
    "wrongShape",
    "reservedName",
    "nameClash",
    "tooDeep",
    "issuerRefused",
    "claimMissing",
    "timeUnreadable",
    "expired",
    "notYet",
    "holderKeyUnknown",
    "bindingHeader",
    "bindingAlg",
    "bindingSignature",
    "bindingType",
    "bindingPayload",
    "bindingStale",
    "bindingEarly",
    "nonceDiffers",
    "audienceDiffers",
    "hashDiffers",
    "bindingTime",
];
const OF_ORDERS: [&str; 11] = [
    "payloadNotObject",
    "reservedInPayload",
    "payloadTooDeep",
    "rootMarked",
    "noSuchPlace",
    "protectedClaim",
    "decoyPlace",
    "tooManyHidden",
    "tooManyDecoys",
    "digestClash",
    "issueTooLong",
];
const OF_HOLDERS: [&str; 5] =
    ["hasBinding", "wantedNotThere", "consentRefused", "bindingKeyDiffers", "presentTooLong"];

fn name(number: u8) -> &'static str {
    match number {
        51..=61 => OF_ORDERS[number as usize - 51],
        87 => "feedTooLong",
        71..=75 => OF_HOLDERS[number as usize - 71],
        _ => OF_TOKENS[number as usize - 1],
    }
}

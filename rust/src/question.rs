//! The questions to a caller that checks signatures.

use crate::call::{answer, room_for, Answer, MISSING};
use crate::error::Error;
use crate::ffi;

/// Your verdict on a signature.
#[derive(Clone, Copy, Debug, PartialEq, Eq)]
pub enum Verdict {
    /// You have no key for it.
    UnknownKey,
    /// It is not a good signature of the text under the key.
    Bad,
    /// It is good: you checked it over exactly the text, with the algorithm of the question, under a key that is
    /// trusted for it.
    Good,
}

impl Verdict {
    pub(crate) fn code(self) -> u8 {
        match self {
            Self::UnknownKey => 1,
            Self::Bad => 2,
            Self::Good => 3,
        }
    }
}

/// Whose signature it is.
#[derive(Clone, Copy, Debug, PartialEq, Eq)]
pub enum Whose {
    /// The issuer's: look for the key among those that you had before the token came.
    Issuer,
    /// The holder's: the key is the one that the claim `cnf` names ([`Question::at`] with `/payload/cnf/jwk/x`).
    Holder,
}

/// A signature that the caller is to check.
///
/// All of it but the text's place in the token comes from whoever made the token. Select the key by the algorithm and
/// by the type of the key: never check an HMAC under the bytes of a public key (RFC 8725 section 3.1).
#[derive(Clone, Debug)]
pub struct Question {
    line: Vec<u8>,
    whose: Whose,
    text: Vec<u8>,
    signature: Vec<u8>,
    alg: String,
    kid: Option<String>,
}

impl Question {
    pub(crate) fn of(line: Vec<u8>) -> Result<Self, Error> {
        let whose = match string(part_at(&line, "/ask")?)?.as_deref() {
            Some("issuer") => Whose::Issuer,
            Some("holder") => Whose::Holder,
            _ => return Err(Error::Library("a question is about nobody's signature")),
        };
        let text = given(part(&line, ffi::question_text)?)?;
        let signature = given(part(&line, ffi::question_signature)?)?;
        let alg = string(part(&line, ffi::question_alg)?)?.ok_or(NO_PART)?;
        let kid = string(part(&line, ffi::question_kid)?)?;
        Ok(Self { line, whose, text, signature, alg, kid })
    }

    /// Whose signature it is.
    #[must_use]
    pub fn whose(&self) -> Whose {
        self.whose
    }

    /// The bytes that were signed (RFC 7515 section 5.2).
    #[must_use]
    pub fn text(&self) -> &[u8] {
        &self.text
    }

    /// The signature as a JWS has it, decoded: of ES256 the 64 bytes of r and s (RFC 7518 section 3.4), not DER.
    #[must_use]
    pub fn signature(&self) -> &[u8] {
        &self.signature
    }

    /// The algorithm that the header names. It is in the list that the policy or the order takes.
    #[must_use]
    pub fn alg(&self) -> &str {
        &self.alg
    }

    /// The name of the key in the header, if it has one.
    #[must_use]
    pub fn kid(&self) -> Option<&str> {
        self.kid.as_deref()
    }

    /// The string at a JSON Pointer (RFC 6901) into the question: `/payload/cnf/jwk/x` is the member `x` of the
    /// holder's key. Nothing, if there is no string.
    ///
    /// # Errors
    ///
    /// The only error is [`Error::OutOfMemory`].
    pub fn at(&self, pointer: &str) -> Result<Option<String>, Error> {
        string(part_at(&self.line, pointer)?)
    }
}

const NO_PART: Error = Error::Library("a question has not all its parts");

fn part(line: &[u8], of: fn(&[u8], ffi::Room<'_>) -> u8) -> Result<Answer, Error> {
    answer(room_for(&[line]), "", |room| of(line, room))
}

fn part_at(line: &[u8], pointer: &str) -> Result<Answer, Error> {
    answer(room_for(&[line]), "", |room| ffi::question_at(line, pointer.as_bytes(), room))
}

/// The bytes of a part that has to be there.
fn given(part: Answer) -> Result<Vec<u8>, Error> {
    if part.status == MISSING {
        return Err(NO_PART);
    }
    Ok(part.bytes)
}

/// The text of a part, if it is there.
fn string(part: Answer) -> Result<Option<String>, Error> {
    if part.status == MISSING {
        return Ok(None);
    }
    String::from_utf8(part.bytes).map(Some).map_err(|_| Error::Library("a part of a question is not UTF-8"))
}

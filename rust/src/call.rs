//! One call of the library: its buffer, and what its status means.

use crate::error::Error;
use crate::ffi::{self, Room};

/// The statuses of `sdjwt.h`.
pub(crate) const DONE: u8 = 0;
const REFUSED: u8 = 1;
const USAGE: u8 = 2;
const UNWRITTEN: u8 = 4;
const MEMORY: u8 = 5;
const UNREADABLE: u8 = 6;
pub(crate) const ASKS: u8 = 7;
const NOT_ASKED: u8 = 8;
pub(crate) const TO_SIGN: u8 = 9;
pub(crate) const MISSING: u8 = 10;

/// What is said of a signature that nobody has asked about yet.
pub(crate) const UNSAID: u8 = 0;

/// What the library wrote, with the status of a call that did not fail.
pub(crate) struct Answer {
    pub(crate) status: u8,
    pub(crate) bytes: Vec<u8>,
}

impl Answer {
    /// The answer as text, without a line end.
    pub(crate) fn text(self) -> Result<String, Error> {
        let mut text = String::from_utf8(self.bytes).map_err(|_| Error::Library("an answer is not UTF-8"))?;
        if text.ends_with('\n') {
            text.pop();
        }
        Ok(text)
    }
}

/// Calls with a buffer that is mostly long enough, and once more if it is not. `misused` says which rule is broken if
/// the status is `SDJWT_USAGE`.
pub(crate) fn answer(
    room: usize,
    misused: &'static str,
    mut call: impl FnMut(Room<'_>) -> u8,
) -> Result<Answer, Error> {
    if !ffi::has_stack() {
        return Err(Error::OutOfStack);
    }
    let mut bytes = vec![0; room];
    let mut len = 0;
    let mut status = call(Room { out: &mut bytes, len: &mut len });
    if status == UNWRITTEN {
        bytes = vec![0; len];
        status = call(Room { out: &mut bytes, len: &mut len });
    }
    bytes.truncate(len);
    match status {
        DONE | ASKS | TO_SIGN | MISSING => Ok(Answer { status, bytes }),
        REFUSED | UNREADABLE => Err(Error::of_line(&bytes)),
        USAGE => Err(Error::Misused(misused)),
        MEMORY => Err(Error::OutOfMemory),
        NOT_ASKED => Err(Error::Library("an answer about a signature was not asked for")),
        _ => Err(Error::Library("a status is unknown")),
    }
}

/// The room for the answer to these inputs.
pub(crate) fn room_for(inputs: &[&[u8]]) -> usize {
    inputs.iter().map(|input| input.len()).sum::<usize>() + 256
}

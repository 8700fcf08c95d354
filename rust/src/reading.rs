//! What is in a token, unchecked; and whether a token is what an order asks for.

use crate::call::{answer, room_for};
use crate::error::Error;
use crate::ffi;

/// A form of a token (RFC 9901 sections 4 and 8).
#[derive(Clone, Copy, Debug, PartialEq, Eq)]
pub enum Form {
    /// The compact serialization.
    Compact,
    /// The flattened JSON serialization.
    Flat,
    /// The general JSON serialization.
    General,
}

/// The JSON inside a token, a line for each part. Nothing is checked: no signature, no digest, no time.
///
/// # Errors
///
/// The token is [refused](Error::Refused) by 1 to 3.
pub fn show(token: impl AsRef<[u8]>) -> Result<String, Error> {
    let token = token.as_ref();
    answer(room_for(&[token]), "", |room| ffi::show(token, room))?.text()
}

/// The parts of a token, a line each. Nothing is checked.
///
/// # Errors
///
/// As of [`show`].
pub fn split(token: impl AsRef<[u8]>) -> Result<String, Error> {
    let token = token.as_ref();
    answer(room_for(&[token]), "", |room| ffi::split(token, room))?.text()
}

/// The token in a form. Nothing is checked.
///
/// # Errors
///
/// As of [`show`].
pub fn convert(form: Form, token: impl AsRef<[u8]>) -> Result<String, Error> {
    let token = token.as_ref();
    answer(room_for(&[token]), "", |room| ffi::convert(form as u8, token, room))?.text()
}

/// Whether a token is what an order asks for, signed with its key, whichever salts its issuer drew: nothing if it is.
///
/// # Errors
///
/// The order is [unreadable](Error::Unreadable); or the token is [refused](Error::Refused), by 1 to 3 or by 80 to 86.
pub fn audit(order: impl AsRef<[u8]>, token: impl AsRef<[u8]>) -> Result<(), Error> {
    let (order, token) = (order.as_ref(), token.as_ref());
    answer(room_for(&[]), "", |room| ffi::audit(order, token, room)).map(|_| ())
}

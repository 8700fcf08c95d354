//! Issuing a token.

use crate::call::{answer, room_for};
use crate::error::Error;
use crate::ffi;

/// The bytes of a seed.
pub const SEED_LENGTH: usize = 32;

const SIGNS: &str = "the algorithm is empty or `none`, or the signature is empty";

/// The token of an order (`docs/FILES.md`), which has a symmetric key.
///
/// Anyone who knows the seed can guess the hidden claims: take its bytes from the system's random numbers, and use none
/// twice.
///
/// # Errors
///
/// The order is [unreadable](Error::Unreadable), or it is [refused](Error::Refused) by 51 to 61.
pub fn issue(order: impl AsRef<[u8]>, seed: &[u8; SEED_LENGTH]) -> Result<String, Error> {
    let order = order.as_ref();
    answer(room_for(&[order, order]), "", |room| ffi::issue(order, seed, room))?.text()
}

/// The token of an order that you sign.
///
/// `order` has neither `key` nor `alg`. `alg` is the name of your algorithm, such as `ES256`. `sign` gets the text and
/// returns the signature as a JWS has it (of ES256 the 64 bytes of r and s, RFC 7518 section 3.4, not DER); it is
/// called at most once, and not if the order is refused by 51 to 60.
///
/// # Errors
///
/// The same as of [`issue`], and [`Error::Misused`] if the algorithm or the signature is wrong.
pub fn issue_with(
    order: impl AsRef<[u8]>,
    alg: &str,
    seed: &[u8; SEED_LENGTH],
    sign: impl FnOnce(&[u8]) -> Vec<u8>,
) -> Result<String, Error> {
    let (order, alg) = (order.as_ref(), alg.as_bytes());
    let room = room_for(&[order, order]);
    let text = answer(room, SIGNS, |room| ffi::issue_ask(order, alg, seed, room))?.bytes;
    let signature = sign(&text);
    answer(room + 2 * signature.len(), SIGNS, |room| ffi::issue_sign(order, alg, seed, &signature, room))?.text()
}

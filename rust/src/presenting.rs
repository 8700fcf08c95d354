//! Presenting a token.

use crate::call::{answer, room_for, ASKS, TO_SIGN, UNSAID};
use crate::error::Error;
use crate::ffi;
use crate::question::{Question, Verdict};

const SIGNS: &str = "the signature is empty";

/// The holder's presentation of a token, for a present order (`docs/FILES.md`) with symmetric keys. `now` is in seconds
/// since 1970; a key binding token has it.
///
/// # Errors
///
/// The order is [unreadable](Error::Unreadable); the token is [refused](Error::Refused) by 1 to 21, or the order for
/// this token by 71 to 75.
pub fn present(order: impl AsRef<[u8]>, token: impl AsRef<[u8]>, now: u64) -> Result<String, Error> {
    let (order, token) = (order.as_ref(), token.as_ref());
    answer(room_for(&[order, token]), "", |room| ffi::present(order, token, now, room))?.text()
}

/// The holder's presentation of a token; you check the issuer's signature and sign the key binding token.
///
/// `order` has no keys. Instead it has `algs`, the algorithms that you accept from the issuer, and in `binding` the
/// name `alg` of yours. `check` is called at most once. `sign` gets the text of the key binding token, if the order
/// asks for one, and returns the signature as a JWS has it; it is not called if the token or the order is refused.
///
/// # Errors
///
/// The same as of [`present`], and [`Error::Misused`] if the signature is empty.
pub fn present_with(
    order: impl AsRef<[u8]>,
    token: impl AsRef<[u8]>,
    now: u64,
    check: impl FnOnce(&Question) -> Verdict,
    sign: impl FnOnce(&[u8]) -> Vec<u8>,
) -> Result<String, Error> {
    let (order, token) = (order.as_ref(), token.as_ref());
    let room = room_for(&[order, token, token]);
    let ask = |issuer| answer(room, "", |room| ffi::present_ask(order, token, now, issuer, room));
    let mut issuer = UNSAID;
    let mut said = ask(issuer)?;
    if said.status == ASKS {
        issuer = check(&Question::of(said.bytes)?).code();
        said = ask(issuer)?;
    }
    match said.status {
        ASKS => Err(Error::Library("a signature is asked about twice")),
        TO_SIGN => {
            let signature = sign(&said.bytes);
            let room = room + 2 * signature.len();
            answer(room, SIGNS, |room| ffi::present_sign(order, token, now, issuer, &signature, room))?.text()
        }
        _ => said.text(),
    }
}

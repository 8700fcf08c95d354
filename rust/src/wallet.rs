//! Picking the token that satisfies a query.

use crate::call::{answer, room_for};
use crate::error::Error;
use crate::ffi;

/// The most tokens of a call of [`wallet`].
pub const TOKENS_MAX: usize = 64;

const COUNT: &str = "there are no tokens, or more than 64";

/// A token that satisfies a query.
#[derive(Clone, Debug, PartialEq, Eq)]
pub struct Picked {
    /// Which token it is, counted from 0.
    pub index: usize,
    /// The token with only the disclosures that the query needs. It has no key binding token:
    /// [`present`](crate::present) it.
    pub token: String,
}

/// The token, of 1 to [`TOKENS_MAX`], that satisfies a query (`docs/FILES.md`) with the fewest disclosures. The keys
/// are symmetric.
///
/// # Errors
///
/// The query is [unreadable](Error::Unreadable); or it is [refused](Error::Refused) by 77, since no token answers it.
pub fn wallet<T: AsRef<[u8]>>(query: impl AsRef<[u8]>, tokens: &[T]) -> Result<Picked, Error> {
    let query = query.as_ref();
    let lengths: Vec<usize> = tokens.iter().map(|token| token.as_ref().len()).collect();
    let tokens: Vec<u8> = tokens.iter().flat_map(AsRef::as_ref).copied().collect();
    let room = lengths.iter().max().map_or(0, |most| most + 256);
    let said = answer(room_for(&[query]).min(room), COUNT, |room| ffi::wallet(query, &tokens, &lengths, room))?.text()?;
    let picked = said.split_once('\n').and_then(|(line, token)| {
        let index = line.strip_prefix("credential ")?.parse().ok()?;
        Some(Picked { index, token: token.to_owned() })
    });
    picked.ok_or(Error::Library("an answer of the wallet has another form"))
}

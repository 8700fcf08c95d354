//! SD-JWT (RFC 9901) for Rust: issue, present and verify, by the proved C library of this repository.
//!
//! An SD-JWT is a signed JSON token whose holder can show some of its claims and withhold the others. This crate is a
//! thin layer over `sdjwt.h`: every rule of SD-JWT is in the library, which is proved; nothing is decided here.
//!
//! # Symmetric keys
//!
//! ```
//! # fn main() -> Result<(), sdjwt::Error> {
//! let key = "dGhlIHRpY2tldCBvZmZpY2Uga2V5LCBub3QgeW91cnM"; // 32 bytes or more, as base64url
//! let keys = format!(r#"{{"keys": [{{"kty": "oct", "kid": "tickets-1", "k": "{key}"}}]}}"#);
//!
//! // the office issues a ticket, and hides two claims
//! let order = format!(
//!     r#"{{"payload": {{"iss": "tickets", "event": "Jazz", "name": "Ada", "seat": "B12"}},
//!         "hide": ["/name", "/seat"], "key": "{key}", "kid": "tickets-1"}}"#
//! );
//! let seed = [7; 32]; // take 32 bytes of the system's random numbers, and use none twice
//! let ticket = sdjwt::issue(&order, &seed)?;
//!
//! // Ada shows her seat, and never her name
//! let wish = format!(r#"{{"keys": {keys}, "want": ["/seat"], "never": ["/name"]}}"#);
//! let shown = sdjwt::present(&wish, &ticket, sdjwt::now())?;
//!
//! // the door verifies
//! let door = sdjwt::Policy::new(format!(r#"{{"keys": {keys}, "iss": "tickets", "require": ["seat"]}}"#))?;
//! assert_eq!(door.verify(&shown, sdjwt::now())?.as_str(), r#"{"event":"Jazz","iss":"tickets","seat":"B12"}"#);
//! # Ok(())
//! # }
//! ```
//!
//! # Key pairs
//!
//! With ES256, `EdDSA` and other key pairs you check and make the signatures, by the library that has your keys:
//! [`Policy::verify_with`], [`issue_with`] and [`present_with`] call a function of yours with the text and the
//! signature.
//!
//! # Errors
//!
//! An [`Error`] has the line that the program `sdjwt` prints, and the sentences of `docs/REFUSALS.md` that explain it.

mod call;
mod claims;
mod error;
// A room is used up by its call.
#[allow(unsafe_code, clippy::needless_pass_by_value)]
mod ffi;
mod issuing;
mod policy;
mod presenting;
mod question;
mod reading;
mod refusals;
mod wallet;

pub use claims::Claims;
pub use error::{Error, Refused, Unreadable};
pub use issuing::{issue, issue_with, SEED_LENGTH};
pub use policy::{verify, ForNonce, Policy};
pub use presenting::{present, present_with};
pub use question::{Question, Verdict, Whose};
pub use reading::{audit, convert, show, split, Form};
pub use wallet::{wallet, Picked, TOKENS_MAX};

/// Runs the examples of the page.
#[cfg(all(doctest, feature = "serde"))]
#[doc = include_str!("../README.md")]
mod readme {}

/// Programs that must not compile. A nonce does not outlive its policy:
///
/// ```compile_fail,E0515
/// fn kept(policy: sdjwt::Policy) -> sdjwt::ForNonce<'static> {
///     policy.for_nonce("4711")
/// }
/// ```
///
/// A seed has 32 bytes:
///
/// ```compile_fail,E0308
/// let token = sdjwt::issue("{}", &[7; 31]);
/// ```
///
/// A check changes nothing that it borrows, since it may be called by many threads' calls of one policy:
///
/// ```compile_fail,E0594
/// fn count(policy: &sdjwt::Policy, token: &str) -> u32 {
///     let mut calls = 0;
///     let _ = policy.verify_with(token, 0, &[], |_| {
///         calls += 1;
///         sdjwt::Verdict::Bad
///     });
///     calls
/// }
/// ```
///
/// What signs is called once, so it may give its signature away, but what checks may not:
///
/// ```compile_fail,E0507
/// fn taken(policy: &sdjwt::Policy, token: &str, verdicts: Vec<sdjwt::Verdict>) {
///     let _ = policy.verify_with(token, 0, &[], move |_| *Box::leak(verdicts.into_boxed_slice()).first().unwrap());
/// }
/// ```
///
/// The functions of C are private:
///
/// ```compile_fail,E0603
/// let version = sdjwt::ffi::version();
/// ```
#[cfg(doctest)]
mod must_not_compile {}

/// The time now, in seconds since 1970, and 0 if the clock is before that.
#[must_use]
pub fn now() -> u64 {
    std::time::SystemTime::now().duration_since(std::time::UNIX_EPOCH).map_or(0, |since| since.as_secs())
}

/// The version of the C library, such as `0.2.0`.
#[must_use]
pub fn library_version() -> &'static str {
    ffi::version()
}

/// Whether the C library says that it was built from proved code, and not by `c/build.sh --look`.
#[must_use]
pub fn is_proved() -> bool {
    ffi::is_proved()
}

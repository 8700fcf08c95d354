//! Verifying under a policy.

use crate::call::{answer, room_for, ASKS, UNSAID};
use crate::claims::Claims;
use crate::error::Error;
use crate::ffi::Handle;
use crate::question::{Question, Verdict, Whose};
use std::fmt;
use std::sync::{Mutex, PoisonError};

const NONCE: &str = "the policy has no `binding`, or the nonce has more than 256 bytes";
const ALGS: &str = "the name of an algorithm has other characters than letters, digits, `-`, `_` and `.`";
/// The most handles that are kept for later calls.
const KEPT: usize = 8;

/// A policy that is read once (`docs/FILES.md`). Threads may share it: each call has a handle of its own.
pub struct Policy {
    text: Vec<u8>,
    /// Handles that have the nonce of the policy, and those that had another one.
    plain: Mutex<Vec<Handle>>,
    asked: Mutex<Vec<Handle>>,
}

/// A policy with the nonce of one presentation instead of its own.
#[derive(Clone, Copy, Debug)]
pub struct ForNonce<'a> {
    policy: &'a Policy,
    nonce: &'a str,
}

impl Policy {
    /// Reads a policy.
    ///
    /// # Errors
    ///
    /// It is [unreadable](Error::Unreadable).
    pub fn new(policy: impl Into<Vec<u8>>) -> Result<Self, Error> {
        let policy = Self { text: policy.into(), plain: Mutex::default(), asked: Mutex::default() };
        let handle = policy.read()?;
        give(&policy.plain, handle);
        Ok(policy)
    }

    /// This policy, with another nonce for the key binding token: each presentation gets a nonce of its own, which is
    /// used once (RFC 9901 section 7.3).
    #[must_use]
    pub fn for_nonce<'a>(&'a self, nonce: &'a str) -> ForNonce<'a> {
        ForNonce { policy: self, nonce }
    }

    /// The claims of a token that the policy accepts now, in seconds since 1970. The policy's keys are symmetric.
    ///
    /// # Errors
    ///
    /// The token is [refused](Error::Refused) by the lowest condition of 1 to 38 that fails.
    pub fn verify(&self, token: impl AsRef<[u8]>, now: u64) -> Result<Claims, Error> {
        self.with_handle(None, |handle| verified(handle, token.as_ref(), now))
    }

    /// The claims of a token that the policy accepts; you check its signatures.
    ///
    /// The policy's `algs` are the algorithms that you accept from issuers, and `holder_algs` the algorithms that you
    /// accept from holders; if there are none, `algs` is for both. The policy's keys are not read. `check` is called
    /// for the issuer's signature and, if that is good and the policy has `binding`, for the holder's.
    ///
    /// # Errors
    ///
    /// The token is [refused](Error::Refused), or the name of an algorithm is [wrong](Error::Misused).
    pub fn verify_with(
        &self,
        token: impl AsRef<[u8]>,
        now: u64,
        holder_algs: &[&str],
        check: impl Fn(&Question) -> Verdict,
    ) -> Result<Claims, Error> {
        self.with_handle(None, |handle| judged(handle, token.as_ref(), now, holder_algs, check))
    }

    fn read(&self) -> Result<Handle, Error> {
        let mut handle = Handle::new();
        answer(256, "", |room| handle.read(&self.text, room))?;
        Ok(handle)
    }

    /// Calls with a handle that no other call has, with the policy's own nonce or with another one.
    fn with_handle<T>(
        &self,
        nonce: Option<&str>,
        call: impl FnOnce(&mut Handle) -> Result<T, Error>,
    ) -> Result<T, Error> {
        let kept = if nonce.is_some() { &self.asked } else { &self.plain };
        let free = kept.lock().unwrap_or_else(PoisonError::into_inner).pop();
        let mut handle = match free {
            Some(handle) => handle,
            None => self.read()?,
        };
        if let Some(nonce) = nonce {
            match handle.set_nonce(nonce.as_bytes()) {
                0 => {}
                5 => return Err(Error::OutOfMemory),
                _ => return Err(Error::Misused(NONCE)),
            }
        }
        let result = call(&mut handle);
        give(kept, handle);
        result
    }
}

impl ForNonce<'_> {
    /// The same as [`Policy::verify`].
    ///
    /// # Errors
    ///
    /// The same as of [`Policy::verify`], and if the nonce is [too long, or the policy has no
    /// `binding`](Error::Misused).
    pub fn verify(&self, token: impl AsRef<[u8]>, now: u64) -> Result<Claims, Error> {
        self.policy.with_handle(Some(self.nonce), |handle| verified(handle, token.as_ref(), now))
    }

    /// The same as [`Policy::verify_with`].
    ///
    /// # Errors
    ///
    /// The same as of [`Policy::verify_with`], and if the nonce is [too long, or the policy has no
    /// `binding`](Error::Misused).
    pub fn verify_with(
        &self,
        token: impl AsRef<[u8]>,
        now: u64,
        holder_algs: &[&str],
        check: impl Fn(&Question) -> Verdict,
    ) -> Result<Claims, Error> {
        self.policy.with_handle(Some(self.nonce), |handle| judged(handle, token.as_ref(), now, holder_algs, check))
    }
}

impl fmt::Debug for Policy {
    /// The policy may have keys in it, so none of it is shown.
    fn fmt(&self, to: &mut fmt::Formatter<'_>) -> fmt::Result {
        to.debug_struct("Policy").finish_non_exhaustive()
    }
}

/// The claims of a token that a policy accepts now, in seconds since 1970. The policy's keys are symmetric. For many
/// tokens keep a [`Policy`].
///
/// # Errors
///
/// The policy is [unreadable](Error::Unreadable), or the token is [refused](Error::Refused).
pub fn verify(policy: impl Into<Vec<u8>>, token: impl AsRef<[u8]>, now: u64) -> Result<Claims, Error> {
    Policy::new(policy)?.verify(token, now)
}

/// Keeps a handle for a later call.
fn give(kept: &Mutex<Vec<Handle>>, handle: Handle) {
    let mut kept = kept.lock().unwrap_or_else(PoisonError::into_inner);
    if kept.len() < KEPT {
        kept.push(handle);
    }
}

fn verified(handle: &mut Handle, token: &[u8], now: u64) -> Result<Claims, Error> {
    answer(room_for(&[token]), "", |room| handle.verify(token, now, room))?.text().map(Claims)
}

fn judged(
    handle: &mut Handle,
    token: &[u8],
    now: u64,
    holder_algs: &[&str],
    check: impl Fn(&Question) -> Verdict,
) -> Result<Claims, Error> {
    let algs = list_of(holder_algs)?;
    let room = room_for(&[token, token]);
    let (mut issuer, mut holder) = (UNSAID, UNSAID);
    loop {
        let said = answer(room, "", |room| handle.judge(&algs, token, now, (issuer, holder), room))?;
        if said.status != ASKS {
            return said.text().map(Claims);
        }
        let question = Question::of(said.bytes)?;
        let asked = if question.whose() == Whose::Issuer { &mut issuer } else { &mut holder };
        if *asked != UNSAID {
            return Err(Error::Library("a signature is asked about twice"));
        }
        *asked = check(&question).code();
    }
}

/// Names of algorithms as a JSON list. No bytes stand for those of the policy.
fn list_of(names: &[&str]) -> Result<Vec<u8>, Error> {
    if names.is_empty() {
        return Ok(Vec::new());
    }
    let is_plain = |c: char| c.is_ascii_alphanumeric() || "-_.".contains(c);
    if !names.iter().all(|name| name.chars().all(is_plain)) {
        return Err(Error::Misused(ALGS));
    }
    let quoted: Vec<String> = names.iter().map(|name| format!("\"{name}\"")).collect();
    Ok(format!("[{}]", quoted.join(",")).into_bytes())
}

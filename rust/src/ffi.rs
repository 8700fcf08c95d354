//! The functions of `sdjwt.h`. This is the only module with `unsafe`.
//!
//! Each block is sound for the same reasons, which are the rules of the header:
//!
//! - a pointer and a length come from one slice, so the pointer is not null and as many bytes can be read or written;
//! - `out` and `len` are mutable borrows, so they overlap neither each other nor an input;
//! - the library keeps no pointer behind a call, but for the policy that a handle holds;
//! - a handle is borrowed mutably, so one call at a time has it; [`Handle`] frees it once, in its `drop`.

use std::cell::Cell;
use std::ffi::CStr;
use std::mem::MaybeUninit;
use std::os::raw::{c_char, c_int, c_void};
use std::ptr;

/// What a call writes, and how long that is.
pub(crate) struct Room<'a> {
    pub(crate) out: &'a mut [u8],
    pub(crate) len: &'a mut usize,
}

#[repr(C)]
struct RawPolicy {
    held: *mut c_void,
}

/// A handle of a policy that is read once, or of none.
pub(crate) struct Handle(RawPolicy);

// SAFETY: `sdjwt.h` lets a handle move from thread to thread. It is not `Sync`: one call at a time has it.
unsafe impl Send for Handle {}

type OfOne = unsafe extern "C" fn(*const u8, usize, *mut u8, usize, *mut usize) -> u8;
type OfTwo = unsafe extern "C" fn(*const u8, usize, *const u8, usize, *mut u8, usize, *mut usize) -> u8;

/// Calls a function of the header that has one input.
fn of_one(call: OfOne, input: &[u8], room: Room<'_>) -> u8 {
    // SAFETY: see the head of this module; only functions of the header are given.
    unsafe { call(input.as_ptr(), input.len(), room.out.as_mut_ptr(), room.out.len(), room.len) }
}

/// Calls a function of the header that has two inputs.
fn of_two(call: OfTwo, first: &[u8], second: &[u8], room: Room<'_>) -> u8 {
    // SAFETY: see the head of this module; only functions of the header are given.
    unsafe {
        call(
            first.as_ptr(), first.len(), second.as_ptr(), second.len(), room.out.as_mut_ptr(), room.out.len(), room.len,
        )
    }
}

pub(crate) fn show(token: &[u8], room: Room<'_>) -> u8 {
    of_one(sdjwt_show, token, room)
}

pub(crate) fn split(token: &[u8], room: Room<'_>) -> u8 {
    of_one(sdjwt_split, token, room)
}

pub(crate) fn issue(order: &[u8], seed: &[u8], room: Room<'_>) -> u8 {
    of_two(sdjwt_issue, order, seed, room)
}

pub(crate) fn audit(order: &[u8], token: &[u8], room: Room<'_>) -> u8 {
    of_two(sdjwt_audit, order, token, room)
}

pub(crate) fn question_text(question: &[u8], room: Room<'_>) -> u8 {
    of_one(sdjwt_question_text, question, room)
}

pub(crate) fn question_signature(question: &[u8], room: Room<'_>) -> u8 {
    of_one(sdjwt_question_signature, question, room)
}

pub(crate) fn question_alg(question: &[u8], room: Room<'_>) -> u8 {
    of_one(sdjwt_question_alg, question, room)
}

pub(crate) fn question_kid(question: &[u8], room: Room<'_>) -> u8 {
    of_one(sdjwt_question_kid, question, room)
}

pub(crate) fn question_at(question: &[u8], pointer: &[u8], room: Room<'_>) -> u8 {
    of_two(sdjwt_question_at, question, pointer, room)
}

pub(crate) fn issue_ask(order: &[u8], alg: &[u8], seed: &[u8], room: Room<'_>) -> u8 {
    // SAFETY: see the head of this module.
    unsafe {
        sdjwt_issue_ask(
            order.as_ptr(), order.len(), alg.as_ptr(), alg.len(), seed.as_ptr(), seed.len(),
            room.out.as_mut_ptr(), room.out.len(), room.len,
        )
    }
}

pub(crate) fn issue_sign(order: &[u8], alg: &[u8], seed: &[u8], signature: &[u8], room: Room<'_>) -> u8 {
    // SAFETY: see the head of this module.
    unsafe {
        sdjwt_issue_sign(
            order.as_ptr(), order.len(), alg.as_ptr(), alg.len(), seed.as_ptr(), seed.len(),
            signature.as_ptr(), signature.len(), room.out.as_mut_ptr(), room.out.len(), room.len,
        )
    }
}

pub(crate) fn present(order: &[u8], token: &[u8], now: u64, room: Room<'_>) -> u8 {
    // SAFETY: see the head of this module.
    unsafe {
        sdjwt_present(
            order.as_ptr(), order.len(), token.as_ptr(), token.len(), now,
            room.out.as_mut_ptr(), room.out.len(), room.len,
        )
    }
}

pub(crate) fn present_ask(order: &[u8], token: &[u8], now: u64, issuer: u8, room: Room<'_>) -> u8 {
    // SAFETY: see the head of this module.
    unsafe {
        sdjwt_present_ask(
            order.as_ptr(), order.len(), token.as_ptr(), token.len(), now, issuer,
            room.out.as_mut_ptr(), room.out.len(), room.len,
        )
    }
}

pub(crate) fn present_sign(
    order: &[u8], token: &[u8], now: u64, issuer: u8, signature: &[u8], room: Room<'_>,
) -> u8 {
    // SAFETY: see the head of this module.
    unsafe {
        sdjwt_present_sign(
            order.as_ptr(), order.len(), token.as_ptr(), token.len(), now, issuer, signature.as_ptr(), signature.len(),
            room.out.as_mut_ptr(), room.out.len(), room.len,
        )
    }
}

extern "C" {
    fn sdjwt_show(token: *const u8, token_len: usize, out: *mut u8, room: usize, len: *mut usize) -> u8;
    fn sdjwt_split(token: *const u8, token_len: usize, out: *mut u8, room: usize, len: *mut usize) -> u8;
    fn sdjwt_question_text(question: *const u8, question_len: usize, out: *mut u8, room: usize, len: *mut usize) -> u8;
    fn sdjwt_question_signature(
        question: *const u8, question_len: usize, out: *mut u8, room: usize, len: *mut usize,
    ) -> u8;
    fn sdjwt_question_alg(question: *const u8, question_len: usize, out: *mut u8, room: usize, len: *mut usize) -> u8;
    fn sdjwt_question_kid(question: *const u8, question_len: usize, out: *mut u8, room: usize, len: *mut usize) -> u8;
    fn sdjwt_question_at(
        question: *const u8, question_len: usize, pointer: *const u8, pointer_len: usize,
        out: *mut u8, room: usize, len: *mut usize,
    ) -> u8;
    fn sdjwt_issue(
        order: *const u8, order_len: usize, seed: *const u8, seed_len: usize,
        out: *mut u8, room: usize, len: *mut usize,
    ) -> u8;
    fn sdjwt_issue_ask(
        order: *const u8, order_len: usize, alg: *const u8, alg_len: usize, seed: *const u8, seed_len: usize,
        out: *mut u8, room: usize, len: *mut usize,
    ) -> u8;
    fn sdjwt_issue_sign(
        order: *const u8, order_len: usize, alg: *const u8, alg_len: usize, seed: *const u8, seed_len: usize,
        signature: *const u8, signature_len: usize, out: *mut u8, room: usize, len: *mut usize,
    ) -> u8;
    fn sdjwt_present(
        order: *const u8, order_len: usize, token: *const u8, token_len: usize, now: u64,
        out: *mut u8, room: usize, len: *mut usize,
    ) -> u8;
    fn sdjwt_present_ask(
        order: *const u8, order_len: usize, token: *const u8, token_len: usize, now: u64, issuer: u8,
        out: *mut u8, room: usize, len: *mut usize,
    ) -> u8;
    fn sdjwt_present_sign(
        order: *const u8, order_len: usize, token: *const u8, token_len: usize, now: u64, issuer: u8,
        signature: *const u8, signature_len: usize, out: *mut u8, room: usize, len: *mut usize,
    ) -> u8;
    fn sdjwt_audit(
        order: *const u8, order_len: usize, token: *const u8, token_len: usize,
        out: *mut u8, room: usize, len: *mut usize,
    ) -> u8;
    fn sdjwt_version() -> *const c_char;
    fn sdjwt_is_proved() -> c_int;
    fn sdjwt_convert(form: u8, token: *const u8, token_len: usize, out: *mut u8, room: usize, len: *mut usize) -> u8;
    fn sdjwt_wallet(
        query: *const u8, query_len: usize, tokens: *const u8, tokens_len: usize, lengths: *const usize, count: usize,
        out: *mut u8, room: usize, len: *mut usize,
    ) -> u8;
    fn sdjwt_policy_new(
        handle: *mut RawPolicy, policy: *const u8, policy_len: usize, out: *mut u8, room: usize, len: *mut usize,
    ) -> u8;
    fn sdjwt_policy_nonce(handle: *mut RawPolicy, nonce: *const u8, nonce_len: usize) -> u8;
    fn sdjwt_policy_verify(
        handle: *mut RawPolicy, token: *const u8, token_len: usize, now: u64,
        out: *mut u8, room: usize, len: *mut usize,
    ) -> u8;
    fn sdjwt_policy_judge(
        handle: *mut RawPolicy, algs: *const u8, algs_len: usize, token: *const u8, token_len: usize, now: u64,
        issuer: u8, holder: u8, out: *mut u8, room: usize, len: *mut usize,
    ) -> u8;
    fn sdjwt_policy_free(handle: *mut RawPolicy);
}

pub(crate) fn version() -> &'static str {
    // SAFETY: the string ends with a zero byte and stays valid.
    let version = unsafe { CStr::from_ptr(sdjwt_version()) };
    version.to_str().unwrap_or_default()
}

pub(crate) fn is_proved() -> bool {
    // SAFETY: the function has no parameters and reads a constant.
    unsafe { sdjwt_is_proved() == 1 }
}

pub(crate) fn convert(form: u8, token: &[u8], room: Room<'_>) -> u8 {
    // SAFETY: see the head of this module.
    unsafe { sdjwt_convert(form, token.as_ptr(), token.len(), room.out.as_mut_ptr(), room.out.len(), room.len) }
}

pub(crate) fn wallet(query: &[u8], tokens: &[u8], lengths: &[usize], room: Room<'_>) -> u8 {
    // SAFETY: see the head of this module; `lengths` is a slice too.
    unsafe {
        sdjwt_wallet(
            query.as_ptr(), query.len(), tokens.as_ptr(), tokens.len(), lengths.as_ptr(), lengths.len(),
            room.out.as_mut_ptr(), room.out.len(), room.len,
        )
    }
}

impl Handle {
    pub(crate) const fn new() -> Self {
        Self(RawPolicy { held: ptr::null_mut() })
    }

    pub(crate) fn read(&mut self, policy: &[u8], room: Room<'_>) -> u8 {
        // SAFETY: see the head of this module.
        unsafe {
            sdjwt_policy_new(
                &mut self.0, policy.as_ptr(), policy.len(), room.out.as_mut_ptr(), room.out.len(), room.len,
            )
        }
    }

    pub(crate) fn set_nonce(&mut self, nonce: &[u8]) -> u8 {
        // SAFETY: see the head of this module.
        unsafe { sdjwt_policy_nonce(&mut self.0, nonce.as_ptr(), nonce.len()) }
    }

    pub(crate) fn verify(&mut self, token: &[u8], now: u64, room: Room<'_>) -> u8 {
        // SAFETY: see the head of this module.
        unsafe {
            sdjwt_policy_verify(
                &mut self.0, token.as_ptr(), token.len(), now, room.out.as_mut_ptr(), room.out.len(), room.len,
            )
        }
    }

    pub(crate) fn judge(&mut self, algs: &[u8], token: &[u8], now: u64, said: (u8, u8), room: Room<'_>) -> u8 {
        // SAFETY: see the head of this module.
        unsafe {
            sdjwt_policy_judge(
                &mut self.0, algs.as_ptr(), algs.len(), token.as_ptr(), token.len(), now, said.0, said.1,
                room.out.as_mut_ptr(), room.out.len(), room.len,
            )
        }
    }
}

impl Drop for Handle {
    fn drop(&mut self) {
        // SAFETY: the handle holds what the library put there, and nobody uses it from here on.
        unsafe { sdjwt_policy_free(&mut self.0) }
    }
}

/// The bytes of stack that a call may need. The deepest inputs took half of it, and the header promises that 1 MiB is
/// enough: a thread that has just this much has to be one that can call.
const STACK_NEEDED: usize = 512 * 1024;

/// The attributes of a thread, as `pthread.h` of glibc lays them out: 56 bytes on x86-64.
#[repr(C, align(16))]
struct Attributes([u8; 128]);

extern "C" {
    fn pthread_self() -> usize;
    fn pthread_getattr_np(thread: usize, attributes: *mut Attributes) -> c_int;
    fn pthread_attr_getstack(attributes: *const Attributes, low: *mut *mut c_void, size: *mut usize) -> c_int;
    fn pthread_attr_destroy(attributes: *mut Attributes) -> c_int;
}

thread_local! {
    /// The address at which the stack of this thread ends, and 0 if nobody says it.
    static STACK_END: Cell<Option<usize>> = const { Cell::new(None) };
}

/// Whether this thread has enough stack left for a call. In C too little of it ends the process, so each call asks
/// before it begins.
pub(crate) fn has_stack() -> bool {
    let end = STACK_END.with(|kept| {
        let end = kept.get().unwrap_or_else(stack_end);
        kept.set(Some(end));
        end
    });
    let here = ptr::addr_of!(end) as usize;
    // below the end it is not the stack of the thread on which this runs
    here < end || here - end >= STACK_NEEDED
}

fn stack_end() -> usize {
    let mut attributes = MaybeUninit::<Attributes>::uninit();
    let (mut low, mut size) = (ptr::null_mut(), 0);
    // SAFETY: the attributes have more room than glibc writes; they are read and destroyed only if they were written,
    // and `low` and `size` are mutable borrows.
    let is_said = unsafe {
        pthread_getattr_np(pthread_self(), attributes.as_mut_ptr()) == 0 && {
            let is_said = pthread_attr_getstack(attributes.as_ptr(), &mut low, &mut size) == 0;
            pthread_attr_destroy(attributes.as_mut_ptr());
            is_said
        }
    };
    if is_said { low as usize } else { 0 }
}

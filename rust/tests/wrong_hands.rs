//! What a careless caller does: closures that panic, calls inside calls, small stacks, and inputs of any length.

use sdjwt::{Error, Form, Policy, Verdict};
use std::panic::{self, AssertUnwindSafe};
use std::thread;

const ORDER: &str = r#"{"payload": {"iss": "tickets", "cnf": {"jwk": {"kty": "EC"}}, "seat": "B12"},
    "hide": ["/seat"]}"#;
const WISH: &str = r#"{"algs": ["ES256"], "want": ["/seat"],
    "binding": {"aud": "door", "nonce": "1", "alg": "ES256"}}"#;
const NOW: u64 = 1000;

fn ticket() -> String {
    sdjwt::issue_with(ORDER, "ES256", &[1; 32], |_| vec![1; 64]).unwrap()
}

fn shown() -> String {
    sdjwt::present_with(WISH, ticket(), NOW, |_| Verdict::Good, |_| vec![2; 64]).unwrap()
}

fn door() -> Policy {
    Policy::new(
        r#"{"keys": {"keys": []}, "algs": ["ES256"],
            "binding": {"aud": "door", "nonce": "1", "max_age": 60, "keys": {"keys": []}}}"#,
    )
    .unwrap()
}

/// Panics without a message on standard error.
fn panicking<T>(text: &'static str) -> T {
    panic::resume_unwind(Box::new(text))
}

/// Whether a call ends by a panic with this text.
fn panics_with<T>(text: &str, call: impl FnOnce() -> T) -> bool {
    let fault = panic::catch_unwind(AssertUnwindSafe(call)).err();
    fault.and_then(|fault| fault.downcast_ref::<&str>().map(|said| *said == text)).unwrap_or(false)
}

#[test]
fn closures_that_panic() {
    let (ticket, shown, door) = (ticket(), shown(), door());
    for _ in 0..20 {
        assert!(panics_with("check", || door.verify_with(&shown, NOW, &[], |_| panicking("check"))));
        assert!(panics_with("nonce", || door.for_nonce("1").verify_with(&shown, NOW, &[], |_| panicking("nonce"))));
        assert!(panics_with("issue", || sdjwt::issue_with(ORDER, "ES256", &[1; 32], |_| panicking("issue"))));
        assert!(panics_with("issuer", || {
            sdjwt::present_with(WISH, &ticket, NOW, |_| panicking("issuer"), |_| vec![2; 64])
        }));
        assert!(panics_with("sign", || {
            sdjwt::present_with(WISH, &ticket, NOW, |_| Verdict::Good, |_| panicking("sign"))
        }));
    }
    // the policy is as it was
    assert!(door.verify_with(&shown, NOW, &[], |_| Verdict::Good).is_ok());
}

/// A panic of one thread reaches only this one.
#[test]
fn a_panic_in_a_thread() {
    let (shown, door) = (shown(), door());
    thread::scope(|scope| {
        let broken = scope.spawn(|| door.verify_with(&shown, NOW, &[], |_| panicking("check")));
        let sound = scope.spawn(|| door.verify_with(&shown, NOW, &[], |_| Verdict::Good));
        assert!(broken.join().is_err());
        assert!(sound.join().unwrap().is_ok());
    });
    assert!(door.verify_with(&shown, NOW, &[], |_| Verdict::Good).is_ok());
}

#[test]
fn a_call_inside_a_call() {
    let (shown, door) = (shown(), door());
    let claims = door.verify_with(&shown, NOW, &[], |_| {
        let other = door.for_nonce("2").verify_with(&shown, NOW, &[], |_| {
            assert!(door.verify_with(&shown, NOW, &[], |_| Verdict::Good).is_ok());
            Verdict::Good
        });
        assert_eq!(other.unwrap_err().refused().map(sdjwt::Refused::name), Some("nonceDiffers"));
        Verdict::Good
    });
    assert!(claims.unwrap().as_str().contains("B12"));
}

#[test]
fn a_policy_that_moves_to_a_thread_and_ends_there() {
    let (shown, door) = (shown(), door());
    assert!(door.verify_with(&shown, NOW, &[], |_| Verdict::Good).is_ok());
    let other = shown.clone();
    let door = thread::spawn(move || {
        assert!(door.for_nonce("1").verify_with(&other, NOW, &[], |_| Verdict::Good).is_ok());
        door
    });
    let door = door.join().unwrap();
    assert!(door.verify_with(&shown, NOW, &[], |_| Verdict::Good).is_ok());
    thread::spawn(move || drop(door)).join().unwrap();
}

#[test]
fn a_small_stack_is_an_error() {
    let deep = format!(r#"{{"payload": {{"a": {}1{}}}}}"#, "[".repeat(90), "]".repeat(90));
    let on = |size| {
        let deep = deep.clone();
        let call = move || sdjwt::issue_with(deep, "ES256", &[1; 32], |_| vec![1]);
        thread::Builder::new().stack_size(size).spawn(call).unwrap().join().unwrap()
    };
    for size in [64 * 1024, 256 * 1024, 500 * 1024] {
        assert_eq!(on(size), Err(Error::OutOfStack), "{size}");
    }
    for size in [1024 * 1024, 2 * 1024 * 1024, 64 * 1024 * 1024] {
        assert!(on(size).is_ok(), "{size}");
    }
}

#[test]
fn tokens_that_are_too_long() {
    let door = door();
    for (length, number) in [(8_388_608, 2), (8_388_609, 1), (16_777_216, 1), (16_777_217, 1)] {
        let token = "A".repeat(length);
        for result in [
            door.verify_with(&token, 0, &[], |_| panic!("asked")).map(sdjwt::Claims::into_string),
            sdjwt::show(&token),
            sdjwt::convert(Form::Flat, &token),
            sdjwt::present_with(WISH, &token, 0, |_| panic!("asked"), |_| panic!("asked")),
        ] {
            assert_eq!(result.unwrap_err().refused().map(sdjwt::Refused::number), Some(number), "{length}");
        }
    }
}

#[test]
fn files_of_no_form() {
    let long = "7".repeat(20_000_000);
    for file in ["", "\0", "[]", "{}", "nonsense", &long] {
        for result in [
            Policy::new(file).map(|_| String::new()),
            sdjwt::verify(file, "", 0).map(sdjwt::Claims::into_string),
            sdjwt::issue(file, &[1; 32]),
            sdjwt::issue_with(file, "ES256", &[1; 32], |_| panic!("asked")),
            sdjwt::present(file, ticket(), 0),
            sdjwt::present_with(file, ticket(), 0, |_| panic!("asked"), |_| panic!("asked")),
            sdjwt::wallet(file, &[ticket()]).map(|picked| picked.token),
            sdjwt::audit(file, ticket()).map(|()| String::new()),
        ] {
            let error = result.unwrap_err();
            assert!(matches!(&error, Error::Unreadable(said) if said.input() == 1), "{error}");
        }
    }
}

#[test]
fn signatures_of_any_length() {
    let policy = Policy::new(r#"{"keys": {"keys": []}, "algs": ["ES256"]}"#).unwrap();
    for length in [1, 63, 64, 100_000] {
        let token = sdjwt::issue_with(ORDER, "ES256", &[1; 32], |_| vec![9; length]).unwrap();
        let seen = policy.verify_with(token, 0, &[], |question| {
            if question.signature() == vec![9; length] { Verdict::Good } else { Verdict::Bad }
        });
        assert!(seen.is_ok(), "{length}");
    }
    let error = sdjwt::issue_with(ORDER, "ES256", &[1; 32], |_| vec![9; 7_000_000]).unwrap_err();
    assert_eq!(error.refused().map(sdjwt::Refused::number), Some(61));
}

#[test]
fn moments_at_the_limits() {
    let (shown, door) = (shown(), door());
    for now in [0, 1, u64::MAX - 1, u64::MAX] {
        assert!(door.verify_with(&shown, now, &[], |_| Verdict::Good).unwrap_err().refused().is_some(), "{now}");
    }
}

/// Without names of its own the holder's algorithm is one of the policy's; with names it is one of these.
#[test]
fn algorithms_of_holders() {
    let (shown, door) = (shown(), door());
    let verdict = |algs: &[&str]| door.verify_with(&shown, NOW, algs, |_| Verdict::Good);
    for algs in [&[][..], &["ES256"], &["EdDSA", "ES256"]] {
        assert!(verdict(algs).is_ok(), "{algs:?}");
    }
    for algs in [&["EdDSA"][..], &[""], &["none"]] {
        let error = verdict(algs).unwrap_err();
        assert_eq!(error.refused().map(sdjwt::Refused::name), Some("bindingAlg"), "{algs:?}");
    }
}

//! A policy that threads share, and wrong hands.

use sdjwt::{Error, Form, Policy};
use std::thread;

const KEY: &str = "AQEBAQEBAQEBAQEBAQEBAQEBAQEBAQEBAQEBAQEBAQE";

fn key_set() -> String {
    format!(r#"{{"keys": [{{"kty": "oct", "kid": "a", "k": "{KEY}"}}]}}"#)
}

fn ticket(seat: &str) -> String {
    let order = format!(
        r#"{{"payload": {{"cnf": {{"kid": "a"}}, "seat": "{seat}"}}, "hide": ["/seat"], "key": "{KEY}", "kid": "a"}}"#
    );
    sdjwt::issue(order, &[5; 32]).unwrap()
}

fn shown(seat: &str, nonce: &str) -> String {
    let wish = format!(
        r#"{{"keys": {}, "want": ["/seat"],
            "binding": {{"key": "{KEY}", "kid": "a", "aud": "door", "nonce": "{nonce}"}}}}"#,
        key_set()
    );
    sdjwt::present(wish, ticket(seat), 1000).unwrap()
}

fn door(nonce: &str) -> Policy {
    let keys = key_set();
    Policy::new(format!(
        r#"{{"keys": {keys}, "require": ["seat"],
            "binding": {{"aud": "door", "nonce": "{nonce}", "max_age": 60, "keys": {keys}}}}}"#
    ))
    .unwrap()
}

#[test]
fn threads_with_nonces_of_their_own() {
    let door = door("of the file");
    thread::scope(|scope| {
        for number in 0..8 {
            let door = &door;
            scope.spawn(move || {
                let (seat, nonce) = (format!("seat {number}"), format!("nonce {number}"));
                let shown = shown(&seat, &nonce);
                let own = self::shown(&seat, "of the file");
                for round in 0..200 {
                    let other = format!("nonce {}", (number + 1 + round % 7) % 8);
                    let claims = door.for_nonce(&nonce).verify(&shown, 1000).unwrap();
                    assert!(claims.as_str().contains(&format!(r#""seat":"{seat}""#)), "{claims}");
                    let error = door.for_nonce(&other).verify(&shown, 1000).unwrap_err();
                    assert_eq!(error.refused().map(sdjwt::Refused::name), Some("nonceDiffers"));
                    assert!(door.verify(&own, 1000).is_ok());
                    assert!(door.verify(&shown, 1000).is_err());
                }
            });
        }
    });
}

#[test]
fn nonces_at_the_limit() {
    let door = door("");
    for (length, is_taken) in [(0, true), (256, true), (257, false)] {
        let nonce = "n".repeat(length);
        let verdict = door.for_nonce(&nonce).verify(ticket("B12"), 1000).unwrap_err();
        assert_eq!(verdict.refused().is_some(), is_taken, "{length}: {verdict}");
    }
    let without = Policy::new(format!(r#"{{"keys": {}}}"#, key_set())).unwrap();
    let error = without.for_nonce("n").verify(ticket("B12"), 1000).unwrap_err();
    assert!(matches!(error, Error::Misused(_)), "{error}");
    assert!(without.verify(ticket("B12"), 1000).is_ok());
}

#[test]
fn bytes_that_are_no_token() {
    let (door, long) = (door("n"), vec![b'A'; 70_000]);
    for token in [&b""[..], b"\0", b"\xff\xfe", b"{}", b"[", b"a.b.c", b"~", &long] {
        for result in [
            door.verify(token, 0).map(sdjwt::Claims::into_string),
            door.verify_with(token, 0, &["ES256"], |_| panic!("asked")).map(sdjwt::Claims::into_string),
            sdjwt::show(token),
            sdjwt::split(token),
            sdjwt::convert(Form::General, token),
        ] {
            assert_eq!(result.unwrap_err().refused().map(sdjwt::Refused::number), Some(2));
        }
    }
}

#[test]
fn errors_say_what_is_wrong() {
    let error = Policy::new("{").unwrap_err();
    assert!(error.to_string().starts_with("unreadable 1 notJson: "), "{error}");
    match &error {
        Error::Unreadable(unreadable) => assert_eq!((unreadable.input(), unreadable.reason()), (1, "notJson")),
        other => panic!("{other}"),
    }
    let wish = format!(r#"{{"keys": {}, "want": ["/a b"]}}"#, key_set());
    let error = sdjwt::present(wish, ticket("B12"), 0).unwrap_err();
    let refused = error.refused().unwrap();
    assert_eq!((refused.number(), refused.name(), refused.place()), (72, "wantedNotThere", Some("0")));
    assert!(std::error::Error::source(&error).is_some());
}

#[test]
fn names_of_algorithms_are_names() {
    let door = door("n");
    let error = door.verify_with(ticket("B12"), 0, &["ES256\",\"HS256"], |_| panic!("asked")).unwrap_err();
    assert!(matches!(error, Error::Misused(_)), "{error}");
}

#[test]
fn wallets() {
    let query = format!(r#"{{"keys": {}, "equal": [{{"at": "/seat", "value": "B12"}}]}}"#, key_set());
    let picked = sdjwt::wallet(&query, &[ticket("A1"), ticket("B12"), ticket("B12")]).unwrap();
    assert_eq!(picked.index, 1);
    assert!(picked.token.ends_with('~'));
    let none: [&str; 0] = [];
    assert!(matches!(sdjwt::wallet(&query, &none), Err(Error::Misused(_))));
    assert!(matches!(sdjwt::wallet(&query, &vec![ticket("A1"); 65]), Err(Error::Misused(_))));
    for tokens in [vec![ticket("A1")], vec![String::new()], vec![String::new(), "~".to_owned()]] {
        let error = sdjwt::wallet(&query, &tokens).unwrap_err();
        assert_eq!(error.refused().map(sdjwt::Refused::number), Some(77));
    }
}

#[test]
fn an_audit() {
    let order = format!(r#"{{"payload": {{"seat": "B12"}}, "hide": ["/seat"], "key": "{KEY}"}}"#);
    let token = sdjwt::issue(&order, &[1; 32]).unwrap();
    assert_eq!(sdjwt::audit(&order, &token), Ok(()));
    let error = sdjwt::audit(order.replace("B12", "B13"), &token).unwrap_err();
    assert_eq!(error.refused().map(sdjwt::Refused::number), Some(83));
}

#[test]
fn a_policy_shows_no_keys() {
    assert_eq!(format!("{:?}", door("n")), "Policy { .. }");
}

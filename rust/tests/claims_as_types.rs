//! The feature `serde`: claims as types of the caller.
#![cfg(feature = "serde")]

use serde::Deserialize;

#[derive(Debug, Deserialize, PartialEq)]
struct Visit<'a> {
    seat: &'a str,
    row: u64,
    #[serde(default)]
    note: Option<String>,
}

fn claims(payload: &str) -> sdjwt::Claims {
    let token = sdjwt::issue_with(format!(r#"{{"payload": {payload}}}"#), "ES256", &[1; 32], |_| vec![1; 64]).unwrap();
    let policy = sdjwt::Policy::new(r#"{"keys": {"keys": []}, "algs": ["ES256"]}"#).unwrap();
    policy.verify_with(token, 0, &[], |_| sdjwt::Verdict::Good).unwrap()
}

#[test]
fn a_type_of_the_caller() {
    let claims = claims(r#"{"seat": "B12", "row": 18446744073709551615}"#);
    assert_eq!(claims.read::<Visit>().unwrap(), Visit { seat: "B12", row: u64::MAX, note: None });
    let value: serde_json::Value = claims.read().unwrap();
    assert_eq!(value["seat"], "B12");
}

#[test]
fn claims_of_another_type() {
    assert!(claims(r#"{"seat": 12, "row": 3}"#).read::<Visit>().unwrap_err().is_data());
    assert!(claims(r#"{"seat": "B12"}"#).read::<Visit>().unwrap_err().to_string().contains("missing field `row`"));
}

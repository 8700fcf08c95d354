//! Tokens with key pairs, whose signatures OpenSSL checks and makes.

use openssl::bn::{BigNum, BigNumContext};
use openssl::ec::{EcGroup, EcKey};
use openssl::ecdsa::EcdsaSig;
use openssl::nid::Nid;
use openssl::pkey::{Id, PKey, Private, Public};
use openssl::sha::sha256;
use openssl::sign::{Signer, Verifier};
use sdjwt::{Error, Policy, Question, Verdict, Whose};
use std::cell::RefCell;
use std::fs;
use std::path::Path;

/// When the presentation of RFC 9901 was made.
const MOMENT: u64 = 1_748_537_244;

fn base64url(bytes: &[u8]) -> String {
    openssl::base64::encode_block(bytes).replace('+', "-").replace('/', "_").replace('=', "")
}

fn decoded(text: &str) -> Vec<u8> {
    let padded = format!("{}{}", text.replace('-', "+").replace('_', "/"), &"==="[..(4 - text.len() % 4) % 4]);
    openssl::base64::decode_block(&padded).unwrap()
}

fn p256() -> EcGroup {
    EcGroup::from_curve_name(Nid::X9_62_PRIME256V1).unwrap()
}

fn p256_key(x: &str, y: &str) -> EcKey<Public> {
    let (x, y) = (BigNum::from_slice(&decoded(x)).unwrap(), BigNum::from_slice(&decoded(y)).unwrap());
    EcKey::from_public_key_affine_coordinates(&p256(), &x, &y).unwrap()
}

fn es256(key: &EcKey<Public>, question: &Question) -> Verdict {
    let signature = question.signature();
    if question.alg() != "ES256" || signature.len() != 64 {
        return Verdict::Bad;
    }
    let part = |bytes| BigNum::from_slice(bytes).unwrap();
    let signature = EcdsaSig::from_private_components(part(&signature[..32]), part(&signature[32..])).unwrap();
    match signature.verify(&sha256(question.text()), key) {
        Ok(true) => Verdict::Good,
        _ => Verdict::Bad,
    }
}

fn es256_signature(key: &EcKey<Private>, text: &[u8]) -> Vec<u8> {
    let signature = EcdsaSig::sign(&sha256(text), key).unwrap();
    [signature.r(), signature.s()].iter().flat_map(|part| part.to_vec_padded(32).unwrap()).collect()
}

/// The holder's key of the question, by the claim `cnf`.
fn holder_key(question: &Question) -> EcKey<Public> {
    let member = |name| question.at(&format!("/payload/cnf/jwk/{name}")).unwrap().unwrap();
    p256_key(&member("x"), &member("y"))
}

fn rfc(name: &str) -> String {
    let path = Path::new(env!("CARGO_MANIFEST_DIR")).join("../vectors/rfc9901").join(name);
    fs::read_to_string(path).unwrap().trim().to_owned()
}

fn rfc_issuer() -> EcKey<Public> {
    let keys: serde_json::Value = serde_json::from_str(&rfc("issuer_keys.json")).unwrap();
    let key = &keys["keys"][0];
    p256_key(key["x"].as_str().unwrap(), key["y"].as_str().unwrap())
}

fn rfc_policy(nonce: &str) -> Policy {
    Policy::new(format!(
        r#"{{"keys": {{"keys": []}}, "algs": ["ES256"], "binding": {{"aud": "https://verifier.example.org",
            "nonce": "{nonce}", "max_age": 600, "keys": {{"keys": []}}}}}}"#
    ))
    .unwrap()
}

fn rfc_verdict(policy: sdjwt::ForNonce<'_>, token: &str, issuer: &EcKey<Public>) -> Result<sdjwt::Claims, Error> {
    policy.verify_with(token, MOMENT, &["ES256"], |question| match question.whose() {
        Whose::Issuer => es256(issuer, question),
        Whose::Holder => es256(&holder_key(question), question),
    })
}

fn each_letter_is_refused(token: &str, verdict: impl Fn(&str) -> Result<sdjwt::Claims, Error>) {
    for at in 0..token.len() {
        let letter = if &token[at..=at] == "A" { "B" } else { "A" };
        let error = verdict(&format!("{}{letter}{}", &token[..at], &token[at + 1..])).unwrap_err();
        assert!(error.refused().is_some(), "{at}: {error}");
    }
}

#[test]
fn the_presentation_of_the_rfc_and_each_letter_changed() {
    let (token, issuer, policy) = (rfc("presented.txt"), rfc_issuer(), rfc_policy("another"));
    let policy = policy.for_nonce("1234567890");
    let claims: serde_json::Value = rfc_verdict(policy, &token, &issuer).unwrap().as_str().parse().unwrap();
    let due: serde_json::Value = rfc("claims.json").parse().unwrap();
    assert_eq!(claims, due);
    each_letter_is_refused(&token, |changed| rfc_verdict(policy, changed, &issuer));
}

#[test]
fn the_issued_token_of_the_rfc_and_each_letter_changed() {
    let (token, issuer) = (rfc("issued.txt"), rfc_issuer());
    let policy = Policy::new(r#"{"keys": {"keys": []}, "algs": ["ES256"]}"#).unwrap();
    let verdict = |token: &str| policy.verify_with(token, MOMENT, &[], |question| es256(&issuer, question));
    assert!(verdict(&token).unwrap().as_str().contains(r#""iss":"https://issuer.example.com""#));
    each_letter_is_refused(&token, verdict);
}

#[test]
fn another_nonce_is_refused_by_35() {
    let (token, issuer, policy) = (rfc("presented.txt"), rfc_issuer(), rfc_policy("1234567890"));
    let error = rfc_verdict(policy.for_nonce("4711"), &token, &issuer).unwrap_err();
    assert_eq!(error.refused().map(sdjwt::Refused::number), Some(35));
    assert!(rfc_verdict(policy.for_nonce("1234567890"), &token, &issuer).is_ok());
}

struct Pair {
    key: EcKey<Private>,
    jwk: String,
}

fn pair() -> Pair {
    let key = EcKey::generate(&p256()).unwrap();
    let (mut x, mut y) = (BigNum::new().unwrap(), BigNum::new().unwrap());
    let mut context = BigNumContext::new().unwrap();
    key.public_key().affine_coordinates(&p256(), &mut x, &mut y, &mut context).unwrap();
    let part = |number: &BigNum| base64url(&number.to_vec_padded(32).unwrap());
    let jwk = format!(r#"{{"kty": "EC", "crv": "P-256", "x": "{}", "y": "{}"}}"#, part(&x), part(&y));
    Pair { key, jwk }
}

fn public(key: &EcKey<Private>) -> EcKey<Public> {
    EcKey::from_public_key(&p256(), key.public_key()).unwrap()
}

#[test]
fn three_ends_with_es256() {
    let (office, ada) = (pair(), pair());
    let order = format!(
        r#"{{"payload": {{"iss": "tickets", "cnf": {{"jwk": {}}}, "name": "Ada", "seat": "B12"}},
            "hide": ["/name", "/seat"], "kid": "office"}}"#,
        ada.jwk
    );
    let ticket = sdjwt::issue_with(&order, "ES256", &[9; 32], |text| es256_signature(&office.key, text)).unwrap();
    let wish = r#"{"algs": ["ES256"], "want": ["/seat"], "never": ["/name"],
        "binding": {"aud": "door", "nonce": "4711", "alg": "ES256"}}"#;
    let asked = RefCell::new(Vec::new());
    let shown = sdjwt::present_with(
        wish,
        &ticket,
        sdjwt::now(),
        |question| {
            asked.borrow_mut().push((question.whose(), question.kid().map(str::to_owned)));
            es256(&public(&office.key), question)
        },
        |text| es256_signature(&ada.key, text),
    )
    .unwrap();
    assert_eq!(*asked.borrow(), [(Whose::Issuer, Some("office".to_owned()))]);
    let door = r#"{"keys": {"keys": []}, "algs": ["ES256"], "iss": "tickets", "require": ["seat"],
        "binding": {"aud": "door", "nonce": "", "max_age": 60, "keys": {"keys": []}}}"#;
    let door = Policy::new(door).unwrap();
    let verdict = |issuer: &EcKey<Public>| {
        door.for_nonce("4711").verify_with(&shown, sdjwt::now(), &["ES256"], |question| match question.whose() {
            Whose::Issuer => es256(issuer, question),
            Whose::Holder => es256(&holder_key(question), question),
        })
    };
    let claims = verdict(&public(&office.key)).unwrap();
    assert!(claims.as_str().contains(r#""seat":"B12""#) && !claims.as_str().contains("Ada"));
    let error = verdict(&public(&ada.key)).unwrap_err();
    assert_eq!(error.refused().map(sdjwt::Refused::name), Some("badSignature"));
}

#[test]
fn eddsa_and_what_is_said_of_a_key() {
    let key = PKey::generate_ed25519().unwrap();
    let sign = |text: &[u8]| Signer::new_without_digest(&key).unwrap().sign_oneshot_to_vec(text).unwrap();
    let order = r#"{"payload": {"seat": "B12"}, "hide": ["/seat"]}"#;
    let ticket = sdjwt::issue_with(order, "EdDSA", &[3; 32], sign).unwrap();
    let public = PKey::public_key_from_raw_bytes(&key.raw_public_key().unwrap(), Id::ED25519).unwrap();
    let policy = Policy::new(r#"{"keys": {"keys": []}, "algs": ["EdDSA"]}"#).unwrap();
    let verdict = |said: Option<Verdict>| {
        policy.verify_with(&ticket, 0, &[], |question| {
            let mut verifier = Verifier::new_without_digest(&public).unwrap();
            let is_good = verifier.verify_oneshot(question.signature(), question.text()).unwrap();
            said.unwrap_or(if is_good { Verdict::Good } else { Verdict::Bad })
        })
    };
    assert_eq!(verdict(None).unwrap().as_str(), r#"{"seat":"B12"}"#);
    let number = |said| verdict(Some(said)).unwrap_err().refused().map(sdjwt::Refused::number);
    assert_eq!((number(Verdict::UnknownKey), number(Verdict::Bad)), (Some(9), Some(10)));
}

#[test]
fn a_signer_is_not_asked_for_an_order_that_is_refused() {
    let order = r#"{"payload": {"iss": "tickets"}, "hide": ["/iss"]}"#;
    let error = sdjwt::issue_with(order, "ES256", &[3; 32], |_| panic!("asked")).unwrap_err();
    assert_eq!(error.refused().map(sdjwt::Refused::number), Some(56));
}

#[test]
fn no_algorithm_and_no_signature() {
    let order = r#"{"payload": {}}"#;
    for alg in ["", "none"] {
        let error = sdjwt::issue_with(order, alg, &[3; 32], |_| vec![1]).unwrap_err();
        assert!(matches!(error, Error::Misused(_)), "{alg}: {error}");
    }
    let error = sdjwt::issue_with(order, "ES256", &[3; 32], |_| Vec::new()).unwrap_err();
    assert!(matches!(error, Error::Misused(_)), "{error}");
}

//! A million random answers of `check`, by four threads over policies that they share: each verdict is the one that
//! follows from the answers, and each signature is asked about once, the issuer's first.

use sdjwt::{Policy, Question, Verdict, Whose};
use std::cell::RefCell;
use std::thread;

const THREADS: u64 = 4;
const ANSWERS: u64 = 1_000_000;
const NOW: u64 = 1000;

/// A token, a policy for it, and what follows once its signatures are said to be good.
struct Case {
    policy: Policy,
    token: String,
    has_binding: bool,
    /// The refusal after a good signature of the issuer, and the one after both.
    after_issuer: Option<u8>,
    after_both: Option<u8>,
}

/// Random numbers (xorshift64*), the same in each run.
struct Random(u64);

impl Random {
    fn below(&mut self, bound: usize) -> usize {
        self.0 ^= self.0 >> 12;
        self.0 ^= self.0 << 25;
        self.0 ^= self.0 >> 27;
        usize::try_from(self.0.wrapping_mul(0x2545_F491_4F6C_DD1D) >> 33).unwrap() % bound
    }

    fn verdict(&mut self) -> Verdict {
        [Verdict::UnknownKey, Verdict::Bad, Verdict::Good, Verdict::Good][self.below(4)]
    }
}

fn token(nonce: Option<&str>) -> String {
    let order = r#"{"payload": {"iss": "tickets", "cnf": {"jwk": {"kty": "EC"}}, "name": "Ada", "seat": "B12"},
        "hide": ["/name", "/seat"], "kid": "office"}"#;
    let ticket = sdjwt::issue_with(order, "ES256", &[7; 32], |_| vec![1; 64]).unwrap();
    let binding = nonce.map_or(String::new(), |nonce| {
        format!(r#", "binding": {{"aud": "door", "nonce": "{nonce}", "alg": "ES256"}}"#)
    });
    let wish = format!(r#"{{"algs": ["ES256"], "want": ["/seat"]{binding}}}"#);
    sdjwt::present_with(wish, ticket, NOW, |_| Verdict::Good, |_| vec![2; 64]).unwrap()
}

fn policy(require: &str, has_binding: bool) -> Policy {
    let binding = if has_binding {
        r#", "binding": {"aud": "door", "nonce": "4711", "max_age": 60, "keys": {"keys": []}}"#
    } else {
        ""
    };
    Policy::new(format!(r#"{{"keys": {{"keys": []}}, "algs": ["ES256"], "require": ["{require}"]{binding}}}"#)).unwrap()
}

fn cases() -> Vec<Case> {
    let case = |require, has_binding, nonce, after_issuer, after_both| Case {
        policy: policy(require, has_binding),
        token: token(nonce),
        has_binding,
        after_issuer,
        after_both,
    };
    vec![
        case("seat", false, None, None, None),
        case("name", false, None, Some(23), None),
        case("seat", true, Some("4711"), None, None),
        case("name", true, Some("4711"), Some(23), None),
        case("seat", true, Some("4712"), None, Some(35)),
    ]
}

/// The refusal that is due, or nothing for a token that is accepted.
fn due(case: &Case, issuer: Verdict, holder: Verdict) -> Option<u8> {
    match issuer {
        Verdict::UnknownKey => Some(9),
        Verdict::Bad => Some(10),
        Verdict::Good if case.after_issuer.is_some() || !case.has_binding => case.after_issuer,
        Verdict::Good => match holder {
            Verdict::UnknownKey => Some(27),
            Verdict::Bad => Some(30),
            Verdict::Good => case.after_both,
        },
    }
}

fn is_as_due(case: &Case, issuer: Verdict, holder: Verdict) {
    let asked = RefCell::new(Vec::new());
    let check = |question: &Question| {
        asked.borrow_mut().push(question.whose());
        assert_eq!(question.signature(), if question.whose() == Whose::Issuer { [1; 64] } else { [2; 64] });
        if question.whose() == Whose::Issuer { issuer } else { holder }
    };
    let result = case.policy.verify_with(&case.token, NOW, &["ES256"], check);
    let number = result.as_ref().err().map(|error| error.refused().expect("a refusal").number());
    assert_eq!(number, due(case, issuer, holder), "{issuer:?} {holder:?}: {result:?}");
    if let Ok(claims) = result {
        assert!(claims.as_str().ends_with(r#","iss":"tickets","seat":"B12"}"#), "{claims}");
    }
    let is_holder_asked = case.has_binding && issuer == Verdict::Good && case.after_issuer.is_none();
    let whose: &[Whose] = if is_holder_asked { &[Whose::Issuer, Whose::Holder] } else { &[Whose::Issuer] };
    assert_eq!(*asked.borrow(), whose);
}

#[test]
fn a_million() {
    let cases = cases();
    thread::scope(|scope| {
        for thread in 0..THREADS {
            let cases = &cases;
            scope.spawn(move || {
                let mut random = Random(0x5D_1A57 + thread);
                for _ in 0..ANSWERS / THREADS {
                    let case = &cases[random.below(cases.len())];
                    is_as_due(case, random.verdict(), random.verdict());
                }
            });
        }
    });
    println!("{ANSWERS} random answers of check");
}

/// Each answer of each case, for a machine on which a million take long.
#[test]
fn each_once() {
    let verdicts = [Verdict::UnknownKey, Verdict::Bad, Verdict::Good];
    for case in &cases() {
        for issuer in verdicts {
            for holder in verdicts {
                is_as_due(case, issuer, holder);
            }
        }
    }
}

//! What the compiler promises: which types threads may share, and that the versions are one. `src/lib.rs` has the
//! programs that must not compile.

use sdjwt::{Claims, Error, ForNonce, Form, Picked, Policy, Question, Refused, Unreadable, Verdict, Whose};
use std::error::Error as AnyError;

fn is_shared<T: Send + Sync>() {}
fn lives_by_itself<T: Send + Sync + 'static>() {}
fn is_an_error<T: AnyError + Send + Sync + 'static>() {}

#[test]
fn threads_may_share_all_of_it() {
    is_shared::<Policy>();
    is_shared::<ForNonce<'_>>();
    lives_by_itself::<Policy>();
    lives_by_itself::<Claims>();
    lives_by_itself::<Question>();
    lives_by_itself::<Picked>();
    lives_by_itself::<(Verdict, Whose, Form)>();
    is_an_error::<Error>();
    is_an_error::<Refused>();
    is_an_error::<Unreadable>();
}

/// Functions and closures of any kind, which need not be of threads.
#[test]
fn what_checks_and_signs_may_be_any_closure() {
    fn good(_: &Question) -> Verdict {
        Verdict::Good
    }
    let signature = std::rc::Rc::new(vec![1; 64]);
    let own = signature.as_ref().clone();
    let token = sdjwt::issue_with(r#"{"payload": {}}"#, "ES256", &[1; 32], move |_| own).unwrap();
    let policy = Policy::new(r#"{"keys": {"keys": []}, "algs": ["ES256"]}"#).unwrap();
    assert!(policy.verify_with(&token, 0, &[], good).is_ok());
    let boxed: Box<dyn Fn(&Question) -> Verdict> = Box::new(move |question| {
        if question.signature() == signature.as_slice() { Verdict::Good } else { Verdict::Bad }
    });
    assert!(policy.verify_with(token, 0, &[], boxed).is_ok());
}

#[test]
fn the_question_mark_of_any_error() {
    fn read() -> Result<Policy, Box<dyn AnyError + Send + Sync>> {
        Ok(Policy::new("{")?)
    }
    let error = read().unwrap_err();
    let line = error.source().and_then(|source| source.downcast_ref::<Unreadable>()).map(|said| said.line().to_owned());
    assert_eq!(line.as_deref(), Some("unreadable 1 notJson"));
}

#[test]
fn the_version_is_that_of_the_library() {
    assert_eq!(sdjwt::library_version(), env!("CARGO_PKG_VERSION"));
}

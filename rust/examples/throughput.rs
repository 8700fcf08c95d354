//! Prints the verifications a second of a small token with one hidden claim, by 1, 2 and 4 threads that share a policy.
//!
//! ```sh
//! cargo run --release --example throughput [SECONDS]
//! ```

use std::time::{Duration, Instant};
use std::{env, thread};

const KEY: &str = "AQEBAQEBAQEBAQEBAQEBAQEBAQEBAQEBAQEBAQEBAQE";

/// How many verifications a thread makes until the time is over.
fn verifications(policy: &sdjwt::Policy, token: &str, end: Instant) -> u64 {
    let mut count = 0;
    while Instant::now() < end {
        for _ in 0..16 {
            policy.verify(token, 1000).expect("a token that is accepted");
        }
        count += 16;
    }
    count
}

fn main() -> Result<(), sdjwt::Error> {
    let seconds = env::args().nth(1).and_then(|said| said.parse().ok()).unwrap_or(2);
    let order = format!(r#"{{"payload": {{"iss": "tickets", "seat": "B12"}}, "hide": ["/seat"], "key": "{KEY}"}}"#);
    let token = sdjwt::issue(order, &[1; 32])?;
    let policy = sdjwt::Policy::new(format!(r#"{{"keys": {{"keys": [{{"kty": "oct", "k": "{KEY}"}}]}}}}"#))?;
    for threads in [1, 2, 4] {
        let begin = Instant::now();
        let end = begin + Duration::from_secs(seconds);
        let count: u64 = thread::scope(|scope| {
            let running: Vec<_> = (0..threads).map(|_| scope.spawn(|| verifications(&policy, &token, end))).collect();
            running.into_iter().map(|thread| thread.join().expect("a thread that ends")).sum()
        });
        let rate = u128::from(count) * 1000 / begin.elapsed().as_millis().max(1);
        println!("{threads} threads: {rate} verifications a second");
    }
    Ok(())
}

//! The commands of sdjwt in plain Rust, over the usual crates, to measure the proved program against.
//!
//! It has `feed` of sdjwt_tools too. Where memory runs out, it is ended by the system.
use plain_lib::commands::{convert, feed, generate, show, split, Form};
use plain_lib::end::Stop;
use plain_lib::form::FILE_MAX;
use plain_lib::{files, issue, present, verify};
use std::fs::File;
use std::io::{Read, Write};
use std::time::{SystemTime, UNIX_EPOCH};

const FEED_MAX: u64 = 1_073_741_824;

fn fetch(argument: usize, name: &str, most: usize) -> Result<Vec<u8>, Stop> {
    let unread = |_| Stop::Unread(argument);
    let file = File::open(name).map_err(unread)?;
    let length = file.metadata().map_err(unread)?.len().min(most as u64) as usize;
    let mut bytes = Vec::with_capacity(length + 1);
    file.take(most as u64).read_to_end(&mut bytes).map_err(unread)?;
    Ok(bytes)
}

fn file(argument: usize, name: &str) -> Result<Vec<u8>, Stop> {
    fetch(argument, name, FILE_MAX + 1)
}

fn number(text: &str, most: u64) -> Result<u64, Stop> {
    let is_decimal = text.bytes().all(|b| b.is_ascii_digit()) && !text.starts_with('0');
    text.parse().ok().filter(|number| is_decimal && (1..=most).contains(number)).ok_or(Stop::Usage)
}

fn unreadable(argument: usize) -> impl FnOnce(String) -> Stop {
    move |reason| Stop::Unreadable(argument, reason)
}

fn now() -> u64 {
    SystemTime::now().duration_since(UNIX_EPOCH).map_or(0, |since| since.as_secs())
}

fn issued(order: &str, seed: &str) -> Result<Vec<u8>, Stop> {
    let order = file(1, order)?;
    let seed = fetch(2, seed, 32)?;
    let order = files::read_order(&order).map_err(unreadable(1))?;
    let seed: [u8; 32] = seed.try_into().map_err(|_| Stop::Unreadable(2, "short".to_owned()))?;
    let mut out = Vec::new();
    issue::issue(order, &seed, &mut out)?;
    Ok(out)
}

fn presented(ask: &str, token: &str) -> Result<Vec<u8>, Stop> {
    let (ask, token) = (file(1, ask)?, file(2, token)?);
    let ask = files::read_ask(&ask).map_err(unreadable(1))?;
    let mut out = Vec::new();
    present::present(&token, &ask, now(), &mut out)?;
    Ok(out)
}

fn verified(policy: &str, token: &str) -> Result<Vec<u8>, Stop> {
    let (policy, token) = (file(1, policy)?, file(2, token)?);
    let policy = files::read_policy(&policy).map_err(unreadable(1))?;
    let mut out = Vec::new();
    verify::verify(&token, &policy, now(), &mut out)?;
    Ok(out)
}

fn fed(policy: &str, most: &str) -> Result<Vec<u8>, Stop> {
    let most = number(most, FEED_MAX)?;
    let policy = file(1, policy)?;
    let policy = files::read_policy(&policy).map_err(unreadable(1))?;
    feed(&policy, most as usize, now())?;
    Ok(Vec::new())
}

fn answer(words: &[&str]) -> Result<Vec<u8>, Stop> {
    match words {
        ["issue", order, seed] => issued(order, seed),
        ["present", ask, token] => presented(ask, token),
        ["verify", policy, token] => verified(policy, token),
        ["show", token] => Ok(show(&file(1, token)?)?),
        ["split", token] => Ok(split(&file(1, token)?)?),
        ["convert", form, token] => {
            let form = Form::named(form).ok_or(Stop::Usage)?;
            Ok(convert(form, &file(2, token)?)?)
        }
        ["gen", count] => Ok(generate(number(count, 3_000)? as usize, now())?),
        ["feed", policy, most] => fed(policy, most),
        _ => Err(Stop::Usage),
    }
}

fn run() -> Result<(), Stop> {
    let words: Vec<_> = std::env::args_os().skip(1).collect();
    let words = words.iter().map(|word| word.to_str()).collect::<Option<Vec<_>>>().ok_or(Stop::Usage)?;
    let mut out = answer(&words)?;
    if words[0] != "feed" && words[0] != "gen" && words[0] != "show" && words[0] != "split" {
        out.push(b'\n');
    }
    let mut stdout = std::io::stdout().lock();
    stdout.write_all(&out).and_then(|()| stdout.flush()).map_err(|_| Stop::Unwritten)
}

fn main() {
    if let Err(stop) = run() {
        let _ = writeln!(std::io::stderr(), "{}", stop.line());
        std::process::exit(stop.status());
    }
}

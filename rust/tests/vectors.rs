//! The vectors of `vectors/` through the calls of this crate.

use sdjwt::{Error, Form};
use serde_json::Value;
use std::collections::BTreeMap;
use std::fs;
use std::path::Path;

const SOME_MOMENT: u64 = 1_800_000_000;

type Files = BTreeMap<String, Vec<u8>>;

/// The result of a run. Nothing, if no call of the crate says it.
fn answer_of(words: &[&str], files: &Files, now: u64) -> Option<Result<String, Error>> {
    let read = |name: &str| files.get(name).map(Vec::as_slice);
    Some(match *words {
        ["issue", order, seed] => {
            let seed = read(seed)?.get(..sdjwt::SEED_LENGTH)?.try_into().ok()?;
            sdjwt::issue(read(order)?, seed)
        }
        ["present", order, token] => sdjwt::present(read(order)?, read(token)?, now),
        ["verify", policy, token] => {
            let (policy, token) = (read(policy)?, read(token)?);
            sdjwt::Policy::new(policy).and_then(|policy| policy.verify(token, now)).map(sdjwt::Claims::into_string)
        }
        ["show", token] => sdjwt::show(read(token)?),
        ["split", token] => sdjwt::split(read(token)?),
        ["convert", form, token] => {
            let form = match form {
                "compact" => Form::Compact,
                "flat" => Form::Flat,
                "general" => Form::General,
                _ => return None,
            };
            sdjwt::convert(form, read(token)?)
        }
        ["audit", order, token] => sdjwt::audit(read(order)?, read(token)?).map(|()| "yes".to_owned()),
        ["wallet", query, first, ref others @ ..] => {
            let tokens: Option<Vec<&[u8]>> = std::iter::once(&first).chain(others).map(|name| read(name)).collect();
            sdjwt::wallet(read(query)?, &tokens?)
                .map(|picked| format!("credential {}\n{}", picked.index, picked.token))
        }
        _ => return None,
    })
}

/// The status, the output and the line of the last run. Nothing, if a run is no call.
fn left_by(vector: &Value, files: &mut Files) -> Option<(u64, String, String)> {
    let mut left = (0, String::new(), String::new());
    for run in vector["runs"].as_array()? {
        let words: Vec<&str> = run["words"].as_array()?.iter().filter_map(Value::as_str).collect();
        let now = run.get("moment").map_or(Some(SOME_MOMENT), Value::as_u64)?;
        left = match answer_of(&words, files, now)? {
            Ok(output) => (0, format!("{output}\n"), String::new()),
            Err(Error::Refused(refused)) => {
                assert!(!refused.explanation().is_empty() && !refused.remedy().is_empty(), "{refused}");
                (1, String::new(), refused.line().to_owned())
            }
            Err(Error::Unreadable(unreadable)) => {
                assert!(!unreadable.explanation().is_empty(), "{unreadable}");
                (6, String::new(), unreadable.line().to_owned())
            }
            Err(error) => panic!("{}: {error}", vector["name"]),
        };
        if let Some(name) = run.get("kept_as").and_then(Value::as_str) {
            files.insert(name.to_owned(), left.1.clone().into_bytes());
        }
    }
    Some(left)
}

fn text(value: &Value) -> String {
    value.as_str().unwrap_or_default().to_owned()
}

#[test]
fn all_vectors() {
    let folder = Path::new(env!("CARGO_MANIFEST_DIR")).join("../vectors");
    let (mut ran, mut left_out) = (0, 0);
    for entry in fs::read_dir(folder).unwrap() {
        let path = entry.unwrap().path();
        if path.extension().map_or(true, |extension| extension != "json") {
            continue;
        }
        let vectors: Vec<Value> = serde_json::from_slice(&fs::read(&path).unwrap()).unwrap();
        for vector in &vectors {
            let given = vector["files"].as_object().unwrap();
            let mut files: Files = given.iter().map(|(name, file)| (name.clone(), text(file).into_bytes())).collect();
            let left = if let Some(left) = left_by(vector, &mut files) {
                left
            } else {
                left_out += 1;
                continue;
            };
            let output = match vector.get("output_of_file").and_then(Value::as_str) {
                Some(name) => format!("{}\n", String::from_utf8_lossy(&files[name])),
                None => text(&vector["output"]),
            };
            let due = (vector["status"].as_u64().unwrap(), output, text(&vector["line"]));
            assert_eq!(left, due, "{}", vector["name"]);
            ran += 1;
        }
    }
    println!("{ran} vectors, {left_out} that are no call");
    assert!(ran > 1500 && left_out < 250, "{ran} vectors ran, and {left_out} did not");
}

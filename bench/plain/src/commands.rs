//! What split, show, convert, gen and feed print.
use crate::code::{decode, Alg, Hash};
use crate::end::{Fault, Stop};
use crate::files::{Ask, Key, KeySet, Order, Policy};
use crate::form::{read_token, FILE_MAX};
use crate::issue::issue;
use crate::json::{read, write, write_members, write_text, Member, Node, Slot};
use crate::open::{read_header, Bytes, Opened};
use crate::present::present;
use crate::verify::verify;
use std::io::{BufRead, BufReader, BufWriter, Read, Write};

#[derive(Clone, Copy, PartialEq)]
pub enum Form {
    Compact,
    Flat,
    General,
}

impl Form {
    pub fn named(name: &str) -> Option<Form> {
        match name {
            "compact" => Some(Form::Compact),
            "flat" => Some(Form::Flat),
            "general" => Some(Form::General),
            _ => None,
        }
    }
}

fn line(name: &str, text: &str, out: &mut Vec<u8>) {
    out.extend_from_slice(name.as_bytes());
    out.push(b' ');
    out.extend_from_slice(text.as_bytes());
    out.push(b'\n');
}

fn write_index(i: usize, out: &mut Vec<u8>) {
    out.extend_from_slice(b"disclosure ");
    crate::json::write_number(i as u64, out);
    out.push(b' ');
}

pub fn split(file: &[u8]) -> Result<Vec<u8>, Fault> {
    let token = read_token(file)?;
    let mut out = Vec::with_capacity(token.compact_len() + 18 * token.disclosures.len() + 64);
    line("protected", &token.signed.header, &mut out);
    line("payload", &token.signed.payload, &mut out);
    line("signature", &token.signed.signature, &mut out);
    for (i, text) in token.disclosures.iter().enumerate() {
        write_index(i, &mut out);
        out.extend_from_slice(text.as_bytes());
        out.push(b'\n');
    }
    write_binding(&token, &mut out);
    Ok(out)
}

fn write_binding(token: &crate::form::Token, out: &mut Vec<u8>) {
    if let Some(jwt) = &token.binding {
        out.extend_from_slice(b"binding ");
        jwt.write(out);
        out.push(b'\n');
    }
}

pub fn show(file: &[u8]) -> Result<Vec<u8>, Fault> {
    let token = read_token(file)?;
    read_header(&token.signed.header, &token.outer).ok_or(Fault::new(5))?;
    let bytes = Bytes::new(&token);
    let opened = Opened::new(&token, &bytes)?;
    let mut out = Vec::with_capacity(token.compact_len() + 64 * token.disclosures.len());
    let header = decode(&token.signed.header).unwrap_or_default();
    out.extend_from_slice(b"header ");
    read(&header).iter().for_each(|header| write(header, &mut out));
    out.extend_from_slice(b"\npayload {");
    write_members(&opened.payload, &mut out);
    out.extend_from_slice(b"}\n");
    for (i, (text, disclosure)) in token.disclosures.iter().zip(&opened.disclosures).enumerate() {
        write_index(i, &mut out);
        opened.hash.digest_onto(text.as_bytes(), &mut out);
        match &disclosure.name {
            Some(name) => {
                out.extend_from_slice(b" member ");
                write_text(name, &mut out);
                out.push(b' ');
            }
            None => out.extend_from_slice(b" element "),
        }
        write(&disclosure.value, &mut out);
        out.push(b'\n');
    }
    write_binding(&token, &mut out);
    Ok(out)
}

pub fn convert(form: Form, file: &[u8]) -> Result<Vec<u8>, Fault> {
    let token = read_token(file)?;
    let mut out = Vec::new();
    match form {
        Form::Compact => token.write_compact(&mut out),
        Form::Flat => token.write_flat(&mut out),
        Form::General => token.write_general(&mut out),
    }
    if out.len() + 1 > FILE_MAX {
        return Err(Fault::new(3));
    }
    Ok(out)
}

const GENERATED_KEY: [u8; 32] = [1; 32];

fn generated_keys() -> KeySet {
    KeySet(vec![Key { kid: None, bytes: GENERATED_KEY.to_vec() }])
}

fn generated_order(count: usize) -> Order<'static> {
    let mut members = Vec::with_capacity(count);
    let mut hide = Vec::new();
    for i in 0..count {
        let number = |number: usize| Node::Unsigned(number as u64);
        let list = Node::List(vec![Slot::new(number(i)), Slot::new(number(i + 1))]);
        let value = Node::Object(vec![Member::new("a", number(i)), Member::new("b", list)]);
        members.push(Member::new(format!("m{i}"), value));
        for (every, inside) in [(2, ""), (3, "/a"), (5, "/b/1")] {
            if i % every == 0 {
                hide.push(format!("/m{i}{inside}"));
            }
        }
    }
    members.sort_by(|a, b| a.name.cmp(&b.name));
    Order {
        payload: Node::Object(members),
        hide,
        decoys: vec![(String::new(), 1)],
        key: GENERATED_KEY.to_vec(),
        kid: None,
        typ: None,
        alg: Alg::Hs256,
        hash: Hash::Sha256,
    }
}

pub fn generate(count: usize, now: u64) -> Result<Vec<u8>, Fault> {
    let mut token = Vec::new();
    let hidden = issue(generated_order(count), &[0; 32], &mut token)?;
    let want = (0..count).step_by(4).map(|i| format!("/m{i}/a")).collect();
    let ask = Ask { keys: generated_keys(), want, never: Vec::new(), binding: None };
    let mut shown = Vec::new();
    let presented = present(&token, &ask, now, &mut shown)?;
    let policy = Policy {
        keys: generated_keys(),
        algs: vec!["HS256".to_owned()],
        typ: None,
        iss: None,
        require: Vec::new(),
        skew: 0,
        binding: None,
    };
    let mut claims = Vec::new();
    let digests = verify(&shown, &policy, now, &mut claims)?;
    let bytes = claims.len();
    Ok(format!("hidden {hidden}\npresented {presented}\ndigests {digests}\nbytes {bytes}\n").into_bytes())
}

/// Judges the tokens of standard input, one a line, and writes a verdict for each.
pub fn feed(policy: &Policy, most: usize, now: u64) -> Result<(), Stop> {
    let mut input = BufReader::with_capacity(1 << 16, std::io::stdin().lock().take(most as u64 + 1));
    let mut out = BufWriter::with_capacity(1 << 16, std::io::stdout().lock());
    let (mut text, mut verdict) = (Vec::new(), Vec::new());
    let (mut lines, mut total) = (0u64, 0);
    loop {
        text.clear();
        let length = input.read_until(b'\n', &mut text).map_err(|_| Stop::UnreadSource)?;
        total += length;
        if length == 0 || total > most {
            break;
        }
        verdict.clear();
        verdict.extend_from_slice(b"accepted ");
        if let Err(fault) = verify(text.strip_suffix(b"\n").unwrap_or(&text), policy, now, &mut verdict) {
            verdict.clear();
            verdict.extend_from_slice(fault.line().as_bytes());
        }
        verdict.push(b'\n');
        out.write_all(&verdict).map_err(|_| Stop::Unwritten)?;
        lines += 1;
    }
    if total > most {
        out.flush().map_err(|_| Stop::Unwritten)?;
        return Err(Stop::Refused(Fault::new(87)));
    }
    writeln!(out, "lines {lines}").and_then(|()| out.flush()).map_err(|_| Stop::Unwritten)
}

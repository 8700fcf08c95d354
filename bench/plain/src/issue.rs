//! Issuing: the refusals 51 to 61, and the token of an order and a seed.
use crate::code::{encode, encode_onto, Hash};
use crate::end::Fault;
use crate::files::Order;
use crate::form::COUNT_MAX;
use crate::json::{position, steps, write, write_text, Member, Node, Slot, NO_MARK};
use indexmap::IndexSet;
use crate::open::DEPTH_MAX;
use rand_chacha::rand_core::{RngCore, SeedableRng};
use rand_chacha::ChaCha20Rng;
use std::collections::HashMap;

const ISSUE_MAX: usize = 8_380_416;
/// Marks of a slot: it is hidden, or has decoys, or both.
const HIDDEN: u32 = 1;
const DECOYS: u32 = 2;
/// How many bytes of the stream a salt is made of, and how many letters it has.
const PIECE: usize = 16;
const SALT: usize = 22;

/// Condition 52: the steps to the first reserved name, the last first.
fn reserved(node: &Node) -> Option<Vec<String>> {
    let inside = |step: &dyn Fn() -> String, node: &Node| {
        let mut path = reserved(node)?;
        path.push(step());
        Some(path)
    };
    match node {
        Node::Object(members) => {
            if members.iter().any(|member| member.name == "_sd") {
                return Some(vec!["_sd".to_owned()]);
            }
            members.iter().find_map(|member| match member.name.as_ref() {
                "..." | "_sd_alg" => Some(vec![member.name.to_string()]),
                name => inside(&|| name.to_owned(), &member.slot.value),
            })
        }
        Node::List(list) => list.iter().enumerate().find_map(|(i, slot)| inside(&|| i.to_string(), &slot.value)),
        _ => None,
    }
}

fn pointer_text(path: Vec<String>) -> String {
    let steps = path.iter().rev().map(|step| format!("/{}", step.replace('~', "~0").replace('/', "~1")));
    let mut out = Vec::new();
    write_text(&steps.collect::<String>(), &mut out);
    String::from_utf8(out).expect("JSON is UTF-8")
}

fn down<'n, 'a>(root: &'n mut Slot<'a>, pointer: &str) -> Option<&'n mut Slot<'a>> {
    let mut slot = root;
    for step in steps(pointer) {
        slot = match &mut slot.value {
            Node::Object(members) => {
                let at = members.binary_search_by(|member| member.name.as_ref().cmp(&step)).ok()?;
                &mut members[at].slot
            }
            Node::List(list) => list.get_mut(position(&step)?)?,
            _ => return None,
        };
    }
    Some(slot)
}

fn has(slot: &Slot, mark: u32) -> bool {
    slot.mark != NO_MARK && slot.mark & mark != 0
}

/// Sets a mark; the answer is whether it is new.
fn set(slot: &mut Slot, mark: u32) -> bool {
    let before = if slot.mark == NO_MARK { 0 } else { slot.mark };
    slot.mark = before | mark;
    before & mark == 0
}

fn address(slot: &Slot) -> usize {
    slot as *const Slot as usize
}

/// Conditions 51 to 56, and the marks of what is hidden; the answer is how much that is.
fn mark_hidden(root: &mut Slot, hide: &[String]) -> Result<usize, Fault> {
    if !matches!(root.value, Node::Object(_)) {
        return Err(Fault::new(51));
    }
    if let Some(path) = reserved(&root.value) {
        return Err(Fault::at(52, pointer_text(path)));
    }
    if root.value.depth() > DEPTH_MAX {
        return Err(Fault::new(53));
    }
    if let Some(k) = hide.iter().position(String::is_empty) {
        return Err(Fault::at(54, k));
    }
    let mut count = 0;
    for (k, pointer) in hide.iter().enumerate() {
        let slot = down(root, pointer).ok_or_else(|| Fault::at(55, k))?;
        count += usize::from(set(slot, HIDDEN));
    }
    let is_protected = |pointer: &String| {
        steps(pointer).next().is_some_and(|step| matches!(step.as_ref(), "iss" | "aud" | "exp" | "nbf" | "cnf"))
    };
    match hide.iter().position(is_protected) {
        Some(k) => Err(Fault::at(56, k)),
        None => Ok(count),
    }
}

/// Conditions 57 to 59: where the decoys are, by their numbers.
fn place_decoys(root: &mut Slot, decoys: &[(String, usize)], hidden: usize) -> Result<HashMap<usize, Vec<u32>>, Fault> {
    let mut places: HashMap<usize, Vec<u32>> = HashMap::new();
    let total = decoys.iter().fold(0usize, |sum, (_, count)| sum.saturating_add(*count));
    let is_small = total <= COUNT_MAX && hidden <= COUNT_MAX;
    let mut next = hidden;
    for (k, (pointer, count)) in decoys.iter().enumerate() {
        let slot = down(root, pointer).filter(|slot| matches!(slot.value, Node::Object(_) | Node::List(_)));
        let slot = slot.ok_or_else(|| Fault::at(57, k))?;
        if is_small && *count > 0 {
            set(slot, DECOYS);
            let numbers = (next..next + count).map(|number| number as u32);
            places.entry(address(slot)).or_default().extend(numbers);
            next += count;
        }
    }
    match (hidden > COUNT_MAX, total > COUNT_MAX) {
        (true, _) => Err(Fault::new(58)),
        (_, true) => Err(Fault::new(59)),
        _ => Ok(places),
    }
}

struct Issuer {
    hash: Hash,
    /// The pieces of the stream: of the salts, and then of the decoys.
    pieces: Vec<u8>,
    /// The digests of the disclosures, and then of the decoys.
    digests: Vec<u8>,
    decoys: HashMap<usize, Vec<u32>>,
    /// The disclosures, each with its tilde, and how many there are.
    texts: Vec<u8>,
    count: usize,
}

fn insert(out: &mut Vec<u8>, at: usize, piece: &[u8]) {
    let end = out.len();
    out.resize(end + piece.len(), 0);
    out.copy_within(at..end, at + piece.len());
    out[at..at + piece.len()].copy_from_slice(piece);
}

/// Ends a list of which each entry has a comma behind it.
fn close(end: u8, out: &mut Vec<u8>) {
    if out.last() == Some(&b',') {
        out.pop();
    }
    out.push(end);
}

impl Issuer {
    fn new(hash: Hash, seed: &[u8; 32], hidden: usize, decoys: HashMap<usize, Vec<u32>>) -> Issuer {
        let all = hidden + decoys.values().map(Vec::len).sum::<usize>();
        let mut pieces = vec![0; all * PIECE];
        ChaCha20Rng::from_seed(*seed).fill_bytes(&mut pieces);
        let mut digests = Vec::with_capacity(all * hash.letters() + 4);
        digests.resize(hidden * hash.letters(), 0);
        for piece in pieces[hidden * PIECE..].chunks(PIECE) {
            hash.digest_onto(encode(piece).as_bytes(), &mut digests);
        }
        Issuer { hash, pieces, digests, decoys, texts: Vec::new(), count: 0 }
    }

    fn digest(&self, number: u32) -> &[u8] {
        let letters = self.hash.letters();
        &self.digests[number as usize * letters..][..letters]
    }

    fn decoys_of(&self, slot: &Slot) -> Vec<u32> {
        if has(slot, DECOYS) {
            return self.decoys.get(&address(slot)).cloned().unwrap_or_default();
        }
        Vec::new()
    }

    /// Writes a value without what is hidden in it, whose disclosures are made.
    fn value(&mut self, slot: &Slot, out: &mut Vec<u8>) {
        match &slot.value {
            Node::Object(members) => self.object(slot, members, None, out),
            Node::List(list) => self.list(slot, list, out),
            leaf => write(leaf, out),
        }
    }

    fn object(&mut self, slot: &Slot, members: &[Member], mut alg: Option<&str>, out: &mut Vec<u8>) {
        let mut own = self.decoys_of(slot);
        let mut sd_at = None;
        out.push(b'{');
        for member in members {
            if sd_at.is_none() && member.name.as_ref() > "_sd" {
                sd_at = Some(out.len());
            }
            if alg.is_some() && member.name.as_ref() > "_sd_alg" {
                write_alg(alg.take(), out);
            }
            if has(&member.slot, HIDDEN) {
                own.push(self.disclosure(Some(&member.name), &member.slot));
                continue;
            }
            write_text(&member.name, out);
            out.push(b':');
            self.value(&member.slot, out);
            out.push(b',');
        }
        let sd_at = sd_at.unwrap_or(out.len());
        write_alg(alg, out);
        if !own.is_empty() {
            insert(out, sd_at, &self.sd(own));
        }
        close(b'}', out);
    }

    /// The member `_sd` with these digests, and a comma.
    fn sd(&self, mut own: Vec<u32>) -> Vec<u8> {
        own.sort_unstable_by(|a, b| self.digest(*a).cmp(self.digest(*b)));
        let mut out = Vec::with_capacity(own.len() * (self.hash.letters() + 3) + 10);
        out.extend_from_slice(b"\"_sd\":[");
        for number in own {
            out.push(b'"');
            out.extend_from_slice(self.digest(number));
            out.extend_from_slice(b"\",");
        }
        close(b']', &mut out);
        out.push(b',');
        out
    }

    fn list(&mut self, slot: &Slot, list: &[Slot], out: &mut Vec<u8>) {
        out.push(b'[');
        for slot in list {
            if has(slot, HIDDEN) {
                let number = self.disclosure(None, slot);
                self.write_element(number, out);
            } else {
                self.value(slot, out);
            }
            out.push(b',');
        }
        for number in self.decoys_of(slot) {
            self.write_element(number, out);
            out.push(b',');
        }
        close(b']', out);
    }

    fn write_element(&self, number: u32, out: &mut Vec<u8>) {
        out.extend_from_slice(b"{\"...\":\"");
        out.extend_from_slice(self.digest(number));
        out.extend_from_slice(b"\"}");
    }

    /// Makes the disclosure of a hidden value, after those inside it, and answers its number.
    fn disclosure(&mut self, name: Option<&str>, slot: &Slot) -> u32 {
        let mut text = Vec::with_capacity(96);
        text.extend_from_slice(b"[\"");
        text.resize(2 + SALT, 0);
        text.extend_from_slice(b"\",");
        if let Some(name) = name {
            write_text(name, &mut text);
            text.push(b',');
        }
        self.value(slot, &mut text);
        text.push(b']');
        let number = self.count;
        self.count += 1;
        let salt = encode(&self.pieces[number * PIECE..][..PIECE]);
        text[2..2 + SALT].copy_from_slice(salt.as_bytes());
        let start = self.texts.len();
        encode_onto(&text, &mut self.texts);
        let digest = self.hash.digest(&self.texts[start..]);
        self.texts.push(b'~');
        self.digests[number * self.hash.letters()..][..self.hash.letters()].copy_from_slice(digest.as_bytes());
        number as u32
    }

    /// Condition 60.
    fn check_digests(&self) -> Result<(), Fault> {
        let letters = self.hash.letters();
        let mut known = IndexSet::with_capacity(self.digests.len() / letters);
        for (j, digest) in self.digests.chunks(letters).enumerate() {
            let (i, is_new) = known.insert_full(digest);
            if !is_new {
                return Err(Fault::at(60, format!("{i} {j}")));
            }
        }
        Ok(())
    }
}

fn write_alg(name: Option<&str>, out: &mut Vec<u8>) {
    if let Some(name) = name {
        out.extend_from_slice(b"\"_sd_alg\":\"");
        out.extend_from_slice(name.as_bytes());
        out.extend_from_slice(b"\",");
    }
}

fn header(order: &Order) -> String {
    let mut out = b"{\"alg\":".to_vec();
    write_text(order.alg.name(), &mut out);
    for (name, text) in [("kid", &order.kid), ("typ", &order.typ)] {
        if let Some(text) = text {
            out.extend_from_slice(format!(",\"{name}\":").as_bytes());
            write_text(text, &mut out);
        }
    }
    out.push(b'}');
    encode(&out)
}

/// The compact token of an order and a seed, behind what is written; the answer is how many places it hides.
pub fn issue(order: Order, seed: &[u8; 32], out: &mut Vec<u8>) -> Result<usize, Fault> {
    let header = header(&order);
    let Order { payload, hide, decoys, key, alg, hash, .. } = order;
    let mut root = Slot::new(payload);
    let hidden = mark_hidden(&mut root, &hide)?;
    let decoys = place_decoys(&mut root, &decoys, hidden)?;
    let mut issuer = Issuer::new(hash, seed, hidden, decoys);
    let mut text = Vec::new();
    if let Node::Object(members) = &root.value {
        issuer.object(&root, members, Some(hash.name()), &mut text);
    }
    issuer.check_digests()?;
    let payload = encode(&text);
    let signature = alg.sign(&key, &header, &payload);
    let total = header.len() + payload.len() + signature.len() + 3 + issuer.texts.len();
    if total > ISSUE_MAX {
        return Err(Fault::new(61));
    }
    out.reserve(total + 1);
    for (part, end) in [(&header, b'.'), (&payload, b'.'), (&signature, b'~')] {
        out.extend_from_slice(part.as_bytes());
        out.push(end);
    }
    out.extend_from_slice(&issuer.texts);
    Ok(hidden)
}

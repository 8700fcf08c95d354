//! Presenting: the disclosures that lead to the wanted places, and a key binding token.
use crate::code::{encode, Alg};
use crate::end::Fault;
use crate::files::{Ask, Holder};
use crate::form::{read_token, write_parts, Jwt, Token, COMPACT_MAX};
use crate::json::{find, position, steps, write_number, write_text, Node, Slot, NO_MARK};
use crate::open::{check_signed, digests, process, Bytes, Opened};
use std::collections::HashSet;

/// Goes down a pointer, and hands on each mark on the way with the pointer of its place.
pub fn walk<'n, 'a, 'p>(
    root: &'n Node<'a>, pointer: &'p str, mut on_mark: impl FnMut(u32, &'p str),
) -> Option<&'n Node<'a>> {
    let mut node = root;
    let mut end = 0;
    for step in steps(pointer) {
        let slot: &Slot = match node {
            Node::Object(members) => find(members, &step)?,
            Node::List(list) => list.get(position(&step)?)?,
            _ => return None,
        };
        end += 1 + pointer[end + 1..].find('/').unwrap_or(pointer.len() - end - 1);
        if slot.mark != NO_MARK {
            on_mark(slot.mark, &pointer[..end]);
        }
        node = &slot.value;
    }
    Some(node)
}

/// For each disclosure the pointer of its place, if a wanted place is there or inside.
pub fn choose<'w>(root: &Node, want: &'w [String], count: usize) -> Result<Vec<Option<&'w str>>, usize> {
    let mut chosen = vec![None; count];
    for (j, pointer) in want.iter().enumerate() {
        walk(root, pointer, |mark, place| chosen[mark as usize] = Some(place)).ok_or(j)?;
    }
    Ok(chosen)
}

/// Whether one of these pointers leads to a place.
fn is_refused(never: &HashSet<&str>, place: &str) -> bool {
    let is_before = |(at, _): (usize, &str)| never.contains(&place[..at]);
    !never.is_empty() && (never.contains(place) || place.match_indices('/').any(is_before))
}

/// The member of an object that is shown with the chosen disclosures.
fn shown<'n, 'a>(node: &'n Node<'a>, name: &str, chosen: &[Option<&str>]) -> Option<&'n Node<'a>> {
    let slot = find(node.members()?, name)?;
    (slot.mark == NO_MARK || chosen[slot.mark as usize].is_some()).then_some(&slot.value)
}

fn write_binding(holder: &Holder, now: u64, sd_hash: &str, out: &mut Vec<u8>) {
    let header = encode(br#"{"alg":"HS256","typ":"kb+jwt"}"#);
    let mut body = b"{\"aud\":".to_vec();
    write_text(&holder.aud, &mut body);
    body.extend_from_slice(b",\"iat\":");
    write_number(now, &mut body);
    body.extend_from_slice(b",\"nonce\":");
    write_text(&holder.nonce, &mut body);
    body.extend_from_slice(b",\"sd_hash\":");
    write_text(sd_hash, &mut body);
    body.push(b'}');
    let payload = encode(&body);
    let signature = Alg::Hs256.sign(&holder.key, &header, &payload);
    Jwt { header: header.into(), payload: payload.into(), signature: signature.into() }.write(out);
}

fn chosen_parts(token: &Token, chosen: &[Option<&str>], out: &mut Vec<u8>) {
    let picked = token.disclosures.iter().zip(chosen).filter(|(_, place)| place.is_some());
    out.reserve(token.compact_len() + 1);
    write_parts(&token.signed, picked.map(|(text, _)| text.as_ref()), out);
}

/// The presentation of a token, behind what is written; the answer is how many disclosures it has.
pub fn present(file: &[u8], ask: &Ask, now: u64, out: &mut Vec<u8>) -> Result<usize, Fault> {
    let token = read_token(file)?;
    if token.binding.is_some() {
        return Err(Fault::new(71));
    }
    check_signed(&token, &ask.keys, &|_| true, None)?;
    let bytes = Bytes::new(&token);
    let opened = Opened::new(&token, &bytes)?;
    let hash = opened.hash;
    let digests = digests(&token, hash);
    let (root, _) = process(opened, &digests)?;
    let chosen = choose(&root, &ask.want, token.disclosures.len()).map_err(|j| Fault::at(72, j))?;
    let never: HashSet<&str> = ask.never.iter().map(String::as_str).collect();
    let is_hindered = |place: &Option<&str>| place.is_some_and(|place| is_refused(&never, place));
    if let Some(i) = chosen.iter().position(is_hindered) {
        return Err(Fault::at(73, i));
    }
    let start = out.len();
    if let Some(holder) = &ask.binding {
        let kid = shown(&root, "cnf", &chosen).and_then(|cnf| shown(cnf, "kid", &chosen)).and_then(Node::text);
        if kid != Some(holder.kid.as_str()) {
            return Err(Fault::new(74));
        }
        chosen_parts(&token, &chosen, out);
        let sd_hash = hash.digest(&out[start..]);
        write_binding(holder, now, &sd_hash, out);
    } else {
        chosen_parts(&token, &chosen, out);
    }
    if out.len() - start > COMPACT_MAX {
        return Err(Fault::new(75));
    }
    Ok(chosen.iter().flatten().count())
}

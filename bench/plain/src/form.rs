//! The three serializations of a token.
use crate::code::{is_word, word_len};
use crate::end::Fault;
use crate::json::{self, write, write_text, Member, Node, Unread};
use std::borrow::Cow;

pub const FILE_MAX: usize = 16_777_216;
pub const COMPACT_MAX: usize = 8_388_608;
pub const COUNT_MAX: usize = 32_768;

#[derive(Clone, Debug)]
pub struct Jwt<'a> {
    pub header: Cow<'a, str>,
    pub payload: Cow<'a, str>,
    pub signature: Cow<'a, str>,
}

#[derive(Debug)]
pub struct Token<'a> {
    pub signed: Jwt<'a>,
    pub disclosures: Vec<Cow<'a, str>>,
    pub binding: Option<Jwt<'a>>,
    /// The members of the unprotected header, sorted.
    pub outer: Vec<Member<'a>>,
    /// The compact token up to its last tilde, where it was read in this form.
    hashed: Option<&'a str>,
}

fn is_blank(byte: &u8) -> bool {
    matches!(byte, b' ' | b'\t' | b'\n' | b'\r')
}

pub fn trimmed(text: &[u8]) -> &[u8] {
    let Some(start) = text.iter().position(|b| !is_blank(b)) else { return &[] };
    let end = text.iter().rposition(|b| !is_blank(b)).expect("one byte is not blank");
    &text[start..=end]
}

/// The words of a compact token, and the place where it is none.
struct Words<'a> {
    text: &'a str,
    at: usize,
}

impl<'a> Words<'a> {
    /// The next word.
    fn word(&mut self) -> Result<&'a str, usize> {
        let start = self.at;
        self.at += word_len(&self.text.as_bytes()[start..]);
        if self.at == start {
            return Err(start);
        }
        Ok(&self.text[start..self.at])
    }

    /// The next word, before this byte.
    fn before(&mut self, end: u8) -> Result<&'a str, usize> {
        let word = self.word()?;
        if self.text.as_bytes().get(self.at) != Some(&end) {
            return Err(self.at);
        }
        self.at += 1;
        Ok(word)
    }

    /// The next word, at the end.
    fn last(&mut self) -> Result<&'a str, usize> {
        let word = self.word()?;
        if self.at < self.text.len() {
            return Err(self.at);
        }
        Ok(word)
    }

    fn jwt(header: &'a str, payload: &'a str, signature: &'a str) -> Jwt<'a> {
        Jwt { header: header.into(), payload: payload.into(), signature: signature.into() }
    }
}

fn compact(text: &str) -> Result<Token<'_>, usize> {
    let mut words = Words { text, at: 0 };
    let signed = Words::jwt(words.before(b'.')?, words.before(b'.')?, words.before(b'~')?);
    let mut disclosures = Vec::new();
    let mut binding = None;
    let mut end = words.at;
    while words.at < text.len() {
        let word = words.word()?;
        match text.as_bytes().get(words.at) {
            Some(b'~') => {
                words.at += 1;
                end = words.at;
                disclosures.push(Cow::Borrowed(word));
            }
            Some(b'.') => {
                words.at += 1;
                binding = Some(Words::jwt(word, words.before(b'.')?, words.last()?));
            }
            _ => return Err(words.at),
        }
    }
    Ok(Token { signed, disclosures, binding, outer: Vec::new(), hashed: Some(&text[..end]) })
}

/// A compact token, or the length of the longest prefix that begins some token.
fn read_compact(text: &[u8]) -> Result<Token<'_>, usize> {
    match std::str::from_utf8(text) {
        Ok(text) => compact(text),
        Err(error) => {
            let start = std::str::from_utf8(&text[..error.valid_up_to()]).expect("this much is UTF-8");
            Err(compact(start).map_or_else(|at| at, |_| start.len()))
        }
    }
}

fn taken<'a>(members: &mut Vec<Member<'a>>, name: &str) -> Option<Node<'a>> {
    let at = members.binary_search_by(|member| member.name.as_ref().cmp(name)).ok()?;
    Some(members.remove(at).slot.value)
}

fn taken_word<'a>(members: &mut Vec<Member<'a>>, name: &str) -> Result<Cow<'a, str>, String> {
    match taken(members, name) {
        None => Err(format!("missing {name}")),
        Some(Node::Text(text)) if is_word(&text) => Ok(text),
        Some(_) => Err(format!("wrong {name}")),
    }
}

fn taken_words<'a>(outer: &mut Vec<Member<'a>>) -> Result<Vec<Cow<'a, str>>, String> {
    let wrong = || "wrong disclosures".to_owned();
    match taken(outer, "disclosures") {
        None => Ok(Vec::new()),
        Some(Node::List(list)) => list
            .into_iter()
            .map(|slot| match slot.value {
                Node::Text(text) if is_word(&text) => Ok(text),
                _ => Err(wrong()),
            })
            .collect(),
        Some(_) => Err(wrong()),
    }
}

fn taken_binding<'a>(outer: &mut Vec<Member<'a>>) -> Result<Option<Jwt<'a>>, String> {
    let Some(value) = taken(outer, "kb_jwt") else { return Ok(None) };
    let text = value.text().unwrap_or("");
    let words: Vec<&str> = text.split('.').collect();
    if words.len() != 3 || !words.iter().all(|word| is_word(word)) {
        return Err("wrong kb_jwt".to_owned());
    }
    let own = |word: &str| Cow::Owned(word.to_owned());
    Ok(Some(Jwt { header: own(words[0]), payload: own(words[1]), signature: own(words[2]) }))
}

/// The entries of `signatures`, or none in the flattened form.
fn entries<'a>(members: &mut Vec<Member<'a>>) -> Result<Option<Vec<Vec<Member<'a>>>>, String> {
    let wrong = || "wrong signatures".to_owned();
    let Some(value) = taken(members, "signatures") else { return Ok(None) };
    let Node::List(list) = value else { return Err(wrong()) };
    let beside = ["header", "protected", "signature"].iter().any(|name| json::find(members, name).is_some());
    if list.is_empty() || beside {
        return Err(wrong());
    }
    let objects = list.into_iter().map(|slot| match slot.value {
        Node::Object(members) => Ok(members),
        _ => Err(wrong()),
    });
    Ok(Some(objects.collect::<Result<_, _>>()?))
}

fn has_stray(entry: &[Member]) -> bool {
    let header = json::find(entry, "header").and_then(|slot| slot.value.members());
    header.is_some_and(|header| ["disclosures", "kb_jwt"].iter().any(|name| json::find(header, name).is_some()))
}

/// A token in one of the JSON forms, or the place where it is none.
fn read_json(text: &[u8]) -> Result<Token<'_>, String> {
    let value = json::read(text).map_err(|unread| match unread {
        Unread::NotJson => "notJson",
        Unread::NotWhole => "notWhole",
    })?;
    let Node::Object(mut members) = value else { return Err("notObject".to_owned()) };
    let payload = taken_word(&mut members, "payload")?;
    let mut others = Vec::new();
    let mut entry = match entries(&mut members)? {
        None => members,
        Some(mut all) => {
            others = all.split_off(1);
            all.remove(0)
        }
    };
    let header = taken_word(&mut entry, "protected")?;
    let signature = taken_word(&mut entry, "signature")?;
    let mut outer = match taken(&mut entry, "header") {
        None => Vec::new(),
        Some(Node::Object(members)) => members,
        Some(_) => return Err("wrong header".to_owned()),
    };
    let disclosures = taken_words(&mut outer)?;
    let binding = taken_binding(&mut outer)?;
    if let Some(e) = others.iter().position(|entry| has_stray(entry)) {
        return Err(format!("stray {}", e + 1));
    }
    Ok(Token { signed: Jwt { header, payload, signature }, disclosures, binding, outer, hashed: None })
}

/// Conditions 1 to 3.
pub fn read_token(file: &[u8]) -> Result<Token<'_>, Fault> {
    let text = trimmed(file);
    let is_json = text.first() == Some(&b'{');
    if file.len() > FILE_MAX || (!is_json && text.len() > COMPACT_MAX) {
        return Err(Fault::new(1));
    }
    let token = if is_json {
        read_json(text).map_err(|place| Fault::at(2, place))?
    } else {
        read_compact(text).map_err(|place| Fault::at(2, place))?
    };
    if token.disclosures.len() > COUNT_MAX || (is_json && token.compact_len() > COMPACT_MAX) {
        return Err(Fault::new(3));
    }
    Ok(token)
}

impl Jwt<'_> {
    pub fn len(&self) -> usize {
        self.header.len() + self.payload.len() + self.signature.len() + 2
    }

    pub fn write(&self, out: &mut Vec<u8>) {
        out.extend_from_slice(self.header.as_bytes());
        out.push(b'.');
        out.extend_from_slice(self.payload.as_bytes());
        out.push(b'.');
        out.extend_from_slice(self.signature.as_bytes());
    }
}

/// Writes a compact token up to its last tilde.
pub fn write_parts<'d>(signed: &Jwt, disclosures: impl Iterator<Item = &'d str>, out: &mut Vec<u8>) {
    signed.write(out);
    out.push(b'~');
    for text in disclosures {
        out.extend_from_slice(text.as_bytes());
        out.push(b'~');
    }
}

impl<'a> Token<'a> {
    fn parts_len(&self) -> usize {
        self.signed.len() + 1 + self.disclosures.iter().map(|text| text.len() + 1).sum::<usize>()
    }

    pub fn compact_len(&self) -> usize {
        self.parts_len() + self.binding.as_ref().map_or(0, Jwt::len)
    }

    /// What a key binding token is made for.
    pub fn hash_input(&self) -> Cow<'a, [u8]> {
        if let Some(text) = self.hashed {
            return Cow::Borrowed(text.as_bytes());
        }
        let mut out = Vec::with_capacity(self.parts_len());
        write_parts(&self.signed, self.disclosures.iter().map(|text| text.as_ref()), &mut out);
        Cow::Owned(out)
    }

    pub fn write_compact(&self, out: &mut Vec<u8>) {
        out.reserve(self.compact_len() + 1);
        write_parts(&self.signed, self.disclosures.iter().map(|text| text.as_ref()), out);
        if let Some(jwt) = &self.binding {
            jwt.write(out);
        }
    }

    /// The member `header` of the JSON forms.
    fn write_header(&self, out: &mut Vec<u8>) {
        let mut members: Vec<(&str, Option<&Node>)> =
            self.outer.iter().map(|member| (member.name.as_ref(), Some(&member.slot.value))).collect();
        members.push(("disclosures", None));
        if self.binding.is_some() {
            members.push(("kb_jwt", None));
        }
        members.sort_by_key(|member| member.0);
        out.extend_from_slice(b"\"header\":{");
        for (i, (name, value)) in members.into_iter().enumerate() {
            if i > 0 {
                out.push(b',');
            }
            write_text(name, out);
            out.push(b':');
            match value {
                Some(value) => write(value, out),
                None if name == "kb_jwt" => {
                    out.push(b'"');
                    self.binding.iter().for_each(|jwt| jwt.write(out));
                    out.push(b'"');
                }
                None => self.write_disclosures(out),
            }
        }
        out.push(b'}');
    }

    fn write_disclosures(&self, out: &mut Vec<u8>) {
        out.push(b'[');
        for (i, text) in self.disclosures.iter().enumerate() {
            out.extend_from_slice(if i > 0 { b",\"" } else { b"\"" });
            out.extend_from_slice(text.as_bytes());
            out.push(b'"');
        }
        out.push(b']');
    }

    fn write_word(before: &str, word: &str, out: &mut Vec<u8>) {
        out.extend_from_slice(before.as_bytes());
        out.extend_from_slice(word.as_bytes());
        out.push(b'"');
    }

    pub fn write_flat(&self, out: &mut Vec<u8>) {
        out.reserve(self.compact_len() + 2 * self.disclosures.len() + 100);
        out.push(b'{');
        self.write_header(out);
        Self::write_word(",\"payload\":\"", &self.signed.payload, out);
        Self::write_word(",\"protected\":\"", &self.signed.header, out);
        Self::write_word(",\"signature\":\"", &self.signed.signature, out);
        out.push(b'}');
    }

    pub fn write_general(&self, out: &mut Vec<u8>) {
        out.reserve(self.compact_len() + 2 * self.disclosures.len() + 100);
        Self::write_word("{\"payload\":\"", &self.signed.payload, out);
        out.extend_from_slice(b",\"signatures\":[{");
        self.write_header(out);
        Self::write_word(",\"protected\":\"", &self.signed.header, out);
        Self::write_word(",\"signature\":\"", &self.signed.signature, out);
        out.extend_from_slice(b"}]}");
    }
}

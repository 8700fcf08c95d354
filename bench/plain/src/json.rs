//! JSON values that borrow their strings from the text, and how they are read and written.
use serde::de::{DeserializeSeed, Deserializer, Error, MapAccess, SeqAccess, Visitor};
use std::borrow::Cow;
use std::cell::Cell;
use std::fmt;

pub const NO_MARK: u32 = u32::MAX;

/// Members are sorted by name, each name once.
#[derive(Debug)]
pub enum Node<'a> {
    Null,
    Bool(bool),
    Unsigned(u64),
    Signed(i64),
    Fraction,
    Text(Cow<'a, str>),
    List(Vec<Slot<'a>>),
    Object(Vec<Member<'a>>),
}

/// A value and the disclosure that it came from; an issuer marks what it hides.
#[derive(Debug)]
pub struct Slot<'a> {
    pub mark: u32,
    pub value: Node<'a>,
}

#[derive(Debug)]
pub struct Member<'a> {
    pub name: Cow<'a, str>,
    pub slot: Slot<'a>,
}

#[derive(Clone, Copy, Debug, PartialEq)]
pub enum Unread {
    NotJson,
    NotWhole,
}

impl<'a> Slot<'a> {
    pub fn new(value: Node<'a>) -> Slot<'a> {
        Slot { mark: NO_MARK, value }
    }
}

impl<'a> Member<'a> {
    pub fn new(name: impl Into<Cow<'a, str>>, value: Node<'a>) -> Member<'a> {
        Member { name: name.into(), slot: Slot::new(value) }
    }
}

/// The member of a sorted list that has this name.
pub fn find<'m, 'a>(members: &'m [Member<'a>], name: &str) -> Option<&'m Slot<'a>> {
    let at = members.binary_search_by(|member| member.name.as_ref().cmp(name)).ok()?;
    Some(&members[at].slot)
}

impl<'a> Node<'a> {
    pub fn text(&self) -> Option<&str> {
        match self {
            Node::Text(text) => Some(text),
            _ => None,
        }
    }

    pub fn number(&self) -> Option<u64> {
        match self {
            Node::Unsigned(number) => Some(*number),
            _ => None,
        }
    }

    /// A whole number of either sign.
    pub fn whole(&self) -> Option<i128> {
        match self {
            Node::Unsigned(number) => Some((*number).into()),
            Node::Signed(number) => Some((*number).into()),
            _ => None,
        }
    }

    pub fn members(&self) -> Option<&[Member<'a>]> {
        match self {
            Node::Object(members) => Some(members),
            _ => None,
        }
    }

    pub fn get(&self, name: &str) -> Option<&Node<'a>> {
        Some(&find(self.members()?, name)?.value)
    }

    fn is_whole(&self) -> bool {
        match self {
            Node::Fraction => false,
            Node::List(list) => list.iter().all(|slot| slot.value.is_whole()),
            Node::Object(members) => members.iter().all(|member| member.slot.value.is_whole()),
            _ => true,
        }
    }

    pub fn depth(&self) -> usize {
        match self {
            Node::List(list) => 1 + list.iter().map(|slot| slot.value.depth()).max().unwrap_or(0),
            Node::Object(members) => 1 + members.iter().map(|member| member.slot.value.depth()).max().unwrap_or(0),
            _ => 0,
        }
    }
}

/// Reads a value, and notes whether it met a number that is not whole.
struct Reader<'f>(&'f Cell<bool>);

impl<'de> DeserializeSeed<'de> for Reader<'_> {
    type Value = Node<'de>;
    fn deserialize<D: Deserializer<'de>>(self, deserializer: D) -> Result<Node<'de>, D::Error> {
        deserializer.deserialize_any(self)
    }
}

impl<'de> Visitor<'de> for Reader<'_> {
    type Value = Node<'de>;

    fn expecting(&self, f: &mut fmt::Formatter) -> fmt::Result {
        f.write_str("a value")
    }
    fn visit_unit<E: Error>(self) -> Result<Node<'de>, E> {
        Ok(Node::Null)
    }
    fn visit_bool<E: Error>(self, value: bool) -> Result<Node<'de>, E> {
        Ok(Node::Bool(value))
    }
    fn visit_u64<E: Error>(self, value: u64) -> Result<Node<'de>, E> {
        Ok(Node::Unsigned(value))
    }
    fn visit_i64<E: Error>(self, value: i64) -> Result<Node<'de>, E> {
        Ok(u64::try_from(value).map_or(Node::Signed(value), Node::Unsigned))
    }
    fn visit_f64<E: Error>(self, _: f64) -> Result<Node<'de>, E> {
        self.0.set(true);
        Ok(Node::Fraction)
    }
    fn visit_borrowed_str<E: Error>(self, text: &'de str) -> Result<Node<'de>, E> {
        Ok(Node::Text(Cow::Borrowed(text)))
    }
    fn visit_str<E: Error>(self, text: &str) -> Result<Node<'de>, E> {
        Ok(Node::Text(Cow::Owned(text.to_owned())))
    }
    fn visit_seq<A: SeqAccess<'de>>(self, mut entries: A) -> Result<Node<'de>, A::Error> {
        let mut list = Vec::new();
        while let Some(value) = entries.next_element_seed(Reader(self.0))? {
            list.push(Slot::new(value));
        }
        Ok(Node::List(list))
    }
    fn visit_map<A: MapAccess<'de>>(self, mut entries: A) -> Result<Node<'de>, A::Error> {
        let mut members: Vec<Member> = Vec::new();
        let mut is_sorted = true;
        while let Some(name) = entries.next_key_seed(Name)? {
            is_sorted = is_sorted && members.last().map_or(true, |last| last.name < name);
            members.push(Member::new(name, entries.next_value_seed(Reader(self.0))?));
        }
        if !is_sorted {
            members.sort_by(|a, b| a.name.cmp(&b.name));
            // the last member of a name counts
            members.dedup_by(|later, kept| {
                let same = later.name == kept.name;
                if same {
                    std::mem::swap(&mut later.slot, &mut kept.slot);
                }
                same
            });
        }
        Ok(Node::Object(members))
    }
}

/// The name of a member.
struct Name;

impl<'de> DeserializeSeed<'de> for Name {
    type Value = Cow<'de, str>;
    fn deserialize<D: Deserializer<'de>>(self, deserializer: D) -> Result<Cow<'de, str>, D::Error> {
        deserializer.deserialize_str(self)
    }
}

impl<'de> Visitor<'de> for Name {
    type Value = Cow<'de, str>;
    fn expecting(&self, f: &mut fmt::Formatter) -> fmt::Result {
        f.write_str("a name")
    }
    fn visit_borrowed_str<E: Error>(self, text: &'de str) -> Result<Cow<'de, str>, E> {
        Ok(Cow::Borrowed(text))
    }
    fn visit_str<E: Error>(self, text: &str) -> Result<Cow<'de, str>, E> {
        Ok(Cow::Owned(text.to_owned()))
    }
}

/// The value of a JSON text.
pub fn read(text: &[u8]) -> Result<Node<'_>, Unread> {
    let text = std::str::from_utf8(text).map_err(|_| Unread::NotJson)?;
    let fraction = Cell::new(false);
    let mut deserializer = serde_json::Deserializer::from_str(text);
    let value = Reader(&fraction).deserialize(&mut deserializer).map_err(|_| Unread::NotJson)?;
    deserializer.end().map_err(|_| Unread::NotJson)?;
    if fraction.get() && !value.is_whole() {
        return Err(Unread::NotWhole);
    }
    Ok(value)
}

pub fn write_text(text: &str, out: &mut Vec<u8>) {
    serde_json::to_writer(out, text).expect("a string is written to memory");
}

pub fn write_number(number: u64, out: &mut Vec<u8>) {
    serde_json::to_writer(out, &number).expect("a number is written to memory");
}

pub fn write(node: &Node, out: &mut Vec<u8>) {
    match node {
        Node::Null | Node::Fraction => out.extend_from_slice(b"null"),
        Node::Bool(true) => out.extend_from_slice(b"true"),
        Node::Bool(false) => out.extend_from_slice(b"false"),
        Node::Unsigned(number) => write_number(*number, out),
        Node::Signed(number) => serde_json::to_writer(out, number).expect("a number is written to memory"),
        Node::Text(text) => write_text(text, out),
        Node::List(list) => {
            out.push(b'[');
            for (i, slot) in list.iter().enumerate() {
                if i > 0 {
                    out.push(b',');
                }
                write(&slot.value, out);
            }
            out.push(b']');
        }
        Node::Object(members) => {
            out.push(b'{');
            write_members(members, out);
            out.push(b'}');
        }
    }
}

/// The members with commas between them.
pub fn write_members(members: &[Member], out: &mut Vec<u8>) {
    for (i, member) in members.iter().enumerate() {
        if i > 0 {
            out.push(b',');
        }
        write_text(&member.name, out);
        out.push(b':');
        write(&member.slot.value, out);
    }
}

/// The steps of a JSON Pointer.
pub fn steps(pointer: &str) -> impl Iterator<Item = Cow<'_, str>> {
    pointer.split('/').skip(1).map(|step| {
        if step.contains('~') {
            Cow::Owned(step.replace("~1", "/").replace("~0", "~"))
        } else {
            Cow::Borrowed(step)
        }
    })
}

pub fn is_pointer(text: &str) -> bool {
    let mut after_tilde = text.split('~').skip(1);
    (text.is_empty() || text.starts_with('/')) && after_tilde.all(|rest| rest.starts_with('0') || rest.starts_with('1'))
}

/// The position that a step names in a list.
pub fn position(step: &str) -> Option<usize> {
    let bytes = step.as_bytes();
    if bytes.is_empty() || !bytes.iter().all(u8::is_ascii_digit) || (bytes.len() > 1 && bytes[0] == b'0') {
        return None;
    }
    step.parse().ok()
}

//! The files that a user writes: order, present order and policy.
use crate::code::{decode, is_word, Alg, Hash};
use crate::form::{COUNT_MAX, FILE_MAX};
use crate::json::{self, find, is_pointer, Member, Node, Unread};

const TEXT_MAX: usize = 256;
const SKEW_MAX: u64 = 3_600;
const AGE_MAX: u64 = 4_294_967_295;
const AUDIENCES_MAX: usize = 16;

pub struct Key {
    pub kid: Option<String>,
    pub bytes: Vec<u8>,
}

pub struct KeySet(pub Vec<Key>);

impl KeySet {
    /// The key for an algorithm, under a name where one is given.
    pub fn picked(&self, alg: Alg, kid: Option<&str>) -> Option<&[u8]> {
        let fits = |key: &&Key| key.bytes.len() >= alg.key_min() && (kid.is_none() || key.kid.as_deref() == kid);
        Some(&self.0.iter().find(fits)?.bytes)
    }
}

pub struct Order<'a> {
    pub payload: Node<'a>,
    pub hide: Vec<String>,
    pub decoys: Vec<(String, usize)>,
    pub key: Vec<u8>,
    pub kid: Option<String>,
    pub typ: Option<String>,
    pub alg: Alg,
    pub hash: Hash,
}

pub struct Holder {
    pub key: Vec<u8>,
    pub kid: String,
    pub aud: String,
    pub nonce: String,
}

pub struct Ask {
    pub keys: KeySet,
    pub want: Vec<String>,
    pub never: Vec<String>,
    pub binding: Option<Holder>,
}

pub struct Bound {
    pub aud: Vec<String>,
    pub nonce: String,
    pub keys: KeySet,
    pub max_age: u64,
}

pub struct Policy {
    pub keys: KeySet,
    pub algs: Vec<String>,
    pub typ: Option<String>,
    pub iss: Option<Vec<String>>,
    pub require: Vec<String>,
    pub skew: u64,
    pub binding: Option<Bound>,
}

/// The members of a file, all of which are in a table.
struct Members<'a>(Vec<Member<'a>>);

impl<'a> Members<'a> {
    fn read(file: &'a [u8], table: &[&str]) -> Result<Members<'a>, String> {
        if file.len() > FILE_MAX {
            return Err("tooLong".to_owned());
        }
        let value = json::read(file).map_err(|unread| match unread {
            Unread::NotJson => "notJson",
            Unread::NotWhole => "notWhole",
        })?;
        let Node::Object(members) = value else { return Err("notObject".to_owned()) };
        if members.iter().any(|member| !table.contains(&member.name.as_ref())) {
            return Err("unknown".to_owned());
        }
        Ok(Members(members))
    }

    fn optional<T>(&self, name: &str, reader: impl FnOnce(&Node<'a>) -> Option<T>) -> Result<Option<T>, String> {
        let Some(slot) = find(&self.0, name) else { return Ok(None) };
        reader(&slot.value).map(Some).ok_or_else(|| format!("wrong {name}"))
    }

    fn required<T>(&self, name: &str, reader: impl FnOnce(&Node<'a>) -> Option<T>) -> Result<T, String> {
        self.optional(name, reader)?.ok_or_else(|| format!("missing {name}"))
    }
}

fn text(value: &Node) -> Option<String> {
    value.text().map(str::to_owned)
}

fn short(value: &Node) -> Option<String> {
    text(value).filter(|text| text.len() <= TEXT_MAX)
}

fn key(value: &Node) -> Option<Vec<u8>> {
    decode(value.text().filter(|text| is_word(text))?).filter(|bytes| bytes.len() >= 32)
}

fn pointer(value: &Node) -> Option<String> {
    text(value).filter(|text| is_pointer(text))
}

fn list<T>(value: &Node, reader: impl Fn(&Node) -> Option<T>) -> Option<Vec<T>> {
    match value {
        Node::List(list) => list.iter().map(|slot| reader(&slot.value)).collect(),
        _ => None,
    }
}

fn up_to(value: &Node, most: u64) -> Option<u64> {
    value.number().filter(|number| *number <= most)
}

/// An object of just these members.
fn exactly<'n, 'a, const N: usize>(value: &'n Node<'a>, names: [&str; N]) -> Option<[&'n Node<'a>; N]> {
    let members = value.members().filter(|members| members.len() == N)?;
    let mut found = [value; N];
    for (place, name) in found.iter_mut().zip(names) {
        *place = &find(members, name)?.value;
    }
    Some(found)
}

fn key_set(value: &Node) -> Option<KeySet> {
    let Node::List(list) = value.get("keys")? else { return None };
    let mut keys = Vec::new();
    for slot in list {
        let members = slot.value.members()?;
        if find(members, "kty")?.value.text()? != "oct" {
            continue;
        }
        let kid = match find(members, "kid") {
            None => None,
            Some(kid) => Some(text(&kid.value)?),
        };
        keys.push(Key { kid, bytes: key(&find(members, "k")?.value)? });
    }
    Some(KeySet(keys))
}

fn decoy(value: &Node) -> Option<(String, usize)> {
    let [at, count] = exactly(value, ["at", "count"])?;
    Some((pointer(at)?, up_to(count, COUNT_MAX as u64)? as usize))
}

/// Takes the payload out of the members.
fn payload<'a>(members: &mut Members<'a>) -> Result<Node<'a>, String> {
    let at = members.0.iter().position(|member| member.name == "payload").ok_or("missing payload")?;
    Ok(members.0.remove(at).slot.value)
}

pub fn read_order(file: &[u8]) -> Result<Order<'_>, String> {
    let table = ["payload", "hide", "decoys", "key", "kid", "typ", "alg", "sd_alg"];
    let mut members = Members::read(file, &table)?;
    let payload = payload(&mut members)?;
    let hide = members.optional("hide", |value| list(value, pointer))?.unwrap_or_default();
    let decoys = members.optional("decoys", |value| list(value, decoy))?.unwrap_or_default();
    let key = members.required("key", key)?;
    let kid = members.optional("kid", text)?;
    let typ = members.optional("typ", text)?;
    let alg = members.optional("alg", |value| Alg::named(value.text()?))?.unwrap_or(Alg::Hs256);
    if key.len() < alg.key_min() {
        return Err("wrong alg".to_owned());
    }
    let hash = members.optional("sd_alg", |value| Hash::named(value.text()?))?.unwrap_or(Hash::Sha256);
    Ok(Order { payload, hide, decoys, key, kid, typ, alg, hash })
}

fn holder(value: &Node) -> Option<Holder> {
    let [own, kid, aud, nonce] = exactly(value, ["key", "kid", "aud", "nonce"])?;
    Some(Holder { key: key(own)?, kid: text(kid)?, aud: short(aud)?, nonce: short(nonce)? })
}

pub fn read_ask(file: &[u8]) -> Result<Ask, String> {
    let members = Members::read(file, &["keys", "want", "never", "binding"])?;
    Ok(Ask {
        keys: members.required("keys", key_set)?,
        want: members.optional("want", |value| list(value, pointer))?.unwrap_or_default(),
        never: members.optional("never", |value| list(value, pointer))?.unwrap_or_default(),
        binding: members.optional("binding", holder)?,
    })
}

/// The strings of `iss` or `aud`: one in version 1, a list of at least one in version 2.
fn texts(value: &Node, version: u64) -> Option<Vec<String>> {
    if version == 1 {
        return Some(vec![text(value)?]);
    }
    list(value, text).filter(|list| !list.is_empty())
}

fn bound(value: &Node, version: u64) -> Option<Bound> {
    let [aud, nonce, keys, max_age] = exactly(value, ["aud", "nonce", "keys", "max_age"])?;
    let fits = |list: &Vec<String>| list.len() <= AUDIENCES_MAX && list.iter().all(|aud| aud.len() <= TEXT_MAX);
    Some(Bound {
        aud: texts(aud, version).filter(fits)?,
        nonce: short(nonce)?,
        keys: key_set(keys)?,
        max_age: up_to(max_age, AGE_MAX)?,
    })
}

pub fn read_policy(file: &[u8]) -> Result<Policy, String> {
    let table = ["version", "keys", "algs", "typ", "iss", "require", "skew", "binding"];
    let members = Members::read(file, &table)?;
    let one_or_two = |value: &Node<'_>| value.number().filter(|number| matches!(number, 1 | 2));
    let version = members.optional("version", one_or_two)?.unwrap_or(1);
    Ok(Policy {
        keys: members.required("keys", key_set)?,
        algs: members.optional("algs", |value| list(value, text))?.unwrap_or_else(|| vec!["HS256".to_owned()]),
        typ: members.optional("typ", text)?,
        iss: members.optional("iss", |value| texts(value, version))?,
        require: members.optional("require", |value| list(value, text))?.unwrap_or_default(),
        skew: members.optional("skew", |value| up_to(value, SKEW_MAX))?.unwrap_or(0),
        binding: members.optional("binding", |value| bound(value, version))?,
    })
}

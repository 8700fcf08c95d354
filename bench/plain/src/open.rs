//! Conditions 5 to 21: from a token to its processed payload.
use crate::code::{decode, decode_to, Alg, Hash, SPARE};
use crate::end::Fault;
use crate::files::KeySet;
use crate::form::{Jwt, Token};
use crate::json::{find, read, Member, Node, Slot, NO_MARK};
use indexmap::IndexSet;
use std::borrow::Cow;
use std::mem;

pub const DEPTH_MAX: usize = 100;

/// The header of a JWT, as far as it is judged.
pub struct Header {
    pub alg: String,
    pub kid: Option<String>,
    pub typ: Option<String>,
}

fn optional_text(node: Option<&Slot>) -> Result<Option<String>, ()> {
    match node {
        None => Ok(None),
        Some(slot) => slot.value.text().map(|text| Some(text.to_owned())).ok_or(()),
    }
}

/// The header of the protected members and the unprotected ones; `None` if it can't be read.
fn header(protected: &[Member], outer: &[Member]) -> Option<Header> {
    if outer.iter().any(|member| find(protected, &member.name).is_some()) {
        return None;
    }
    let kid = find(protected, "kid").or_else(|| find(outer, "kid"));
    Some(Header {
        alg: find(protected, "alg")?.value.text()?.to_owned(),
        kid: optional_text(kid).ok()?,
        typ: optional_text(find(protected, "typ")).ok()?,
    })
}

/// The header of a JWT (5, or 28 for a key binding token), and whether it has no `crit` (6).
pub fn read_header(text: &str, outer: &[Member]) -> Option<(Header, bool)> {
    let bytes = decode(text)?;
    let value = read(&bytes).ok()?;
    let protected = value.members()?;
    let is_critical = find(protected, "crit").is_some() || find(outer, "crit").is_some();
    Some((header(protected, outer)?, is_critical))
}

/// Conditions 5 to 10.
pub fn check_signed(
    token: &Token, keys: &KeySet, allows: &dyn Fn(&str) -> bool, typ: Option<&str>,
) -> Result<(), Fault> {
    let jwt = &token.signed;
    let (header, is_critical) = read_header(&jwt.header, &token.outer).ok_or(Fault::new(5))?;
    if is_critical {
        return Err(Fault::new(6));
    }
    let alg = Alg::named(&header.alg).filter(|_| allows(&header.alg)).ok_or(Fault::new(7))?;
    if typ.is_some() && header.typ.as_deref() != typ {
        return Err(Fault::new(8));
    }
    let key = keys.picked(alg, header.kid.as_deref()).ok_or(Fault::new(9))?;
    is_signed(jwt, alg, key).then_some(()).ok_or(Fault::new(10))
}

pub fn is_signed(jwt: &Jwt, alg: Alg, key: &[u8]) -> bool {
    decode(&jwt.signature).is_some_and(|bytes| alg.verifies(key, &jwt.header, &jwt.payload, &bytes))
}

/// The bytes of the payload and of the disclosures, which their values borrow from.
pub struct Bytes {
    payload: Option<Vec<u8>>,
    all: Vec<u8>,
    /// Where each disclosure ends, up to the first that does not decode.
    ends: Vec<usize>,
}

impl Bytes {
    pub fn new(token: &Token) -> Bytes {
        let total: usize = token.disclosures.iter().map(|text| text.len() / 4 * 3 + 3).sum();
        let mut all = vec![0; total + SPARE];
        let mut ends = Vec::with_capacity(token.disclosures.len());
        let mut at = 0;
        for text in &token.disclosures {
            let Some(length) = decode_to(text, &mut all[at..]) else { break };
            at += length;
            ends.push(at);
        }
        Bytes { payload: decode(&token.signed.payload), all, ends }
    }
}

pub struct Disclosure<'b> {
    pub name: Option<Cow<'b, str>>,
    pub value: Node<'b>,
}

/// A payload and its disclosures, read (11 to 13).
pub struct Opened<'b> {
    pub payload: Vec<Member<'b>>,
    pub hash: Hash,
    pub disclosures: Vec<Disclosure<'b>>,
}

fn disclosure(bytes: &[u8]) -> Option<Disclosure<'_>> {
    let Node::List(mut list) = read(bytes).ok()? else { return None };
    if list.len() != 2 && list.len() != 3 {
        return None;
    }
    let value = list.pop()?.value;
    let name = match list.len() {
        1 => None,
        _ => match list.pop()?.value {
            Node::Text(name) => Some(name),
            _ => return None,
        },
    };
    Some(Disclosure { name, value })
}

impl<'b> Opened<'b> {
    pub fn new(token: &Token, bytes: &'b Bytes) -> Result<Opened<'b>, Fault> {
        let Some(Ok(Node::Object(payload))) = bytes.payload.as_deref().map(read) else { return Err(Fault::new(11)) };
        let hash = match find(&payload, "_sd_alg") {
            None => Hash::Sha256,
            Some(slot) => slot.value.text().and_then(Hash::named).ok_or(Fault::new(12))?,
        };
        let mut disclosures = Vec::with_capacity(token.disclosures.len());
        let mut start = 0;
        for &end in &bytes.ends {
            let read = disclosure(&bytes.all[start..end]);
            disclosures.push(read.ok_or_else(|| Fault::at(13, disclosures.len()))?);
            start = end;
        }
        if disclosures.len() < token.disclosures.len() {
            return Err(Fault::at(13, disclosures.len()));
        }
        Ok(Opened { payload, hash, disclosures })
    }
}

/// The digests of the disclosures one after the other, all of the same length.
pub fn digests(token: &Token, hash: Hash) -> String {
    let mut out = Vec::with_capacity(token.disclosures.len() * (hash.letters() + 4) + 8);
    token.disclosures.iter().for_each(|text| hash.digest_onto(text.as_bytes(), &mut out));
    String::from_utf8(out).expect("letters are ASCII")
}

/// A place of a digest: which one, and whether it is in an `_sd`.
#[derive(Clone, Copy)]
struct Site {
    digest: u32,
    is_member: bool,
    is_root: bool,
}

/// The sites of the payload and of all values, in their order; a digest below the number of disclosures is theirs.
struct Sites<'d> {
    known: IndexSet<&'d str>,
    list: Vec<Site>,
    /// Where the sites of the payload end, and then those of each value.
    ends: Vec<usize>,
}

impl<'d> Sites<'d> {
    fn site(&mut self, text: &'d str, is_member: bool, is_root: bool) {
        let (digest, _) = self.known.insert_full(text);
        self.list.push(Site { digest: digest as u32, is_member, is_root });
    }

    /// Takes the sites of an object; `None` if it misuses a reserved name.
    fn object(&mut self, members: &'d [Member], is_root: bool) -> Option<()> {
        if let Some(slot) = find(members, "_sd") {
            let Node::List(list) = &slot.value else { return None };
            for slot in list {
                self.site(slot.value.text()?, true, is_root);
            }
        }
        for member in members {
            match member.name.as_ref() {
                "_sd" => {}
                "..." => return None,
                _ => self.value(&member.slot.value)?,
            }
        }
        Some(())
    }

    fn value(&mut self, value: &'d Node) -> Option<()> {
        match value {
            Node::Object(members) => self.object(members, false),
            Node::List(list) => {
                for slot in list {
                    match hidden(&slot.value) {
                        Some(text) => self.site(text, false, false),
                        None => self.value(&slot.value)?,
                    }
                }
                Some(())
            }
            _ => Some(()),
        }
    }

    fn of_tree(&self, tree: usize) -> &[Site] {
        let start = if tree == 0 { 0 } else { self.ends[tree - 1] };
        &self.list[start..self.ends[tree]]
    }
}

/// The digest of an element that stands for a hidden one.
fn hidden<'n>(value: &'n Node) -> Option<&'n str> {
    match value {
        Node::Object(members) if members.len() == 1 && members[0].name == "..." => members[0].slot.value.text(),
        _ => None,
    }
}

/// Which disclosures are reached, and from where.
struct Reached {
    /// The site of each disclosure.
    sites: Vec<Option<Site>>,
    /// The disclosures, each behind the one that it is in.
    order: Vec<u32>,
}

impl Reached {
    fn new(sites: &Sites, count: usize) -> Reached {
        let mut reached = Reached { sites: vec![None; count], order: Vec::with_capacity(count) };
        reached.take(sites.of_tree(0));
        let mut next = 0;
        while next < reached.order.len() {
            let tree = reached.order[next] as usize + 1;
            reached.take(sites.of_tree(tree));
            next += 1;
        }
        reached
    }

    fn take(&mut self, sites: &[Site]) {
        for site in sites {
            let i = site.digest as usize;
            if i < self.sites.len() && self.sites[i].is_none() {
                self.sites[i] = Some(*site);
                self.order.push(site.digest);
            }
        }
    }
}

/// Condition 16: the position in the met list of the first digest that is there before.
fn repeated(sites: &Sites, reached: &Reached) -> Option<usize> {
    let mut met = vec![false; sites.known.len()];
    let trees = reached.sites.iter().enumerate().filter(|(_, site)| site.is_some()).map(|(i, _)| i + 1);
    let list = std::iter::once(0).chain(trees).flat_map(|tree| sites.of_tree(tree));
    list.into_iter().position(|site| mem::replace(&mut met[site.digest as usize], true))
}

fn is_reserved(name: &str, site: Site) -> bool {
    matches!(name, "_sd" | "...") || (site.is_root && name == "_sd_alg")
}

/// Conditions 14 to 19: the sites, and the disclosures each behind the one that it is in.
fn judged(opened: &Opened, digests: &str) -> Result<(Vec<Site>, Vec<usize>, Vec<u32>), Fault> {
    let count = opened.disclosures.len();
    let letters = opened.hash.letters();
    let mut sites = Sites { known: IndexSet::with_capacity(2 * count), list: Vec::new(), ends: Vec::new() };
    for i in 0..count {
        if !sites.known.insert(&digests[i * letters..(i + 1) * letters]) {
            return Err(Fault::at(14, i));
        }
    }
    sites.object(&opened.payload, true).ok_or_else(|| Fault::at(15, 0))?;
    sites.ends.push(sites.list.len());
    for (i, disclosure) in opened.disclosures.iter().enumerate() {
        sites.value(&disclosure.value).ok_or_else(|| Fault::at(15, i + 1))?;
        sites.ends.push(sites.list.len());
    }
    let reached = Reached::new(&sites, count);
    if let Some(n) = repeated(&sites, &reached) {
        return Err(Fault::at(16, n));
    }
    if let Some(i) = reached.sites.iter().position(Option::is_none) {
        return Err(Fault::at(17, i));
    }
    let mut pairs = opened.disclosures.iter().zip(reached.sites.iter().flatten());
    if let Some(i) = pairs.clone().position(|(disclosure, site)| disclosure.name.is_some() != site.is_member) {
        return Err(Fault::at(18, i));
    }
    let reserved = |(disclosure, site): (&Disclosure, &Site)| {
        disclosure.name.as_ref().is_some_and(|name| is_reserved(name, *site))
    };
    if let Some(i) = pairs.position(reserved) {
        return Err(Fault::at(19, i));
    }
    Ok((sites.list, sites.ends, reached.order))
}

/// Puts the values of disclosures in the place of their digests.
struct Builder<'b> {
    sites: Vec<Site>,
    /// The site that comes next.
    at: usize,
    built: Vec<Option<Disclosure<'b>>>,
    /// How deep each value is.
    depths: Vec<usize>,
    /// The least site whose name is in its object before.
    clash: Option<usize>,
    is_too_deep: bool,
}

impl<'b> Builder<'b> {
    /// The disclosure of the next site, with its number, if the token has it.
    fn next(&mut self) -> Option<(u32, Disclosure<'b>)> {
        let digest = self.sites[self.at].digest;
        self.at += 1;
        let disclosure = self.built.get_mut(digest as usize)?.take()?;
        Some((digest, disclosure))
    }

    fn object(&mut self, members: &mut Vec<Member<'b>>) -> usize {
        let start = self.at;
        let mut depth = 0;
        let mut shown = Vec::new();
        if let Ok(at) = members.binary_search_by(|member| member.name.as_ref().cmp("_sd")) {
            let Node::List(list) = members.remove(at).slot.value else { unreachable!("an _sd is a list here") };
            for _ in 0..list.len() {
                if let Some((mark, Disclosure { name: Some(name), value })) = self.next() {
                    depth = depth.max(self.depths[mark as usize]);
                    shown.push(Member { name, slot: Slot { mark, value } });
                }
            }
        }
        for member in members.iter_mut() {
            depth = depth.max(self.value(&mut member.slot.value));
        }
        if !shown.is_empty() {
            self.merge(members, shown, start);
        }
        depth + 1
    }

    /// Adds the shown members to their object, in the order of names.
    fn merge(&mut self, members: &mut Vec<Member<'b>>, mut shown: Vec<Member<'b>>, start: usize) {
        // an issuer often numbers its disclosures in the order of their names
        shown.sort_unstable_by_key(|member| member.slot.mark);
        members.append(&mut shown);
        members.sort_by(|a, b| a.name.cmp(&b.name));
        if members.windows(2).any(|pair| pair[0].name == pair[1].name) {
            self.note_clash(members, start);
        }
    }

    fn note_clash(&mut self, members: &[Member], start: usize) {
        let site_of = |mark: u32| {
            let behind = self.sites[start..].iter().position(|site| site.digest == mark);
            start + behind.expect("a shown member has a site")
        };
        for group in members.chunk_by(|a, b| a.name == b.name).filter(|group| group.len() > 1) {
            let marks = group.iter().map(|member| member.slot.mark).filter(|mark| *mark != NO_MARK);
            let mut places: Vec<usize> = marks.map(site_of).collect();
            places.sort_unstable();
            let first = if places.len() < group.len() { places[0] } else { places[1] };
            self.clash = Some(self.clash.map_or(first, |clash| clash.min(first)));
        }
    }

    fn value(&mut self, value: &mut Node<'b>) -> usize {
        match value {
            Node::Object(members) => self.object(members),
            Node::List(list) => {
                let mut depth = 0;
                let mut is_withheld = false;
                for slot in list.iter_mut() {
                    if hidden(&slot.value).is_none() {
                        depth = depth.max(self.value(&mut slot.value));
                    } else if let Some((mark, disclosure)) = self.next() {
                        depth = depth.max(self.depths[mark as usize]);
                        *slot = Slot { mark, value: disclosure.value };
                    } else {
                        slot.value = Node::Fraction;
                        is_withheld = true;
                    }
                }
                if is_withheld {
                    list.retain(|slot| !matches!(slot.value, Node::Fraction));
                }
                depth + 1
            }
            _ => 0,
        }
    }

    /// Builds the value of a disclosure, after those inside it.
    fn disclosure(&mut self, i: usize, start: usize) {
        self.at = start;
        let Some(mut disclosure) = self.built[i].take() else { return };
        self.depths[i] = self.value(&mut disclosure.value);
        if self.depths[i] >= DEPTH_MAX {
            // refused in any case, and what is not kept needs no deep stack
            self.is_too_deep = true;
            disclosure.value = Node::Null;
            self.depths[i] = 0;
        }
        self.built[i] = Some(disclosure);
    }
}

/// The processed payload (14 to 21), and how many sites there are: each member and element from a disclosure has its
/// number as mark.
pub fn process<'b>(opened: Opened<'b>, digests: &str) -> Result<(Node<'b>, usize), Fault> {
    let (sites, ends, order) = judged(&opened, digests)?;
    let met = sites.len();
    let Opened { mut payload, disclosures, .. } = opened;
    if let Ok(at) = payload.binary_search_by(|member| member.name.as_ref().cmp("_sd_alg")) {
        payload.remove(at);
    }
    let mut builder = Builder {
        sites,
        at: 0,
        depths: vec![0; disclosures.len()],
        built: disclosures.into_iter().map(Some).collect(),
        clash: None,
        is_too_deep: false,
    };
    for &i in order.iter().rev() {
        builder.disclosure(i as usize, ends[i as usize]);
    }
    builder.at = 0;
    let depth = builder.object(&mut payload);
    if let Some(n) = builder.clash {
        return Err(Fault::at(20, n));
    }
    if builder.is_too_deep || depth > DEPTH_MAX {
        return Err(Fault::new(21));
    }
    Ok((Node::Object(payload), met))
}

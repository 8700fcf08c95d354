//! Conditions 4 and 22 to 38.
use crate::code::{decode, Alg};
use crate::end::Fault;
use crate::files::{Bound, Policy};
use crate::form::{read_token, Jwt, Token};
use crate::json::{read, write, Node};
use crate::open::{check_signed, digests, is_signed, process, read_header, Bytes, Opened};

/// The claims of a token that a policy accepts, as compact JSON behind what is written; the answer is how many sites of
/// digests it has.
pub fn verify(file: &[u8], policy: &Policy, now: u64, out: &mut Vec<u8>) -> Result<usize, Fault> {
    let token = read_token(file)?;
    if policy.binding.is_some() && token.binding.is_none() {
        return Err(Fault::new(4));
    }
    let allows = |alg: &str| policy.algs.iter().any(|allowed| allowed == alg);
    check_signed(&token, &policy.keys, &allows, policy.typ.as_deref())?;
    let bytes = Bytes::new(&token);
    let opened = Opened::new(&token, &bytes)?;
    let hash = opened.hash;
    let digests = digests(&token, hash);
    let (claims, met) = process(opened, &digests)?;
    check_claims(&claims, policy, now)?;
    if let (Some(bound), Some(jwt)) = (&policy.binding, &token.binding) {
        check_binding(&claims, bound, jwt, policy.skew, now, &|| hash.digest(&token.hash_input()))?;
    }
    out.reserve(bytes_of(&token));
    write(&claims, out);
    Ok(met)
}

fn bytes_of(token: &Token) -> usize {
    token.compact_len() / 4 * 3
}

/// Conditions 22 to 26.
fn check_claims(claims: &Node, policy: &Policy, now: u64) -> Result<(), Fault> {
    if let Some(issuers) = &policy.iss {
        let own = claims.get("iss").and_then(Node::text);
        if !own.is_some_and(|own| issuers.iter().any(|iss| iss == own)) {
            return Err(Fault::new(22));
        }
    }
    if let Some(n) = policy.require.iter().position(|name| claims.get(name).is_none()) {
        return Err(Fault::at(23, n));
    }
    let [exp, nbf] = times(claims).ok_or(Fault::new(24))?;
    if is_expired(exp, policy.skew, now) {
        return Err(Fault::new(25));
    }
    if is_early(nbf, policy.skew, now) {
        return Err(Fault::new(26));
    }
    Ok(())
}

/// `exp` and `nbf`, which are whole numbers if they are there.
fn times(claims: &Node) -> Option<[Option<i128>; 2]> {
    let time = |name| match claims.get(name) {
        None => Some(None),
        Some(value) => value.whole().map(Some),
    };
    Some([time("exp")?, time("nbf")?])
}

fn is_expired(exp: Option<i128>, skew: u64, now: u64) -> bool {
    exp.is_some_and(|exp| i128::from(now) >= exp + i128::from(skew))
}

fn is_early(nbf: Option<i128>, skew: u64, now: u64) -> bool {
    nbf.is_some_and(|nbf| i128::from(now) + i128::from(skew) < nbf)
}

fn holder_key<'k>(claims: &Node, bound: &'k Bound) -> Option<&'k [u8]> {
    let kid = claims.get("cnf")?.get("kid")?.text()?;
    bound.keys.picked(Alg::Hs256, Some(kid))
}

/// Conditions 27 to 38.
fn check_binding(
    claims: &Node, bound: &Bound, jwt: &Jwt, skew: u64, now: u64, digest: &dyn Fn() -> String,
) -> Result<(), Fault> {
    let key = holder_key(claims, bound).ok_or(Fault::new(27))?;
    let (header, is_critical) = read_header(&jwt.header, &[]).ok_or(Fault::new(28))?;
    if is_critical {
        return Err(Fault::new(28));
    }
    if header.alg != "HS256" {
        return Err(Fault::new(29));
    }
    if !is_signed(jwt, Alg::Hs256, key) {
        return Err(Fault::new(30));
    }
    if header.typ.as_deref() != Some("kb+jwt") {
        return Err(Fault::new(31));
    }
    let bytes = decode(&jwt.payload).ok_or(Fault::new(32))?;
    let body = read(&bytes).map_err(|_| Fault::new(32))?;
    check_body(&body, bound, skew, now, digest)
}

/// Conditions 32 to 38.
fn check_body(body: &Node, bound: &Bound, skew: u64, now: u64, digest: &dyn Fn() -> String) -> Result<(), Fault> {
    let text = |name| body.get(name).and_then(Node::text).ok_or(Fault::new(32));
    let iat = body.get("iat").and_then(Node::whole).ok_or(Fault::new(32))?;
    let (aud, nonce, sd_hash) = (text("aud")?, text("nonce")?, text("sd_hash")?);
    if i128::from(now) > iat + i128::from(bound.max_age) + i128::from(skew) {
        return Err(Fault::new(33));
    }
    if is_early(Some(iat), skew, now) {
        return Err(Fault::new(34));
    }
    if nonce != bound.nonce {
        return Err(Fault::new(35));
    }
    if !bound.aud.iter().any(|own| own == aud) {
        return Err(Fault::new(36));
    }
    if sd_hash != digest() {
        return Err(Fault::new(37));
    }
    match times(body) {
        Some([exp, nbf]) if !is_expired(exp, skew, now) && !is_early(nbf, skew, now) => Ok(()),
        _ => Err(Fault::new(38)),
    }
}


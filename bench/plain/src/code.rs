//! base64url, the hashes and the algorithms of signatures.
use base64::URL_SAFE_NO_PAD;
use hmac::{Hmac, Mac};
use sha2::{Digest, Sha256, Sha384, Sha512};

const LETTERS: [bool; 256] = letters();

const fn letters() -> [bool; 256] {
    let mut table = [false; 256];
    let mut byte = 0;
    while byte < 256 {
        let b = byte as u8;
        table[byte] = b.is_ascii_alphanumeric() || b == b'-' || b == b'_';
        byte += 1;
    }
    table
}

/// How many letters of base64url the bytes begin with.
pub fn word_len(bytes: &[u8]) -> usize {
    bytes.iter().position(|&b| !LETTERS[b as usize]).unwrap_or(bytes.len())
}

pub fn is_word(text: &str) -> bool {
    !text.is_empty() && word_len(text.as_bytes()) == text.len()
}

/// The bytes of a base64url string.
pub fn decode(word: &str) -> Option<Vec<u8>> {
    base64::decode_config(word, URL_SAFE_NO_PAD).ok()
}

/// Decodes to this place of a buffer, which has some bytes to spare; the answer is how many bytes there are.
pub fn decode_to(word: &str, buffer: &mut [u8]) -> Option<usize> {
    base64::decode_config_slice(word, URL_SAFE_NO_PAD, buffer).ok()
}

/// So many bytes more than three quarters of its words a buffer of `decode_to` has.
pub const SPARE: usize = 16;

pub fn encode(bytes: &[u8]) -> String {
    base64::encode_config(bytes, URL_SAFE_NO_PAD)
}

pub fn encode_onto(bytes: &[u8], out: &mut Vec<u8>) {
    let start = out.len();
    out.resize(start + bytes.len() / 3 * 4 + 4, 0);
    let written = base64::encode_config_slice(bytes, URL_SAFE_NO_PAD, &mut out[start..]);
    out.truncate(start + written);
}

#[derive(Clone, Copy, Debug, PartialEq)]
pub enum Hash {
    Sha256,
    Sha384,
    Sha512,
}

impl Hash {
    pub fn named(name: &str) -> Option<Hash> {
        match name {
            "sha-256" => Some(Hash::Sha256),
            "sha-384" => Some(Hash::Sha384),
            "sha-512" => Some(Hash::Sha512),
            _ => None,
        }
    }

    pub fn name(self) -> &'static str {
        match self {
            Hash::Sha256 => "sha-256",
            Hash::Sha384 => "sha-384",
            Hash::Sha512 => "sha-512",
        }
    }

    /// How many letters a digest has.
    pub fn letters(self) -> usize {
        match self {
            Hash::Sha256 => 43,
            Hash::Sha384 => 64,
            Hash::Sha512 => 86,
        }
    }

    /// Writes the digest of a string behind a string.
    pub fn digest_onto(self, text: &[u8], out: &mut Vec<u8>) {
        match self {
            Hash::Sha256 => encode_onto(&Sha256::digest(text), out),
            Hash::Sha384 => encode_onto(&Sha384::digest(text), out),
            Hash::Sha512 => encode_onto(&Sha512::digest(text), out),
        }
    }

    pub fn digest(self, text: &[u8]) -> String {
        match self {
            Hash::Sha256 => encode(&Sha256::digest(text)),
            Hash::Sha384 => encode(&Sha384::digest(text)),
            Hash::Sha512 => encode(&Sha512::digest(text)),
        }
    }
}

#[derive(Clone, Copy, Debug, PartialEq)]
pub enum Alg {
    Hs256,
    Hs384,
    Hs512,
}

fn mac<M: Mac + hmac::digest::KeyInit>(key: &[u8], header: &str, payload: &str) -> M {
    let mut mac = <M as Mac>::new_from_slice(key).expect("a key of any length");
    mac.update(header.as_bytes());
    mac.update(b".");
    mac.update(payload.as_bytes());
    mac
}

impl Alg {
    pub fn named(name: &str) -> Option<Alg> {
        match name {
            "HS256" => Some(Alg::Hs256),
            "HS384" => Some(Alg::Hs384),
            "HS512" => Some(Alg::Hs512),
            _ => None,
        }
    }

    pub fn name(self) -> &'static str {
        match self {
            Alg::Hs256 => "HS256",
            Alg::Hs384 => "HS384",
            Alg::Hs512 => "HS512",
        }
    }

    /// How many bytes a key has at least.
    pub fn key_min(self) -> usize {
        match self {
            Alg::Hs256 => 32,
            Alg::Hs384 => 48,
            Alg::Hs512 => 64,
        }
    }

    pub fn sign(self, key: &[u8], header: &str, payload: &str) -> String {
        match self {
            Alg::Hs256 => encode(&mac::<Hmac<Sha256>>(key, header, payload).finalize().into_bytes()),
            Alg::Hs384 => encode(&mac::<Hmac<Sha384>>(key, header, payload).finalize().into_bytes()),
            Alg::Hs512 => encode(&mac::<Hmac<Sha512>>(key, header, payload).finalize().into_bytes()),
        }
    }

    pub fn verifies(self, key: &[u8], header: &str, payload: &str, signature: &[u8]) -> bool {
        match self {
            Alg::Hs256 => mac::<Hmac<Sha256>>(key, header, payload).verify_slice(signature).is_ok(),
            Alg::Hs384 => mac::<Hmac<Sha384>>(key, header, payload).verify_slice(signature).is_ok(),
            Alg::Hs512 => mac::<Hmac<Sha512>>(key, header, payload).verify_slice(signature).is_ok(),
        }
    }
}

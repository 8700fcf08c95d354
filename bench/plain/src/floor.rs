//! The floor of a verification: decodes the parts of a compact token, and hashes and encodes the digests of its
//! disclosures and what its issuer signed. It checks nothing.
use plain_lib::code::{decode_to, Alg, Hash, SPARE};

fn main() {
    let Some(file) = std::env::args().nth(1) else { return };
    let text = std::fs::read_to_string(file).expect("the token can be read");
    let mut words = text.trim_end().split('~');
    let signed: Vec<&str> = words.next().unwrap_or("").split('.').collect();
    let disclosures: Vec<&str> = words.filter(|word| !word.is_empty() && !word.contains('.')).collect();
    let mut bytes = vec![0; text.len() + SPARE];
    let mut at = 0;
    for word in signed.iter().chain(&disclosures) {
        at += decode_to(word, &mut bytes[at..]).expect("a part is base64url");
    }
    let mut digests = Vec::with_capacity(disclosures.len() * 48);
    disclosures.iter().for_each(|word| Hash::Sha256.digest_onto(word.as_bytes(), &mut digests));
    let signature = Alg::Hs256.sign(&[1; 32], signed[0], signed[1]);
    println!("{at} {} {}", digests.len(), signature.len());
}

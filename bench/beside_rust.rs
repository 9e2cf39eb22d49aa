//! Runs a job of bench/library_bench with the Rust crate minisign instead, for bench/beside_rust.py. The number that it prints
//! depends on all results, so that the compiler cannot leave out the work.
use minisign::crypto::blake2b::Blake2b;
use minisign::{sign, verify, PublicKey, PublicKeyBox, SecretKey, SecretKeyBox, SignatureBox};
use std::fs::{read, read_to_string, File};

fn main() {
    let given: Vec<String> = std::env::args().collect();
    let rounds = |at: usize| given[at].parse::<u64>().unwrap();
    let result = match given[1].as_str() {
        "hash" => hash(&given[2], rounds(3)),
        "verify" => {
            verify_with(&key_of(&given[2]), &signature_of(&given[3]), &given[4]);
            1
        }
        "sign" => sign_file(&given[2], &given[3]),
        "open" => open(&given[2], &given[3]),
        "keys" => keys(&given[2], rounds(3)),
        "signatures" => signatures(&given[2], rounds(3)),
        "small" => small(&given[2], &given[3], rounds(4)),
        job => panic!("no job {job}"),
    };
    println!("{result}");
}

fn key_of(path: &str) -> PublicKey {
    let text = read_to_string(path).unwrap();
    PublicKeyBox::from_string(&text).unwrap().into_public_key().unwrap()
}

fn signature_of(path: &str) -> SignatureBox {
    SignatureBox::from_string(&read_to_string(path).unwrap()).unwrap()
}

fn hash(path: &str, rounds: u64) -> u64 {
    let data = read(path).unwrap();
    let mut sum = 0u64;
    for _ in 0..rounds {
        let mut digest = [0u8; 64];
        Blake2b::blake2b(&mut digest, &data);
        sum = sum.wrapping_add(digest[0] as u64);
    }
    sum
}

fn verify_with(key: &PublicKey, signature: &SignatureBox, path: &str) {
    verify(key, signature, File::open(path).unwrap(), true, false, false).unwrap();
}

fn sign_file(sk: &str, path: &str) -> u64 {
    let text = read_to_string(sk).unwrap();
    let key = SecretKeyBox::from_string(&text).unwrap().into_unencrypted_secret_key().unwrap();
    let signature = sign(None, &key, File::open(path).unwrap(), Some("t"), None).unwrap();
    signature.to_string().len() as u64
}

fn open(sk: &str, password: &str) -> u64 {
    let text = read_to_string(sk).unwrap();
    let key = SecretKey::from_box(SecretKeyBox::from_string(&text).unwrap(), Some(password.to_string()));
    key.unwrap().is_encrypted() as u64
}

fn keys(path: &str, rounds: u64) -> u64 {
    let text = read_to_string(path).unwrap();
    let mut sum = 0u64;
    for _ in 0..rounds {
        let key = PublicKey::from_box(PublicKeyBox::from_string(&text).unwrap()).unwrap();
        sum = sum.wrapping_add(key.keynum().len() as u64);
    }
    sum
}

fn signatures(path: &str, rounds: u64) -> u64 {
    let text = read_to_string(path).unwrap();
    let mut sum = 0u64;
    for _ in 0..rounds {
        let signature = SignatureBox::from_string(&text).unwrap();
        sum = sum.wrapping_add(signature.keynum().len() as u64);
    }
    sum
}

fn small(pk: &str, sig: &str, rounds: u64) -> u64 {
    let (key, signature) = (key_of(pk), signature_of(sig));
    let mut verified = 0u64;
    for _ in 0..rounds {
        for number in 0..1000 {
            verify_with(&key, &signature, &number.to_string());
            verified += 1;
        }
    }
    verified
}

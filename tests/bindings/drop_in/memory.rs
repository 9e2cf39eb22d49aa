//! Searches the memory of this process for secrets after all values with secrets were dropped: the password and the
//! seed of an encrypted key, and part of the file of an unencrypted key. Prints how often each is found. With any
//! argument, the program keeps a copy of the password and the seed, so that the search must find them.

use minisign::{sign, verify, KeyPair, PublicKey, SecretKeyBox};
use std::fs;
use std::io::{Cursor, Read, Seek, SeekFrom};

/// The number of bytes of a page that are searched again together with the next page. It is longer than each pattern.
const OVERLAP: usize = 64;

/// Returns how often each pattern is in the writable memory of this process. All bits of the patterns are inverted, so
/// that the search does not find the patterns themselves.
fn count_in_memory(patterns: &[Vec<u8>]) -> Vec<usize> {
    let mut memory = fs::File::open("/proc/self/mem").unwrap();
    let mut found = vec![0; patterns.len()];
    let maps = fs::read_to_string("/proc/self/maps").unwrap();
    // The areas vdso and vvar of the kernel cannot be read.
    for line in maps.lines().filter(|line| line.contains(" rw") && !line.contains("[v")) {
        let range = line.split(' ').next().unwrap().split_once('-').unwrap();
        let [from, to] = [range.0, range.1].map(|digits| u64::from_str_radix(digits, 16).unwrap());
        memory.seek(SeekFrom::Start(from)).unwrap();
        let mut page = [0; OVERLAP + 4096];
        for _ in (from..to).step_by(4096) {
            page.copy_within(4096.., 0);
            if memory.read_exact(&mut page[OVERLAP..]).is_err() {
                break;
            }
            for (pattern, found) in patterns.iter().zip(&mut found) {
                let is_here = |at: &[u8]| at.iter().zip(pattern).all(|(byte, inverted)| *byte == !inverted);
                *found += page.windows(pattern.len()).filter(|at| is_here(at)).count();
            }
        }
        for byte in &mut page {
            unsafe { std::ptr::write_volatile(byte, 0) };
        }
    }
    found
}

fn inverted(bytes: &[u8]) -> Vec<u8> {
    bytes.iter().map(|byte| !byte).collect()
}

/// Decodes the password at run time, so that the program file contains it only with inverted bits.
fn password() -> String {
    [0x9c, 0x90, 0x8d, 0x8d, 0x9a, 0x9c, 0x8b, 0xdf, 0x97, 0x90, 0x8d, 0x8c, 0x9a]
        .map(|byte: u8| char::from(!byte))
        .iter()
        .collect()
}

/// Uses keys and a password in all calls that handle them, and drops them. Appends the inverted secrets to `patterns`.
#[inline(never)]
fn use_secrets(patterns: &mut Vec<Vec<u8>>) {
    let pair = KeyPair::generate_encrypted_keypair(Some(password())).unwrap();
    let text = pair.sk.to_box(None).unwrap();
    let key = text.clone().into_secret_key(Some(password())).unwrap();
    let mut bytes = key.to_bytes();
    // The seed in the record of a secret key.
    patterns.push(inverted(&bytes[62..94]));
    for byte in &mut bytes {
        unsafe { std::ptr::write_volatile(byte, 0) };
    }
    let signature = sign(Some(&pair.pk), &key, &b"data"[..], None, None).unwrap();
    verify(&PublicKey::from_secret_key(&key).unwrap(), &signature, Cursor::new(b"data"), true, false, false).unwrap();
    // A new key that is not encrypted, and part of the base64 of its seed.
    let plain_key = KeyPair::generate_unencrypted_keypair().unwrap().sk;
    let key_box = plain_key.to_box(None).unwrap();
    let mut text = String::from(key_box.clone());
    patterns.push(inverted(&text.as_bytes()[150..190]));
    for byte in unsafe { text.as_bytes_mut() } {
        unsafe { std::ptr::write_volatile(byte, 0) };
    }
    assert!(key_box.into_unencrypted_secret_key().unwrap() == plain_key);
    let _: SecretKeyBox = plain_key.to_box(Some("again")).unwrap();
}

fn main() {
    let mut patterns = vec![inverted(password().as_bytes())];
    let kept = std::env::args().nth(1).map(|_| password());
    use_secrets(&mut patterns);
    let kept_key = kept.as_ref().map(|_| inverted(&patterns[1]));
    println!("{:?}", count_in_memory(&patterns));
    drop((kept, kept_key));
}

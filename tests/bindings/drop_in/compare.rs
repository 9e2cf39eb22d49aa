//! Compares the drop-in (`minisign`) with Frank Denis's crate minisign (`upstream`): sends the same random requests to
//! both, with valid and damaged keys, signatures, passwords and data. Each crate also reads keys and signatures that
//! the other crate wrote.
//!
//!     compare COUNT SEED
//!
//! Prints a line for each kind of difference, separated by tabs: the call, the results of the drop-in and of upstream,
//! the number of requests, and an example. The last line is `N requests, A accepted by both`. DIFFERENCES in
//! tests/bindings/drop_in.py lists the intended differences.

use std::cell::RefCell;
use std::collections::BTreeMap;
use std::io::{self, Cursor, Read, Seek, SeekFrom};
use std::panic::{catch_unwind, AssertUnwindSafe};
use std::rc::Rc;

#[link(name = "sodium")]
extern "C" {
    fn crypto_generichash_blake2b(
        digest: *mut u8,
        len: usize,
        data: *const u8,
        data_len: u64,
        key: *const u8,
        key_len: usize,
    ) -> i32;
    fn crypto_sign_detached(
        signature: *mut u8,
        len: *mut u64,
        message: *const u8,
        message_len: u64,
        secret: *const u8,
    ) -> i32;
}

/// Signs with libsodium. Neither crate makes legacy signatures.
fn ed25519(message: &[u8], secret: &[u8]) -> [u8; 64] {
    let mut signature = [0; 64];
    assert_eq!(secret.len(), 64);
    unsafe {
        crypto_sign_detached(
            signature.as_mut_ptr(),
            std::ptr::null_mut(),
            message.as_ptr(),
            message.len() as u64,
            secret.as_ptr(),
        )
    };
    signature
}

/// Returns the BLAKE2b digest, of this length.
fn blake2b(data: &[u8], len: usize) -> Vec<u8> {
    let mut digest = vec![0; len];
    unsafe {
        crypto_generichash_blake2b(digest.as_mut_ptr(), len, data.as_ptr(), data.len() as u64, std::ptr::null(), 0)
    };
    digest
}

/// Writes the correct checksum into the record of a secret key that is not encrypted.
fn write_checksum(record: &mut [u8]) {
    let checksum = blake2b(&[&record[..2], &record[54..126]].concat(), 32);
    record[126..].copy_from_slice(&checksum);
}

const ALPHABET: &[u8; 64] = b"ABCDEFGHIJKLMNOPQRSTUVWXYZabcdefghijklmnopqrstuvwxyz0123456789+/";

fn base64(bytes: &[u8]) -> String {
    let mut text = String::new();
    for part in bytes.chunks(3) {
        let word = (0..3).fold(0, |word, at| word << 8 | usize::from(*part.get(at).unwrap_or(&0)));
        for at in 0..4 {
            text.push(if at <= part.len() { ALPHABET[word >> (18 - 6 * at) & 63] as char } else { '=' });
        }
    }
    text
}

struct Rng(u64);

impl Rng {
    fn next(&mut self) -> u64 {
        self.0 ^= self.0 << 13;
        self.0 ^= self.0 >> 7;
        self.0 ^= self.0 << 17;
        self.0
    }

    fn below(&mut self, limit: usize) -> usize {
        (self.next() % limit.max(1) as u64) as usize
    }

    fn one_of<T: Copy>(&mut self, values: &[T]) -> T {
        values[self.below(values.len())]
    }

    /// Returns the bytes after one to three random changes. Each change replaces, inserts or removes a byte, flips a
    /// bit, cuts off the end, or repeats a part.
    fn damaged(&mut self, bytes: &[u8]) -> Vec<u8> {
        let mut bytes = bytes.to_vec();
        for _ in 0..1 + self.below(3) {
            let bytes_to_insert = [b'\n', b'\r', b' ', b'=', b'A', b'/', 0, b'\t', 0xc3, 0xa9, b'z', self.next() as u8];
            let (at, byte) = (self.below(bytes.len()), self.one_of(&bytes_to_insert));
            match self.below(6) {
                0 if !bytes.is_empty() => bytes[at] = byte,
                1 => bytes.insert(at, byte),
                2 if !bytes.is_empty() => drop(bytes.remove(at)),
                3 => bytes.truncate(at),
                4 => {
                    let part = bytes[at..(at + self.below(40)).min(bytes.len())].to_vec();
                    let to = self.below(bytes.len());
                    drop(bytes.splice(to..to, part));
                }
                _ if !bytes.is_empty() => bytes[at] ^= 1 << self.below(8),
                _ => {}
            }
        }
        bytes
    }

    fn damaged_text(&mut self, text: &str) -> String {
        String::from_utf8_lossy(&self.damaged(text.as_bytes())).into_owned()
    }
}

/// A reader that counts the calls of `read` and `seek`. The first read can be interrupted, and seeking can fail.
pub struct CountingReader {
    inner: Cursor<Vec<u8>>,
    is_interrupted: bool,
    can_seek: bool,
    counts: Rc<RefCell<(u32, u32)>>,
}

impl CountingReader {
    fn new(data: &[u8], is_interrupted: bool, can_seek: bool) -> CountingReader {
        CountingReader { inner: Cursor::new(data.into()), is_interrupted, can_seek, counts: Rc::default() }
    }
}

impl Read for CountingReader {
    fn read(&mut self, to: &mut [u8]) -> io::Result<usize> {
        self.counts.borrow_mut().0 += 1;
        if std::mem::take(&mut self.is_interrupted) {
            return Err(io::ErrorKind::Interrupted.into());
        }
        self.inner.read(to)
    }
}

impl Seek for CountingReader {
    fn seek(&mut self, to: SeekFrom) -> io::Result<u64> {
        self.counts.borrow_mut().1 += 1;
        if !self.can_seek {
            return Err(io::Error::new(io::ErrorKind::Other, "illegal seek"));
        }
        self.inner.seek(to)
    }
}

/// The result of a call as text: the returned values, or the kind and the text of the error.
type Outcome = Result<String, String>;

fn outcome<T>(call: impl FnOnce() -> Result<String, T>, text: impl Fn(T) -> String) -> Outcome {
    catch_unwind(AssertUnwindSafe(call)).map_or_else(|_| Err("panic".into()), |result| result.map_err(text))
}

pub struct Pair {
    pk: Vec<u8>,
    sk: Vec<u8>,
    pk_box: String,
    sk_box: String,
}

/// Defines a module with the same calls of one crate.
macro_rules! calls {
    ($name:ident, $krate:ident) => {
        mod $name {
            use super::{outcome, CountingReader, Outcome, Pair};
            use std::io::Cursor;
            use $krate::*;

            fn run(call: impl FnOnce() -> Result<String>) -> Outcome {
                // The two crates have different texts for a base64 error.
                outcome(call, |error| format!("{:?}: {error}", error.kind()).replace("Invalid input", "invalid base64"))
            }
            pub fn pk_box(text: &str) -> Outcome {
                run(|| {
                    let key = PublicKeyBox::from_string(text)?.into_public_key()?;
                    // The drop-in does not keep the algorithm of a public key. So its two bytes, which are in the first
                    // three base64 letters, are left out.
                    let lines: Vec<String> = key.to_box()?.to_string().lines().map(String::from).collect();
                    Ok(format!(
                        "{:?} {:?} {} {} {}",
                        &key.to_bytes()[2..],
                        key.keynum(),
                        &key.to_base64()[3..],
                        lines[0],
                        &lines[1][3..]
                    ))
                })
            }
            pub fn pk_base64(text: &str) -> Outcome {
                run(|| Ok(format!("{:?}", &PublicKey::from_base64(text)?.to_bytes()[2..])))
            }
            pub fn pk_bytes(bytes: &[u8]) -> Outcome {
                run(|| Ok(format!("{:?}", &PublicKey::from_bytes(bytes)?.to_bytes()[2..])))
            }
            pub fn bones(bytes: &[u8]) -> Outcome {
                run(|| {
                    let bones = SignatureBones::from_bytes(bytes)?;
                    let signature_box = SignatureBox::from(bones.clone());
                    let trusted = signature_box.trusted_comment().map_err(|error| error.to_string());
                    let (keynum, untrusted) = (signature_box.keynum(), signature_box.untrusted_comment()?);
                    Ok(format!("{:?} {} {keynum:?} {untrusted:?} {trusted:?}", bones.to_bytes(), bones.is_prehashed()))
                })
            }
            pub fn signature(text: &str) -> Outcome {
                run(|| {
                    let read = SignatureBox::from_string(text)?;
                    let (untrusted, trusted) = (read.untrusted_comment()?, read.trusted_comment()?);
                    let bones = SignatureBones::from(read.clone()).to_bytes();
                    Ok(format!(
                        "{:?} {} {untrusted:?} {trusted:?} {:?} {bones:?}",
                        read.keynum(),
                        read.is_prehashed(),
                        read.to_string()
                    ))
                })
            }
            fn fields_of(key: SecretKey, comment: Option<&str>) -> Result<String> {
                Ok(format!("{:?} {:?} {} {}", key.to_bytes(), key.keynum(), key.is_encrypted(), key.to_box(comment)?))
            }
            pub fn sk_plain(text: &str) -> Outcome {
                run(|| fields_of(SecretKeyBox::from_string(text)?.into_unencrypted_secret_key()?, None))
            }
            pub fn sk_open(text: &str, password: &str) -> Outcome {
                run(|| fields_of(SecretKeyBox::from_string(text)?.into_secret_key(Some(password.into()))?, Some("x")))
            }
            pub fn sk_bytes(bytes: &[u8]) -> Outcome {
                run(|| {
                    let key = SecretKey::from_bytes(bytes)?;
                    Ok(format!(
                        "{:?} {} {:?}",
                        key.to_bytes(),
                        key.is_encrypted(),
                        &PublicKey::from_secret_key(&key)?.to_bytes()[2..]
                    ))
                })
            }
            pub fn verify(key: &str, text: &str, data: &[u8], allow_legacy: bool) -> Outcome {
                run(|| {
                    let (key, read) = (PublicKey::from_base64(key)?, SignatureBox::from_string(text)?);
                    $krate::verify(&key, &read, Cursor::new(data), true, false, allow_legacy)?;
                    Ok(String::new())
                })
            }
            pub fn verify_bones(key: &str, bytes: &[u8], data: &[u8], allow_legacy: bool) -> Outcome {
                run(|| {
                    let (key, read) = (PublicKey::from_base64(key)?, SignatureBones::from_bytes(bytes)?.into());
                    $krate::verify(&key, &read, Cursor::new(data), true, false, allow_legacy)?;
                    Ok(String::new())
                })
            }
            pub fn sign(pk: Option<&[u8]>, sk: &[u8], data: &[u8], trusted: &str, untrusted: &str) -> Outcome {
                run(|| {
                    let (pk, sk) = (pk.map(PublicKey::from_bytes).transpose()?, SecretKey::from_bytes(sk)?);
                    Ok($krate::sign(pk.as_ref(), &sk, Cursor::new(data), Some(trusted), Some(untrusted))?.into_string())
                })
            }
            /// Returns the result of `verify`, and the numbers of reads and seeks.
            pub fn verify_counted(
                key: &str,
                text: &str,
                data: CountingReader,
                output: bool,
                allow_legacy: bool,
            ) -> Outcome {
                let counts = data.counts.clone();
                let result = run(|| {
                    let (key, read) = (PublicKey::from_base64(key)?, SignatureBox::from_string(text)?);
                    $krate::verify(&key, &read, data, true, output, allow_legacy)?;
                    Ok(String::from("valid"))
                });
                let (reads, seeks) = *counts.borrow();
                let with_counts = |text| format!("{text} after {reads} reads and {seeks} seeks");
                result.map(with_counts).map_err(with_counts)
            }
            pub fn sign_interrupted(sk: &[u8]) -> Outcome {
                run(|| {
                    Ok($krate::sign(
                        None,
                        &SecretKey::from_bytes(sk)?,
                        CountingReader::new(b"data", true, true),
                        Some("t"),
                        None,
                    )?
                    .into_string())
                })
            }
            pub fn opened(text: &str, password: &str) -> Vec<u8> {
                SecretKeyBox::from_string(text).unwrap().into_secret_key(Some(password.into())).unwrap().to_bytes()
            }
            /// Decrypts a key, signs with it, and verifies the signature.
            pub fn sign_opened(text: &str, password: &str) -> Outcome {
                run(|| {
                    let key = SecretKeyBox::from_string(text)?.into_secret_key(Some(password.into()))?;
                    let (pk, signature) =
                        (PublicKey::from_secret_key(&key)?, $krate::sign(None, &key, &b"data"[..], Some("t"), None)?);
                    $krate::verify(&pk, &signature, Cursor::new("data"), true, false, false)?;
                    Ok(signature.into_string())
                })
            }
            pub fn sk_comment(sk: &[u8], comment: &str) -> Outcome {
                run(|| Ok(SecretKey::from_bytes(sk)?.to_box(Some(comment))?.into_string()))
            }
            pub fn debug(pair: &Pair, item: &str) -> Outcome {
                run(|| {
                    let (pk, sk) = (PublicKey::from_bytes(&pair.pk)?, SecretKey::from_bytes(&pair.sk)?);
                    Ok(match item {
                        "PublicKey" => format!("{pk:?}"),
                        "PublicKeyBox" => format!("{:?}", pk.to_box()?),
                        "SecretKey" => format!("{sk:?}"),
                        "SecretKeyBox" => format!("{:?}", sk.to_box(None)?),
                        "ErrorKind" => format!("{:?}", ErrorKind::KDF),
                        _ => format!("{:?}", SignatureBox::from_string("").err()),
                    })
                })
            }
            /// Returns the text of a base64 error. The texts of the two crates differ, and `run` replaces one by the
            /// other.
            pub fn base64_text() -> Outcome {
                let error =
                    SecretKeyBox::from_string("c\n!").and_then(SecretKeyBox::into_unencrypted_secret_key).unwrap_err();
                Ok(error.to_string())
            }
            pub fn pair(password: Option<&str>) -> Pair {
                let key_pair = match password {
                    None => KeyPair::generate_unencrypted_keypair(),
                    Some(password) => KeyPair::generate_encrypted_keypair(Some(password.into())),
                };
                let KeyPair { pk, sk } = key_pair.unwrap();
                Pair {
                    pk: pk.to_bytes(),
                    sk: sk.to_bytes(),
                    pk_box: pk.to_box().unwrap().into_string(),
                    sk_box: sk.to_box(None).unwrap().into_string(),
                }
            }
        }
    };
}
calls!(ours, minisign);
calls!(theirs, upstream);

#[derive(Default)]
struct Report {
    requests: u64,
    accepted: u64,
    differences: BTreeMap<(String, String, String), (u64, String)>,
}

/// Returns a text that is the same for equal kinds of results: `Ok`, or the error with `ID` in place of key IDs.
fn class(outcome: &Outcome) -> String {
    let is_key_id = |word: &str| word.len() == 16 && word.bytes().all(|byte| byte.is_ascii_hexdigit());
    let words = |text: &str| {
        text.split(' ').map(|word| if is_key_id(word) { "ID" } else { word }.to_string()).collect::<Vec<_>>().join(" ")
    };
    outcome.as_ref().map_or_else(|text| words(text), |_| "Ok".into())
}

impl Report {
    fn add(&mut self, call: &str, ours: Outcome, theirs: Outcome, request: &str) {
        self.requests += 1;
        if ours == theirs {
            self.accepted += u64::from(ours.is_ok());
            return;
        }
        // If both results are Ok, the values differ, so they are printed in full.
        let (our_result, their_result) = match (&ours, &theirs) {
            (Ok(our_values), Ok(their_values)) => (format!("Ok {our_values:?}"), format!("Ok {their_values:?}")),
            _ => (class(&ours), class(&theirs)),
        };
        let entry = self.differences.entry((call.into(), our_result, their_result)).or_insert((0, request.into()));
        entry.0 += 1;
    }
}

/// Compares the results for an unencrypted key pair, and for damaged copies of it and of its signatures.
fn unencrypted(report: &mut Report, rng: &mut Rng, pair: &Pair) {
    let (pk, sk) = (&pair.pk[..], &pair.sk[..]);
    let text = rng.damaged_text(&pair.pk_box);
    report.add("pk_box", ours::pk_box(&text), theirs::pk_box(&text), &text);
    let key = base64(pk);
    let text = rng.damaged_text(&key);
    report.add("pk_base64", ours::pk_base64(&text), theirs::pk_base64(&text), &text);
    let bytes = rng.damaged(pk);
    report.add("pk_bytes", ours::pk_bytes(&bytes), theirs::pk_bytes(&bytes), &format!("{bytes:?}"));
    let text = rng.damaged_text(&pair.sk_box);
    report.add("sk_plain", ours::sk_plain(&text), theirs::sk_plain(&text), &text);
    report.add(
        "sk_open of a key that is not encrypted",
        ours::sk_open(&pair.sk_box, ""),
        theirs::sk_open(&pair.sk_box, ""),
        "",
    );
    let bytes = rng.damaged(sk);
    report.add("sk_bytes", ours::sk_bytes(&bytes), theirs::sk_bytes(&bytes), &format!("{bytes:?}"));

    let len = rng.one_of(&[0, 1, 64, 128, 129, 1000, 70_000]);
    let data: Vec<u8> = (0..len).map(|_| rng.next() as u8).collect();
    let comments = [
        "a comment",
        "timestamp:1\tfile:x",
        "",
        "\u{e9}",
        " spaces ",
        "line\nfeed",
        "cr\r",
        "zero\0",
        "\ttab\t",
        "\u{a0}nbsp\u{a0}",
    ];
    let (trusted, untrusted) = (rng.one_of(&comments), rng.one_of(&comments));
    // The public key that is passed to `sign`: none, the right one, or sometimes the one of another pair.
    let possible_pk = if rng.below(4) == 0 { theirs::pair(None).pk } else { pk.to_vec() };
    let passed_pk = rng.one_of(&[None, Some(&possible_pk[..])]);
    let signed =
        [ours::sign(passed_pk, sk, &data, trusted, untrusted), theirs::sign(passed_pk, sk, &data, trusted, untrusted)];
    let signature = signed[rng.below(2)].clone().or_else(|_| signed[0].clone());
    let [by_ours, by_theirs] = signed;
    report.add("sign", by_ours, by_theirs, &format!("{trusted:?} {untrusted:?}"));
    if let Ok(text) = signature {
        signatures(report, rng, &key, &text, &data);
    }
    legacy(report, rng, pair, &data);
    let mut record = sk.to_vec();
    let at = rng.one_of(&[0, 1, 2, 3, 4, 6, 38, 46, 54, 62, 126]);
    record[at] ^= 1 + rng.below(255) as u8;
    let (text, change) =
        (format!("untrusted comment: k\n{}\n", base64(&record)), format!("byte {at} of the record is changed"));
    report.add(
        "sign with a damaged key",
        ours::sign(None, &record, &data, "t", "u"),
        theirs::sign(None, &record, &data, "t", "u"),
        &change,
    );
    report.add("sk_plain of a damaged key", ours::sk_plain(&text), theirs::sk_plain(&text), &change);
    report.add("sk_open of a damaged key", ours::sk_open(&text, ""), theirs::sk_open(&text, ""), &change);
    report.add("sk_bytes of a damaged key", ours::sk_bytes(&record), theirs::sk_bytes(&record), &change);
}

/// Compares the results for a signature that one of the crates made, and for damaged copies of it.
fn signatures(report: &mut Report, rng: &mut Rng, key: &str, text: &str, data: &[u8]) {
    let (damaged, damaged_data) = (rng.damaged_text(text), rng.damaged(data));
    report.add("signature", ours::signature(text), theirs::signature(text), text);
    report.add("damaged signature", ours::signature(&damaged), theirs::signature(&damaged), &damaged);
    for allow in [false, true] {
        for (what, text, data) in [
            ("verify", text, data),
            ("verify damaged", &damaged, data),
            ("verify damaged data", text, &damaged_data[..]),
        ] {
            report.add(what, ours::verify(key, text, data, allow), theirs::verify(key, text, data, allow), text);
        }
    }
    let read = upstream::SignatureBox::from_string(text).ok();
    if let Some(bones) = read.map(|read| upstream::SignatureBones::from(read).to_bytes()) {
        let (damaged, shown) = (rng.damaged(&bones), format!("{bones:?}"));
        report.add("bones", ours::bones(&damaged), theirs::bones(&damaged), &format!("{damaged:?}"));
        let mut as_legacy = bones.clone();
        as_legacy[1] = b'd';
        for (what, bytes, allow) in [
            ("verify bones", &bones, false),
            ("verify damaged bones", &damaged, true),
            ("verify bones as legacy", &as_legacy, true),
            ("verify bones as legacy", &as_legacy, false),
        ] {
            report.add(
                what,
                ours::verify_bones(key, bytes, data, allow),
                theirs::verify_bones(key, bytes, data, allow),
                &shown,
            );
        }
    }
}

/// Compares the results for a legacy signature, and for damaged copies of it.
fn legacy(report: &mut Report, rng: &mut Rng, pair: &Pair, data: &[u8]) {
    let (key, secret) = (base64(&pair.pk), &pair.sk[62..126]);
    let first = ed25519(data, secret);
    let record = [b"Ed", &pair.sk[54..62], &first].concat();
    let second = ed25519(&[&first[..], b"timestamp:1"].concat(), secret);
    let text =
        format!("untrusted comment: x\n{}\ntrusted comment: timestamp:1\n{}\n", base64(&record), base64(&second));
    let (damaged, damaged_data) = (rng.damaged_text(&text), rng.damaged(data));
    for allow in [false, true] {
        for (what, text, data) in
            [("legacy", &text, data), ("damaged legacy", &damaged, data), ("legacy damaged data", &text, &damaged_data)]
        {
            report.add(what, ours::verify(&key, text, data, allow), theirs::verify(&key, text, data, allow), text);
        }
        report.add(
            "legacy bones",
            ours::verify_bones(&key, &record, data, allow),
            theirs::verify_bones(&key, &record, data, allow),
            "",
        );
    }
}

/// Compares the results for a new encrypted key, which the two crates make in turn.
fn encrypted(report: &mut Report, rng: &mut Rng, number: usize) {
    let password = rng.one_of(&["pass", "", "\u{e9}\u{20ac}", "a longer password of some words"]);
    let make = if number % 2 == 0 { ours::pair } else { theirs::pair };
    let pair = make(Some(password));
    let text = &pair.sk_box;
    report.add("sealed, right", ours::sk_open(text, password), theirs::sk_open(text, password), text);
    report.add("sealed, wrong", ours::sk_open(text, "other"), theirs::sk_open(text, "other"), text);
    report.add("sealed, no password", ours::sk_plain(text), theirs::sk_plain(text), text);
    let damaged = rng.damaged_text(text);
    let by_ours = ours::sk_open(&damaged, password);
    // Upstream has no maximum: with damaged limits it could use any amount of memory and time.
    if by_ours != Err("KDF: scrypt work too high".into()) {
        report.add("sealed, damaged", by_ours, theirs::sk_open(&damaged, password), &damaged);
    }
    report.add("sealed, bytes", ours::sk_bytes(&pair.sk), theirs::sk_bytes(&pair.sk), "");
    report.add(
        "sealed, sign",
        ours::sign(None, &pair.sk, b"", "t", "u"),
        theirs::sign(None, &pair.sk, b"", "t", "u"),
        "",
    );
    report.add("sealed, public key", ours::pk_box(&pair.pk_box), theirs::pk_box(&pair.pk_box), &pair.pk_box);
}

/// Compares the results of requests that random changes hardly ever produce. Each is sent once.
fn rare(report: &mut Report) {
    let (pair, other, sealed) = (theirs::pair(None), theirs::pair(None), theirs::pair(Some("p")));
    let (key, other_key) = (base64(&pair.pk), base64(&other.pk));
    // Readers. The data is empty, because a copy of the data is written to standard output.
    let [prehashed, legacy] = [true, false].map(|is_prehashed| {
        let message = if is_prehashed { blake2b(b"", 64) } else { vec![] };
        let first = ed25519(&message, &pair.sk[62..126]);
        let record = [if is_prehashed { b"ED" } else { b"Ed" }, &pair.sk[54..62], &first].concat();
        let second = ed25519(&[&first[..], b"t"].concat(), &pair.sk[62..126]);
        format!("untrusted comment: x\n{}\ntrusted comment: t\n{}\n", base64(&record), base64(&second))
    });
    for (what, key, text, is_interrupted, can_seek, output, allow) in [
        ("counted", &key, &prehashed, false, true, false, false),
        ("counted, other key", &other_key, &prehashed, false, true, false, false),
        ("counted, legacy", &key, &legacy, false, true, false, true),
        ("counted, legacy, other key", &other_key, &legacy, false, true, false, true),
        ("counted, legacy, not allowed", &key, &legacy, false, true, false, false),
        ("counted, legacy, output", &key, &legacy, false, true, true, true),
        ("counted, legacy, output, no seek", &key, &legacy, false, false, true, true),
        ("counted, output", &key, &prehashed, false, true, true, false),
        ("counted, output, no seek", &key, &prehashed, false, false, true, false),
        ("counted, interrupted", &key, &prehashed, true, true, false, false),
        ("counted, legacy, interrupted", &key, &legacy, true, true, false, true),
    ] {
        let data = || CountingReader::new(b"", is_interrupted, can_seek);
        let results =
            [ours::verify_counted, theirs::verify_counted].map(|verify| verify(key, text, data(), output, allow));
        let [by_ours, by_theirs] = results;
        report.add(what, by_ours, by_theirs, "");
    }
    report.add("sign, interrupted", ours::sign_interrupted(&pair.sk), theirs::sign_interrupted(&pair.sk), "");
    // Secret keys with a correct checksum: one with another algorithm, and one whose halves are from different keys.
    let mut record = pair.sk.clone();
    record[..2].copy_from_slice(b"XX");
    write_checksum(&mut record);
    let file = |record: &[u8]| format!("untrusted comment: k\n{}\n", base64(record));
    report.add("algorithm, plain", ours::sk_plain(&file(&record)), theirs::sk_plain(&file(&record)), "");
    report.add(
        "algorithm, sign",
        ours::sign(Some(&pair.pk), &record, b"", "t", "u"),
        theirs::sign(Some(&pair.pk), &record, b"", "t", "u"),
        "",
    );
    let mut record = pair.sk.clone();
    record[94..126].copy_from_slice(&other.sk[94..126]);
    write_checksum(&mut record);
    report.add("halves, plain", ours::sk_plain(&file(&record)), theirs::sk_plain(&file(&record)), "");
    for pk in [None, Some(&pair.pk[..])] {
        report.add(
            "halves, sign",
            ours::sign(pk, &record, b"", "t", "u"),
            theirs::sign(pk, &record, b"", "t", "u"),
            "",
        );
    }
    // A checksum of zeros, as Minisign's own program writes it into a key that is not encrypted.
    let mut record = pair.sk.clone();
    record[126..].fill(0);
    report.add("zeros, plain", ours::sk_plain(&file(&record)), theirs::sk_plain(&file(&record)), "");
    report.add(
        "zeros, sign",
        ours::sign(Some(&pair.pk), &record, b"", "t", "u"),
        theirs::sign(Some(&pair.pk), &record, b"", "t", "u"),
        "",
    );
    // An encrypted key with another algorithm: the key is decrypted, changed, and XORed again with the bytes derived
    // from the password.
    let opened = ours::opened(&sealed.sk_box, "p");
    let derived: Vec<u8> = opened[54..].iter().zip(&sealed.sk[54..]).map(|(one, another)| one ^ another).collect();
    let encrypted = |mut record: Vec<u8>| {
        record[54..].iter_mut().zip(&derived).for_each(|(byte, other)| *byte ^= other);
        file(&record)
    };
    let mut record = opened.clone();
    record[..2].copy_from_slice(b"XX");
    write_checksum(&mut record);
    let text = encrypted(record);
    report.add("algorithm, sealed", ours::sk_open(&text, "p"), theirs::sk_open(&text, "p"), "");
    report.add(
        "algorithm, sign with the opened key",
        ours::sign_opened(&text, "p"),
        theirs::sign_opened(&text, "p"),
        "",
    );
    let mut record = opened.clone();
    record[126..].fill(0);
    report.add("zeros, opened", ours::sk_bytes(&record), theirs::sk_bytes(&record), "");
    let text = encrypted(record);
    report.add("zeros, sealed", ours::sk_open(&text, "p"), theirs::sk_open(&text, "p"), "");
    // Limits of scrypt: slightly more work than for a key of minisign -G, and limits with which scrypt needs almost no
    // memory.
    for (operations, memory) in [
        ((1_u64 << 25) + (1 << 15), 1_u64 << 20),
        (1 << 63, 0),
        (0, 0),
        (0, u64::MAX),
        (1 << 20, (1 << 32) + (1 << 25)),
    ] {
        let record = [&sealed.sk[..38], &operations.to_le_bytes(), &memory.to_le_bytes(), &sealed.sk[54..]].concat();
        report.add("limits", ours::sk_open(&file(&record), "p"), theirs::sk_open(&file(&record), "p"), "");
    }
    // Comments of secret keys, and long comments.
    let long = [1003, 1004, 8173, 8174].map(|len| "x".repeat(len));
    for comment in ["", " a ", "a\nb", "a\r", "a\0", &long[0], &long[1]] {
        report.add(
            "comment of a secret key",
            ours::sk_comment(&pair.sk, comment),
            theirs::sk_comment(&pair.sk, comment),
            comment,
        );
    }
    for (trusted, untrusted) in [("t", &*long[0]), ("t", &long[1]), (&long[2], "u"), (&long[3], "u")] {
        let sign = |sign: fn(Option<&[u8]>, &[u8], &[u8], &str, &str) -> Outcome| {
            sign(None, &pair.sk, b"", trusted, untrusted)
        };
        report.add("sign", sign(ours::sign), sign(theirs::sign), "a long comment");
    }
    for item in ["PublicKey", "PublicKeyBox", "SecretKey", "SecretKeyBox", "ErrorKind", "PError"] {
        report.add(&format!("Debug of {item}"), ours::debug(&pair, item), theirs::debug(&pair, item), "");
    }
    report.add("text of base64 errors", ours::base64_text(), theirs::base64_text(), "");
}

fn main() {
    std::panic::set_hook(Box::new(|_| {}));
    let words: Vec<u64> = std::env::args().skip(1).map(|word| word.parse().unwrap()).collect();
    let (mut rng, mut report) = (Rng(words[1]), Report::default());
    rare(&mut report);
    let mut pair = theirs::pair(None);
    for number in 0..words[0] as usize {
        if number % 50 == 0 {
            pair = if number % 100 == 0 { ours::pair(None) } else { theirs::pair(None) };
        }
        unencrypted(&mut report, &mut rng, &pair);
        if number % 100 == 0 {
            encrypted(&mut report, &mut rng, number / 100);
        }
    }
    for ((call, ours, theirs), (count, example)) in &report.differences {
        println!("{call}\t{ours}\t{theirs}\t{count}\t{:?}", example.chars().take(300).collect::<String>());
    }
    println!("{} requests, {} accepted by both", report.requests, report.accepted);
}

//! A test program that verifies files with signed lists, with the crate under the name `minisign-verify`.
//! `verify_listed` verifies the file of each case on standard input with each function of the crate, and `entries`
//! prints the entries of each list. `files DIRECTORY` reads lists and files from this directory.
//! `tests/bindings/rust.py` compares the output.

use minisign_verify::{Error, ListEntry, ListError, ListHash, LongDigest, PublicKey, Reason, Signature, SignedList};
use std::io::{self, Read, Write};
use std::process::{Command, Stdio};
use std::{env, fs, path::Path, thread};

fn bytes(digits: &str) -> Vec<u8> {
    let digits = digits.trim_matches('-');
    (0..digits.len()).step_by(2).map(|at| u8::from_str_radix(&digits[at..at + 2], 16).unwrap()).collect()
}

fn hex(bytes: &[u8]) -> String {
    bytes.iter().map(|byte| format!("{byte:02x}")).collect()
}

fn cases() -> Vec<Vec<Vec<u8>>> {
    io::stdin().lines().map(|line| line.unwrap().split(' ').map(bytes).collect()).collect()
}

fn text(bytes: &[u8]) -> &str {
    std::str::from_utf8(bytes).unwrap()
}

fn verified(case: &[Vec<u8>]) -> Result<SignedList, Error> {
    let (key, signature) = (PublicKey::decode(text(&case[0]))?, Signature::decode(text(&case[2]))?);
    let long = match text(&case[4]) {
        "sha512" => LongDigest::default(),
        "blake2b" => LongDigest::Blake2b,
        _ => LongDigest::Rejected,
    };
    key.verify_list(&case[1], &signature, (!case[3].is_empty()).then(|| text(&case[3])), long)
}

/// A reader that returns at most 1,000 bytes at a time.
struct Slow<'a>(&'a [u8]);

impl Read for Slow<'_> {
    fn read(&mut self, to: &mut [u8]) -> io::Result<usize> {
        let len = to.len().min(1000);
        self.0.read(&mut to[..len])
    }
}

/// Returns the digest that a program of coreutils computes.
fn digest_of(hash: ListHash, data: &[u8]) -> Vec<u8> {
    let program = match hash {
        ListHash::Sha256 => "sha256sum",
        ListHash::Sha512 => "sha512sum",
        ListHash::Blake2b => "b2sum",
        other => panic!("no program computes {other:?}"),
    };
    let mut child = Command::new(program).stdin(Stdio::piped()).stdout(Stdio::piped()).spawn().unwrap();
    child.stdin.take().unwrap().write_all(data).unwrap();
    let output = child.wait_with_output().unwrap().stdout;
    bytes(text(&output).split(' ').next().unwrap())
}

fn trusting(list: &SignedList, data: &[u8], name: &str) -> Result<ListEntry, ListError> {
    let hash = list.find(name)?.hash;
    list.verify_listed_trusting_your_hash(name, hash, &digest_of(hash, data))
}

fn answer(list: &SignedList, result: Result<ListEntry, ListError>) -> String {
    match result {
        Ok(entry) => format!("accepted {} {}", hex(list.trusted_comment().as_bytes()), entry.line),
        Err(error) => rejected(&error),
    }
}

fn rejected(error: &ListError) -> String {
    let (reason, line) = (error.error().reason().unwrap(), error.line().unwrap_or(0));
    let prefix = error.line().map(|line| format!("line {line}: ")).unwrap_or_default();
    assert_eq!(error.to_string(), format!("{prefix}{reason}"));
    format!("rejected {reason:?} {line}")
}

fn verify_listed() {
    for case in cases() {
        let list = match verified(&case) {
            Ok(list) => list,
            Err(error) => {
                println!("{}", rejected(&error.into()));
                continue;
            }
        };
        // Names that are not UTF-8 cannot be passed, because a name is a `str`.
        let name = match std::str::from_utf8(&case[5]) {
            Ok(name) => name,
            Err(_) => {
                println!("rejected NOT_UTF8 0");
                continue;
            }
        };
        let answers = [
            answer(&list, list.verify_listed(&case[6], name)),
            answer(&list, list.verify_listed_reader(Slow(&case[6]), name)),
            answer(&list, trusting(&list, &case[6], name)),
        ];
        let is_same = answers.iter().all(|each| *each == answers[0]);
        println!("{}", if is_same { answers[0].clone() } else { format!("differs {answers:?}") });
    }
}

fn entries() {
    for case in cases() {
        let entries = verified(&case).unwrap().entries().unwrap();
        let shown = entries.iter().map(|entry| {
            let hash = format!("{:?}", entry.hash).to_lowercase();
            format!("{} {hash} {} {} {}", entry.line, hex(&entry.digest), hex(entry.name.as_bytes()), entry.is_escaped)
        });
        println!("{}", shown.collect::<Vec<_>>().join(","));
    }
}

fn show(expected: &str, actual: impl std::fmt::Debug) {
    println!("{expected}\t{actual:?}");
}

/// Checks the functions that read files. The directory has a signed list `SUMS` that contains `app`, a copy `OTHER` of
/// the list and its signature, and the public key `a.pub`.
fn files(directory: &Path) {
    let key = PublicKey::from_file(directory.join("a.pub")).unwrap();
    let list = key.verify_list_file(directory.join("SUMS"), LongDigest::Sha512).unwrap();
    show(
        "Ok(1)",
        list.verify_listed_reader(fs::File::open(directory.join("app")).unwrap(), "./app")
            .map(|entry| entry.line)
            .map_err(drop),
    );
    show("Rejected(OTHER_LIST)", key.verify_list_file(directory.join("OTHER"), LongDigest::Sha512).unwrap_err());
    show("true", matches!(key.verify_list_file(directory.join("app"), LongDigest::Sha512), Err(Error::IoError(_))));
    let digest = list.find("app").unwrap().digest;
    let reason = |hash, digest: &[u8]| {
        *list.verify_listed_trusting_your_hash("app", hash, digest).unwrap_err().error().reason().unwrap()
    };
    show("BAD_HASH", reason(ListHash::Sha512, &[0; 64]));
    show("BAD_HASH", reason(ListHash::Sha256, &digest[1..]));
    show("DIGEST_MISMATCH", reason(ListHash::Sha256, &[0; 32]));
    struct Failing;
    impl Read for Failing {
        fn read(&mut self, _: &mut [u8]) -> io::Result<usize> {
            Err(io::ErrorKind::PermissionDenied.into())
        }
    }
    show("true", matches!(list.verify_listed_reader(Failing, "app").unwrap_err().error(), Error::IoError(_)));
    let is_right = thread::scope(|scope| {
        let threads: Vec<_> = (0..8)
            .map(|_| {
                scope.spawn(|| {
                    (0..50).all(|_| {
                        let other = list.verify_listed(b"other", "app").unwrap_err();
                        list.find("app").is_ok() && other.error().reason() == Some(&Reason::DIGEST_MISMATCH)
                    })
                })
            })
            .collect();
        threads.into_iter().all(|thread| thread.join().unwrap())
    });
    show("true", is_right);
    show("true", format!("{list:?}").starts_with("SignedList { trusted_comment: \"version:1"));
}

fn main() {
    match env::args().nth(1).as_deref() {
        Some("verify_listed") => verify_listed(),
        Some("entries") => entries(),
        _ => files(Path::new(&env::args().nth(2).unwrap())),
    }
}

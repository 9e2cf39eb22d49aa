//! A test program that uses the crate under the name `minisign-verify`. It runs the check that its first argument
//! names, most of them on the cases on standard input, and prints the results, which `tests/bindings/rust.py` compares.

use minisign_verify::{
    write_new, Error, Kind, PublicKey, Random, Reason, SchemeError, SecretKey, Sign, Signature, Sodium, UnopenedKey,
    Verify, Work,
};
use std::error::Error as _;
use std::io::Write as _;
use std::{collections::HashSet, env, fs, io, path::Path, process, thread};

fn bytes(digits: &str) -> Vec<u8> {
    let digits = digits.trim_matches('-');
    (0..digits.len()).step_by(2).map(|at| u8::from_str_radix(&digits[at..at + 2], 16).unwrap()).collect()
}

fn hex(bytes: &[u8]) -> String {
    let digits: String = bytes.iter().map(|byte| format!("{byte:02x}")).collect();
    if digits.is_empty() {
        "-".into()
    } else {
        digits
    }
}

fn lines() -> Vec<Vec<Vec<u8>>> {
    io::stdin().lines().map(|line| line.unwrap().split(' ').map(bytes).collect()).collect()
}

/// Parses a text with `decode`, or if it is not UTF-8, writes it to a file and parses that with `from_file`.
fn parse<T>(
    bytes: &[u8],
    decode: fn(&str) -> Result<T, Error>,
    from_file: fn(&Path) -> Result<T, Error>,
) -> Result<T, Error> {
    std::str::from_utf8(bytes).map(decode).unwrap_or_else(|_| {
        let path = env::temp_dir().join(format!("text-of-{}", process::id()));
        fs::write(&path, bytes).unwrap();
        let result = from_file(&path);
        fs::remove_file(path).unwrap();
        result
    })
}

fn parse_case(case: &[Vec<u8>]) -> Result<(PublicKey, Signature), Error> {
    let key = parse(&case[0], PublicKey::decode, |path| PublicKey::from_file(path))?;
    Ok((key, parse(&case[2], Signature::decode, |path| Signature::from_file(path))?))
}

fn verify(case: &[Vec<u8>], allow_legacy: bool) -> Result<String, Error> {
    let (key, signature) = parse_case(case)?;
    key.verify(&case[1], &signature, allow_legacy)?;
    Ok(signature.trusted_comment().into())
}

/// Verifies only the trusted comment, before and after data was added.
fn verify_comment(case: &[Vec<u8>]) -> Result<String, Error> {
    let (key, signature) = parse_case(case)?;
    let mut verifier = key.verify_stream(&signature)?;
    let comment = verifier.trusted_comment().map(String::from);
    verifier.update(b"data");
    assert_eq!(comment.is_ok(), verifier.trusted_comment().is_ok(), "data changes the result for the comment");
    comment
}

/// A reader that returns at most 1,000 bytes at a time, and fails with `Interrupted` before each piece.
struct Slow<'a>(&'a [u8], bool);

impl io::Read for Slow<'_> {
    fn read(&mut self, to: &mut [u8]) -> io::Result<usize> {
        self.1 = !self.1;
        let len = to.len().min(1000);
        if self.1 {
            Err(io::ErrorKind::Interrupted.into())
        } else {
            self.0.read(&mut to[..len])
        }
    }
}

/// A reader that fails.
struct Failing;

impl io::Read for Failing {
    fn read(&mut self, _: &mut [u8]) -> io::Result<usize> {
        Err(io::ErrorKind::BrokenPipe.into())
    }
}

/// Verifies the data of a reader, and checks the progress that is reported.
fn verify_reader(case: &[Vec<u8>]) -> Result<String, Error> {
    let (key, signature) = parse_case(case)?;
    let mut verifier = key.verify_stream(&signature)?;
    let mut reported = vec![0];
    verifier.update_from(Slow(&case[1], false), |bytes| reported.push(bytes))?;
    let grows = reported.windows(2).all(|two| two[0] < two[1] && two[1] <= two[0] + 1000);
    assert!(grows && reported.last() == Some(&(case[1].len() as u64)), "wrong progress: {reported:?}");
    assert!(verifier.update_from(Failing, |_| ()).is_err(), "the error of a reader is lost");
    verifier.finalize().map(|()| signature.trusted_comment().into())
}

/// Verifies data in pieces of this length, or for 0, of lengths that grow by 1.
fn verify_in_pieces(case: &[Vec<u8>], len: usize) -> Result<String, Error> {
    let (key, signature) = parse_case(case)?;
    let mut verifier = key.verify_stream(&signature)?;
    let (mut rest, mut next) = (&case[1][..], len.max(1));
    while !rest.is_empty() {
        let (piece, later) = rest.split_at(next.min(rest.len()));
        // Continue with a copy. Data that is added to the original must not affect it.
        let copy = verifier.clone();
        verifier.update(b"other data");
        verifier = copy;
        verifier.update(piece);
        rest = later;
        next += usize::from(len == 0);
    }
    let verdict = verifier.finalize();
    verifier.update(b"more");
    assert!(verifier.finalize().is_err(), "finalize succeeds a second time");
    verdict.map(|()| signature.trusted_comment().into())
}

/// Returns the key IDs of a key and of a signature, and true if the signature is legacy. Nothing is verified.
fn fields(case: &[Vec<u8>]) -> Result<String, Error> {
    let (key, signature) = parse_case(case)?;
    let ids = format!("{} {}", hex(key.key_id()), hex(signature.key_id()));
    Ok(format!("{ids} {} {} {}", key.key_id_text(), signature.key_id_text(), signature.is_legacy()))
}

fn answer(verdict: Result<String, Error>) -> String {
    match verdict {
        Ok(comment) => format!("accepted {}", hex(comment.as_bytes())),
        Err(error) => {
            let source = error.source().and_then(|source| source.downcast_ref::<Reason>());
            let is_of_file =
                matches!(&error, Error::IoError(_)) && error.source().map_or(false, |source| source.is::<io::Error>());
            assert!(is_of_file || error.reason() == source, "the source is {source:?}, not the reason");
            format!("rejected {error:?} {}: {error}", error.reason().map_or(0, |reason| reason.code()))
                .replace('\n', " ")
        }
    }
}

/// Returns the number of pages of this program that are in memory.
fn pages() -> i64 {
    fs::read_to_string("/proc/self/statm").unwrap().split(' ').nth(1).unwrap().parse().unwrap()
}

/// Verifies valid and invalid cases, at once and in pieces, and signs, `count` times in all. Returns by how many pages
/// the memory grows after the first tenth of these calls.
fn growth(cases: &[Vec<Vec<u8>>], count: usize) -> i64 {
    let key = SecretKey::generate(&Sodium).unwrap();
    let mut early = 0;
    for number in 0..count {
        let case = &cases[number / 3 % cases.len()];
        let _ = match number % 3 {
            0 => verify(case, true),
            1 => verify_in_pieces(case, 7000),
            _ => key.sign(&Sodium, &case[1], "a comment", "another").map(|signature| signature.to_string()),
        };
        if number == count / 10 {
            early = pages();
        }
    }
    pages() - early
}

/// Verifies all cases in concurrent threads with the same keys and signatures. Returns true if each thread gets the
/// same results as a single thread.
fn is_same_in_threads(cases: &[Vec<Vec<u8>>]) -> bool {
    let shared: Vec<_> = cases
        .iter()
        .filter_map(|case| parse_case(case).ok().map(|(key, signature)| (key, signature, &case[1])))
        .collect();
    let answers = || -> Vec<String> {
        let verdict = |(key, signature, data): &(PublicKey, Signature, &Vec<u8>)| {
            key.verify(data, signature, true).map(|()| signature.trusted_comment().into())
        };
        shared.iter().map(|case| answer(verdict(case))).collect()
    };
    let expected = answers();
    let secret = SecretKey::generate(&Sodium).unwrap();
    thread::scope(|scope| {
        let threads: Vec<_> = (0..8)
            .map(|number| {
                let (secret, answers, expected) = (&secret, &answers, &expected);
                scope.spawn(move || {
                    let signature = secret.sign(&Sodium, &[number], "c", "u").unwrap();
                    secret.public_key().unwrap().verify(&[number], &signature, false).is_ok()
                        && (0..20).all(|_| answers() == *expected)
                })
            })
            .collect();
        threads.into_iter().all(|thread| thread.join().unwrap())
    })
}

/// Writes a key pair into a directory. With a password, the key is encrypted with the lowest limits.
fn make(directory: &str, password: Option<&str>) -> Result<(), Error> {
    let key = SecretKey::generate(&Sodium)?;
    let work = Work::new(524288, 1 << 24);
    let text = key.encode(&Sodium, password, &work)?;
    assert_eq!(
        password.is_some(),
        text != key.encode(&Sodium, password, &work)?,
        "two encrypted key files have the same salt"
    );
    fs::write(format!("{directory}/secret"), text.as_bytes()).unwrap();
    fs::write(format!("{directory}/public"), key.public_key_text()?).unwrap();
    Ok(())
}

/// Signs a file in three ways, which must give the same signature, writes the signature, and verifies it.
fn sign(key: &str, data: &str, to: &str, comment: &str, password: Option<&str>) -> Result<(), Error> {
    let key = SecretKey::from_file(key, password, &Work::USUAL.keep_every(16))?;
    let from_file = key.sign_file(&Sodium, data, comment, "from a program in Rust")?;
    let data = fs::read(data)?;
    let mut signer = key.sign_stream(&Sodium);
    data.chunks(1000).for_each(|piece| signer.update(piece));
    let in_pieces = signer.finalize(comment, "from a program in Rust")?;
    let at_once = key.sign(&Sodium, &data, comment, "from a program in Rust")?;
    assert_eq!(in_pieces, at_once, "signing in pieces gives another signature");
    assert_eq!(from_file, at_once, "signing a file gives another signature");
    fs::write(to, in_pieces.to_string())?;
    let signature = Signature::from_file(to)?;
    assert_eq!(
        (signature.trusted_comment(), signature.untrusted_comment()),
        (comment, "untrusted comment: from a program in Rust")
    );
    key.public_key()?.verify(&data, &signature, false)
}

/// Returns `weak` for a key that is encrypted with limits below the minimum, otherwise `strong`.
fn strength(key: &str, password: Option<&str>) -> Result<&'static str, Error> {
    Ok(if SecretKey::from_file(key, password, &Work::USUAL)?.is_weak() { "weak" } else { "strong" })
}

/// Encrypts a key with these limits.
fn encrypt(operations: &str, memory: &str) -> Result<(), Error> {
    let work = Work::new(operations.parse().unwrap(), memory.parse().unwrap());
    let key = SecretKey::generate(&Sodium)?;
    key.encode(&Sodium, None, &work)?;
    key.encode(&Sodium, Some("pass word"), &work).map(|_| ())
}

/// Checks that `Debug` prints nothing secret. Prints pairs of the expected and the actual output.
fn shown() {
    let key = SecretKey::generate(&Sodium).unwrap();
    let signature = key.sign(&Sodium, b"data", "c", "u").unwrap();
    let public_key = key.public_key().unwrap();
    assert_eq!(format!("{key:?}"), format!("SecretKey({})", public_key.key_id_text()));
    let signer = key.sign_stream(&Sodium);
    let verifier = public_key.verify_stream(&signature).unwrap();
    let shown = [
        format!("{signer:?}"),
        format!("{verifier:?}"),
        format!("{:?}", signer.clone()),
        format!("{:?}", Sodium.clone()),
    ];
    for (expected, shown) in ["Signer", "StreamVerifier", "Signer", "Sodium"].iter().zip(shown) {
        println!("{expected}\t{}", shown.split(&[' ', '('][..]).next().unwrap());
    }
    println!("WRONG_PASSWORD Reason(77)\t{:?} {:?}", Reason::WRONG_PASSWORD, Reason::from_code(77));
    println!("WRONG_PASSWORD\t{}", Reason::WRONG_PASSWORD.name());
}

/// An Ed25519 implementation whose functions fail, except those that the flags enable.
struct Broken {
    fills: bool,
    expands: bool,
}

fn failing<T>(what: &'static str) -> Result<T, SchemeError> {
    Err(SchemeError::new(what))
}

impl Verify for Broken {
    fn verify(&self, signature: &[u8; 64], message: &[u8], key: &[u8; 32]) -> Result<(), SchemeError> {
        Sodium.verify(signature, message, key)
    }
}

impl Sign for Broken {
    fn sign(&self, _: &[u8], _: &[u8; 64]) -> Result<[u8; 64], SchemeError> {
        failing("no hardware key")
    }
    fn expand(&self, seed: &[u8; 32], secret: &mut [u8; 64]) -> Result<(), SchemeError> {
        if self.expands {
            Sodium.expand(seed, secret)
        } else {
            failing("no curve")
        }
    }
}

impl Random for Broken {
    fn fill(&self, bytes: &mut [u8]) -> Result<(), SchemeError> {
        if self.fills {
            Sodium.fill(bytes)
        } else {
            failing("no randomness")
        }
    }
}

/// Prints the expected value, a tab, and the actual value.
fn print_pair(expected: impl std::fmt::Display, actual: impl std::fmt::Debug) {
    println!("{expected}\t{actual:?}");
}

/// Checks what the types promise to a Rust program. Prints pairs of the expected and the actual output.
fn types() {
    let key = SecretKey::generate(&Sodium).unwrap();
    let public = key.public_key().unwrap();
    let from_file = PublicKey::decode(&key.public_key_text().unwrap()).unwrap();
    print_pair(true, from_file == public && from_file.untrusted_comment() != public.untrusted_comment());
    print_pair(1, HashSet::from([from_file.clone(), public.clone()]).len());
    print_pair("Equal", from_file.cmp(&public));
    print_pair(false, public == SecretKey::generate(&Sodium).unwrap().public_key().unwrap());
    // If an Ed25519 function fails, this is reported as such, and not as an invalid signature.
    print_pair(
        "Some(Scheme(SchemeError(\"no curve\")))",
        SecretKey::generate(&Broken { fills: true, expands: false }).err(),
    );
    print_pair(
        "Some(Rejected(RANDOM_SOURCE_FAILED))",
        SecretKey::generate(&Broken { fills: false, expands: true }).err(),
    );
    let broken = Broken { fills: true, expands: true };
    let error = key.sign(&broken, b"data", "c", "u").unwrap_err();
    print_pair(
        "Scheme(SchemeError(\"no hardware key\")) no hardware key None true".replace(' ', "_"),
        Unquoted(
            format!(
                "{error:?} {error} {:?} {}",
                error.reason(),
                error.source().map_or(false, |source| source.is::<SchemeError>())
            )
            .replace(' ', "_"),
        ),
    );
    // Streams are writers.
    let mut signer = key.sign_stream(&Sodium);
    signer.write_all(b"some ").unwrap();
    signer.write_all(b"data").unwrap();
    let signature = signer.finalize("c", "u").unwrap();
    print_pair(true, signature == key.sign(&Sodium, b"some data", "c", "u").unwrap());
    for (data, expected) in [("some data", "Ok(())"), ("Some data", "Err(InvalidSignature(SIGNATURE_REFUSED))")] {
        let mut verifier = public.verify_stream(&signature).unwrap();
        assert_eq!(io::copy(&mut data.as_bytes(), &mut verifier).unwrap(), 9);
        print_pair(expected, verifier.finalize());
        print_pair("Other", verifier.write(b"more").map_err(|error| error.kind()).unwrap_err());
    }
    // A signature without comments.
    let bare = signature.to_bare();
    print_pair(
        true,
        bare.to_record()[..] == signature.to_record()[..]
            && minisign_verify::BareSignature::from_record(&bare.to_record()).unwrap() == bare,
    );
    print_pair("Ok(())", public.verify_bare_with(&Sodium, b"some data", &bare, false));
    print_pair(
        "Err(InvalidSignature(SIGNATURE_REFUSED))",
        public.verify_bare_with(&Sodium, b"Some data", &bare, false),
    );
    let mut verifier = public.verify_bare_stream_with(&Sodium, &bare).unwrap();
    verifier.update(b"some data");
    print_pair(true, verifier.trusted_comment().is_err());
    print_pair("Ok(())", verifier.finalize());
    print_pair("Some(InvalidEncoding(RECORD_TOO_SHORT))", minisign_verify::BareSignature::from_record(&[0; 73]).err());
    print_pair("Some(UnsupportedAlgorithm)", minisign_verify::BareSignature::from_record(&[0; 74]).err());
    let secret = key.to_record().unwrap()[62..126].try_into().unwrap();
    let legacy = [b"Ed", &key.key_id()[..], &Sodium.sign(b"some data", &secret).unwrap()].concat();
    let legacy = minisign_verify::BareSignature::from_record(&legacy).unwrap();
    print_pair(true, legacy.is_legacy() && !bare.is_legacy());
    print_pair("Ok(())", public.verify_bare_with(&Sodium, b"some data", &legacy, true));
    print_pair(
        "Err(InvalidSignature(SIGNATURE_REFUSED))",
        public.verify_bare_with(&Sodium, b"Some data", &legacy, true),
    );
    print_pair("Err(UnexpectedAlgorithm)", public.verify_bare_with(&Sodium, b"some data", &legacy, false));
    print_pair("Some(UnsupportedLegacyMode)", public.verify_bare_stream_with(&Sodium, &legacy).err());
    let mut password = String::from("pass word").into_bytes();
    minisign_verify::clear(&mut password);
    print_pair("[0, 0, 0, 0, 0, 0, 0, 0, 0]", password);
    // Records and comments.
    print_pair(
        true,
        PublicKey::from_record(&public.to_record()).unwrap() == public
            && PublicKey::from_base64(&public.to_base64()).unwrap() == public,
    );
    print_pair("Some(InvalidEncoding(RECORD_TOO_SHORT))", PublicKey::from_record(&[0; 41]).err());
    let text = public.encode("my key").unwrap();
    print_pair(true, text.starts_with("untrusted comment: my key\n") && PublicKey::decode(&text).unwrap() == public);
    print_pair("Err(Rejected(BAD_COMMENT))", public.encode("my\nkey"));
    let record = key.to_record().unwrap();
    let unopened = UnopenedKey::from_record(&*record).unwrap();
    print_pair(
        true,
        unopened.to_record() == record && unopened.open(None, &Work::USUAL).unwrap().public_key().unwrap() == public,
    );
    print_pair(
        "false Err(Rejected(KEY_NOT_SEALED))".replace(' ', "_"),
        Unquoted(format!("{} {:?}", unopened.is_encrypted(), unopened.check(&Work::USUAL)).replace(' ', "_")),
    );
    let text = unopened.encode("my secret").unwrap();
    print_pair(
        true,
        text.starts_with("untrusted comment: my secret\n") && UnopenedKey::decode(&text).unwrap().to_record() == record,
    );
    print_pair("Some(Rejected(BAD_COMMENT))", unopened.encode("my\nsecret").err());
    let limits = Work::new(524288, 1 << 24);
    let sealed = key.encode_with_comment(&Sodium, Some("pass word"), &limits, "sealed").unwrap();
    let unopened = UnopenedKey::decode(&sealed).unwrap();
    print_pair(
        true,
        sealed.starts_with("untrusted comment: sealed\n")
            && unopened.is_encrypted()
            && unopened.check(&Work::USUAL).is_ok(),
    );
    print_pair("Err(Rejected(WORK_TOO_HIGH))", unopened.check(&Work::USUAL.most_rows((1 << 14) - 1)));
    print_pair("Ok(())", unopened.check(&Work::USUAL.most_rows(1 << 14)));
    print_pair("Some(Rejected(EMPTY_PASSWORD))", key.encode(&Sodium, Some(""), &limits).err());
    let empty = key.encode(&Sodium, Some(""), &limits.allow_empty_password(true)).unwrap();
    print_pair(true, SecretKey::decode(&empty, Some(""), &Work::USUAL).unwrap().key_id() == public.key_id());
    let reasons =
        [Reason::SIGNATURE_REFUSED, Reason::MISSING_SIGNATURE, Reason::WORK_TOO_HIGH, Reason::BAD_COMMENT, Reason::OK];
    print_pair("[Verify, Io, Kdf, Misuse, None]", reasons.map(Reason::kind));
    let reasons = [
        Reason::NOT_UTF8,
        Reason::SECRET_KEY_NOT_BASE64,
        Reason::RANDOM_SOURCE_FAILED,
        Reason::OUT_OF_MEMORY,
        Reason::from_code(99),
    ];
    print_pair("[Io, Encoding, Rng, OutOfMemory, None]", reasons.map(Reason::kind));
    let _: Kind = Reason::OK.kind();
}

/// A text whose `Debug` output has no quotes.
struct Unquoted(String);

impl std::fmt::Debug for Unquoted {
    fn fmt(&self, f: &mut std::fmt::Formatter) -> std::fmt::Result {
        f.write_str(&self.0)
    }
}

fn main() {
    let words: Vec<String> = env::args().skip(1).collect();
    let words: Vec<&str> = words.iter().map(String::as_str).collect();
    match words[..] {
        ["verify"] => lines().iter().for_each(|case| println!("{}", answer(verify(case, true)))),
        ["strict"] => lines().iter().for_each(|case| println!("{}", answer(verify(case, false)))),
        ["pieces", len] => {
            let len = len.parse().unwrap();
            lines().iter().for_each(|case| println!("{}", answer(verify_in_pieces(case, len))));
        }
        ["comment"] => lines().iter().for_each(|case| println!("{}", answer(verify_comment(case)))),
        ["reader"] => lines().iter().for_each(|case| println!("{}", answer(verify_reader(case)))),
        ["shown"] => shown(),
        ["types"] => types(),
        ["read"] => {
            lines().iter().for_each(|case| println!("{}", fields(case).unwrap_or_else(|error| error.to_string())))
        }
        ["accepts"] => {
            for vector in lines() {
                let (key, signature) = (vector[0][..].try_into().unwrap(), vector[2][..].try_into().unwrap());
                println!("{}", Sodium.verify(&signature, &vector[1], &key).is_ok());
            }
        }
        ["growth", count] => println!("{}", growth(&lines(), count.parse().unwrap())),
        ["threads"] => println!("{}", is_same_in_threads(&lines())),
        ["bare", base64] => {
            let key = PublicKey::from_base64(base64);
            println!("{:?}", key.map(|key| key.untrusted_comment().map(String::from)));
        }
        ["strength", key] => println!("{}", strength(key, None).unwrap()),
        ["strength", key, password] => println!("{}", strength(key, Some(password)).unwrap()),
        ["encrypt", operations, memory] => match encrypt(operations, memory) {
            Err(weak @ Error::WeakLimits) => {
                println!(
                    "WEAK_LIMITS{}",
                    if weak.to_string().contains("limits") { "" } else { ", but the message does not name the limits" }
                )
            }
            other => println!("{other:?}"),
        },
        ["write", path, text] => println!("{:?}", write_new(path, text)),
        ["key_ids", key] => {
            let key = SecretKey::from_file(key, None, &Work::USUAL).unwrap();
            println!("{} {}", key.key_id_text(), key.public_key().unwrap().key_id_text());
            print!("{}", key.public_key_text().unwrap());
        }
        ["make", directory] => println!("{:?}", make(directory, None)),
        ["make", directory, password] => println!("{:?}", make(directory, Some(password))),
        ["sign", key, data, to, comment] => println!("{:?}", sign(key, data, to, comment, None)),
        ["sign", key, data, to, comment, password] => println!("{:?}", sign(key, data, to, comment, Some(password))),
        _ => panic!("unknown arguments {words:?}"),
    }
}

//! Checks that each public item of the crate minisign 0.10 exists here with the same type (`types`, which only has to
//! compile) and the same behaviour. `interface DIRECTORY STEP` runs the checks of one step, with files in an empty
//! directory, and panics if one fails.

use minisign::*;
use std::error::Error as StdError;
use std::fmt::{Debug, Display};
use std::io::{self, Cursor, Read, Seek, SeekFrom, Write};
use std::panic::{catch_unwind, AssertUnwindSafe};
use std::path::Path;

const KEY: &str = "RWQf6LRCGA9i53mlYecO4IzT51TGPpvWucNSCh1CBM0QTaLn73Y7GFO3";
// The legacy signature of "test" that the crate minisign-verify publishes.
const LEGACY: &str = "untrusted comment: signature from minisign secret key
RWQf6LRCGA9i59SLOFxz6NxvASXDJeRtuZykwQepbDEGt87ig1BNpWaVWuNrm73YiIiJbq71Wi+dP9eKL8OC351vwIasSSbXxwA=
trusted comment: timestamp:1555779966\tfile:test
QtKMXWyYcwdpZAlPF7tE2ENJkRd1ujvKjlj1m9RtHTBnZPa5WKU5uWRs5GoP5M/VqE81QFuMKI5k/SfNQUaOAA==
";
const PREHASHED: &str = "untrusted comment: signature from minisign secret key
RUQf6LRCGA9i559r3g7V1qNyJDApGip8MfqcadIgT9CuhV3EMhHoN1mGTkUidF/z7SrlQgXdy8ofjb7bNJJylDOocrCo8KLzZwo=
trusted comment: timestamp:1556193335\tfile:test
y/rUw2y8/hOUYjZU71eHp/Wo1KZ40fGy2VJEDl34XMJM+TX48Ss/17u3IvIfbVR1FkZZSNCisQbuQY+bHwhEBg==
";

// A secret key with the unknown algorithm `XX` and a correct checksum, encrypted with the password `p`; and its public
// key, with `Ed`.
const OTHER_ALGORITHM: &str = "untrusted comment: rsign encrypted secret key
WFhTY0IyIUmKmrROCcev0qEoVqPJFIpZNBnnO9n4T+DVxB7Q2O0AABAAAAAAAAAAAAIAAAAAyI4sbgHgFNO5V8XexgeqzFtloF2Jpufc9X2Du2cB9B0CA8dxiVMSzDZ+Y/k2koyzIwiAgXZlyoMevrX4HJXFPjYbC7ygHuznPoR92E1vWSZY6J/wXf9oDhQ3QclbGVU0gHvwfJrFqmw=
";
const KEY_OF_OTHER_ALGORITHM: &str = "RWQJzgoKhCRy0x7LMyJaDMNK8D8Z0BCZ/tIae/w4+tr31iTj4szjeVPj";

fn implements_display<T: Debug + Display + Send + Sync + 'static>() {}
fn implements_sync<T: Send + Sync + 'static>() {}
fn implements_clone<T: Clone>() {}

/// Compiles only if each function, conversion and trait has the same type as in the crate minisign.
#[allow(dead_code)]
fn types() {
    type File = Cursor<&'static [u8]>;
    let _: fn(Option<&PublicKey>, &SecretKey, File, Option<&str>, Option<&str>) -> Result<SignatureBox> = sign;
    let _: fn(&PublicKey, &SignatureBox, File, bool, bool, bool) -> Result<()> = verify;
    let _: fn() -> Result<KeyPair> = KeyPair::generate_unencrypted_keypair;
    let _: fn(Option<String>) -> Result<KeyPair> = KeyPair::generate_encrypted_keypair;
    let _: fn(Vec<u8>, Vec<u8>, Option<&str>, Option<String>) -> Result<KeyPair> =
        KeyPair::generate_and_write_encrypted_keypair;
    let _: fn(Vec<u8>, Vec<u8>) -> Result<KeyPair> = KeyPair::generate_and_write_unencrypted_keypair;
    let _: fn(&PublicKey) -> &[u8] = PublicKey::keynum;
    let _: fn(&[u8]) -> Result<PublicKey> = PublicKey::from_bytes;
    let _: fn(&SecretKey) -> Result<PublicKey> = PublicKey::from_secret_key;
    let _: fn(&PublicKey) -> Vec<u8> = PublicKey::to_bytes;
    let _: fn(PublicKeyBox) -> Result<PublicKey> = PublicKey::from_box;
    let _: fn(&PublicKey) -> Result<PublicKeyBox> = PublicKey::to_box;
    let _: fn(&str) -> Result<PublicKey> = PublicKey::from_base64;
    let _: fn(&PublicKey) -> String = PublicKey::to_base64;
    let _: fn(&'static Path) -> Result<PublicKey> = PublicKey::from_file;
    let _: fn(&str) -> Result<PublicKeyBox> = PublicKeyBox::from_string;
    let _: fn(PublicKeyBox) -> String = PublicKeyBox::into_string;
    let _: fn(PublicKeyBox) -> Result<PublicKey> = PublicKeyBox::into_public_key;
    let _: fn(&PublicKeyBox) -> Vec<u8> = PublicKeyBox::to_bytes;
    let _: fn(PublicKeyBox) -> String = From::from;
    let _: fn(String) -> PublicKeyBox = From::from;
    let _: fn(PublicKeyBox) -> PublicKey = From::from;
    let _: fn(&SecretKey) -> &[u8] = SecretKey::keynum;
    let _: fn(&SecretKey) -> bool = SecretKey::is_encrypted;
    let _: fn(&[u8]) -> Result<SecretKey> = SecretKey::from_bytes;
    let _: fn(&SecretKey) -> Vec<u8> = SecretKey::to_bytes;
    let _: fn(SecretKeyBox, Option<String>) -> Result<SecretKey> = SecretKey::from_box;
    let _: fn(SecretKeyBox) -> Result<SecretKey> = SecretKey::from_unencrypted_box;
    let _: fn(&SecretKey, Option<&str>) -> Result<SecretKeyBox> = SecretKey::to_box;
    let _: fn(&'static Path, Option<String>) -> Result<SecretKey> = SecretKey::from_file;
    let _: fn(&str) -> Result<SecretKeyBox> = SecretKeyBox::from_string;
    let _: fn(SecretKeyBox) -> String = SecretKeyBox::into_string;
    let _: fn(SecretKeyBox, Option<String>) -> Result<SecretKey> = SecretKeyBox::into_secret_key;
    let _: fn(SecretKeyBox) -> Result<SecretKey> = SecretKeyBox::into_unencrypted_secret_key;
    let _: fn(&SecretKeyBox) -> Vec<u8> = SecretKeyBox::to_bytes;
    let _: fn(SecretKeyBox) -> String = From::from;
    let _: fn(String) -> SecretKeyBox = From::from;
    let _: fn(&SignatureBox) -> bool = SignatureBox::is_prehashed;
    let _: fn(&SignatureBox) -> Result<String> = SignatureBox::untrusted_comment;
    let _: fn(&SignatureBox) -> Result<String> = SignatureBox::trusted_comment;
    let _: fn(&SignatureBox) -> &[u8] = SignatureBox::keynum;
    let _: fn(&str) -> Result<SignatureBox> = SignatureBox::from_string;
    let _: fn(&SignatureBox) -> String = SignatureBox::to_string;
    let _: fn(SignatureBox) -> String = SignatureBox::into_string;
    let _: fn(&SignatureBox) -> Vec<u8> = SignatureBox::to_bytes;
    let _: fn(&'static Path) -> Result<SignatureBox> = SignatureBox::from_file;
    let _: fn(SignatureBox) -> String = From::from;
    let _: fn(String) -> SignatureBox = From::from;
    let _: fn(&SignatureBones) -> bool = SignatureBones::is_prehashed;
    let _: fn(&[u8]) -> Result<SignatureBones> = SignatureBones::from_bytes;
    let _: fn(&SignatureBones) -> Vec<u8> = SignatureBones::to_bytes;
    let _: fn(SignatureBones) -> SignatureBox = From::from;
    let _: fn(SignatureBox) -> SignatureBones = From::from;
    let _: fn(ErrorKind, &'static str) -> PError = PError::new;
    let _: fn(ErrorKind, String) -> PError = PError::new;
    let _: fn(ErrorKind, io::Error) -> PError = PError::new;
    let _: fn(&PError) -> &ErrorKind = PError::kind;
    let _: fn(&PError) -> ! = PError::exit;
    let _: fn(io::Error) -> PError = From::from;
    let _: fn(std::fmt::Error) -> PError = From::from;
    let _: fn(std::string::FromUtf8Error) -> PError = From::from;
    let _: std::result::Result<u8, PError> = Result::<u8>::Ok(1);
    implements_display::<PError>();
    implements_display::<PublicKeyBox>();
    implements_sync::<(KeyPair, SecretKeyBox, SignatureBox, SignatureBones, PublicKey)>();
    implements_clone::<(KeyPair, PublicKey, PublicKeyBox, SecretKey, SecretKeyBox, SignatureBox, SignatureBones)>();
    let _ = |key: &PublicKey, other: &PublicKey, error: &dyn StdError| (key == other, error.source().is_some());
    let KeyPair { pk: PublicKey { .. }, sk: SecretKey { .. } } = KeyPair::generate_unencrypted_keypair().unwrap();
}

fn data() -> Cursor<&'static [u8]> {
    Cursor::new(b"test")
}

fn fails<T>(result: Result<T>, kind: ErrorKind, text: &str) {
    let error = result.err().expect(text);
    assert_eq!((*error.kind(), error.to_string()), (kind, text.to_string()));
}

fn constants() {
    let names = [
        DEFAULT_COMMENT,
        SIG_DEFAULT_CONFIG_DIR_ENV_VAR,
        SIG_DEFAULT_CONFIG_DIR,
        SIG_DEFAULT_PKFILE,
        SIG_DEFAULT_SKFILE,
        SIG_SUFFIX,
    ];
    assert_eq!(
        names,
        ["signature from rsign secret key", "RSIGN_CONFIG_DIR", ".rsign", "rsign.pub", "rsign.key", ".minisig"]
    );
    assert_eq!(SignatureBones::BYTES, 74);
}

fn errors() {
    use ErrorKind::*;
    let names = [
        (Generate, "generate error"),
        (Sign, "sign error"),
        (Verify, "verify error"),
        (Io, "io error"),
        (Misc, "misc error"),
        (Hash, "hash error"),
        (KDF, "key derivation error"),
        (RNG, "random number generator error"),
        (Encoding, "encoding error"),
        (EncryptedKey, "encrypted key error"),
    ];
    for (kind, name) in names {
        let error = PError::new(kind, "a text");
        #[allow(deprecated)]
        let description = error.description();
        assert_eq!((*error.kind(), description, error.to_string()), (kind, name, "a text".to_string()));
    }
    let missing = std::fs::read("no such file").unwrap_err();
    let text = missing.to_string();
    fails(Err::<(), _>(PError::from(missing)), Io, &text);
    fails(Err::<(), _>(PError::from(std::fmt::Error)), Io, &std::fmt::Error.to_string());
    let utf8 = String::from_utf8(vec![0xff]).unwrap_err();
    let text = utf8.to_string();
    fails(Err::<(), _>(PError::from(utf8)), Encoding, &text);
}

fn public_keys(directory: &str) {
    let key = PublicKey::from_base64(KEY).unwrap();
    let text = format!("untrusted comment: minisign public key: E7620F1842B4E81F\n{KEY}\n");
    assert_eq!(key.to_base64(), KEY);
    assert_eq!(key.keynum(), [0x1f, 0xe8, 0xb4, 0x42, 0x18, 0x0f, 0x62, 0xe7]);
    assert_eq!(key.to_box().unwrap().to_string(), text);
    let key_box = PublicKeyBox::from_string(&text).unwrap();
    assert_eq!(
        (key_box.to_bytes(), key_box.clone().into_string(), String::from(key_box.clone())),
        (text.clone().into_bytes(), text.clone(), text.clone())
    );
    let path = format!("{directory}/key.pub");
    std::fs::write(&path, &text).unwrap();
    let keys = [
        key_box.clone().into_public_key().unwrap(),
        PublicKey::from_box(key_box.clone()).unwrap(),
        key_box.into(),
        PublicKey::from_file(path).unwrap(),
        PublicKey::from_bytes(&key.to_bytes()).unwrap(),
        PublicKey::from_bytes(&[key.to_bytes(), vec![1]].concat()).unwrap(),
    ];
    assert!(keys.iter().all(|each| *each == key && each.keynum() == key.keynum()));
    let mut bytes = key.to_bytes();
    assert_eq!((bytes.len(), &bytes[..2], &bytes[2..10]), (42, &b"Ed"[..], key.keynum()));
    bytes[2] ^= 1;
    let renamed = PublicKey::from_bytes(&bytes).unwrap();
    assert!(renamed == key && renamed.keynum() != key.keynum(), "keys with different key IDs are equal");
    bytes[10] ^= 1;
    assert!(PublicKey::from_bytes(&bytes).unwrap() != key);
    fails(PublicKey::from_bytes(&bytes[..41]), ErrorKind::Io, "failed to fill whole buffer");
    fails(PublicKeyBox::from_string("").unwrap().into_public_key(), ErrorKind::Io, "Missing comment in public key");
    fails(
        PublicKeyBox::from_string("c\n").unwrap().into_public_key(),
        ErrorKind::Io,
        "Missing encoded key in public key",
    );
    fails(
        PublicKeyBox::from_string("c\nabc").unwrap().into_public_key(),
        ErrorKind::Io,
        "Base64 conversion failed - was an actual public key given?",
    );
    fails(PublicKey::from_base64("abc"), ErrorKind::Io, "base64 conversion failed - was an actual public key given?");
    assert!(catch_unwind(|| PublicKey::from(PublicKeyBox::from(String::from("c")))).is_err());
    assert!(PublicKey::from_file(format!("{directory}/none")).is_err());
    let pair = KeyPair::generate_unencrypted_keypair().unwrap();
    let made = PublicKey::from_secret_key(&pair.sk).unwrap();
    assert!(made == pair.pk && made.to_bytes() == pair.pk.to_bytes());
}

fn secret_keys(directory: &str) {
    let password = || Some("pass word".to_string());
    let KeyPair { pk, sk } = KeyPair::generate_encrypted_keypair(password()).unwrap();
    assert!(sk.is_encrypted() && sk.keynum() != pk.keynum());
    let text = sk.to_box(None).unwrap().to_string();
    assert!(
        text.starts_with("untrusted comment: rsign encrypted secret key\nRWRTY0Iy")
            && text.ends_with('\n')
            && text.lines().count() == 2
    );
    let record = sk.to_bytes();
    assert_eq!((record.len(), &record[..6]), (158, &b"EdScB2"[..]));
    assert_eq!(record[38..54], [(1_u64 << 20).to_le_bytes(), (1_u64 << 25).to_le_bytes()].concat());
    assert!(SecretKey::from_bytes(&record).unwrap() == sk);
    assert_eq!(SecretKey::from_bytes(&record).unwrap().to_bytes(), record);
    let path = format!("{directory}/key");
    std::fs::write(&path, &text).unwrap();
    let key_box = SecretKeyBox::from_string(&text).unwrap();
    assert_eq!(
        (key_box.to_bytes(), key_box.clone().into_string(), String::from(key_box.clone())),
        (text.clone().into_bytes(), text.clone(), text.clone())
    );
    for opened in [
        key_box.clone().into_secret_key(password()),
        SecretKey::from_box(key_box.clone(), password()),
        SecretKey::from_file(&path, password()),
    ] {
        let opened = opened.unwrap();
        assert!(
            !opened.is_encrypted()
                && opened.keynum() == pk.keynum()
                && PublicKey::from_secret_key(&opened).unwrap() == pk
        );
        assert_eq!(
            opened.to_bytes()[..54],
            record[..54],
            "the record of a decrypted key still has the key derivation, the salt and the limits"
        );
        assert!(SecretKey::from_bytes(&opened.to_bytes()).unwrap() == opened && opened != sk);
    }
    // A key with an unknown algorithm can be decrypted and signs. Its record then has the algorithm `Ed`.
    let other = SecretKeyBox::from_string(OTHER_ALGORITHM).unwrap().into_secret_key(Some("p".into())).unwrap();
    assert_eq!((&other.to_bytes()[..4], other.is_encrypted()), (&b"EdSc"[..], false));
    let key = PublicKey::from_base64(KEY_OF_OTHER_ALGORITHM).unwrap();
    verify(&key, &sign(Some(&key), &other, data(), None, None).unwrap(), data(), true, false, false).unwrap();
    let wrong = key_box.clone().into_secret_key(Some("password".into()));
    fails(wrong, ErrorKind::Verify, "Wrong password for that key");
    fails(key_box.clone().into_unencrypted_secret_key(), ErrorKind::Io, "Key might be encrypted");
    let plain = KeyPair::generate_unencrypted_keypair().unwrap();
    assert!(!plain.sk.is_encrypted());
    let plain_box = plain.sk.to_box(Some("my comment")).unwrap();
    assert!(plain_box.to_string().starts_with("untrusted comment: my comment\nRWQAAEIy"));
    for read in [plain_box.clone().into_unencrypted_secret_key(), SecretKey::from_unencrypted_box(plain_box.clone())] {
        assert_eq!(read.unwrap().to_bytes(), plain.sk.to_bytes());
    }
    fails(plain_box.clone().into_secret_key(password()), ErrorKind::Io, "Key is not encrypted");
    fails(
        SecretKeyBox::from(String::new()).into_unencrypted_secret_key(),
        ErrorKind::Io,
        "Missing comment in secret key",
    );
    fails(
        SecretKeyBox::from(String::from("c")).into_unencrypted_secret_key(),
        ErrorKind::Io,
        "Missing encoded key in secret key",
    );
    fails(SecretKey::from_bytes(&record[..157]), ErrorKind::Io, "failed to fill whole buffer");
    // An unknown key derivation, parameters that are too high, more work than minisign -G asks for, and a damaged key.
    let changed = |record: &[u8], at: usize, with: &[u8]| {
        let bytes = [&record[..at], with, &record[at + with.len()..]].concat();
        SecretKey::from_bytes(&bytes).unwrap().to_box(None).unwrap()
    };
    fails(changed(&record, 2, b"XX").into_secret_key(password()), ErrorKind::Io, "Unsupported encryption algorithm");
    fails(
        changed(&record, 46, &(1_u64 << 31).to_le_bytes()).into_secret_key(password()),
        ErrorKind::KDF,
        "scrypt parameters too high",
    );
    fails(
        changed(&record, 38, &(1_u64 << 40).to_le_bytes()).into_secret_key(password()),
        ErrorKind::KDF,
        "scrypt work too high",
    );
    fails(
        changed(&plain.sk.to_bytes(), 130, &[1, 2, 3]).into_unencrypted_secret_key(),
        ErrorKind::Verify,
        "Corrupted key",
    );
    fails(
        plain.sk.to_box(Some("a\nb")).map(|_| ()),
        ErrorKind::Sign,
        "a comment contains a line break, or the trusted comment begins or ends with white space",
    );
    // Unencrypted keys that the program minisign writes have a checksum of zeros.
    let zeros = changed(&plain.sk.to_bytes(), 126, &[0; 32]).into_unencrypted_secret_key().unwrap();
    verify(&plain.pk, &sign(Some(&plain.pk), &zeros, data(), None, None).unwrap(), data(), true, false, false).unwrap();
    // The debug output contains no secret bytes, neither in hexadecimal nor in base64 nor as a list of numbers.
    let shown = format!("{plain:?} {plain_box:?} {:?}", plain.sk);
    let secret: Vec<String> = plain.sk.to_bytes()[62..70].iter().map(|byte| format!("{byte:x}")).collect();
    let base64 = plain_box.to_string().lines().nth(1).unwrap()[84..100].to_string();
    let numbers = format!("{:?}", &plain.sk.to_bytes()[62..70]);
    let is_shown = |text: &str| shown.contains(text);
    assert!(
        !is_shown(&secret.concat()) && !is_shown(&base64) && !is_shown(numbers.trim_matches(&['[', ']'][..])),
        "{shown}"
    );
    // An empty password is allowed, as in the crate.
    let empty = KeyPair::generate_encrypted_keypair(Some(String::new())).unwrap();
    assert!(empty.sk.is_encrypted() && empty.sk.to_box(None).unwrap().into_secret_key(Some(String::new())).is_ok());
}

/// A writer that stores the written bytes, and true if it was flushed after the last write.
#[derive(Default)]
struct Recorder(Vec<u8>, bool);

impl Write for &mut Recorder {
    fn write(&mut self, bytes: &[u8]) -> io::Result<usize> {
        self.1 = false;
        self.0.extend(bytes);
        Ok(bytes.len())
    }
    fn flush(&mut self) -> io::Result<()> {
        self.1 = true;
        Ok(())
    }
}

/// A writer on which every write fails.
struct Full;

impl Write for Full {
    fn write(&mut self, _: &[u8]) -> io::Result<usize> {
        Err(io::Error::new(io::ErrorKind::Other, "disk full"))
    }
    fn flush(&mut self) -> io::Result<()> {
        Ok(())
    }
}

fn written_keys() {
    let (mut public, mut secret) = (Recorder::default(), Recorder::default());
    let pair = KeyPair::generate_and_write_encrypted_keypair(&mut public, &mut secret, Some("mine"), Some("p".into()))
        .unwrap();
    assert_eq!((public.0, public.1), (pair.pk.to_box().unwrap().to_bytes(), true));
    assert_eq!((secret.0, secret.1), (pair.sk.to_box(Some("mine")).unwrap().to_bytes(), true));
    let (mut public, mut secret) = (Recorder::default(), Recorder::default());
    let pair = KeyPair::generate_and_write_unencrypted_keypair(&mut public, &mut secret).unwrap();
    assert_eq!((public.0, public.1, secret.0, secret.1), (pair.pk.to_bytes(), true, pair.sk.to_bytes(), true));
    fails(KeyPair::generate_and_write_unencrypted_keypair(Full, vec![]), ErrorKind::Io, "disk full");
    fails(
        KeyPair::generate_and_write_encrypted_keypair(vec![], Full, None, Some("p".into())),
        ErrorKind::Io,
        "disk full",
    );
}

/// A reader that returns an error if `fails`, or whose data is different after it was rewound if `changes`.
struct FaultyReader {
    inner: Cursor<Vec<u8>>,
    fails: bool,
    changes: bool,
}

impl Read for FaultyReader {
    fn read(&mut self, to: &mut [u8]) -> io::Result<usize> {
        if self.fails {
            Err(io::Error::new(io::ErrorKind::Other, "bad sector"))
        } else {
            self.inner.read(to)
        }
    }
}

impl Seek for FaultyReader {
    fn seek(&mut self, to: SeekFrom) -> io::Result<u64> {
        if self.changes && matches!(to, SeekFrom::Start(_)) {
            self.inner.get_mut()[0] ^= 1;
        }
        self.inner.seek(to)
    }
}

fn unreadable() -> FaultyReader {
    FaultyReader { inner: Cursor::new(b"test".to_vec()), fails: true, changes: false }
}

fn changing() -> FaultyReader {
    FaultyReader { inner: Cursor::new(b"test".to_vec()), fails: false, changes: true }
}

fn signing() {
    let KeyPair { pk, sk } = KeyPair::generate_unencrypted_keypair().unwrap();
    let before = std::time::SystemTime::now().duration_since(std::time::UNIX_EPOCH).unwrap().as_secs();
    let signature = sign(Some(&pk), &sk, data(), None, None).unwrap();
    let time: u64 = signature.trusted_comment().unwrap().strip_prefix("timestamp:").unwrap().parse().unwrap();
    assert!((before..before + 60).contains(&time));
    assert_eq!(signature.untrusted_comment().unwrap(), DEFAULT_COMMENT);
    assert!(signature.is_prehashed() && signature.keynum() == pk.keynum());
    verify(&pk, &signature, data(), true, false, false).unwrap();
    let signature = sign(None, &sk, &b"test"[..], Some("trusted \u{e9}"), Some("untrusted")).unwrap();
    let lines: Vec<String> = signature.to_string().lines().map(String::from).collect();
    assert_eq!(
        (&*lines[0], &*lines[2], lines.len()),
        ("untrusted comment: untrusted", "trusted comment: trusted \u{e9}", 4)
    );
    // Signing reads from the current position of the reader.
    let mut later = Cursor::new(b"not test".to_vec());
    later.set_position(4);
    let again = sign(None, &sk, later, Some("trusted \u{e9}"), Some("untrusted")).unwrap();
    assert_eq!(again.to_string(), signature.to_string(), "signatures contain no random bytes");
    let other = KeyPair::generate_encrypted_keypair(Some("p".into())).unwrap();
    fails(
        sign(Some(&other.pk), &sk, data(), None, None).map(|_| ()),
        ErrorKind::Verify,
        &format!(
            "Could not verify signature with the provided public key ID: {:016X}",
            u64::from_le_bytes(other.pk.keynum().try_into().unwrap())
        ),
    );
    let error = sign(None, &other.sk, data(), None, None).err().unwrap();
    assert!(
        *error.kind() == ErrorKind::EncryptedKey
            && error.to_string().starts_with("Cannot sign with an encrypted secret key. The key must")
    );
    fails(sign(None, &sk, unreadable(), None, None).map(|_| ()), ErrorKind::Io, "bad sector");
    for comment in ["a\nb", " a", "a\t", "a\0", "a\rb"] {
        let error = sign(None, &sk, data(), Some(comment), None).err().expect(comment);
        assert_eq!(*error.kind(), ErrorKind::Sign, "{comment:?}");
    }
    // A key with a wrong checksum is rejected.
    let mut record = sk.to_bytes();
    record[130] ^= 1;
    fails(
        sign(None, &SecretKey::from_bytes(&record).unwrap(), data(), None, None).map(|_| ()),
        ErrorKind::Verify,
        "Corrupted key",
    );
}

fn verifying() {
    let key = PublicKey::from_base64(KEY).unwrap();
    let other = KeyPair::generate_unencrypted_keypair().unwrap().pk;
    for (text, is_legacy) in [(PREHASHED, false), (LEGACY, true)] {
        let file = SignatureBox::from_string(text).unwrap();
        let bare = SignatureBox::from(SignatureBones::from(file.clone()));
        for signature in [&file, &bare] {
            verify(&key, signature, data(), true, false, true).unwrap();
            fails(
                verify(&key, signature, Cursor::new(b"tesT"), true, false, true),
                ErrorKind::Verify,
                "Signature verification failed",
            );
            let error = verify(&other, signature, data(), true, false, true).unwrap_err().to_string();
            assert!(error.starts_with("Signature key id: E7620F1842B4E81F is different from public key: "), "{error}");
            let strict = verify(&key, signature, data(), true, false, false);
            if is_legacy {
                fails(strict, ErrorKind::Verify, "Legacy signatures are not accepted");
            } else {
                strict.unwrap();
                fails(verify(&key, signature, unreadable(), true, false, false), ErrorKind::Io, "bad sector");
            }
        }
        // A changed trusted comment, a short comment signature, and an empty one.
        let lines: Vec<&str> = text.lines().collect();
        let with = |comment: &str, second: &str| {
            SignatureBox::from_string(&[lines[0], lines[1], comment, second].join("\n")).unwrap()
        };
        for damaged in [with("trusted comment: other", lines[3]), with(lines[2], "AAAA"), with(lines[2], " ")] {
            fails(
                verify(&key, &damaged, data(), true, false, true),
                ErrorKind::Verify,
                "Comment signature verification failed",
            );
        }
    }
}

/// Verifies with `quiet` and `output` set and not set. drop_in.py compares the status lines on standard error, and the
/// copies of the data on standard output.
fn printing() {
    let key = PublicKey::from_base64(KEY).unwrap();
    let file = SignatureBox::from_string(PREHASHED).unwrap();
    let bare = SignatureBox::from(SignatureBones::from(file.clone()));
    let legacy = SignatureBox::from_string(LEGACY).unwrap();
    verify(&key, &file, data(), false, false, false).unwrap();
    verify(&key, &bare, data(), false, true, false).unwrap();
    verify(&key, &legacy, data(), true, true, true).unwrap();
    // The copy begins at the position from which the data was verified.
    let mut later = Cursor::new(b"not test".to_vec());
    later.set_position(4);
    verify(&key, &file, later, true, true, false).unwrap();
    let changed = "Data changed between verification and output";
    fails(verify(&key, &file, changing(), true, true, false), ErrorKind::Verify, changed);
    fails(verify(&key, &bare, changing(), true, true, false), ErrorKind::Verify, changed);
    fails(
        verify(&key, &file, Cursor::new(b"Test"), false, true, false),
        ErrorKind::Verify,
        "Signature verification failed",
    );
}

fn signatures(directory: &str) {
    let path = format!("{directory}/signature");
    std::fs::write(&path, PREHASHED).unwrap();
    let file = SignatureBox::from_file(&path).unwrap();
    assert_eq!(
        (file.to_string(), file.to_bytes(), file.clone().into_string(), String::from(file.clone())),
        (PREHASHED.into(), PREHASHED.as_bytes().to_vec(), PREHASHED.into(), PREHASHED.into())
    );
    assert_eq!(SignatureBox::from(PREHASHED.to_string()).to_string(), PREHASHED);
    assert_eq!(SignatureBox::from_string(&PREHASHED.replace('\n', "\r\n")).unwrap().to_string(), PREHASHED);
    assert_eq!(file.untrusted_comment().unwrap(), "signature from minisign secret key");
    assert_eq!(file.trusted_comment().unwrap(), "timestamp:1556193335\tfile:test");
    assert!(!SignatureBox::from_string(LEGACY).unwrap().is_prehashed());
    let bones = SignatureBones::from(file.clone());
    let bytes = bones.to_bytes();
    assert_eq!((bytes.len(), &bytes[..2], &bytes[2..10], bones.is_prehashed()), (74, &b"ED"[..], file.keynum(), true));
    assert_eq!(SignatureBones::from_bytes(&bytes).unwrap().to_bytes(), bytes);
    let bare = SignatureBox::from(bones);
    assert!(bare.is_prehashed() && bare.keynum() == file.keynum());
    assert_eq!(bare.untrusted_comment().unwrap(), "");
    fails(bare.trusted_comment(), ErrorKind::Misc, "trusted comment is not present");
    assert_eq!(SignatureBones::from(bare.clone()).to_bytes(), bytes);
    let calls: [fn(&SignatureBox) -> String; 4] = [
        |signature| signature.to_string(),
        |signature| signature.clone().into_string(),
        |signature| format!("{:?}", signature.to_bytes()),
        |signature| signature.clone().into(),
    ];
    for call in calls {
        assert!(
            catch_unwind(AssertUnwindSafe(|| call(&bare))).is_err(),
            "a bare signature cannot be encoded as a file"
        );
    }
    assert!(catch_unwind(|| SignatureBox::from(String::new())).is_err());
    fails(SignatureBones::from_bytes(&bytes[..73]), ErrorKind::Io, "failed to fill whole buffer");
    fails(
        SignatureBones::from_bytes(&[b"XX", &bytes[2..]].concat()),
        ErrorKind::Verify,
        "Unsupported signature algorithm",
    );
    let missing = ["untrusted comment", "signature", "trusted comment", "global signature"];
    for (count, what) in missing.iter().enumerate() {
        let text = PREHASHED.lines().take(count).collect::<Vec<_>>().join("\n");
        fails(SignatureBox::from_string(&text), ErrorKind::Io, &format!("Missing {what}"));
    }
    fails(
        SignatureBox::from_string(&PREHASHED[1..]),
        ErrorKind::Verify,
        "Untrusted comment must start with: untrusted comment: ",
    );
    fails(
        SignatureBox::from_string(&PREHASHED.replace("\ntrusted", "\nTrusted")),
        ErrorKind::Verify,
        "Trusted comment should start with: trusted comment: ",
    );
}

fn main() {
    let arguments: Vec<String> = std::env::args().skip(1).collect();
    // Prints only the panics of failed checks, which are in this file, and not those of the crate, which the checks
    // expect.
    std::panic::set_hook(Box::new(|info| {
        if std::thread::panicking() && info.location().map_or(false, |at| at.file().ends_with("main.rs")) {
            eprintln!("{info}");
        }
    }));
    match &*arguments[1] {
        "constants" => constants(),
        "errors" => errors(),
        "public keys" => public_keys(&arguments[0]),
        "secret keys" => secret_keys(&arguments[0]),
        "written keys" => written_keys(),
        "signing" => signing(),
        "verifying" => verifying(),
        "printing" => printing(),
        "signatures" => signatures(&arguments[0]),
        "exit" => PError::new(ErrorKind::Misc, "the end").exit(),
        step => panic!("unknown step {step}"),
    }
    println!("\ncompleted");
}

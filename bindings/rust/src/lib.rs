// SPDX-License-Identifier: MIT
// README.md is not part of doctests, because its examples make one program together.
#![cfg_attr(not(doctest), doc = include_str!("../README.md"))]
#![deny(unsafe_code, missing_docs)]

mod base64;
mod files;
mod lists;
mod raw;
mod records;
mod signing;

pub use files::write_new;
pub use lists::{ListEntry, ListError, ListHash, LongDigest, SignedList};
pub use records::{BareSignature, Kind, UnopenedKey};
pub use signing::{SecretKey, Signer, Work};
use std::borrow::Cow;
use std::hash::{Hash, Hasher};
use std::{cmp, fmt, fs, io, path::Path};

/// An error code of `minisign.h`. `Display` prints its message, which is a sentence. `Debug` prints
/// its name in the header without `MINISIGN_`.
#[derive(Clone, Copy, Eq, PartialEq, Hash)]
pub struct Reason(u32);

impl Reason {
    /// Returns the reason with this error number of `minisign.h`.
    ///
    /// # Examples
    ///
    /// ```
    /// use minisign_proved::Reason;
    ///
    /// assert_eq!(Reason::from_code(42), Reason::WRONG_PASSWORD);
    /// assert_eq!(Reason::WRONG_PASSWORD.code(), 42);
    /// ```
    #[must_use]
    pub const fn from_code(code: u32) -> Reason {
        Reason(code)
    }

    /// Returns the error number in `minisign.h`.
    #[must_use]
    pub const fn code(self) -> u32 {
        self.0
    }
}

impl fmt::Debug for Reason {
    fn fmt(&self, f: &mut fmt::Formatter) -> fmt::Result {
        match self.name() {
            "" => write!(f, "Reason({})", self.0),
            name => f.write_str(name),
        }
    }
}

impl fmt::Display for Reason {
    fn fmt(&self, f: &mut fmt::Formatter) -> fmt::Result {
        f.write_str(&raw::error_text(self.0).unwrap_or_default())
    }
}

impl std::error::Error for Reason {}

/// An error of this crate. It has the variants of the error of `minisign-verify`, and three more.
/// `Display` prints a sentence.
#[derive(Debug)]
#[non_exhaustive]
pub enum Error {
    /// A public key or a signature file is malformed, for this reason.
    InvalidEncoding(Reason),
    /// The signature of the data is not valid (`Reason::SIGNATURE_REFUSED`), the comment signature
    /// is not valid (`COMMENT_SIGNATURE_REFUSED`), or the public key or a signature is weak
    /// (`WEAK_ED25519`).
    InvalidSignature(Reason),
    /// A file could not be read, or is not UTF-8.
    IoError(io::Error),
    /// The signature is a legacy one, and `allow_legacy` is false.
    UnexpectedAlgorithm,
    /// The signature was made with a key that has another key ID.
    UnexpectedKeyId,
    /// The signature has an algorithm that Minisign does not have.
    UnsupportedAlgorithm,
    /// The signature is a legacy one, which cannot be verified in pieces.
    UnsupportedLegacyMode,
    /// `encode` was called with limits below the minimum of the program minisign.
    WeakLimits,
    /// The implementation of Ed25519 failed to sign or to make a key.
    Scheme(SchemeError),
    /// Any other error: of signing, of secret keys, or API misuse.
    Rejected(Reason),
}

impl Error {
    /// Returns the error code of `minisign.h`. Returns `None` for `WeakLimits`, for `Scheme`, and
    /// for an `IoError` of the system.
    ///
    /// # Examples
    ///
    /// ```
    /// use minisign_proved::{PublicKey, Reason};
    ///
    /// let error = PublicKey::from_base64("no key").unwrap_err();
    /// assert_eq!(error.reason(), Some(&Reason::BARE_PUBLIC_KEY_LENGTH));
    /// ```
    #[must_use]
    pub fn reason(&self) -> Option<&Reason> {
        match self {
            Error::InvalidEncoding(reason)
            | Error::InvalidSignature(reason)
            | Error::Rejected(reason) => Some(reason),
            Error::IoError(error) => error.get_ref()?.downcast_ref(),
            Error::WeakLimits | Error::Scheme(_) => None,
            Error::UnexpectedKeyId => Some(&Reason::DIFFERENT_KEY_IDS),
            Error::UnsupportedAlgorithm => Some(&Reason::UNSUPPORTED_ALGORITHM),
            Error::UnexpectedAlgorithm | Error::UnsupportedLegacyMode => {
                Some(&Reason::LEGACY_NOT_ACCEPTED)
            }
        }
    }
}

impl From<Reason> for Error {
    fn from(reason: Reason) -> Error {
        match reason {
            Reason::UNSUPPORTED_ALGORITHM => Error::UnsupportedAlgorithm,
            Reason::DIFFERENT_KEY_IDS => Error::UnexpectedKeyId,
            Reason::LEGACY_NOT_ACCEPTED => Error::UnexpectedAlgorithm,
            Reason::SIGNATURE_REFUSED
            | Reason::COMMENT_SIGNATURE_REFUSED
            | Reason::WEAK_ED25519 => Error::InvalidSignature(reason),
            // The errors of malformed public keys and signatures: MISSING_PUBLIC_KEY_COMMENT to
            // TRUSTED_COMMENT_PREFIX for files, and BARE_PUBLIC_KEY_.. for base64.
            Reason(16..=27 | 44..=45) => Error::InvalidEncoding(reason),
            _ => Error::Rejected(reason),
        }
    }
}

impl From<SchemeError> for Error {
    fn from(error: SchemeError) -> Error {
        Error::Scheme(error)
    }
}

impl From<io::Error> for Error {
    fn from(error: io::Error) -> Error {
        Error::IoError(error)
    }
}

impl fmt::Display for Error {
    fn fmt(&self, f: &mut fmt::Formatter) -> fmt::Result {
        match self {
            Error::IoError(error) => error.fmt(f),
            Error::Scheme(error) => error.fmt(f),
            Error::WeakLimits => {
                f.write_str("the scrypt limits are below 524288 operations or 16 MiB")
            }
            _ => self.reason().map_or(Ok(()), |reason| reason.fmt(f)),
        }
    }
}

/// The source is the `Reason`, or the error of the system or of the implementation of Ed25519.
impl std::error::Error for Error {
    fn source(&self) -> Option<&(dyn std::error::Error + 'static)> {
        match self {
            Error::IoError(error) => Some(error),
            Error::Scheme(error) => Some(error),
            _ => self.reason().map(|reason| reason as _),
        }
    }
}

/// An error of an implementation of Ed25519 or of a source of random bytes.
#[derive(Clone, Debug, Eq, PartialEq)]
pub struct SchemeError(Cow<'static, str>);

impl SchemeError {
    /// Makes an error that `Display` prints as this text.
    ///
    /// # Examples
    ///
    /// ```
    /// use minisign_proved::SchemeError;
    ///
    /// let error = SchemeError::new("the hardware key was removed");
    /// assert_eq!(error.to_string(), "the hardware key was removed");
    /// ```
    #[must_use]
    pub fn new(text: impl Into<Cow<'static, str>>) -> Self {
        SchemeError(text.into())
    }
}

impl fmt::Display for SchemeError {
    fn fmt(&self, f: &mut fmt::Formatter) -> fmt::Result {
        f.write_str(&self.0)
    }
}

impl std::error::Error for SchemeError {}

/// An implementation of Ed25519 that verifies signatures. This crate trusts its results. The crate
/// itself rejects public keys and signatures of small order or with a non-canonical encoding
/// (`Reason::WEAK_ED25519`), so `verify` need not reject them.
///
/// # Examples
///
/// ```
/// use minisign_proved::{SchemeError, SecretKey, Sodium, Verify};
///
/// /// Rejects every signature.
/// struct Strict;
///
/// impl Verify for Strict {
///     fn verify(&self, _: &[u8; 64], _: &[u8], _: &[u8; 32]) -> Result<(), SchemeError> {
///         Err(SchemeError::new("no signature is accepted"))
///     }
/// }
///
/// let key = SecretKey::generate(&Sodium)?;
/// let signature = key.sign(&Sodium, b"data", "timestamp:1", "an example")?;
/// assert!(key.public_key()?.verify_with(&Strict, b"data", &signature, false).is_err());
/// # Ok::<(), minisign_proved::Error>(())
/// ```
pub trait Verify: Sync {
    /// Verifies the signature of a message.
    ///
    /// # Errors
    ///
    /// Any error means that the signature is not valid for the message and the public key.
    fn verify(
        &self,
        signature: &[u8; 64],
        message: &[u8],
        public_key: &[u8; 32],
    ) -> Result<(), SchemeError>;
}

/// An implementation of Ed25519 that also signs and makes keys. It has to implement `Verify` too,
/// because each new signature is verified.
///
/// # Examples
///
/// ```
/// use minisign_proved::{SchemeError, SecretKey, Sign, Sodium, Verify};
///
/// /// The Ed25519 of libsodium, with a line for each new signature.
/// struct Logged;
///
/// impl Verify for Logged {
///     fn verify(&self, sig: &[u8; 64], data: &[u8], key: &[u8; 32]) -> Result<(), SchemeError> {
///         Sodium.verify(sig, data, key)
///     }
/// }
///
/// impl Sign for Logged {
///     fn sign(&self, message: &[u8], secret_key: &[u8; 64]) -> Result<[u8; 64], SchemeError> {
///         eprintln!("signing {} bytes", message.len());
///         Sodium.sign(message, secret_key)
///     }
///
///     fn expand(&self, seed: &[u8; 32], secret_key: &mut [u8; 64]) -> Result<(), SchemeError> {
///         Sodium.expand(seed, secret_key)
///     }
/// }
///
/// let key = SecretKey::generate(&Sodium)?;
/// key.sign(&Logged, b"data", "timestamp:1", "an example")?;
/// # Ok::<(), minisign_proved::Error>(())
/// ```
pub trait Sign: Verify {
    /// Signs a message. The secret key consists of the 32 bytes of the seed and the 32 bytes of the
    /// public key.
    ///
    /// # Errors
    ///
    /// Any error. The crate returns it as `Error::Scheme`.
    fn sign(&self, message: &[u8], secret_key: &[u8; 64]) -> Result<[u8; 64], SchemeError>;

    /// Writes the secret key that is derived from a seed, in the form that `sign` takes.
    ///
    /// # Errors
    ///
    /// Any error. The crate returns it as `Error::Scheme`.
    fn expand(&self, seed: &[u8; 32], secret_key: &mut [u8; 64]) -> Result<(), SchemeError>;
}

/// A source of unpredictable random bytes, for keys and salts.
///
/// # Examples
///
/// ```
/// use minisign_proved::{Random, SchemeError, SecretKey, Sodium, Work};
/// use std::{fs::File, io::Read};
///
/// /// The random bytes of the system, on Unix.
/// struct System;
///
/// impl Random for System {
///     fn fill(&self, bytes: &mut [u8]) -> Result<(), SchemeError> {
///         let read = File::open("/dev/urandom").and_then(|mut file| file.read_exact(bytes));
///         read.map_err(|error| SchemeError::new(error.to_string()))
///     }
/// }
///
/// let key = SecretKey::generate(&Sodium)?;
/// let work = Work::new(524_288, 1 << 24);
/// key.encode(&System, Some("pass word"), &work)?;
/// # Ok::<(), minisign_proved::Error>(())
/// ```
pub trait Random {
    /// Fills a buffer with random bytes.
    ///
    /// # Errors
    ///
    /// Any error means that there are no random bytes. The crate returns
    /// `Reason::RANDOM_SOURCE_FAILED`.
    fn fill(&self, bytes: &mut [u8]) -> Result<(), SchemeError>;
}

impl fmt::Debug for dyn Verify + '_ {
    fn fmt(&self, f: &mut fmt::Formatter) -> fmt::Result {
        f.write_str("Verify")
    }
}

impl fmt::Debug for dyn Sign + '_ {
    fn fmt(&self, f: &mut fmt::Formatter) -> fmt::Result {
        f.write_str("Sign")
    }
}

/// The Ed25519 and the random bytes of libsodium.
#[cfg(feature = "sodium")]
#[derive(Clone, Copy, Debug, Default)]
pub struct Sodium;

/// Overwrites bytes with zeros, for example a password that is no longer needed. Unlike an ordinary
/// assignment, this is never optimized away.
///
/// # Examples
///
/// ```
/// use minisign_proved::clear;
///
/// let mut password = String::from("pass word").into_bytes();
/// // Use the password.
/// clear(&mut password);
/// assert_eq!(password, [0; 9]);
/// ```
pub fn clear(bytes: &mut [u8]) {
    raw::clear(bytes);
}

/// Returns the content of a file, or an error if it is not UTF-8.
fn text_of_file(path: &Path) -> io::Result<String> {
    let not_utf8 = |_| io::Error::new(io::ErrorKind::InvalidData, Reason::NOT_UTF8);
    String::from_utf8(fs::read(path)?).map_err(not_utf8)
}

/// Formats a key ID as the program minisign prints it: one little-endian number.
fn key_id_text(key_id: &[u8; 8]) -> String {
    format!("{:X}", u64::from_le_bytes(*key_id))
}

/// Reads to the end of a reader. Passes each piece to `take_piece`, with the number of bytes read
/// so far.
fn read_pieces(
    mut reader: impl io::Read,
    mut take_piece: impl FnMut(&[u8], u64),
) -> io::Result<()> {
    let (mut piece, mut bytes_read) = (vec![0; 1 << 16], 0);
    loop {
        match reader.read(&mut piece) {
            Ok(0) => return Ok(()),
            Ok(len) => {
                bytes_read += len as u64;
                take_piece(&piece[..len], bytes_read);
            }
            Err(error) if error.kind() == io::ErrorKind::Interrupted => {}
            Err(error) => return Err(error),
        }
    }
}

/// A public key, which verifies signatures. Two public keys are equal if their Ed25519 keys and
/// their key IDs are, whatever their comments.
#[derive(Clone, Debug)]
pub struct PublicKey {
    untrusted_comment: Option<String>,
    key: raw::PublicKey,
}

impl PartialEq for PublicKey {
    fn eq(&self, other: &Self) -> bool {
        self.key == other.key
    }
}

impl Eq for PublicKey {}

impl Hash for PublicKey {
    fn hash<H: Hasher>(&self, state: &mut H) {
        self.key.hash(state);
    }
}

impl PartialOrd for PublicKey {
    fn partial_cmp(&self, other: &Self) -> Option<cmp::Ordering> {
        Some(self.cmp(other))
    }
}

impl Ord for PublicKey {
    fn cmp(&self, other: &Self) -> cmp::Ordering {
        self.key.cmp(&other.key)
    }
}

impl PublicKey {
    fn new(comment: Option<&str>, key: raw::PublicKey) -> Self {
        PublicKey {
            untrusted_comment: comment.map(String::from),
            key,
        }
    }

    /// Parses the content of a public key file, such as `minisign.pub`: both lines.
    ///
    /// # Errors
    ///
    /// `InvalidEncoding` if a line is missing, or the second line is not 56 characters of base64.
    ///
    /// # Examples
    ///
    /// ```
    /// use minisign_proved::PublicKey;
    ///
    /// let base64 = "RWQf6LRCGA9i53mlYecO4IzT51TGPpvWucNSCh1CBM0QTaLn73Y7GFO3";
    /// let key = PublicKey::decode(&format!("untrusted comment: a key\n{base64}\n"))?;
    /// assert_eq!(key, PublicKey::from_base64(base64)?);
    /// assert_eq!(key.untrusted_comment(), Some("untrusted comment: a key"));
    /// # Ok::<(), minisign_proved::Error>(())
    /// ```
    pub fn decode(lines: &str) -> Result<Self, Error> {
        let key = raw::read_public_key(lines.as_bytes())?;
        Ok(Self::new(lines.lines().next(), key))
    }

    /// Parses the 56 base64 characters of a public key, which are the second line of its file and
    /// the argument of `minisign -P`.
    ///
    /// # Errors
    ///
    /// `InvalidEncoding` with `BARE_PUBLIC_KEY_LENGTH`, `BARE_PUBLIC_KEY_NOT_BASE64` or
    /// `RECORD_TOO_SHORT`.
    ///
    /// # Examples
    ///
    /// ```
    /// use minisign_proved::PublicKey;
    ///
    /// let base64 = "RWQf6LRCGA9i53mlYecO4IzT51TGPpvWucNSCh1CBM0QTaLn73Y7GFO3";
    /// let key = PublicKey::from_base64(base64)?;
    /// assert_eq!(key.key_id_text(), "E7620F1842B4E81F");
    /// # Ok::<(), minisign_proved::Error>(())
    /// ```
    pub fn from_base64(public_key: &str) -> Result<Self, Error> {
        let key = raw::read_bare_public_key(public_key.as_bytes())?;
        Ok(Self::new(None, key))
    }

    /// Reads a public key file, such as `minisign.pub`.
    ///
    /// # Errors
    ///
    /// `IoError` if the file cannot be read or is not UTF-8, and the errors of `decode`.
    ///
    /// # Examples
    ///
    /// ```no_run
    /// use minisign_proved::PublicKey;
    ///
    /// let key = PublicKey::from_file("minisign.pub")?;
    /// # Ok::<(), minisign_proved::Error>(())
    /// ```
    pub fn from_file<P: AsRef<Path>>(path: P) -> Result<Self, Error> {
        Self::decode(&text_of_file(path.as_ref())?)
    }

    /// Returns the first line of the key file, which is not signed. Returns `None` for a key from
    /// base64.
    #[must_use]
    pub fn untrusted_comment(&self) -> Option<&str> {
        self.untrusted_comment.as_deref()
    }

    /// Returns the 8 bytes of the key ID, which is one little-endian number. Anybody can make a key
    /// with the same key ID.
    #[must_use]
    pub fn key_id(&self) -> &[u8; 8] {
        &self.key.key_id
    }

    /// Returns the key ID as the program minisign prints it: in upper-case hexadecimal digits
    /// without leading zeros.
    #[must_use]
    pub fn key_id_text(&self) -> String {
        key_id_text(&self.key.key_id)
    }

    /// Verifies data in memory. If `allow_legacy` is true, also accepts legacy signatures, which
    /// sign the data itself instead of its digest, as Minisign made them before version 0.10.
    ///
    /// # Errors
    ///
    /// `UnexpectedKeyId` if the signature has another key ID; `UnexpectedAlgorithm` for a legacy
    /// signature that is not allowed; `InvalidSignature` if the signature is not valid, or weak.
    ///
    /// # Examples
    ///
    /// ```no_run
    /// use minisign_proved::{PublicKey, Signature};
    ///
    /// let key = PublicKey::from_file("key.pub")?;
    /// let signature = Signature::from_file("data.minisig")?;
    /// key.verify(&std::fs::read("data")?, &signature, false)?;
    /// # Ok::<(), minisign_proved::Error>(())
    /// ```
    #[cfg(feature = "sodium")]
    pub fn verify(
        &self,
        data: &[u8],
        signature: &Signature,
        allow_legacy: bool,
    ) -> Result<(), Error> {
        self.verify_with(&Sodium, data, signature, allow_legacy)
    }

    /// Verifies data in memory as `verify` does, with this implementation of Ed25519.
    ///
    /// # Errors
    ///
    /// Those of `verify`.
    ///
    /// # Examples
    ///
    /// ```
    /// use minisign_proved::{SecretKey, Sodium};
    ///
    /// let key = SecretKey::generate(&Sodium)?;
    /// let signature = key.sign(&Sodium, b"data", "timestamp:1", "an example")?;
    /// key.public_key()?.verify_with(&Sodium, b"data", &signature, false)?;
    /// # Ok::<(), minisign_proved::Error>(())
    /// ```
    pub fn verify_with(
        &self,
        ed25519: &dyn Verify,
        data: &[u8],
        signature: &Signature,
        allow_legacy: bool,
    ) -> Result<(), Error> {
        let mut verifier = StreamVerifier::begin(&self.key, ed25519, signature, allow_legacy)?;
        verifier.update(data);
        verifier.end(data)
    }

    /// Verifies data in memory with a signature that has no comments, with this implementation of
    /// Ed25519.
    ///
    /// # Errors
    ///
    /// Those of `verify`.
    ///
    /// # Examples
    ///
    /// ```
    /// use minisign_proved::{SecretKey, Sodium};
    ///
    /// let key = SecretKey::generate(&Sodium)?;
    /// let signature = key.sign(&Sodium, b"data", "timestamp:1", "an example")?.to_bare();
    /// key.public_key()?.verify_bare_with(&Sodium, b"data", &signature, false)?;
    /// # Ok::<(), minisign_proved::Error>(())
    /// ```
    pub fn verify_bare_with(
        &self,
        ed25519: &dyn Verify,
        data: &[u8],
        signature: &BareSignature,
        allow_legacy: bool,
    ) -> Result<(), Error> {
        let mut verifier = StreamVerifier::begin_bare(&self.key, ed25519, signature, allow_legacy)?;
        verifier.update(data);
        verifier.end(data)
    }

    /// Begins to verify data that arrives in pieces with a signature that has no comments, with
    /// this implementation of Ed25519.
    ///
    /// # Errors
    ///
    /// Those of `verify_stream`.
    ///
    /// # Examples
    ///
    /// ```
    /// use minisign_proved::{SecretKey, Sodium};
    ///
    /// let key = SecretKey::generate(&Sodium)?;
    /// let signature = key.sign(&Sodium, b"data", "timestamp:1", "an example")?.to_bare();
    /// let public_key = key.public_key()?;
    /// let mut verifier = public_key.verify_bare_stream_with(&Sodium, &signature)?;
    /// verifier.update(b"da");
    /// verifier.update(b"ta");
    /// verifier.finalize()?;
    /// # Ok::<(), minisign_proved::Error>(())
    /// ```
    pub fn verify_bare_stream_with<'a>(
        &self,
        ed25519: &'a dyn Verify,
        signature: &'a BareSignature,
    ) -> Result<StreamVerifier<'a>, Error> {
        StreamVerifier::begin_bare(&self.key, ed25519, signature, false).map_err(stream_error)
    }

    /// Begins to verify data that arrives in pieces, and checks everything that does not depend on
    /// the data.
    ///
    /// # Errors
    ///
    /// `UnexpectedKeyId` if the signature has another key ID; `UnsupportedLegacyMode` for a legacy
    /// signature; `InvalidSignature` for a weak public key or signature.
    ///
    /// # Examples
    ///
    /// ```no_run
    /// # use minisign_proved::{PublicKey, Signature};
    /// # let key = PublicKey::from_file("key.pub")?;
    /// let signature = Signature::from_file("data.minisig")?;
    /// let mut verifier = key.verify_stream(&signature)?;
    /// std::io::copy(&mut std::fs::File::open("data")?, &mut verifier)?;
    /// verifier.finalize()?;
    /// # Ok::<(), minisign_proved::Error>(())
    /// ```
    #[cfg(feature = "sodium")]
    pub fn verify_stream<'a>(&self, signature: &'a Signature) -> Result<StreamVerifier<'a>, Error> {
        self.verify_stream_with(&Sodium, signature)
    }

    /// Begins to verify data as `verify_stream` does, with this implementation of Ed25519.
    ///
    /// # Errors
    ///
    /// Those of `verify_stream`.
    ///
    /// # Examples
    ///
    /// ```no_run
    /// use minisign_proved::{PublicKey, Signature, Sodium};
    ///
    /// # let key = PublicKey::from_file("key.pub")?;
    /// let signature = Signature::from_file("data.minisig")?;
    /// let mut verifier = key.verify_stream_with(&Sodium, &signature)?;
    /// verifier.update_from(std::fs::File::open("data")?, |_| ())?;
    /// verifier.finalize()?;
    /// # Ok::<(), minisign_proved::Error>(())
    /// ```
    pub fn verify_stream_with<'a>(
        &self,
        ed25519: &'a dyn Verify,
        signature: &'a Signature,
    ) -> Result<StreamVerifier<'a>, Error> {
        StreamVerifier::begin(&self.key, ed25519, signature, false).map_err(stream_error)
    }
}

/// Converts an error for data in pieces, which cannot be verified with a legacy signature.
fn stream_error(reason: Reason) -> Error {
    match reason {
        Reason::LEGACY_NOT_ACCEPTED => Error::UnsupportedLegacyMode,
        _ => reason.into(),
    }
}

/// A parsed signature file. Parsing verifies nothing.
///
/// # Examples
///
/// ```
/// use minisign_proved::{SecretKey, Signature, Sodium};
///
/// let key = SecretKey::generate(&Sodium)?;
/// let text = key.sign(&Sodium, b"data", "timestamp:1", "an example")?.to_string();
/// let signature = Signature::decode(&text)?;
/// assert_eq!(signature.untrusted_comment(), "untrusted comment: an example");
/// assert_eq!(signature.key_id(), key.key_id());
/// assert!(!signature.is_legacy());
/// // Trust this comment only after the signature was verified.
/// key.public_key()?.verify(b"data", &signature, false)?;
/// assert_eq!(signature.trusted_comment(), "timestamp:1");
/// # Ok::<(), minisign_proved::Error>(())
/// ```
#[derive(Clone, Debug, Eq, PartialEq, Hash)]
pub struct Signature {
    text: String,
    parsed: raw::Signature,
}

impl Signature {
    /// Parses the content of a signature file, such as `data.minisig`: four lines.
    ///
    /// # Errors
    ///
    /// `InvalidEncoding` if the file is malformed; `UnsupportedAlgorithm`.
    pub fn decode(lines: &str) -> Result<Self, Error> {
        let (text, parsed) = (lines.into(), raw::read_signature(lines.as_bytes())?);
        Ok(Signature { text, parsed })
    }

    /// Reads a signature file, such as `data.minisig`.
    ///
    /// # Errors
    ///
    /// `IoError` if the file cannot be read or is not UTF-8, and the errors of `decode`.
    ///
    /// # Examples
    ///
    /// ```no_run
    /// use minisign_proved::Signature;
    ///
    /// let signature = Signature::from_file("data.minisig")?;
    /// # Ok::<(), minisign_proved::Error>(())
    /// ```
    pub fn from_file<P: AsRef<Path>>(path: P) -> Result<Self, Error> {
        Self::decode(&text_of_file(path.as_ref())?)
    }

    /// Returns the trusted comment, which is signed with the data. Trust it only after the
    /// signature was verified, or if `StreamVerifier::trusted_comment` returned it.
    #[must_use]
    pub fn trusted_comment(&self) -> &str {
        &self.text[self.parsed.comment_offset as usize..][..self.parsed.comment_len as usize]
    }

    /// Returns the first line of the signature file, which is not signed.
    #[must_use]
    pub fn untrusted_comment(&self) -> &str {
        self.text.lines().next().unwrap_or_default()
    }

    /// Returns the 8 bytes of the key ID of the signer's key. Use it to choose the public key.
    /// Nothing is verified: anybody can write any key ID.
    #[must_use]
    pub fn key_id(&self) -> &[u8; 8] {
        &self.parsed.key_id
    }

    /// Returns the key ID as the program minisign prints it: in upper-case hexadecimal digits
    /// without leading zeros.
    #[must_use]
    pub fn key_id_text(&self) -> String {
        key_id_text(&self.parsed.key_id)
    }

    /// Returns true for a legacy signature, which signs the data itself instead of its digest, as
    /// Minisign made them before version 0.10.
    #[must_use]
    pub fn is_legacy(&self) -> bool {
        self.parsed.legacy == 1
    }
}

/// Prints the content of the signature file, unchanged.
impl fmt::Display for Signature {
    fn fmt(&self, f: &mut fmt::Formatter) -> fmt::Result {
        f.write_str(&self.text)
    }
}

/// Verifies data that arrives in pieces: call `update` for each piece, or write the data to it, and
/// call `finalize` at the end.
///
/// # Examples
///
/// ```
/// use minisign_proved::{SecretKey, Sodium};
/// use std::io::Write;
///
/// # let key = SecretKey::generate(&Sodium)?;
/// # let signature = key.sign(&Sodium, b"some data", "timestamp:1", "an example")?;
/// # let public_key = key.public_key()?;
/// let mut verifier = public_key.verify_stream(&signature)?;
/// // This comment is signed. Nothing is known about the data yet.
/// assert_eq!(verifier.trusted_comment()?, "timestamp:1");
/// verifier.update(b"some ");
/// verifier.write_all(b"data")?;
/// verifier.finalize()?;
/// # Ok::<(), minisign_proved::Error>(())
/// ```
#[derive(Clone, Debug)]
#[must_use = "nothing is verified before `finalize` returns Ok"]
pub struct StreamVerifier<'a> {
    ed25519: &'a dyn Verify,
    // None if the signature has no comments.
    signature: Option<&'a Signature>,
    state: raw::State,
    // The signatures that Ed25519 has to check.
    questions: raw::Questions,
    // The message that the comment signature signs.
    comment_message: Vec<u8>,
}

impl<'a> StreamVerifier<'a> {
    /// Begins a verification, and makes all checks that need neither the data nor Ed25519.
    fn begin(
        key: &raw::PublicKey,
        ed25519: &'a dyn Verify,
        signature: &'a Signature,
        allow_legacy: bool,
    ) -> Result<Self, Reason> {
        let mut state = raw::init();
        let (text, legacy_flag) = (signature.text.as_bytes(), allow_legacy.into());
        let (questions, comment_message) =
            raw::ask(&mut state, key, &signature.parsed, text, legacy_flag)?;
        Ok(StreamVerifier {
            ed25519,
            signature: Some(signature),
            state,
            questions,
            comment_message,
        })
    }

    /// Begins a verification as `begin` does, with a signature that has no comments.
    fn begin_bare(
        key: &raw::PublicKey,
        ed25519: &'a dyn Verify,
        signature: &'a BareSignature,
        allow_legacy: bool,
    ) -> Result<Self, Reason> {
        let mut state = raw::init();
        let legacy_flag = allow_legacy.into();
        let questions = raw::ask_bare(&mut state, key, &signature.parsed, legacy_flag)?;
        Ok(StreamVerifier {
            ed25519,
            signature: None,
            state,
            questions,
            comment_message: vec![],
        })
    }

    /// Adds the next piece of the data, of any length.
    pub fn update(&mut self, piece: &[u8]) {
        // This fails only after `finalize`, and then a second `finalize` fails too.
        let _ = raw::update(&mut self.state, piece);
    }

    /// Adds the data of a reader, up to its end. Calls `progress` after each piece with the number
    /// of bytes read so far.
    ///
    /// # Errors
    ///
    /// The first error of the reader, except `Interrupted`.
    ///
    /// # Examples
    ///
    /// ```
    /// use minisign_proved::{SecretKey, Sodium};
    ///
    /// # let key = SecretKey::generate(&Sodium)?;
    /// # let signature = key.sign(&Sodium, b"some data", "timestamp:1", "an example")?;
    /// # let public_key = key.public_key()?;
    /// let mut verifier = public_key.verify_stream(&signature)?;
    /// verifier.update_from(&b"some data"[..], |bytes| println!("{bytes} bytes were read"))?;
    /// verifier.finalize()?;
    /// # Ok::<(), minisign_proved::Error>(())
    /// ```
    pub fn update_from(
        &mut self,
        reader: impl io::Read,
        mut progress: impl FnMut(u64),
    ) -> io::Result<()> {
        read_pieces(reader, |piece, bytes_read| {
            self.update(piece);
            progress(bytes_read)
        })
    }

    /// Verifies the comment signature, and returns the trusted comment. You can call this before
    /// you have the data. The result says nothing about the data.
    ///
    /// # Errors
    ///
    /// `InvalidSignature` with `COMMENT_SIGNATURE_REFUSED` if the comment signature is not valid or
    /// the signature has no comments; `Rejected` after `finalize`.
    pub fn trusted_comment(&self) -> Result<&'a str, Error> {
        let signature = self.signature.ok_or(Reason::COMMENT_SIGNATURE_REFUSED)?;
        raw::comment_verdict(&self.state, self.accepts_comment())?;
        Ok(signature.trusted_comment())
    }

    /// Returns `Ok` if the signature is valid for all of the data. Call it once.
    ///
    /// # Errors
    ///
    /// `InvalidSignature` if the signature is not valid. Then use none of the data. A second call
    /// returns an error.
    pub fn finalize(&mut self) -> Result<(), Error> {
        self.end(&[])
    }

    fn accepts(&self, signature: &[u8; 64], message: &[u8], key: &[u8; 32]) -> bool {
        self.ed25519.verify(signature, message, key).is_ok()
    }

    fn accepts_comment(&self) -> bool {
        let questions = &self.questions;
        let (signature, key) = (&questions.comment_signature, &questions.public_key);
        self.accepts(signature, &self.comment_message, key)
    }

    /// Ends the verification and returns the verdict. For a legacy signature, `data` must be all of
    /// the data. For other signatures it is not used.
    fn end(&mut self, data: &[u8]) -> Result<(), Error> {
        let (digest, questions) = (raw::digest(&mut self.state)?, &self.questions);
        let message = if questions.legacy == 1 { data } else { &digest };
        let (signature, key) = (&questions.signature, &questions.public_key);
        let is_data_valid = self.accepts(signature, message, key);
        if self.signature.is_none() {
            return Ok(raw::bare_verdict(&mut self.state, is_data_valid)?);
        }
        let is_comment_valid = self.accepts_comment();
        let verdict = raw::verdict(&mut self.state, is_data_valid, is_comment_valid);
        Ok(verdict?)
    }
}

/// Adds data, as `update` does. Writing fails after `finalize`.
impl io::Write for StreamVerifier<'_> {
    fn write(&mut self, piece: &[u8]) -> io::Result<usize> {
        raw::update(&mut self.state, piece)
            .map(|()| piece.len())
            .map_err(|reason| io::Error::new(io::ErrorKind::Other, reason))
    }

    fn flush(&mut self) -> io::Result<()> {
        Ok(())
    }
}

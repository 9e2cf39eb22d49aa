// SPDX-License-Identifier: MIT
//! Errors with the kinds and texts of the original crate `minisign`, which this crate replaces
//! under the same name.

use minisign_proved::{Error, Kind};
use std::{error, fmt, io, process, result};

/// A result of this crate.
pub type Result<T> = result::Result<T, PError>;

/// The kind of an error.
#[derive(Clone, Copy, Debug, Eq, PartialEq)]
pub enum ErrorKind {
    /// Key generation.
    Generate,
    /// Signing.
    Sign,
    /// Verifying a signature or a checksum.
    Verify,
    /// Input or output, or a malformed file.
    Io,
    /// Anything else.
    Misc,
    /// Hashing.
    Hash,
    /// Deriving a key from a password.
    KDF,
    /// Generating random bytes.
    RNG,
    /// A secret key file that is not base64, or a `FromUtf8Error`.
    Encoding,
    /// An encrypted secret key that would have to be decrypted first.
    EncryptedKey,
}

/// An error of this crate. `Display` prints a sentence.
///
/// # Examples
///
/// ```
/// use minisign::{ErrorKind, PError, PublicKey};
///
/// let error = PublicKey::from_base64("no key").unwrap_err();
/// assert_eq!(*error.kind(), ErrorKind::Io);
/// assert_eq!(error.to_string(), "base64 conversion failed - was an actual public key given?");
/// let mine = PError::new(ErrorKind::Misc, "an error of my program");
/// assert_eq!(mine.to_string(), "an error of my program");
/// ```
#[derive(Debug)]
pub struct PError {
    kind: ErrorKind,
    err: Box<dyn error::Error + Send + Sync>,
}

impl PError {
    /// Makes an error.
    #[must_use]
    pub fn new<E>(kind: ErrorKind, err: E) -> PError
    where
        E: Into<Box<dyn error::Error + Send + Sync>>,
    {
        let err = err.into();
        PError { kind, err }
    }

    /// Prints the error to standard error, and exits the program with status 1.
    ///
    /// # Examples
    ///
    /// ```no_run
    /// use minisign::PublicKey;
    ///
    /// let key = PublicKey::from_file("rsign.pub").unwrap_or_else(|error| error.exit());
    /// ```
    pub fn exit(&self) -> ! {
        eprintln!("{self}");
        process::exit(1)
    }

    /// Returns the kind of the error.
    #[must_use]
    pub fn kind(&self) -> &ErrorKind {
        &self.kind
    }
}

impl fmt::Display for PError {
    fn fmt(&self, f: &mut fmt::Formatter<'_>) -> fmt::Result {
        self.err.fmt(f)
    }
}

impl error::Error for PError {
    fn description(&self) -> &str {
        match self.kind {
            ErrorKind::Generate => "generate error",
            ErrorKind::Sign => "sign error",
            ErrorKind::Verify => "verify error",
            ErrorKind::Io => "io error",
            ErrorKind::Misc => "misc error",
            ErrorKind::Hash => "hash error",
            ErrorKind::KDF => "key derivation error",
            ErrorKind::RNG => "random number generator error",
            ErrorKind::Encoding => "encoding error",
            ErrorKind::EncryptedKey => "encrypted key error",
        }
    }
}

impl From<io::Error> for PError {
    fn from(err: io::Error) -> PError {
        PError::new(ErrorKind::Io, err)
    }
}

impl From<fmt::Error> for PError {
    fn from(err: fmt::Error) -> PError {
        PError::new(ErrorKind::Io, err)
    }
}

impl From<std::string::FromUtf8Error> for PError {
    fn from(err: std::string::FromUtf8Error) -> PError {
        PError::new(ErrorKind::Encoding, err)
    }
}

/// Converts an error of `minisign-proved`. If the C library or the package has an error code for it
/// (`reason`), the kind and the text are those of this code. Otherwise the kind is `Io` for an
/// `IoError`, and `Misc` for any other error.
impl From<Error> for PError {
    fn from(error: Error) -> PError {
        let reason = match (error.reason().copied(), error) {
            (Some(reason), _) => reason,
            (None, Error::IoError(error)) => return error.into(),
            (None, other) => return PError::new(ErrorKind::Misc, other),
        };
        let kind = match reason.kind() {
            Kind::Generate => ErrorKind::Generate,
            Kind::Sign => ErrorKind::Sign,
            Kind::Verify => ErrorKind::Verify,
            Kind::Io => ErrorKind::Io,
            Kind::Hash => ErrorKind::Hash,
            Kind::Kdf => ErrorKind::KDF,
            Kind::Rng => ErrorKind::RNG,
            Kind::Encoding => ErrorKind::Encoding,
            Kind::EncryptedKey => ErrorKind::EncryptedKey,
            // Through this crate, the only possible API misuse is to pass a comment that could not
            // be read back from the file, for example one with a line break.
            Kind::Misuse => ErrorKind::Sign,
            _ => ErrorKind::Misc,
        };
        PError::new(kind, reason)
    }
}

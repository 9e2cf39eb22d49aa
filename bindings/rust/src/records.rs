// SPDX-License-Identifier: MIT
//! Converts keys and signatures to and from records, which are the decoded base64 lines of their
//! files. Also has secret keys that are not decrypted yet, and kinds of errors.

use crate::{base64, key_id_text, raw, text_of_file};
use crate::{Error, PublicKey, Reason, SecretKey, Signature, Work};
use std::{fmt, path::Path};
use zeroize::Zeroizing;

/// The kind of an error, for programs that handle many errors in the same way. There are the kinds
/// of the crate `minisign`, in which malformed files have the kind `Io`, and three more: `None`,
/// `Misuse` and `OutOfMemory`.
#[derive(Clone, Copy, Debug, Eq, PartialEq, Hash)]
#[non_exhaustive]
pub enum Kind {
    /// No error, or an unknown error code.
    None,
    /// API misuse.
    Misuse,
    /// Key generation.
    Generate,
    /// Signing.
    Sign,
    /// Verifying a signature or a checksum.
    Verify,
    /// Input or output, or a malformed file.
    Io,
    /// Anything else.
    Misc,
    /// Hashing.
    Hash,
    /// Deriving a key from a password.
    Kdf,
    /// Generating random bytes.
    Rng,
    /// A secret key file that is not base64. For public keys and signatures the kind is `Io`.
    Encoding,
    /// A key that has to be decrypted first.
    EncryptedKey,
    /// A failed allocation.
    OutOfMemory,
}

impl Reason {
    /// Returns the kind of the error.
    ///
    /// # Examples
    ///
    /// ```
    /// use minisign_proved::{Kind, Reason};
    ///
    /// assert_eq!(Reason::WRONG_PASSWORD.kind(), Kind::Verify);
    /// assert_eq!(Reason::MISSING_SIGNATURE.kind(), Kind::Io);
    /// ```
    #[must_use]
    pub fn kind(self) -> Kind {
        match raw::error_kind(self.code()) {
            raw::KIND_MISUSE => Kind::Misuse,
            raw::KIND_GENERATE => Kind::Generate,
            raw::KIND_SIGN => Kind::Sign,
            raw::KIND_VERIFY => Kind::Verify,
            raw::KIND_IO => Kind::Io,
            raw::KIND_MISC => Kind::Misc,
            raw::KIND_HASH => Kind::Hash,
            raw::KIND_KDF => Kind::Kdf,
            raw::KIND_RNG => Kind::Rng,
            raw::KIND_ENCODING => Kind::Encoding,
            raw::KIND_ENCRYPTED_KEY => Kind::EncryptedKey,
            raw::KIND_OUT_OF_MEMORY => Kind::OutOfMemory,
            _ => Kind::None,
        }
    }
}

impl PublicKey {
    /// The size of a record, in bytes.
    pub const RECORD_BYTES: usize = 42;

    /// Reads a public key from its record, which is the first 42 bytes: the algorithm (2 bytes,
    /// which are not checked), the key ID (8) and the key (32).
    ///
    /// # Errors
    ///
    /// `InvalidEncoding` with `RECORD_TOO_SHORT` if there are fewer bytes.
    ///
    /// # Examples
    ///
    /// ```
    /// use minisign_proved::PublicKey;
    ///
    /// let base64 = "RWQf6LRCGA9i53mlYecO4IzT51TGPpvWucNSCh1CBM0QTaLn73Y7GFO3";
    /// let key = PublicKey::from_base64(base64)?;
    /// let record = key.to_record();
    /// assert_eq!(&record[..2], b"Ed");
    /// assert_eq!(PublicKey::from_record(&record)?, key);
    /// # Ok::<(), minisign_proved::Error>(())
    /// ```
    pub fn from_record(record: &[u8]) -> Result<Self, Error> {
        Ok(Self::new(None, raw::read_public_key_record(record)?))
    }

    /// Returns the record, with the algorithm `Ed`, which Minisign writes in every public key.
    #[must_use]
    pub fn to_record(&self) -> [u8; Self::RECORD_BYTES] {
        raw::public_key_record(&self.key).expect("a parsed key has a record")
    }

    /// Returns the 56 base64 characters of the record, which `from_base64` reads.
    ///
    /// # Examples
    ///
    /// ```
    /// use minisign_proved::PublicKey;
    ///
    /// let base64 = "RWQf6LRCGA9i53mlYecO4IzT51TGPpvWucNSCh1CBM0QTaLn73Y7GFO3";
    /// assert_eq!(PublicKey::from_base64(base64)?.to_base64(), base64);
    /// # Ok::<(), minisign_proved::Error>(())
    /// ```
    #[must_use]
    pub fn to_base64(&self) -> String {
        let text = self.encode("").expect("an empty comment can be read back");
        text.lines().nth(1).unwrap_or_default().into()
    }

    /// Returns the content of a public key file, with this comment after `untrusted comment: `.
    ///
    /// # Errors
    ///
    /// `Rejected` with `BAD_COMMENT` or `UNREADABLE_COMMENT` for a comment that Minisign could not
    /// read back.
    ///
    /// # Examples
    ///
    /// ```
    /// use minisign_proved::PublicKey;
    ///
    /// let base64 = "RWQf6LRCGA9i53mlYecO4IzT51TGPpvWucNSCh1CBM0QTaLn73Y7GFO3";
    /// let key = PublicKey::from_base64(base64)?;
    /// let text = key.encode("the key of my project")?;
    /// assert!(text.starts_with("untrusted comment: the key of my project\n"));
    /// # Ok::<(), minisign_proved::Error>(())
    /// ```
    pub fn encode(&self, comment: &str) -> Result<String, Error> {
        Ok(raw::encode_public_key(&self.key, comment.as_bytes())?)
    }
}

/// A signature without comments. Parsing verifies nothing.
///
/// # Examples
///
/// ```
/// use minisign_proved::{BareSignature, SecretKey, Sodium};
///
/// let key = SecretKey::generate(&Sodium)?;
/// let signature = key.sign(&Sodium, b"data", "timestamp:1", "an example")?;
/// let record: [u8; BareSignature::RECORD_BYTES] = signature.to_record();
/// let bare = BareSignature::from_record(&record)?;
/// assert_eq!(bare, signature.to_bare());
/// assert_eq!(bare.key_id(), key.key_id());
/// assert!(!bare.is_legacy());
/// key.public_key()?.verify_bare_with(&Sodium, b"data", &bare, false)?;
/// # Ok::<(), minisign_proved::Error>(())
/// ```
#[derive(Clone, Debug, Eq, PartialEq, Hash)]
pub struct BareSignature {
    pub(crate) parsed: raw::Signature,
}

impl BareSignature {
    /// The size of a record, in bytes.
    pub const RECORD_BYTES: usize = 74;

    /// Reads a bare signature from its record, which is the first 74 bytes: the algorithm (2
    /// bytes), the key ID (8) and the signature (64).
    ///
    /// # Errors
    ///
    /// `InvalidEncoding` with `RECORD_TOO_SHORT` if there are fewer bytes; `UnsupportedAlgorithm`.
    pub fn from_record(record: &[u8]) -> Result<Self, Error> {
        let parsed = raw::read_signature_record(record)?;
        Ok(BareSignature { parsed })
    }

    /// Returns the record.
    #[must_use]
    pub fn to_record(&self) -> [u8; Self::RECORD_BYTES] {
        raw::signature_record(&self.parsed).expect("a parsed signature has a record")
    }

    /// Returns the 8 bytes of the key ID of the signer's key. Nothing is verified.
    #[must_use]
    pub fn key_id(&self) -> &[u8; 8] {
        &self.parsed.key_id
    }

    /// Returns true for a legacy signature, which signs the data itself instead of its digest.
    #[must_use]
    pub fn is_legacy(&self) -> bool {
        self.parsed.legacy == 1
    }
}

impl Signature {
    /// Returns the record of the data signature, which is the decoded second line of the file. It
    /// contains neither the comments nor the comment signature.
    #[must_use]
    pub fn to_record(&self) -> [u8; BareSignature::RECORD_BYTES] {
        raw::signature_record(&self.parsed).expect("a parsed signature has a record")
    }

    /// Returns a signature file of four lines with the same comments and signatures. It leaves out
    /// what Minisign ignores, such as white space at the ends of lines, and further lines.
    ///
    /// # Examples
    ///
    /// ```
    /// use minisign_proved::{SecretKey, Signature, Sodium};
    ///
    /// let key = SecretKey::generate(&Sodium)?;
    /// let signature = key.sign(&Sodium, b"data", "timestamp:1", "an example")?;
    /// let padded = signature.to_string().replace('\n', " \n");
    /// assert_eq!(Signature::decode(&padded)?.encode().lines().count(), 4);
    /// # Ok::<(), minisign_proved::Error>(())
    /// ```
    #[must_use]
    pub fn encode(&self) -> String {
        let record = base64::encode(&self.to_record());
        let comment_signature = self.text.lines().nth(3).unwrap_or_default().trim();
        let (untrusted, trusted) = (self.untrusted_comment(), self.trusted_comment());
        format!("{untrusted}\n{record}\ntrusted comment: {trusted}\n{comment_signature}\n")
    }

    /// Returns the signature of the data without the comments.
    #[must_use]
    pub fn to_bare(&self) -> BareSignature {
        let record = self.to_record();
        BareSignature::from_record(&record).expect("the record of a signature can be parsed")
    }
}

/// A secret key that is not decrypted yet, or that needs no password. Its bytes are cleared when it
/// is dropped.
///
/// # Examples
///
/// ```
/// use minisign_proved::{SecretKey, Sodium, UnopenedKey, Work};
///
/// # let work = Work::new(524_288, 1 << 24);
/// # let text = SecretKey::generate(&Sodium)?.encode(&Sodium, Some("pass word"), &work)?;
/// let unopened = UnopenedKey::decode(&text)?;
/// let key = if unopened.is_encrypted() {
///     // Rejects a key that cannot be decrypted before somebody types a password.
///     unopened.check(&Work::USUAL)?;
///     let password = "pass word"; // Ask for it here.
///     unopened.open(Some(password), &Work::USUAL)?
/// } else {
///     unopened.open(None, &Work::USUAL)?
/// };
/// println!("the key ID is {}", key.key_id_text());
/// # Ok::<(), minisign_proved::Error>(())
/// ```
pub struct UnopenedKey {
    key: Box<raw::UnopenedKey>,
}

impl UnopenedKey {
    /// The size of a record, in bytes.
    pub const RECORD_BYTES: usize = 158;

    /// Parses the content of a secret key file, such as `minisign.key`: both lines.
    ///
    /// # Errors
    ///
    /// `Rejected` with `MISSING_SECRET_KEY_COMMENT`, `MISSING_SECRET_KEY` or
    /// `SECRET_KEY_NOT_BASE64`; `InvalidEncoding` with `RECORD_TOO_SHORT`.
    pub fn decode(lines: &str) -> Result<Self, Error> {
        let key = raw::read_secret_key(lines.as_bytes())?;
        Ok(UnopenedKey { key })
    }

    /// Reads a secret key file, such as `minisign.key`.
    ///
    /// # Errors
    ///
    /// `IoError` if the file cannot be read or is not UTF-8, and the errors of `decode`.
    ///
    /// # Examples
    ///
    /// ```no_run
    /// use minisign_proved::UnopenedKey;
    ///
    /// let unopened = UnopenedKey::from_file("minisign.key")?;
    /// println!("encrypted: {}", unopened.is_encrypted());
    /// # Ok::<(), minisign_proved::Error>(())
    /// ```
    pub fn from_file<P: AsRef<Path>>(path: P) -> Result<Self, Error> {
        Self::decode(&Zeroizing::new(text_of_file(path.as_ref())?))
    }

    /// Reads a secret key from its record, which is the first 158 bytes: the algorithm (2 bytes),
    /// the key derivation (2), the checksum algorithm (2), the salt (32), the operations limit (8),
    /// the memory limit (8), the key ID (8), the secret (64) and the checksum (32). If the key is
    /// encrypted, the last three parts are encrypted.
    ///
    /// # Errors
    ///
    /// `InvalidEncoding` with `RECORD_TOO_SHORT` if there are fewer bytes.
    ///
    /// # Examples
    ///
    /// ```
    /// use minisign_proved::{SecretKey, Sodium, UnopenedKey};
    ///
    /// let key = SecretKey::generate(&Sodium)?;
    /// let unopened = UnopenedKey::from_record(&*key.to_record()?)?;
    /// assert_eq!(unopened.to_record(), key.to_record()?);
    /// assert!(!unopened.is_encrypted());
    /// # Ok::<(), minisign_proved::Error>(())
    /// ```
    pub fn from_record(record: &[u8]) -> Result<Self, Error> {
        let key = raw::read_secret_key_record(record)?;
        Ok(UnopenedKey { key })
    }

    /// Returns the record, unchanged.
    #[must_use]
    pub fn to_record(&self) -> Zeroizing<[u8; Self::RECORD_BYTES]> {
        Zeroizing::new(self.key.bytes)
    }

    /// Returns the content of a secret key file, with this comment after `untrusted comment: `. An
    /// encrypted key stays encrypted.
    ///
    /// # Errors
    ///
    /// `Rejected` with `BAD_COMMENT` or `UNREADABLE_COMMENT` for a comment that Minisign could not
    /// read back.
    ///
    /// # Examples
    ///
    /// ```
    /// use minisign_proved::{SecretKey, Sodium, UnopenedKey};
    ///
    /// let key = SecretKey::generate(&Sodium)?;
    /// let unopened = UnopenedKey::from_record(&*key.to_record()?)?;
    /// let text = unopened.encode("not encrypted")?;
    /// assert!(text.starts_with("untrusted comment: not encrypted\n"));
    /// # Ok::<(), minisign_proved::Error>(())
    /// ```
    pub fn encode(&self, comment: &str) -> Result<Zeroizing<String>, Error> {
        let text = raw::encode_unopened_key(&self.key, comment.as_bytes())?;
        Ok(Zeroizing::new(text))
    }

    /// Returns true if the key is encrypted, so that `open` needs a password.
    #[must_use]
    pub fn is_encrypted(&self) -> bool {
        self.key.is_sealed == 1
    }

    /// Makes all checks of an encrypted key that need no password. Call it before you ask for the
    /// password, so that nobody types a password for a key that cannot be decrypted.
    ///
    /// # Errors
    ///
    /// `Rejected` with `KEY_NOT_SEALED`, `UNSUPPORTED_KEY_DERIVATION`, `PARAMETERS_TOO_HIGH`,
    /// `INVALID_PARAMETERS` or `WORK_TOO_HIGH`, in this order.
    pub fn check(&self, work: &Work) -> Result<(), Error> {
        Ok(raw::test_sealed_key(&self.key, work.most_rows)?)
    }

    /// Decrypts the key. Pass `None` as the password of a key that is not encrypted.
    ///
    /// # Errors
    ///
    /// Without a password, `Rejected` with `KEY_SEALED` or `KEY_CORRUPTED`. With a password, the
    /// errors of `check`, and then `Rejected` with `WRONG_PASSWORD` or `OUT_OF_MEMORY`.
    pub fn open(&self, password: Option<&str>, work: &Work) -> Result<SecretKey, Error> {
        SecretKey::open(&self.key, password, work)
    }
}

/// Prints `UnopenedKey(..)`, without the key.
impl fmt::Debug for UnopenedKey {
    fn fmt(&self, f: &mut fmt::Formatter) -> fmt::Result {
        f.write_str("UnopenedKey(..)")
    }
}

impl SecretKey {
    /// Returns the record of the key, without encryption. It contains the secret.
    ///
    /// # Errors
    ///
    /// Never fails for a key that was decrypted or generated.
    pub fn to_record(&self) -> Result<Zeroizing<[u8; UnopenedKey::RECORD_BYTES]>, Error> {
        Ok(raw::secret_key_record(&self.key)?)
    }

    /// Returns the 8 bytes of the key ID, a little-endian integer.
    #[must_use]
    pub fn key_id(&self) -> &[u8; 8] {
        &self.key.key_id
    }

    /// Returns the key ID as the program minisign prints it: in upper-case hexadecimal digits
    /// without leading zeros.
    #[must_use]
    pub fn key_id_text(&self) -> String {
        key_id_text(&self.key.key_id)
    }
}

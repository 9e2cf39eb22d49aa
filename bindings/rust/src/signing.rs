// SPDX-License-Identifier: MIT
//! Makes secret keys and signatures.

use crate::{raw, read_pieces};
use crate::{Error, PublicKey, Random, Reason, Sign, Signature, UnopenedKey};
use std::{fmt, fs, io, path::Path};
use zeroize::{ZeroizeOnDrop, Zeroizing};

/// The limits for scrypt, which derives a key from a password: its memory and time.
///
/// # Examples
///
/// ```
/// use minisign_proved::Work;
///
/// // Encrypts with 64 MiB, and decrypts with a sixteenth of the memory.
/// let work = Work::new(2_097_152, 67_108_864).keep_every(16);
/// # let _ = work;
/// ```
#[derive(Clone, Copy, Debug, Eq, PartialEq)]
#[non_exhaustive]
#[must_use]
pub struct Work {
    pub(crate) keep_every: u64,
    pub(crate) most_rows: u64,
    pub(crate) operations_limit: u64,
    pub(crate) memory_limit: u64,
    pub(crate) allow_empty_password: bool,
}

impl Work {
    /// The limits of `minisign -G`: 1 GiB of memory, and a few seconds.
    pub const USUAL: Work = Work {
        keep_every: raw::KEEP_EVERY_ROW as u64,
        most_rows: raw::USUAL_ROWS as u64,
        operations_limit: raw::OPERATIONS_LIMIT as u64,
        memory_limit: raw::MEMORY_LIMIT as u64,
        allow_empty_password: false,
    };

    /// Returns limits for encrypting a key: the number of operations as libsodium counts them, at
    /// least 524,288, and the memory in bytes, from 2^24 to 2^30. `encode` checks the limits.
    pub const fn new(operations_limit: u64, memory_limit: u64) -> Work {
        Work {
            operations_limit,
            memory_limit,
            ..Work::USUAL
        }
    }

    /// Keeps only every n-th row of scrypt in memory, and computes the other rows again when they
    /// are needed. The default is 1, which keeps all rows and is the fastest. 16 takes at most
    /// 65 MiB, but about three times as long.
    pub const fn keep_every(self, keep_every: u64) -> Work {
        Work { keep_every, ..self }
    }

    /// Sets the maximum work for decrypting a key file: the number of rows that scrypt computes,
    /// which is N times p. The default is 2^20.
    pub const fn most_rows(self, most_rows: u64) -> Work {
        Work { most_rows, ..self }
    }

    /// Allows `encode` to encrypt a key with an empty password, which protects nothing. The default
    /// is false.
    pub const fn allow_empty_password(self, allow_empty_password: bool) -> Work {
        Work {
            allow_empty_password,
            ..self
        }
    }
}

impl Default for Work {
    fn default() -> Work {
        Work::USUAL
    }
}

/// A decrypted or new secret key. Its bytes are cleared when it is dropped.
///
/// # Examples
///
/// ```
/// use minisign_proved::{SecretKey, Sodium, Work};
///
/// let key = SecretKey::generate(&Sodium)?;
/// // The minimum limits. `Work::USUAL` has the limits of `minisign -G`.
/// let work = Work::new(524_288, 1 << 24);
/// let text = key.encode(&Sodium, Some("pass word"), &work)?;
/// let decoded_key = SecretKey::decode(&text, Some("pass word"), &Work::USUAL)?;
/// assert_eq!(decoded_key.public_key()?, key.public_key()?);
/// assert!(!decoded_key.is_weak());
/// assert!(SecretKey::decode(&text, Some("password"), &Work::USUAL).is_err());
/// # Ok::<(), minisign_proved::Error>(())
/// ```
pub struct SecretKey {
    // On the heap, because moving the key would leave a copy. raw::SecretKey clears itself.
    pub(crate) key: Box<raw::SecretKey>,
    is_weak: bool,
}

impl ZeroizeOnDrop for SecretKey {}

impl SecretKey {
    /// Generates a new key from random bytes.
    ///
    /// # Errors
    ///
    /// `Rejected` with `RANDOM_SOURCE_FAILED`; `Scheme` if Ed25519 fails.
    ///
    /// # Examples
    ///
    /// ```
    /// # #[cfg(feature = "sodium")] {
    /// use minisign_proved::{SecretKey, Sodium};
    ///
    /// let key = SecretKey::generate(&Sodium)?;
    /// let signature = key.sign(&Sodium, b"data", "timestamp:1", "my signature")?;
    /// key.public_key()?.verify(b"data", &signature, false)?;
    /// # }
    /// # Ok::<(), minisign_proved::Error>(())
    /// ```
    pub fn generate<E: Sign + Random + ?Sized>(ed25519: &E) -> Result<SecretKey, Error> {
        let (mut new_key, mut seed) = (raw::NewKey::ZEROS, Zeroizing::new([0; 32]));
        let random_error = |_| Reason::RANDOM_SOURCE_FAILED;
        ed25519.fill(&mut new_key.key_id).map_err(random_error)?;
        ed25519.fill(&mut *seed).map_err(random_error)?;
        ed25519.expand(&seed, &mut new_key.secret)?;
        let (key, is_weak) = (raw::take_secret_key(&new_key), false);
        Ok(SecretKey { key, is_weak })
    }

    /// Decrypts the content of a secret key file, such as `minisign.key`: both lines. Pass `None`
    /// as the password of a key that is not encrypted.
    ///
    /// # Errors
    ///
    /// Those of `UnopenedKey::decode`, and then those of `UnopenedKey::open`.
    pub fn decode(lines: &str, password: Option<&str>, work: &Work) -> Result<SecretKey, Error> {
        UnopenedKey::decode(lines)?.open(password, work)
    }

    pub(crate) fn open(
        unopened_key: &raw::UnopenedKey,
        password: Option<&str>,
        work: &Work,
    ) -> Result<SecretKey, Error> {
        let keep_every = work.keep_every;
        let key = match password.map(str::as_bytes) {
            Some(password) => {
                raw::open_sealed_key(unopened_key, password, keep_every, work.most_rows)
            }
            None => raw::open_unsealed_key(unopened_key),
        }?;
        let is_weak = unopened_key.is_sealed == 1
            && usize::from(unopened_key.log2_rows) < raw::LEAST_LOG2_ROWS;
        Ok(SecretKey { key, is_weak })
    }

    /// Returns true if the file from which the key was read was encrypted with limits below the
    /// minimum of `encode`. The password of such a file can be guessed quickly, so encrypt the key
    /// again.
    #[must_use]
    pub fn is_weak(&self) -> bool {
        self.is_weak
    }

    /// Reads and decrypts a secret key file, such as `minisign.key`: see `decode`.
    ///
    /// # Errors
    ///
    /// `IoError` if the file cannot be read or is not UTF-8, and the errors of `decode`.
    ///
    /// # Examples
    ///
    /// ```no_run
    /// use minisign_proved::{SecretKey, Work};
    ///
    /// let key = SecretKey::from_file("minisign.key", Some("pass word"), &Work::USUAL)?;
    /// # Ok::<(), minisign_proved::Error>(())
    /// ```
    pub fn from_file<P: AsRef<Path>>(
        path: P,
        password: Option<&str>,
        work: &Work,
    ) -> Result<SecretKey, Error> {
        UnopenedKey::from_file(path)?.open(password, work)
    }

    /// Returns the content of a secret key file for this key: both lines. Write it with
    /// `write_new`. The text is cleared when it is dropped.
    ///
    /// The key is encrypted with the password and a new salt. If the password is `None`, the key is
    /// not encrypted.
    ///
    /// # Errors
    ///
    /// With a password, `WeakLimits` if the limits in `work` are below the minimum, and `Rejected`
    /// with `RANDOM_SOURCE_FAILED`, `EMPTY_PASSWORD`, `PARAMETERS_TOO_HIGH`,
    /// `INVALID_PARAMETERS` or `OUT_OF_MEMORY`.
    ///
    /// # Examples
    ///
    /// ```no_run
    /// use minisign_proved::{write_new, SecretKey, Sodium, Work};
    ///
    /// # let key = SecretKey::generate(&Sodium)?;
    /// let text = key.encode(&Sodium, Some("pass word"), &Work::USUAL)?;
    /// write_new("new.key", &text)?;
    /// # Ok::<(), minisign_proved::Error>(())
    /// ```
    pub fn encode<R: Random + ?Sized>(
        &self,
        random: &R,
        password: Option<&str>,
        work: &Work,
    ) -> Result<Zeroizing<String>, Error> {
        self.encode_with_comment(random, password, work, raw::SECRET_KEY_COMMENT)
    }

    /// Returns the content of a secret key file as `encode` does, with this comment after
    /// `untrusted comment: `.
    ///
    /// # Errors
    ///
    /// Those of `encode`, and `Rejected` with `BAD_COMMENT` or `UNREADABLE_COMMENT` for a comment
    /// that Minisign could not read back.
    ///
    /// # Examples
    ///
    /// ```
    /// use minisign_proved::{SecretKey, Sodium, Work};
    ///
    /// let key = SecretKey::generate(&Sodium)?;
    /// let text = key.encode_with_comment(&Sodium, None, &Work::USUAL, "for tests")?;
    /// assert!(text.starts_with("untrusted comment: for tests\n"));
    /// # Ok::<(), minisign_proved::Error>(())
    /// ```
    pub fn encode_with_comment<R: Random + ?Sized>(
        &self,
        random: &R,
        password: Option<&str>,
        work: &Work,
        comment: &str,
    ) -> Result<Zeroizing<String>, Error> {
        let mut sealing = raw::Sealing {
            salt: [0; 32],
            operations_limit: work.operations_limit,
            memory_limit: work.memory_limit,
        };
        let is_weak = work.operations_limit < raw::LEAST_OPERATIONS_LIMIT as u64
            || work.memory_limit < raw::LEAST_MEMORY_LIMIT as u64;
        if password.is_some() && is_weak {
            return Err(Error::WeakLimits);
        }
        if password.is_some() && random.fill(&mut sealing.salt).is_err() {
            return Err(Reason::RANDOM_SOURCE_FAILED.into());
        }
        let encode = match password {
            Some("") if work.allow_empty_password => raw::secret_key_text_with_any_password,
            _ => raw::secret_key_text,
        };
        let (password, comment) = (password.map(str::as_bytes), comment.as_bytes());
        let text = encode(&self.key, password, &sealing, work.keep_every, comment)?;
        Ok(Zeroizing::new(text))
    }

    /// Returns the content of a public key file for this key, such as `minisign.pub`: both lines.
    ///
    /// # Errors
    ///
    /// Never fails for a key that was decrypted or generated.
    ///
    /// # Examples
    ///
    /// ```
    /// use minisign_proved::{PublicKey, SecretKey, Sodium};
    ///
    /// let key = SecretKey::generate(&Sodium)?;
    /// assert_eq!(PublicKey::decode(&key.public_key_text()?)?, key.public_key()?);
    /// # Ok::<(), minisign_proved::Error>(())
    /// ```
    pub fn public_key_text(&self) -> Result<String, Error> {
        let comment = format!("{}{}", raw::PUBLIC_KEY_COMMENT, self.key_id_text());
        Ok(raw::public_key_text(&self.key, comment.as_bytes())?)
    }

    /// Returns the public key, which verifies the signatures of this key.
    ///
    /// # Errors
    ///
    /// Never fails for a key that was decrypted or generated.
    pub fn public_key(&self) -> Result<PublicKey, Error> {
        Ok(PublicKey::new(None, raw::public_key_of(&self.key)?))
    }

    /// Signs data in memory. `trusted` is the trusted comment, which is signed with the data, and
    /// `untrusted` is the untrusted comment, which is not signed. Each is one line.
    ///
    /// # Errors
    ///
    /// Those of `Signer::finalize`.
    ///
    /// # Examples
    ///
    /// ```
    /// use minisign_proved::{SecretKey, Sodium};
    ///
    /// let key = SecretKey::generate(&Sodium)?;
    /// let signature = key.sign(&Sodium, b"data", "version:3", "made by my program")?;
    /// println!("{signature}");
    /// # Ok::<(), minisign_proved::Error>(())
    /// ```
    pub fn sign(
        &self,
        ed25519: &dyn Sign,
        data: &[u8],
        trusted: &str,
        untrusted: &str,
    ) -> Result<Signature, Error> {
        let mut signer = self.sign_stream(ed25519);
        signer.update(data);
        signer.finalize(trusted, untrusted)
    }

    /// Signs a file as `sign` signs data.
    ///
    /// # Errors
    ///
    /// `IoError` if the file cannot be read, and the errors of `Signer::finalize`.
    ///
    /// # Examples
    ///
    /// ```no_run
    /// use minisign_proved::{SecretKey, Sodium};
    ///
    /// # let key = SecretKey::generate(&Sodium)?;
    /// let signature = key.sign_file(&Sodium, "app", "version:3\tfile:app", "made by my program")?;
    /// std::fs::write("app.minisig", signature.to_string())?;
    /// # Ok::<(), minisign_proved::Error>(())
    /// ```
    pub fn sign_file<P: AsRef<Path>>(
        &self,
        ed25519: &dyn Sign,
        path: P,
        trusted: &str,
        untrusted: &str,
    ) -> Result<Signature, Error> {
        let mut signer = self.sign_stream(ed25519);
        signer.update_from(fs::File::open(path)?)?;
        signer.finalize(trusted, untrusted)
    }

    /// Begins to sign data that arrives in pieces.
    pub fn sign_stream<'a>(&'a self, ed25519: &'a dyn Sign) -> Signer<'a> {
        Signer {
            ed25519,
            key: self,
            state: raw::init(),
        }
    }
}

/// Prints only the key ID.
impl fmt::Debug for SecretKey {
    fn fmt(&self, f: &mut fmt::Formatter) -> fmt::Result {
        write!(f, "SecretKey({})", self.key_id_text())
    }
}

/// Signs data that arrives in pieces: call `update` for each piece, or write the data to it, and
/// call `finalize` at the end.
///
/// # Examples
///
/// ```
/// use minisign_proved::{SecretKey, Sodium};
///
/// let key = SecretKey::generate(&Sodium)?;
/// let mut signer = key.sign_stream(&Sodium);
/// signer.update(b"some ");
/// signer.update_from(&b"data"[..])?;
/// let signature = signer.finalize("version:3", "made by my program")?;
/// key.public_key()?.verify(b"some data", &signature, false)?;
/// # Ok::<(), minisign_proved::Error>(())
/// ```
#[derive(Clone, Debug)]
#[must_use = "nothing is signed before `finalize`"]
pub struct Signer<'a> {
    ed25519: &'a dyn Sign,
    key: &'a SecretKey,
    state: raw::State,
}

impl Signer<'_> {
    /// Adds the next piece of the data, of any length.
    pub fn update(&mut self, piece: &[u8]) {
        // This fails only after the digest was computed, and `finalize` consumes the signer.
        let _ = raw::update(&mut self.state, piece);
    }

    /// Adds the data of a reader, up to its end.
    ///
    /// # Errors
    ///
    /// The first error of the reader, except `Interrupted`.
    pub fn update_from(&mut self, reader: impl io::Read) -> io::Result<()> {
        read_pieces(reader, |piece, _| self.update(piece))
    }

    /// Signs all data, verifies the signature, and returns it.
    ///
    /// # Errors
    ///
    /// `Scheme` if Ed25519 fails to sign; `InvalidSignature` if the key is damaged, so that its
    /// seed and its public key do not match; `Rejected` with `BAD_COMMENT` or `UNREADABLE_COMMENT`
    /// for a comment that Minisign could not read back.
    pub fn finalize(
        mut self,
        trusted_comment: &str,
        untrusted_comment: &str,
    ) -> Result<Signature, Error> {
        let (trusted_comment, untrusted_comment) =
            (trusted_comment.as_bytes(), untrusted_comment.as_bytes());
        let digest = raw::digest(&mut self.state)?;
        let data_signature = self.sign_message(&digest)?;
        let message = raw::comment_message(&data_signature, trusted_comment)?;
        let comment_signature = self.sign_message(&message)?;
        let key = raw::public_key_of(&self.key.key)?;
        let text = raw::signed_text(
            &key,
            &data_signature,
            &comment_signature,
            trusted_comment,
            untrusted_comment,
        )?;
        Signature::decode(&text)
    }

    /// Signs a message, and verifies the signature before returning it, because a signature made
    /// with a damaged key, whose seed and public key do not match, reveals the secret.
    fn sign_message(&self, message: &[u8]) -> Result<[u8; 64], Error> {
        let (key, ed25519) = (self.key.public_key()?.key.key, self.ed25519);
        let signature = ed25519.sign(message, &self.key.key.secret)?;
        match ed25519.verify(&signature, message, &key) {
            Ok(()) => Ok(signature),
            Err(_) => Err(Reason::SIGNATURE_REFUSED.into()),
        }
    }
}

/// Adds data, as `update` does.
impl io::Write for Signer<'_> {
    fn write(&mut self, piece: &[u8]) -> io::Result<usize> {
        self.update(piece);
        Ok(piece.len())
    }

    fn flush(&mut self) -> io::Result<()> {
        Ok(())
    }
}

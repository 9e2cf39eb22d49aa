// SPDX-License-Identifier: MIT
//! Secret keys.

use crate::password::{ask, print};
use crate::{key_id_text, Result};
use minisign_proved::{self as proved, Error, Reason, Sodium, UnopenedKey, Work};
use std::{fmt, fs, ops::Range, path::Path};
use zeroize::{ZeroizeOnDrop, Zeroizing};

/// The limits with which new keys are encrypted, and which other keys must not exceed.
const WORK: Work = Work::new(1 << 20, 1 << 25);

const DEFAULT_COMMENT: &str = "rsign encrypted secret key";

/// The content of a secret key file, such as `minisign.key`: both lines. It is checked only when
/// it is converted to a `SecretKey`, and it is cleared when it is dropped.
///
/// # Examples
///
/// ```
/// use minisign::{KeyPair, SecretKeyBox};
///
/// let KeyPair { sk, .. } = KeyPair::generate_encrypted_keypair(Some("pass word".into()))?;
/// let text = sk.to_box(Some("my key"))?.into_string();
/// let opened = SecretKeyBox::from_string(&text)?.into_secret_key(Some("pass word".into()))?;
/// assert!(!opened.is_encrypted());
/// # Ok::<(), minisign::PError>(())
/// ```
#[derive(Clone)]
pub struct SecretKeyBox(Zeroizing<String>);

impl SecretKeyBox {
    /// Stores the content of a secret key file, without checking it.
    ///
    /// # Errors
    ///
    /// Never fails.
    pub fn from_string(s: &str) -> Result<SecretKeyBox> {
        Ok(SecretKeyBox(Zeroizing::new(s.into())))
    }

    /// Returns the content. The caller has to clear it.
    #[must_use]
    pub fn into_string(self) -> String {
        self.into()
    }

    /// Decrypts an encrypted key. If `password` is `None`, asks for it on the terminal.
    ///
    /// # Errors
    ///
    /// Those of `SecretKey::from_box`.
    pub fn into_secret_key(self, password: Option<String>) -> Result<SecretKey> {
        SecretKey::from_box(self, password)
    }

    /// Parses a key that is not encrypted.
    ///
    /// # Errors
    ///
    /// Those of `SecretKey::from_unencrypted_box`.
    pub fn into_unencrypted_secret_key(self) -> Result<SecretKey> {
        SecretKey::from_unencrypted_box(self)
    }

    /// Returns the bytes of the content. The caller has to clear them.
    #[must_use]
    pub fn to_bytes(&self) -> Vec<u8> {
        self.0.as_bytes().to_vec()
    }
}

impl From<SecretKeyBox> for String {
    fn from(mut sk_box: SecretKeyBox) -> String {
        std::mem::take(&mut sk_box.0)
    }
}

impl From<String> for SecretKeyBox {
    fn from(s: String) -> SecretKeyBox {
        SecretKeyBox(Zeroizing::new(s))
    }
}

impl fmt::Display for SecretKeyBox {
    fn fmt(&self, f: &mut fmt::Formatter<'_>) -> fmt::Result {
        f.write_str(&self.0)
    }
}

/// Prints `SecretKeyBox(..)`, without the content.
impl fmt::Debug for SecretKeyBox {
    fn fmt(&self, f: &mut fmt::Formatter<'_>) -> fmt::Result {
        f.write_str("SecretKeyBox(..)")
    }
}

/// A secret key, which is encrypted or decrypted. It has the 158 bytes of the second line of its
/// file. Only a decrypted key can sign. The key is cleared when it is dropped. `==` compares only
/// the secrets.
///
/// # Examples
///
/// ```
/// use minisign::{KeyPair, SecretKey};
///
/// let KeyPair { sk, .. } = KeyPair::generate_unencrypted_keypair()?;
/// let text = sk.to_box(None)?;
/// assert_eq!(text.into_unencrypted_secret_key()?, sk);
/// assert_eq!(SecretKey::from_bytes(&sk.to_bytes())?, sk);
/// # Ok::<(), minisign::PError>(())
/// ```
#[derive(Clone)]
pub struct SecretKey {
    record: Zeroizing<[u8; UnopenedKey::RECORD_BYTES]>,
}

// The fields of a record.
const ALGORITHM: Range<usize> = 0..2;
const KEY_DERIVATION: Range<usize> = 2..4;
// The fields that say how a key is encrypted: the key derivation, the checksum algorithm, the salt
// and the limits.
const ENCRYPTION: Range<usize> = 2..54;
const KEY_ID: Range<usize> = 54..62;
const SECRET: Range<usize> = 62..126;
const PUBLIC: Range<usize> = 94..126;

impl ZeroizeOnDrop for SecretKey {}

impl SecretKey {
    /// Makes a key that is not encrypted.
    pub(crate) fn decrypted(key: &proved::SecretKey) -> Result<SecretKey> {
        let record = key.to_record()?;
        Ok(SecretKey { record })
    }

    /// Encrypts a key with a password.
    pub(crate) fn encrypted(key: &proved::SecretKey, password: &str) -> Result<SecretKey> {
        let work = WORK.allow_empty_password(true);
        let text = key.encode(&Sodium, Some(password), &work)?;
        let record = UnopenedKey::decode(&text)?.to_record();
        Ok(SecretKey { record })
    }

    /// Returns the key for signing, if its checksum is right. The field for the key derivation is
    /// set to zero first, because it is still set in the record of a decrypted key.
    pub(crate) fn open(&self) -> Result<proved::SecretKey> {
        let mut record = self.record.clone();
        record[KEY_DERIVATION].fill(0);
        let key = UnopenedKey::from_record(&*record)?;
        Ok(key.open(None, &WORK)?)
    }

    /// Returns the record of the public key, from the fields of the record of a decrypted key.
    pub(crate) fn public_record(&self) -> Vec<u8> {
        let parts = [ALGORITHM, KEY_ID, PUBLIC];
        parts.map(|part| &self.record[part]).concat()
    }

    /// Returns the 8 bytes of the key ID. If the key is encrypted, its key ID is encrypted too, and
    /// the result has no meaning.
    #[must_use]
    pub fn keynum(&self) -> &[u8] {
        &self.record[KEY_ID]
    }

    /// Returns true if the key is encrypted, so that it cannot sign before it is decrypted.
    #[must_use]
    pub fn is_encrypted(&self) -> bool {
        // The field for the key derivation is also set in a decrypted key, but such a key can be
        // opened.
        let key = UnopenedKey::from_record(&*self.record);
        let opened = key.and_then(|key| key.open(None, &WORK));
        let has_derivation = |error: Error| matches!(error, Error::Rejected(Reason::KEY_SEALED));
        opened.map_or_else(has_derivation, |_| false) && self.open().is_err()
    }

    /// Reads a key from the first 158 bytes of a buffer, as `to_bytes` returns them.
    ///
    /// # Errors
    ///
    /// `Io` if there are fewer bytes.
    pub fn from_bytes(bytes_buf: &[u8]) -> Result<SecretKey> {
        let record = UnopenedKey::from_record(bytes_buf)?.to_record();
        Ok(SecretKey { record })
    }

    /// Returns the 158 bytes of the key. If the key is not encrypted, they contain the secret, and
    /// the caller has to clear them.
    #[must_use]
    pub fn to_bytes(&self) -> Vec<u8> {
        self.record.to_vec()
    }

    /// Decrypts an encrypted key. If `password` is `None`, checks the key file and then asks for
    /// the password on the terminal.
    ///
    /// # Errors
    ///
    /// `Io` if a line is missing, the key is not encrypted, its key derivation is not supported,
    /// or the terminal cannot be used; `Encoding` if the second line is not base64; `KDF` if the
    /// limits of the key are invalid or above those of `minisign -G`; `Misc` if a typed password
    /// has more than 1,024 bytes, or there is too little memory; `Verify` if the password is wrong.
    pub fn from_box(sk_box: SecretKeyBox, password: Option<String>) -> Result<SecretKey> {
        let password = password.map(Zeroizing::new);
        let key = UnopenedKey::decode(&sk_box.0)?;
        key.check(&WORK)?;
        let is_typed = password.is_none();
        let password = password.map_or_else(ask_password, Ok)?;
        let opened = key.open(Some(&password), &WORK);
        if is_typed {
            print("done\n")?;
        }
        let mut decrypted = Self::decrypted(&opened?)?;
        // Like the crate minisign, copy these fields from the file. The algorithm is not copied,
        // because it is covered by the checksum that the library has computed.
        decrypted.record[ENCRYPTION].copy_from_slice(&key.to_record()[ENCRYPTION]);
        Ok(decrypted)
    }

    /// Parses a key that is not encrypted.
    ///
    /// # Errors
    ///
    /// `Io` if a line is missing or the key has a key derivation, so that it may be encrypted;
    /// `Encoding` if the second line is not base64; `Verify` if the checksum is wrong.
    pub fn from_unencrypted_box(sk_box: SecretKeyBox) -> Result<SecretKey> {
        let key = UnopenedKey::decode(&sk_box.0)?;
        key.open(None, &WORK)?;
        let record = key.to_record();
        Ok(SecretKey { record })
    }

    /// Returns the content of a secret key file. If the key is not encrypted, it contains the
    /// secret. The default comment is `rsign encrypted secret key`.
    ///
    /// # Errors
    ///
    /// `Sign` for a comment that could not be read back.
    pub fn to_box(&self, comment: Option<&str>) -> Result<SecretKeyBox> {
        let key = UnopenedKey::from_record(&*self.record)?;
        let text = key.encode(comment.unwrap_or(DEFAULT_COMMENT))?;
        Ok(SecretKeyBox(text))
    }

    /// Reads and decrypts a secret key file.
    ///
    /// # Errors
    ///
    /// `Io` if the file cannot be read or is not UTF-8, and the errors of `from_box`.
    ///
    /// # Examples
    ///
    /// ```no_run
    /// use minisign::SecretKey;
    ///
    /// // Asks for the password on the terminal.
    /// let key = SecretKey::from_file("rsign.key", None)?;
    /// # Ok::<(), minisign::PError>(())
    /// ```
    pub fn from_file<P: AsRef<Path>>(sk_path: P, password: Option<String>) -> Result<SecretKey> {
        Self::from_box(fs::read_to_string(sk_path)?.into(), password)
    }
}

/// Asks for a password, and announces the key derivation.
fn ask_password() -> Result<Zeroizing<String>> {
    let password = ask("Password: ")?;
    print("Deriving a key from the password and decrypting the secret key... ")?;
    Ok(password)
}

/// Prints only the key ID.
impl fmt::Debug for SecretKey {
    fn fmt(&self, f: &mut fmt::Formatter<'_>) -> fmt::Result {
        write!(f, "SecretKey({})", key_id_text(self.keynum()))
    }
}

/// Compares in constant time.
impl PartialEq for SecretKey {
    fn eq(&self, other: &SecretKey) -> bool {
        let pairs = self.record[SECRET].iter().zip(&other.record[SECRET]);
        pairs.fold(0, |bits, (one, another)| bits | (one ^ another)) == 0
    }
}

impl Eq for SecretKey {}

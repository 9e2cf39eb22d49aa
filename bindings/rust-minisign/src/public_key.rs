// SPDX-License-Identifier: MIT
//! Public keys. As in the crate `minisign` 0.10, a malformed key is an `Io` error.

use crate::{key_id_text, Result, SecretKey};
use minisign_proved as proved;
use std::{fmt, fs, path::Path};

/// The content of a public key file, such as `minisign.pub`: both lines. It is checked only when it
/// is converted to a `PublicKey`.
///
/// # Examples
///
/// ```
/// use minisign::{PublicKey, PublicKeyBox};
///
/// let base64 = "RWQf6LRCGA9i53mlYecO4IzT51TGPpvWucNSCh1CBM0QTaLn73Y7GFO3";
/// let text = format!("untrusted comment: my key\n{base64}\n");
/// let key = PublicKeyBox::from_string(&text)?.into_public_key()?;
/// assert_eq!(key, PublicKey::from_base64(base64)?);
/// # Ok::<(), minisign::PError>(())
/// ```
#[derive(Clone, Debug)]
pub struct PublicKeyBox(String);

impl PublicKeyBox {
    /// Stores the content of a public key file, without checking it.
    ///
    /// # Errors
    ///
    /// Never fails.
    pub fn from_string(s: &str) -> Result<PublicKeyBox> {
        Ok(PublicKeyBox(s.into()))
    }

    /// Returns the content.
    #[must_use]
    pub fn into_string(self) -> String {
        self.0
    }

    /// Parses the key.
    ///
    /// # Errors
    ///
    /// Those of `PublicKey::from_box`.
    pub fn into_public_key(self) -> Result<PublicKey> {
        PublicKey::from_box(self)
    }

    /// Returns the bytes of the content.
    #[must_use]
    pub fn to_bytes(&self) -> Vec<u8> {
        self.0.clone().into_bytes()
    }
}

impl From<PublicKeyBox> for String {
    fn from(pk_box: PublicKeyBox) -> String {
        pk_box.0
    }
}

impl From<String> for PublicKeyBox {
    fn from(s: String) -> PublicKeyBox {
        PublicKeyBox(s)
    }
}

impl fmt::Display for PublicKeyBox {
    fn fmt(&self, f: &mut fmt::Formatter<'_>) -> fmt::Result {
        f.write_str(&self.0)
    }
}

/// Panics if the content is malformed. `PublicKeyBox::into_public_key` returns an error instead.
impl From<PublicKeyBox> for PublicKey {
    fn from(pk_box: PublicKeyBox) -> PublicKey {
        pk_box.into_public_key().unwrap()
    }
}

/// A public key, which verifies signatures. As in the crate `minisign` 0.10, `==` compares only the
/// 32 bytes of the Ed25519 key, not the key ID.
///
/// # Examples
///
/// ```
/// use minisign::PublicKey;
///
/// let key = PublicKey::from_base64("RWQf6LRCGA9i53mlYecO4IzT51TGPpvWucNSCh1CBM0QTaLn73Y7GFO3")?;
/// let text = key.to_box()?.into_string();
/// assert!(text.starts_with("untrusted comment: minisign public key: E7620F1842B4E81F\n"));
/// assert_eq!(PublicKey::from_bytes(&key.to_bytes())?, key);
/// # Ok::<(), minisign::PError>(())
/// ```
#[derive(Clone, Debug)]
pub struct PublicKey {
    pub(crate) key: proved::PublicKey,
}

impl PublicKey {
    /// Returns the 8 bytes of the key ID.
    #[must_use]
    pub fn keynum(&self) -> &[u8] {
        self.key.key_id()
    }

    /// Reads a key from the first 42 bytes of a buffer, as `to_bytes` returns them.
    ///
    /// # Errors
    ///
    /// `Io` if there are fewer bytes.
    pub fn from_bytes(buf: &[u8]) -> Result<PublicKey> {
        Ok(proved::PublicKey::from_record(buf)?.into())
    }

    /// Returns the public key of a secret key that was decrypted or never encrypted. For an
    /// encrypted key, the result has no meaning.
    ///
    /// # Errors
    ///
    /// Never fails.
    ///
    /// # Examples
    ///
    /// ```
    /// use minisign::{KeyPair, PublicKey};
    ///
    /// let KeyPair { pk, sk } = KeyPair::generate_unencrypted_keypair()?;
    /// assert_eq!(PublicKey::from_secret_key(&sk)?, pk);
    /// # Ok::<(), minisign::PError>(())
    /// ```
    pub fn from_secret_key(sk: &SecretKey) -> Result<PublicKey> {
        Self::from_bytes(&sk.public_record())
    }

    /// Returns the 42 bytes of the key: the algorithm `Ed`, the key ID and the key.
    #[must_use]
    pub fn to_bytes(&self) -> Vec<u8> {
        self.key.to_record().to_vec()
    }

    /// Parses the content of a public key file.
    ///
    /// # Errors
    ///
    /// `Io` if a line is missing, or the second line is not 56 characters of base64.
    pub fn from_box(pk_box: PublicKeyBox) -> Result<PublicKey> {
        Ok(proved::PublicKey::decode(&pk_box.0)?.into())
    }

    /// Returns the content of a public key file.
    ///
    /// # Errors
    ///
    /// Never fails.
    pub fn to_box(&self) -> Result<PublicKeyBox> {
        let comment = format!("minisign public key: {}", key_id_text(self.keynum()));
        Ok(self.key.encode(&comment)?.into())
    }

    /// Parses the 56 base64 characters of a key.
    ///
    /// # Errors
    ///
    /// `Io` if the string is not 56 characters of base64.
    pub fn from_base64(pk_string: &str) -> Result<PublicKey> {
        Ok(proved::PublicKey::from_base64(pk_string)?.into())
    }

    /// Returns the 56 base64 characters of the key.
    #[must_use]
    pub fn to_base64(&self) -> String {
        self.key.to_base64()
    }

    /// Reads a public key file.
    ///
    /// # Errors
    ///
    /// `Io` if the file cannot be read or is not UTF-8, and the errors of `from_box`.
    ///
    /// # Examples
    ///
    /// ```no_run
    /// use minisign::PublicKey;
    ///
    /// let key = PublicKey::from_file("rsign.pub")?;
    /// # Ok::<(), minisign::PError>(())
    /// ```
    pub fn from_file<P>(pk_path: P) -> Result<PublicKey>
    where
        P: AsRef<Path>,
    {
        Self::from_box(fs::read_to_string(pk_path)?.into())
    }
}

impl From<proved::PublicKey> for PublicKey {
    fn from(key: proved::PublicKey) -> PublicKey {
        PublicKey { key }
    }
}

impl PartialEq for PublicKey {
    fn eq(&self, other: &PublicKey) -> bool {
        self.key.to_record()[10..] == other.key.to_record()[10..]
    }
}

impl Eq for PublicKey {}

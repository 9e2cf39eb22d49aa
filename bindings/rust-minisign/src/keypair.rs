// SPDX-License-Identifier: MIT
//! Generates key pairs.

use crate::password::{ask, print};
use crate::{ErrorKind, PError, PublicKey, Result, SecretKey};
use minisign_proved::{self as proved, Sodium};
use std::io::Write;
use zeroize::Zeroizing;

/// A public key and its secret key.
#[derive(Clone, Debug)]
pub struct KeyPair {
    /// The public key.
    pub pk: PublicKey,
    /// The secret key.
    pub sk: SecretKey,
}

impl KeyPair {
    /// Generates a key pair whose secret key is not encrypted.
    ///
    /// # Errors
    ///
    /// `RNG` if libsodium cannot be initialized.
    ///
    /// # Examples
    ///
    /// ```
    /// use minisign::KeyPair;
    ///
    /// let KeyPair { pk, sk } = KeyPair::generate_unencrypted_keypair()?;
    /// assert!(!sk.is_encrypted());
    /// assert_eq!(sk.keynum(), pk.keynum());
    /// # Ok::<(), minisign::PError>(())
    /// ```
    pub fn generate_unencrypted_keypair() -> Result<Self> {
        let key = proved::SecretKey::generate(&Sodium)?;
        let (pk, sk) = (key.public_key()?.into(), SecretKey::decrypted(&key)?);
        Ok(KeyPair { pk, sk })
    }

    /// Generates a key pair whose secret key is encrypted with a password. If `password` is `None`,
    /// asks for it on the terminal.
    ///
    /// # Errors
    ///
    /// `RNG` if libsodium cannot be initialized; `Io` if the terminal cannot be used; `Misc` if a
    /// typed password has more than 1,024 bytes, or there is too little memory; `Generate` if the
    /// two typed passwords differ.
    ///
    /// # Examples
    ///
    /// ```
    /// use minisign::KeyPair;
    ///
    /// let KeyPair { pk, sk } = KeyPair::generate_encrypted_keypair(Some("pass word".into()))?;
    /// assert!(sk.is_encrypted());
    /// let opened = sk.to_box(None)?.into_secret_key(Some("pass word".into()))?;
    /// assert_eq!(opened.keynum(), pk.keynum());
    /// # Ok::<(), minisign::PError>(())
    /// ```
    pub fn generate_encrypted_keypair(password: Option<String>) -> Result<Self> {
        let is_typed = password.is_none();
        let key = proved::SecretKey::generate(&Sodium)?;
        let password = password.map_or_else(ask_twice, |password| Ok(Zeroizing::new(password)))?;
        let (pk, sk) = (
            key.public_key()?.into(),
            SecretKey::encrypted(&key, &password)?,
        );
        if is_typed {
            print("done\n")?;
        }
        Ok(KeyPair { pk, sk })
    }

    /// Generates a key pair as `generate_encrypted_keypair` does, and writes the contents of both
    /// key files. The default comment of the secret key is `rsign encrypted secret key`.
    ///
    /// # Errors
    ///
    /// Those of `generate_encrypted_keypair`; `Sign` for a comment that could not be read back,
    /// because it contains a line break or is too long; `Io` if writing fails.
    ///
    /// # Examples
    ///
    /// ```
    /// use minisign::KeyPair;
    ///
    /// let (mut public, mut secret) = (vec![], vec![]);
    /// let (comment, password) = (Some("mine"), Some("pass word".into()));
    /// KeyPair::generate_and_write_encrypted_keypair(&mut public, &mut secret, comment, password)?;
    /// assert!(public.starts_with(b"untrusted comment: minisign public key: "));
    /// assert!(secret.starts_with(b"untrusted comment: mine\n"));
    /// # Ok::<(), minisign::PError>(())
    /// ```
    pub fn generate_and_write_encrypted_keypair<W, X>(
        mut pk_writer: W,
        mut sk_writer: X,
        comment: Option<&str>,
        password: Option<String>,
    ) -> Result<Self>
    where
        W: Write,
        X: Write,
    {
        let pair = Self::generate_encrypted_keypair(password)?;
        let sk_box = pair.sk.to_box(comment)?;
        write(&mut pk_writer, &pair.pk.to_box()?.to_bytes())?;
        write(&mut sk_writer, &Zeroizing::new(sk_box.to_bytes()))?;
        Ok(pair)
    }

    /// Generates a key pair whose secret key is not encrypted, and writes the bytes of both keys,
    /// as `to_bytes` returns them.
    ///
    /// # Errors
    ///
    /// `RNG` if libsodium cannot be initialized; `Io` if writing fails.
    ///
    /// # Examples
    ///
    /// ```
    /// use minisign::KeyPair;
    ///
    /// let (mut public, mut secret) = (vec![], vec![]);
    /// let pair = KeyPair::generate_and_write_unencrypted_keypair(&mut public, &mut secret)?;
    /// assert_eq!((public, secret), (pair.pk.to_bytes(), pair.sk.to_bytes()));
    /// # Ok::<(), minisign::PError>(())
    /// ```
    pub fn generate_and_write_unencrypted_keypair<W, X>(
        mut pk_writer: W,
        mut sk_writer: X,
    ) -> Result<Self>
    where
        W: Write,
        X: Write,
    {
        let pair = Self::generate_unencrypted_keypair()?;
        write(&mut pk_writer, &pair.pk.to_bytes())?;
        write(&mut sk_writer, &Zeroizing::new(pair.sk.to_bytes()))?;
        Ok(pair)
    }
}

/// Asks for a new password and asks for it again. Then announces the key derivation.
fn ask_twice() -> Result<Zeroizing<String>> {
    print("Please enter a password to protect the secret key.\n")?;
    let (password, again) = (ask("Password: ")?, ask("Password (one more time): ")?);
    if password != again {
        let why = "passwords don't match!";
        return Err(PError::new(ErrorKind::Generate, why));
    }
    print("Deriving a key from the password in order to encrypt the secret key... ")?;
    Ok(password)
}

fn write(to: &mut impl Write, bytes: &[u8]) -> Result<()> {
    to.write_all(bytes)?;
    Ok(to.flush()?)
}

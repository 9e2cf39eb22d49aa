// SPDX-License-Identifier: MIT
//! Signatures, with and without comments.

use crate::{ErrorKind, PError, PublicKey, Result};
use minisign_proved::{BareSignature, Error, Signature, Sodium, StreamVerifier};
use std::{fs, path::Path};

const UNTRUSTED_PREFIX: &str = "untrusted comment: ";

/// A parsed signature: either a signature file, or a bare signature, which has no comments. Parsing
/// verifies nothing.
///
/// # Examples
///
/// ```
/// use minisign::{sign, KeyPair, SignatureBox};
///
/// let KeyPair { sk, .. } = KeyPair::generate_unencrypted_keypair()?;
/// let text = sign(None, &sk, &b"data"[..], Some("version:3"), Some("mine"))?.into_string();
/// let signature = SignatureBox::from_string(&text)?;
/// assert_eq!(signature.keynum(), sk.keynum());
/// assert_eq!(signature.untrusted_comment()?, "mine");
/// assert_eq!(signature.trusted_comment()?, "version:3");
/// assert!(signature.is_prehashed());
/// assert_eq!(signature.to_string(), text);
/// # Ok::<(), minisign::PError>(())
/// ```
#[derive(Clone)]
pub struct SignatureBox(Inner);

#[derive(Clone)]
enum Inner {
    File(Signature),
    Bare(BareSignature),
}

impl SignatureBox {
    /// Returns true if this is a bare signature.
    pub(crate) fn is_bare(&self) -> bool {
        matches!(self.0, Inner::Bare(_))
    }

    /// Verifies data with a legacy signature.
    pub(crate) fn verify_legacy(
        &self,
        pk: &PublicKey,
        data: &[u8],
    ) -> std::result::Result<(), Error> {
        match &self.0 {
            Inner::File(signature) => pk.key.verify(data, signature, true),
            Inner::Bare(signature) => pk.key.verify_bare_with(&Sodium, data, signature, true),
        }
    }

    /// Begins to verify data in pieces.
    pub(crate) fn verify_stream(
        &self,
        pk: &PublicKey,
    ) -> std::result::Result<StreamVerifier<'_>, Error> {
        match &self.0 {
            Inner::File(signature) => pk.key.verify_stream(signature),
            Inner::Bare(signature) => pk.key.verify_bare_stream_with(&Sodium, signature),
        }
    }

    /// Returns true if the signature signs the digest of the data, and not the data itself.
    #[must_use]
    pub fn is_prehashed(&self) -> bool {
        match &self.0 {
            Inner::File(signature) => !signature.is_legacy(),
            Inner::Bare(signature) => !signature.is_legacy(),
        }
    }

    /// Returns the untrusted comment, which is not signed. It is empty for a bare signature.
    ///
    /// # Errors
    ///
    /// Never fails.
    pub fn untrusted_comment(&self) -> Result<String> {
        Ok(match &self.0 {
            Inner::File(signature) => {
                signature.untrusted_comment()[UNTRUSTED_PREFIX.len()..].into()
            }
            Inner::Bare(_) => String::new(),
        })
    }

    /// Returns the trusted comment, which is signed together with the data. Trust it only after
    /// the signature was verified.
    ///
    /// # Errors
    ///
    /// `Misc` for a bare signature.
    pub fn trusted_comment(&self) -> Result<String> {
        match &self.0 {
            Inner::File(signature) => Ok(signature.trusted_comment().into()),
            Inner::Bare(_) => Err(PError::new(
                ErrorKind::Misc,
                "trusted comment is not present",
            )),
        }
    }

    /// Returns the 8 bytes of the key ID of the signer's key.
    #[must_use]
    pub fn keynum(&self) -> &[u8] {
        match &self.0 {
            Inner::File(signature) => signature.key_id(),
            Inner::Bare(signature) => signature.key_id(),
        }
    }

    /// Parses the content of a signature file, such as `data.minisig`: four lines.
    ///
    /// # Errors
    ///
    /// `Io` if a line is missing or is not base64; `Verify` if a comment line does not begin with
    /// `untrusted comment: ` or `trusted comment: `, or the algorithm is not supported.
    pub fn from_string(s: &str) -> Result<SignatureBox> {
        Ok(Signature::decode(s)?.into())
    }

    /// Returns the content of the signature file.
    ///
    /// # Panics
    ///
    /// Panics for a bare signature.
    #[allow(clippy::inherent_to_string)]
    #[must_use]
    pub fn to_string(&self) -> String {
        match &self.0 {
            Inner::File(signature) => signature.encode(),
            Inner::Bare(_) => panic!("Incomplete SignatureBox: trusted comment is missing"),
        }
    }

    /// Returns the content of the signature file.
    ///
    /// # Panics
    ///
    /// Panics for a bare signature.
    #[must_use]
    pub fn into_string(self) -> String {
        self.to_string()
    }

    /// Returns the bytes of the content of the signature file.
    ///
    /// # Panics
    ///
    /// Panics for a bare signature.
    #[must_use]
    pub fn to_bytes(&self) -> Vec<u8> {
        self.to_string().into_bytes()
    }

    /// Reads a signature file.
    ///
    /// # Errors
    ///
    /// `Io` if the file cannot be read or is not UTF-8, and the errors of `from_string`.
    ///
    /// # Examples
    ///
    /// ```no_run
    /// use minisign::SignatureBox;
    ///
    /// let signature = SignatureBox::from_file("data.minisig")?;
    /// # Ok::<(), minisign::PError>(())
    /// ```
    pub fn from_file<P>(sig_path: P) -> Result<SignatureBox>
    where
        P: AsRef<Path>,
    {
        Self::from_string(&fs::read_to_string(sig_path)?)
    }
}

impl From<Signature> for SignatureBox {
    fn from(signature: Signature) -> SignatureBox {
        SignatureBox(Inner::File(signature))
    }
}

/// Panics for a bare signature.
impl From<SignatureBox> for String {
    fn from(sig_box: SignatureBox) -> String {
        sig_box.into_string()
    }
}

/// Panics if the content is malformed. `SignatureBox::from_string` returns an error instead.
impl From<String> for SignatureBox {
    fn from(s: String) -> SignatureBox {
        SignatureBox::from_string(&s).unwrap()
    }
}

/// A signature without comments, which is stored as bytes.
///
/// # Examples
///
/// ```
/// use minisign::{sign, verify, KeyPair, SignatureBones, SignatureBox};
/// use std::io::Cursor;
///
/// let KeyPair { pk, sk } = KeyPair::generate_unencrypted_keypair()?;
/// let signature = sign(None, &sk, &b"data"[..], None, None)?;
/// let bytes = SignatureBones::from(signature).to_bytes();
/// assert_eq!(bytes.len(), SignatureBones::BYTES);
/// let bare = SignatureBox::from(SignatureBones::from_bytes(&bytes)?);
/// verify(&pk, &bare, Cursor::new("data"), true, false, false)?;
/// # Ok::<(), minisign::PError>(())
/// ```
#[derive(Clone)]
pub struct SignatureBones(BareSignature);

impl SignatureBones {
    /// The number of bytes of a bare signature.
    pub const BYTES: usize = BareSignature::RECORD_BYTES;

    /// Returns true if the signature signs the digest of the data, and not the data itself.
    #[must_use]
    pub fn is_prehashed(&self) -> bool {
        !self.0.is_legacy()
    }

    /// Reads a signature from the first 74 bytes of a buffer, as `to_bytes` returns them.
    ///
    /// # Errors
    ///
    /// `Io` if there are fewer bytes; `Verify` if the algorithm is not supported.
    pub fn from_bytes(bytes: &[u8]) -> Result<SignatureBones> {
        Ok(SignatureBones(BareSignature::from_record(bytes)?))
    }

    /// Returns the bytes of the signature.
    #[must_use]
    pub fn to_bytes(&self) -> Vec<u8> {
        self.0.to_record().to_vec()
    }
}

impl From<SignatureBones> for SignatureBox {
    fn from(bones: SignatureBones) -> SignatureBox {
        SignatureBox(Inner::Bare(bones.0))
    }
}

impl From<SignatureBox> for SignatureBones {
    fn from(sig_box: SignatureBox) -> SignatureBones {
        SignatureBones(match sig_box.0 {
            Inner::File(signature) => signature.to_bare(),
            Inner::Bare(signature) => signature,
        })
    }
}

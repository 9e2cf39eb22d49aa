// SPDX-License-Identifier: MIT
//! Verifies files with signed lists, such as `SHA256SUMS`.

#[cfg(feature = "sodium")]
use crate::text_of_file;
use crate::{raw, read_pieces, Error, PublicKey, Reason, Signature, Verify};
use std::{fmt, io};
#[cfg(feature = "sodium")]
use std::{fs, path::Path};

/// The hash functions of lists.
#[derive(Clone, Copy, Debug, Eq, PartialEq, Hash)]
#[non_exhaustive]
pub enum ListHash {
    /// SHA-256, with 32 bytes.
    Sha256,
    /// SHA-512, with 64 bytes.
    Sha512,
    /// BLAKE2b, with 64 bytes.
    Blake2b,
}

impl ListHash {
    fn number(self) -> u32 {
        match self {
            ListHash::Sha256 => raw::HASH_SHA256,
            ListHash::Sha512 => raw::HASH_SHA512,
            ListHash::Blake2b => raw::HASH_BLAKE2B,
        }
    }

    /// Returns the number of bytes of a digest.
    #[must_use]
    pub fn digest_len(self) -> usize {
        match self {
            ListHash::Sha256 => 32,
            ListHash::Sha512 | ListHash::Blake2b => 64,
        }
    }
}

/// How to read a digest of 128 hexadecimal digits on a line that names no hash function. SHA-512
/// and BLAKE2b digests both have this length.
#[derive(Clone, Copy, Debug, Default, Eq, PartialEq, Hash)]
#[non_exhaustive]
pub enum LongDigest {
    /// As SHA-512, which `sha512sum` writes.
    #[default]
    Sha512,
    /// As BLAKE2b, which `b2sum` writes.
    Blake2b,
    /// Not at all: such a line is malformed.
    Rejected,
}

impl LongDigest {
    fn number(self) -> u32 {
        match self {
            LongDigest::Sha512 => raw::HASH_SHA512,
            LongDigest::Blake2b => raw::HASH_BLAKE2B,
            LongDigest::Rejected => raw::HASH_NONE,
        }
    }
}

/// An error of verifying with a list, and the number of the line at fault if a line is at fault.
#[derive(Debug)]
pub struct ListError {
    error: Error,
    line: u64,
}

impl ListError {
    /// Returns the error without the line number. Its `reason` is for example `Reason::NOT_LISTED`
    /// or `Reason::DIGEST_MISMATCH`.
    #[must_use]
    pub fn error(&self) -> &Error {
        &self.error
    }

    /// Returns the number of the line at fault, starting at 1, for `Reason::MALFORMED_LINE` and
    /// `Reason::LISTED_TWICE`. Returns `None` for other errors.
    #[must_use]
    pub fn line(&self) -> Option<u64> {
        (self.line != 0).then_some(self.line)
    }
}

impl fmt::Display for ListError {
    fn fmt(&self, f: &mut fmt::Formatter) -> fmt::Result {
        match self.line() {
            Some(line) => write!(f, "line {line}: {}", self.error),
            None => self.error.fmt(f),
        }
    }
}

impl std::error::Error for ListError {
    fn source(&self) -> Option<&(dyn std::error::Error + 'static)> {
        Some(&self.error)
    }
}

impl<E: Into<Error>> From<E> for ListError {
    fn from(error: E) -> ListError {
        ListError {
            error: error.into(),
            line: 0,
        }
    }
}

fn at_line((reason, line): (Reason, u64)) -> ListError {
    ListError {
        error: reason.into(),
        line,
    }
}

/// An entry of a verified list.
#[derive(Clone, Debug, Eq, PartialEq)]
#[non_exhaustive]
pub struct ListEntry {
    /// The name of the file, without a leading `./`.
    pub name: String,
    /// The hash function.
    pub hash: ListHash,
    /// The digest that the file must have.
    pub digest: Vec<u8>,
    /// The line number, starting at 1.
    pub line: u64,
    /// True if the name is written with escapes. The library does not resolve escapes, and no name
    /// that you look up matches such an entry.
    pub is_escaped: bool,
}

/// A verified list, such as `SHA256SUMS`. One signature covers all of its files. Threads may share
/// the list.
pub struct SignedList {
    list: raw::List,
    text: Vec<u8>,
    long_digest: LongDigest,
    trusted_comment: String,
}

impl fmt::Debug for SignedList {
    fn fmt(&self, f: &mut fmt::Formatter) -> fmt::Result {
        f.debug_struct("SignedList")
            .field("trusted_comment", &self.trusted_comment)
            .finish_non_exhaustive()
    }
}

/// Verifying a list.
impl PublicKey {
    /// Verifies the signature of a list. `text` is the whole list. The trusted comment must have a
    /// field `file:` with the name of the list, so that a signed text that was never meant as a
    /// list is not used as one. If `name` is `None`, every trusted comment is accepted. The lines
    /// of the list are checked when you use it.
    ///
    /// # Errors
    ///
    /// `UnexpectedKeyId` if the signature has another key ID; `UnexpectedAlgorithm` for every
    /// legacy signature; `InvalidSignature`; and `Rejected` with `Reason::OTHER_LIST` if the
    /// trusted comment does not name the list.
    #[cfg(feature = "sodium")]
    pub fn verify_list(
        &self,
        text: &[u8],
        signature: &Signature,
        name: Option<&str>,
        long_digest: LongDigest,
    ) -> Result<SignedList, Error> {
        self.verify_list_with(&crate::Sodium, text, signature, name, long_digest)
    }

    /// Verifies a list as `verify_list` does, with this implementation of Ed25519.
    ///
    /// # Errors
    ///
    /// Those of `verify_list`.
    pub fn verify_list_with(
        &self,
        ed25519: &dyn Verify,
        text: &[u8],
        signature: &Signature,
        name: Option<&str>,
        long_digest: LongDigest,
    ) -> Result<SignedList, Error> {
        let (key, parsed_signature, sig_text) =
            (&self.key, &signature.parsed, signature.text.as_bytes());
        let (mut list, questions, message) = match name {
            Some(name) => raw::list_ask(key, parsed_signature, sig_text, name.as_bytes(), text)?,
            None => raw::list_ask_any(key, parsed_signature, sig_text, text)?,
        };
        let public_key = &questions.public_key;
        let list_result = ed25519.verify(&questions.signature, &questions.digest, public_key);
        let comment_result = ed25519.verify(&questions.comment_signature, &message, public_key);
        raw::list_verdict(&mut list, list_result.is_ok(), comment_result.is_ok())?;
        Ok(SignedList {
            list,
            text: text.to_vec(),
            long_digest,
            trusted_comment: signature.trusted_comment().into(),
        })
    }

    /// Reads and verifies a list. Its signature is in the file whose path is this path with
    /// `.minisig` appended. The name of the list is the last part of the path.
    ///
    /// # Errors
    ///
    /// `IoError` if a file cannot be read, and the errors of `Signature::decode` and `verify_list`.
    #[cfg(feature = "sodium")]
    pub fn verify_list_file<P: AsRef<Path>>(
        &self,
        path: P,
        long_digest: LongDigest,
    ) -> Result<SignedList, Error> {
        let path = path.as_ref();
        let (text, mut signature_path) = (fs::read(path)?, path.as_os_str().to_owned());
        signature_path.push(".minisig");
        let signature = Signature::decode(&text_of_file(Path::new(&signature_path))?)?;
        let name = path.file_name().unwrap_or_default().to_string_lossy();
        self.verify_list(&text, &signature, Some(&name), long_digest)
    }
}

impl SignedList {
    /// Returns the trusted comment, which is signed with the list. Compare its version or timestamp
    /// with what you expect, because an old list stays valid.
    #[must_use]
    pub fn trusted_comment(&self) -> &str {
        &self.trusted_comment
    }

    /// Returns all entries, in the order of their lines. A name that is listed twice has two
    /// entries, and `find` returns an error for it.
    ///
    /// # Errors
    ///
    /// `Reason::NOT_UTF8`, or `Reason::MALFORMED_LINE` with its line.
    pub fn entries(&self) -> Result<Vec<ListEntry>, ListError> {
        let entries = raw::list_entries(&self.list, &self.text, self.long_digest.number());
        let entries = entries.map_err(at_line)?;
        Ok(entries.iter().map(|entry| self.entry(entry)).collect())
    }

    /// Returns the entry for a name, which must be listed exactly once.
    ///
    /// # Errors
    ///
    /// `Reason::NOT_UTF8` if the list is not UTF-8; `BAD_NAME` if the name is not a relative path,
    /// has an empty, "." or ".." part, or contains a control character or a backslash;
    /// `MALFORMED_LINE` with its line; `NOT_LISTED`; or `LISTED_TWICE` with its line.
    pub fn find(&self, name: &str) -> Result<ListEntry, ListError> {
        Ok(self.entry(&self.find_raw(name)?))
    }

    /// Checks that data has the digest that is listed for a name, and returns the entry.
    ///
    /// # Errors
    ///
    /// Those of `find`, and `Reason::DIGEST_MISMATCH` if the data has another digest.
    pub fn verify_listed(&self, data: &[u8], name: &str) -> Result<ListEntry, ListError> {
        self.verify_listed_reader(data, name)
    }

    /// Verifies the data of a reader, up to its end, as `verify_listed` does. After an error use
    /// none of the data.
    ///
    /// # Errors
    ///
    /// Those of `verify_listed`, and `IoError` if reading fails.
    pub fn verify_listed_reader(
        &self,
        reader: impl io::Read,
        name: &str,
    ) -> Result<ListEntry, ListError> {
        let entry = self.find_raw(name)?;
        let mut file = raw::list_begin(&entry)?;
        let mut feed_result = Ok(());
        read_pieces(reader, |piece, _| {
            if feed_result.is_ok() {
                feed_result = raw::list_update(&mut file, piece);
            }
        })?;
        feed_result?;
        raw::list_finish(&mut file)?;
        Ok(self.entry(&entry))
    }

    /// Compares the digest of an entry with a digest that you have computed, for example with a
    /// crate that uses the SHA instructions of the processor. Nothing is proved about the data, and
    /// the result is only as good as your hash function. `find` returns the hash function of the
    /// entry.
    ///
    /// # Errors
    ///
    /// Those of `find`; `Reason::BAD_HASH` if the entry has another hash function or the digest has
    /// another length; and `Reason::DIGEST_MISMATCH`.
    pub fn verify_listed_trusting_your_hash(
        &self,
        name: &str,
        hash: ListHash,
        digest: &[u8],
    ) -> Result<ListEntry, ListError> {
        let entry = self.find_raw(name)?;
        raw::list_compare_trusting_your_hash(&entry, hash.number(), digest)?;
        Ok(self.entry(&entry))
    }

    fn find_raw(&self, name: &str) -> Result<raw::ListEntry, ListError> {
        let long_digest = self.long_digest.number();
        raw::list_find(&self.list, &self.text, long_digest, name.as_bytes()).map_err(at_line)
    }

    /// Converts an entry of the C library, and copies its name from the list. The library has
    /// checked that the list is UTF-8.
    fn entry(&self, entry: &raw::ListEntry) -> ListEntry {
        let hash = match entry.hash {
            raw::HASH_SHA256 => ListHash::Sha256,
            raw::HASH_SHA512 => ListHash::Sha512,
            _ => ListHash::Blake2b,
        };
        let name = &self.text[entry.name_offset as usize..][..entry.name_len as usize];
        ListEntry {
            name: String::from_utf8_lossy(name).into_owned(),
            hash,
            digest: entry.digest[..hash.digest_len()].to_vec(),
            line: entry.line,
            is_escaped: entry.is_escaped == 1,
        }
    }
}

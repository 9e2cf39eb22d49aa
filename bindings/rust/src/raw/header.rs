// SPDX-License-Identifier: MIT
//! Wraps the functions of `minisign.h`. Made by `tools/bindings.py`.
//!
//! Each safe function in this module makes one call. This is sound because its arguments are
//! borrowed until the call returns, and each length that it passes is the length of a slice.
#![allow(dead_code, clippy::too_many_arguments)]

use crate::Reason;
use minisign_proved_sys as sys;

impl Reason {
    /// No error.
    pub const OK: Reason = Reason(0);
    /// The state is not initialized, or its verdict was already returned.
    pub const NOT_BEGUN: Reason = Reason(1);
    /// minisign_ask, minisign_ask_bare or minisign_digest was already called.
    pub const ALREADY_ASKED: Reason = Reason(2);
    /// minisign_ask, minisign_ask_bare or minisign_digest was not called yet.
    pub const NOT_ASKED: Reason = Reason(3);
    /// The result of an Ed25519 check is neither MINISIGN_ANSWER_YES nor MINISIGN_ANSWER_NO.
    pub const BAD_ANSWER: Reason = Reason(4);
    /// A buffer that was passed is too small.
    pub const NO_ROOM: Reason = Reason(5);
    /// The parameter allow_legacy is neither 0 nor 1.
    pub const BAD_LEGACY_FLAG: Reason = Reason(6);
    /// An allocation failed, or the requested size is too large for any allocation.
    pub const OUT_OF_MEMORY: Reason = Reason(7);
    /// The input is not UTF-8: a file, a typed line, a password, a comment or a name.
    pub const NOT_UTF8: Reason = Reason(8);
    /// A comment would change when it is read back, because it contains a line feed, or begins or
    /// ends with white space.
    pub const BAD_COMMENT: Reason = Reason(9);
    /// The parameter with_password is not 0, 1 or 2.
    pub const BAD_PASSWORD_FLAG: Reason = Reason(10);
    /// Minisign would not read a comment back, because it is too long, or contains a zero byte or a
    /// carriage return.
    pub const UNREADABLE_COMMENT: Reason = Reason(11);
    /// The installation expects a different call now, or no operation can fail with the error that
    /// was reported.
    pub const NOT_DUE: Reason = Reason(12);
    /// An option of an installation other than numbering and long_digest is neither 0 nor 1, or two
    /// options must not be combined.
    pub const BAD_OPTION: Reason = Reason(13);
    /// The option numbering is neither MINISIGN_NUMBERING_TIMESTAMP nor MINISIGN_NUMBERING_VERSION.
    pub const BAD_NUMBERING: Reason = Reason(14);
    /// The secret key was neither opened nor set by minisign_take_secret_key.
    pub const KEY_NOT_OPENED: Reason = Reason(15);
    /// The public key file has no comment line.
    pub const MISSING_PUBLIC_KEY_COMMENT: Reason = Reason(16);
    /// The public key file has no key line.
    pub const MISSING_PUBLIC_KEY: Reason = Reason(17);
    /// The second line of the public key file is not 56 bytes long.
    pub const PUBLIC_KEY_LENGTH: Reason = Reason(18);
    /// The second line of the public key file is not base64.
    pub const PUBLIC_KEY_NOT_BASE64: Reason = Reason(19);
    /// A decoded key or signature has too few bytes.
    pub const RECORD_TOO_SHORT: Reason = Reason(20);
    /// The signature file has no untrusted comment line.
    pub const MISSING_UNTRUSTED_COMMENT: Reason = Reason(21);
    /// The signature file has no signature line.
    pub const MISSING_SIGNATURE: Reason = Reason(22);
    /// The signature file has no trusted comment line.
    pub const MISSING_TRUSTED_COMMENT: Reason = Reason(23);
    /// The signature file has no comment signature line.
    pub const MISSING_COMMENT_SIGNATURE: Reason = Reason(24);
    /// The first line of the signature file does not begin with "untrusted comment: ".
    pub const UNTRUSTED_COMMENT_PREFIX: Reason = Reason(25);
    /// A line of the signature file is not base64.
    pub const SIGNATURE_NOT_BASE64: Reason = Reason(26);
    /// The third line of the signature file does not begin with "trusted comment: ".
    pub const TRUSTED_COMMENT_PREFIX: Reason = Reason(27);
    /// The algorithm of the signature is neither Ed nor ED.
    pub const UNSUPPORTED_ALGORITHM: Reason = Reason(28);
    /// The signature was made with a key that has another key ID.
    pub const DIFFERENT_KEY_IDS: Reason = Reason(29);
    /// The signature is a legacy one, and only prehashed ones are allowed.
    pub const LEGACY_NOT_ACCEPTED: Reason = Reason(30);
    /// The signature of the data is not valid.
    pub const SIGNATURE_REFUSED: Reason = Reason(31);
    /// The comment signature is too short or not valid.
    pub const COMMENT_SIGNATURE_REFUSED: Reason = Reason(32);
    /// The secret key file has no comment line.
    pub const MISSING_SECRET_KEY_COMMENT: Reason = Reason(33);
    /// The secret key file has no key line.
    pub const MISSING_SECRET_KEY: Reason = Reason(34);
    /// The second line of the secret key file is not base64.
    pub const SECRET_KEY_NOT_BASE64: Reason = Reason(35);
    /// The key was to be opened without a password, but it names a key derivation, so it may be
    /// encrypted.
    pub const KEY_SEALED: Reason = Reason(36);
    /// The checksum of an unencrypted secret key does not match.
    pub const KEY_CORRUPTED: Reason = Reason(37);
    /// The key was to be opened with a password, but it names no key derivation, so it is not
    /// encrypted.
    pub const KEY_NOT_SEALED: Reason = Reason(38);
    /// An encrypted key names a key derivation other than Sc, which is scrypt.
    pub const UNSUPPORTED_KEY_DERIVATION: Reason = Reason(39);
    /// The memory limit of an encrypted key is above 2^30 bytes, or its limits give scrypt more
    /// than 2^20 rows.
    pub const PARAMETERS_TOO_HIGH: Reason = Reason(40);
    /// The limits of an encrypted key give parameters that scrypt rejects.
    pub const INVALID_PARAMETERS: Reason = Reason(41);
    /// The checksum does not match after decryption, so the password is probably wrong.
    pub const WRONG_PASSWORD: Reason = Reason(42);
    /// Decrypting the key takes more rows of scrypt than the caller allows.
    pub const WORK_TOO_HIGH: Reason = Reason(43);
    /// A bare base64 public key is not 56 bytes long.
    pub const BARE_PUBLIC_KEY_LENGTH: Reason = Reason(44);
    /// A bare public key is not base64.
    pub const BARE_PUBLIC_KEY_NOT_BASE64: Reason = Reason(45);
    /// Another installation holds the lock on this target.
    pub const TARGET_IN_USE: Reason = Reason(46);
    /// No version is recorded for this target, and is_first is not set.
    pub const NO_RECORD: Reason = Reason(47);
    /// The version record of this target contains no version number, and is_first is not set.
    pub const DAMAGED_RECORD: Reason = Reason(48);
    /// The trusted comment does not name the file that the caller expects.
    pub const OTHER_FILE: Reason = Reason(49);
    /// The trusted comment lacks the field that was chosen for the version number, or the value of
    /// the first such field is not a decimal number below 2^64.
    pub const NO_NUMBER: Reason = Reason(50);
    /// The version number of the update is below the recorded one, and roll_back is not set.
    pub const OLDER_UPDATE: Reason = Reason(51);
    /// The update is installed but could not be synced, so a crash may bring back the previous
    /// file.
    pub const DIRECTORY_NOT_SYNCED: Reason = Reason(52);
    /// The version record holds a timestamp and not a version, and is_first is not set.
    pub const KEPT_BY_TIMESTAMP: Reason = Reason(53);
    /// The version record holds a version and not a timestamp, and is_first is not set.
    pub const KEPT_BY_VERSION: Reason = Reason(54);
    /// The update has expired at the time that the caller passes.
    pub const EXPIRED: Reason = Reason(55);
    /// The trusted comment has more than one field "expires:", or its value is not a decimal number
    /// below 2^64.
    pub const BAD_EXPIRY: Reason = Reason(56);
    /// This version is already recorded, but the installed file is different, and again is not set.
    pub const SAME_NUMBER: Reason = Reason(57);
    /// The trusted comment has no field "expires:", and must_expire is set.
    pub const NO_EXPIRY: Reason = Reason(58);
    /// The trusted comment has more than one field "size:", or its value is not a decimal number
    /// below 2^64.
    pub const BAD_SIZE: Reason = Reason(59);
    /// The data is longer or shorter than the field "size:" of the trusted comment says.
    pub const OTHER_SIZE: Reason = Reason(60);
    /// The signature was read from a different signature file than the one that was passed with it.
    pub const OTHER_SIGNATURE_TEXT: Reason = Reason(61);
    /// No signature was read into the struct, or only a bare signature, which lacks the comments
    /// that the call needs.
    pub const SIGNATURE_NOT_READ: Reason = Reason(62);
    /// No secret key was read into the struct.
    pub const KEY_NOT_READ: Reason = Reason(63);
    /// Reading from a source, a file or a prompt failed.
    pub const READING_FAILED: Reason = Reason(64);
    /// Writing to a sink or a prompt, or flushing it, failed.
    pub const WRITING_FAILED: Reason = Reason(65);
    /// A random source failed or had too few bytes.
    pub const RANDOM_SOURCE_FAILED: Reason = Reason(67);
    /// The public key or a signature is one that strict Ed25519 rejects: a point has a small order
    /// or is not canonical, or the second half of a signature is not below the group order.
    pub const WEAK_ED25519: Reason = Reason(81);
    /// No public key was read into the struct.
    pub const PUBLIC_KEY_NOT_READ: Reason = Reason(82);
    /// The password is empty, and with_password does not allow an empty one.
    pub const EMPTY_PASSWORD: Reason = Reason(83);
    /// The salt is all zeros, or a scrypt limit is below the minimum of Minisign.
    pub const WEAK_SEALING: Reason = Reason(84);
    /// The list was not verified.
    pub const LIST_NOT_VERIFIED: Reason = Reason(85);
    /// The text is not the list that was verified.
    pub const OTHER_LIST_TEXT: Reason = Reason(86);
    /// The hash function, or the length of its digest, is not one that this call accepts.
    pub const BAD_HASH: Reason = Reason(87);
    /// The entry was not read from a list.
    pub const ENTRY_NOT_READ: Reason = Reason(88);
    /// The trusted comment does not name the list.
    pub const OTHER_LIST: Reason = Reason(89);
    /// No list can contain the name.
    pub const BAD_NAME: Reason = Reason(90);
    /// A line of the list is malformed.
    pub const MALFORMED_LINE: Reason = Reason(91);
    /// No line of the list has the name.
    pub const NOT_LISTED: Reason = Reason(92);
    /// Two lines of the list have the name.
    pub const LISTED_TWICE: Reason = Reason(93);
    /// The data does not have the listed digest.
    pub const DIGEST_MISMATCH: Reason = Reason(94);

    /// Returns the name in `minisign.h` without `MINISIGN_`, or "" for an unknown number.
    #[must_use]
    pub fn name(self) -> &'static str {
        match self.0 {
            0 => "OK",
            1 => "NOT_BEGUN",
            2 => "ALREADY_ASKED",
            3 => "NOT_ASKED",
            4 => "BAD_ANSWER",
            5 => "NO_ROOM",
            6 => "BAD_LEGACY_FLAG",
            7 => "OUT_OF_MEMORY",
            8 => "NOT_UTF8",
            9 => "BAD_COMMENT",
            10 => "BAD_PASSWORD_FLAG",
            11 => "UNREADABLE_COMMENT",
            12 => "NOT_DUE",
            13 => "BAD_OPTION",
            14 => "BAD_NUMBERING",
            15 => "KEY_NOT_OPENED",
            16 => "MISSING_PUBLIC_KEY_COMMENT",
            17 => "MISSING_PUBLIC_KEY",
            18 => "PUBLIC_KEY_LENGTH",
            19 => "PUBLIC_KEY_NOT_BASE64",
            20 => "RECORD_TOO_SHORT",
            21 => "MISSING_UNTRUSTED_COMMENT",
            22 => "MISSING_SIGNATURE",
            23 => "MISSING_TRUSTED_COMMENT",
            24 => "MISSING_COMMENT_SIGNATURE",
            25 => "UNTRUSTED_COMMENT_PREFIX",
            26 => "SIGNATURE_NOT_BASE64",
            27 => "TRUSTED_COMMENT_PREFIX",
            28 => "UNSUPPORTED_ALGORITHM",
            29 => "DIFFERENT_KEY_IDS",
            30 => "LEGACY_NOT_ACCEPTED",
            31 => "SIGNATURE_REFUSED",
            32 => "COMMENT_SIGNATURE_REFUSED",
            33 => "MISSING_SECRET_KEY_COMMENT",
            34 => "MISSING_SECRET_KEY",
            35 => "SECRET_KEY_NOT_BASE64",
            36 => "KEY_SEALED",
            37 => "KEY_CORRUPTED",
            38 => "KEY_NOT_SEALED",
            39 => "UNSUPPORTED_KEY_DERIVATION",
            40 => "PARAMETERS_TOO_HIGH",
            41 => "INVALID_PARAMETERS",
            42 => "WRONG_PASSWORD",
            43 => "WORK_TOO_HIGH",
            44 => "BARE_PUBLIC_KEY_LENGTH",
            45 => "BARE_PUBLIC_KEY_NOT_BASE64",
            46 => "TARGET_IN_USE",
            47 => "NO_RECORD",
            48 => "DAMAGED_RECORD",
            49 => "OTHER_FILE",
            50 => "NO_NUMBER",
            51 => "OLDER_UPDATE",
            52 => "DIRECTORY_NOT_SYNCED",
            53 => "KEPT_BY_TIMESTAMP",
            54 => "KEPT_BY_VERSION",
            55 => "EXPIRED",
            56 => "BAD_EXPIRY",
            57 => "SAME_NUMBER",
            58 => "NO_EXPIRY",
            59 => "BAD_SIZE",
            60 => "OTHER_SIZE",
            61 => "OTHER_SIGNATURE_TEXT",
            62 => "SIGNATURE_NOT_READ",
            63 => "KEY_NOT_READ",
            64 => "READING_FAILED",
            65 => "WRITING_FAILED",
            67 => "RANDOM_SOURCE_FAILED",
            81 => "WEAK_ED25519",
            82 => "PUBLIC_KEY_NOT_READ",
            83 => "EMPTY_PASSWORD",
            84 => "WEAK_SEALING",
            85 => "LIST_NOT_VERIFIED",
            86 => "OTHER_LIST_TEXT",
            87 => "BAD_HASH",
            88 => "ENTRY_NOT_READ",
            89 => "OTHER_LIST",
            90 => "BAD_NAME",
            91 => "MALFORMED_LINE",
            92 => "NOT_LISTED",
            93 => "LISTED_TWICE",
            94 => "DIGEST_MISMATCH",
            _ => "",
        }
    }
}

pub const VERSION_MAJOR: usize = sys::MINISIGN_VERSION_MAJOR;
pub const VERSION_MINOR: usize = sys::MINISIGN_VERSION_MINOR;
pub const VERSION_PATCH: usize = sys::MINISIGN_VERSION_PATCH;
pub const ERROR_TEXT_BYTES: usize = sys::MINISIGN_ERROR_TEXT_BYTES;
pub const PUBLIC_KEY_RECORD_BYTES: usize = sys::MINISIGN_PUBLIC_KEY_RECORD_BYTES;
pub const SIGNATURE_RECORD_BYTES: usize = sys::MINISIGN_SIGNATURE_RECORD_BYTES;
pub const SECRET_KEY_RECORD_BYTES: usize = sys::MINISIGN_SECRET_KEY_RECORD_BYTES;
pub const KEEP_EVERY_ROW: usize = sys::MINISIGN_KEEP_EVERY_ROW;
pub const KEEP_FEW_ROWS: usize = sys::MINISIGN_KEEP_FEW_ROWS;
pub const USUAL_ROWS: usize = sys::MINISIGN_USUAL_ROWS;
pub const ANY_ROWS: u64 = sys::MINISIGN_ANY_ROWS;
pub const OPERATIONS_LIMIT: usize = sys::MINISIGN_OPERATIONS_LIMIT;
pub const MEMORY_LIMIT: usize = sys::MINISIGN_MEMORY_LIMIT;
pub const LEAST_OPERATIONS_LIMIT: usize = sys::MINISIGN_LEAST_OPERATIONS_LIMIT;
pub const LEAST_MEMORY_LIMIT: usize = sys::MINISIGN_LEAST_MEMORY_LIMIT;
pub const LEAST_LOG2_ROWS: usize = sys::MINISIGN_LEAST_LOG2_ROWS;
pub const NO_PASSWORD: usize = sys::MINISIGN_NO_PASSWORD;
pub const PASSWORD: usize = sys::MINISIGN_PASSWORD;
pub const ANY_PASSWORD: usize = sys::MINISIGN_ANY_PASSWORD;
pub const TEXT_BYTES: usize = sys::MINISIGN_TEXT_BYTES;
pub const SECRET_KEY_BYTES: usize = sys::MINISIGN_SECRET_KEY_BYTES;
pub const PUBLIC_KEY_BYTES: usize = sys::MINISIGN_PUBLIC_KEY_BYTES;
pub const LIST_ENTRIES: usize = sys::MINISIGN_LIST_ENTRIES;
pub const LIST_ENTRY_BYTES: usize = sys::MINISIGN_LIST_ENTRY_BYTES;
pub const VERSION_TEXT: &str = sys::MINISIGN_VERSION_TEXT;
pub const SIGNATURE_COMMENT: &str = sys::MINISIGN_SIGNATURE_COMMENT;
pub const TRUSTED_COMMENT_FORMAT: &str = sys::MINISIGN_TRUSTED_COMMENT_FORMAT;
pub const SECRET_KEY_COMMENT: &str = sys::MINISIGN_SECRET_KEY_COMMENT;
pub const PUBLIC_KEY_COMMENT: &str = sys::MINISIGN_PUBLIC_KEY_COMMENT;
pub const KIND_NONE: u32 = sys::MINISIGN_KIND_NONE;
pub const KIND_MISUSE: u32 = sys::MINISIGN_KIND_MISUSE;
pub const KIND_GENERATE: u32 = sys::MINISIGN_KIND_GENERATE;
pub const KIND_SIGN: u32 = sys::MINISIGN_KIND_SIGN;
pub const KIND_VERIFY: u32 = sys::MINISIGN_KIND_VERIFY;
pub const KIND_IO: u32 = sys::MINISIGN_KIND_IO;
pub const KIND_MISC: u32 = sys::MINISIGN_KIND_MISC;
pub const KIND_HASH: u32 = sys::MINISIGN_KIND_HASH;
pub const KIND_KDF: u32 = sys::MINISIGN_KIND_KDF;
pub const KIND_RNG: u32 = sys::MINISIGN_KIND_RNG;
pub const KIND_ENCODING: u32 = sys::MINISIGN_KIND_ENCODING;
pub const KIND_ENCRYPTED_KEY: u32 = sys::MINISIGN_KIND_ENCRYPTED_KEY;
pub const KIND_OUT_OF_MEMORY: u32 = sys::MINISIGN_KIND_OUT_OF_MEMORY;
pub const ANSWER_YES: u32 = sys::MINISIGN_ANSWER_YES;
pub const ANSWER_NO: u32 = sys::MINISIGN_ANSWER_NO;
pub const HASH_NONE: u32 = sys::MINISIGN_HASH_NONE;
pub const HASH_SHA256: u32 = sys::MINISIGN_HASH_SHA256;
pub const HASH_SHA512: u32 = sys::MINISIGN_HASH_SHA512;
pub const HASH_BLAKE2B: u32 = sys::MINISIGN_HASH_BLAKE2B;

pub type State = sys::minisign_state;
pub type PublicKey = sys::minisign_public_key;
pub type Signature = sys::minisign_signature;
pub type Questions = sys::minisign_questions;
pub type UnopenedKey = sys::minisign_unopened_key;
pub type SecretKey = sys::minisign_secret_key;
pub type NewKey = sys::minisign_new_key;
pub type SignedParts = sys::minisign_signed_parts;
pub type Sealing = sys::minisign_sealing;
pub type List = sys::minisign_list;
pub type ListEntry = sys::minisign_list_entry;
pub type ListFile = sys::minisign_list_file;

/// Returns an error unless the number that a call returned is 0.
pub(super) fn check(number: u32) -> Result<(), Reason> {
    Some(()).filter(|()| number == 0).ok_or(Reason(number))
}

/// Converts the first `len` bytes of a buffer, which a call has written, to a string. The calls
/// write only UTF-8.
pub(super) fn text_of(mut text: Vec<u8>, len: usize) -> Result<String, Reason> {
    text.truncate(len);
    String::from_utf8(text).map_err(|_| Reason::NOT_UTF8)
}

pub fn version() -> u32 {
    unsafe { sys::minisign_version() }
}

pub fn error_text(error: u32) -> Result<String, Reason> {
    let mut text = vec![0; ERROR_TEXT_BYTES];
    let len = unsafe { sys::minisign_error_text(error, text.as_mut_ptr(), text.len()) };
    text_of(text, len)
}

pub fn init() -> State {
    let mut state = State::ZEROS;
    unsafe { sys::minisign_init(&mut state) };
    state
}

pub fn update(state: &mut State, data: &[u8]) -> Result<(), Reason> {
    check(unsafe { sys::minisign_update(state, data.as_ptr(), data.len()) })
}

pub fn digest(state: &mut State) -> Result<[u8; 64], Reason> {
    let mut digest = [0; 64];
    check(unsafe { sys::minisign_digest(state, &mut digest) })?;
    Ok(digest)
}

pub fn read_public_key(pk_text: &[u8]) -> Result<PublicKey, Reason> {
    let mut key = PublicKey::ZEROS;
    check(unsafe { sys::minisign_read_public_key(pk_text.as_ptr(), pk_text.len(), &mut key) })?;
    Ok(key)
}

pub fn read_bare_public_key(base64: &[u8]) -> Result<PublicKey, Reason> {
    let mut key = PublicKey::ZEROS;
    check(unsafe { sys::minisign_read_bare_public_key(base64.as_ptr(), base64.len(), &mut key) })?;
    Ok(key)
}

pub fn read_public_key_record(record: &[u8]) -> Result<PublicKey, Reason> {
    let mut key = PublicKey::ZEROS;
    check(unsafe {
        sys::minisign_read_public_key_record(record.as_ptr(), record.len(), &mut key)
    })?;
    Ok(key)
}

pub fn public_key_record(key: &PublicKey) -> Result<[u8; 42], Reason> {
    let mut record = [0; 42];
    check(unsafe { sys::minisign_public_key_record(key, &mut record) })?;
    Ok(record)
}

pub fn read_signature(sig_text: &[u8]) -> Result<Signature, Reason> {
    let mut signature = Signature::ZEROS;
    check(unsafe {
        sys::minisign_read_signature(sig_text.as_ptr(), sig_text.len(), &mut signature)
    })?;
    Ok(signature)
}

pub fn read_signature_record(record: &[u8]) -> Result<Signature, Reason> {
    let mut signature = Signature::ZEROS;
    check(unsafe {
        sys::minisign_read_signature_record(record.as_ptr(), record.len(), &mut signature)
    })?;
    Ok(signature)
}

pub fn signature_record(signature: &Signature) -> Result<[u8; 74], Reason> {
    let mut record = [0; 74];
    check(unsafe { sys::minisign_signature_record(signature, &mut record) })?;
    Ok(record)
}

pub fn ask(
    state: &mut State,
    key: &PublicKey,
    signature: &Signature,
    sig_text: &[u8],
    allow_legacy: u32,
) -> Result<(Questions, Vec<u8>), Reason> {
    let mut questions = Questions::ZEROS;
    let mut message = vec![0; 64 + signature.comment_len as usize];
    check(unsafe {
        sys::minisign_ask(
            state,
            key,
            signature,
            sig_text.as_ptr(),
            sig_text.len(),
            allow_legacy,
            &mut questions,
            message.as_mut_ptr(),
            message.len(),
        )
    })?;
    Ok((questions, message))
}

pub fn comment_verdict(state: &State, second: bool) -> Result<(), Reason> {
    check(unsafe {
        sys::minisign_comment_verdict(state, if second { ANSWER_YES } else { ANSWER_NO })
    })
}

pub fn verdict(state: &mut State, first: bool, second: bool) -> Result<(), Reason> {
    check(unsafe {
        sys::minisign_verdict(
            state,
            if first { ANSWER_YES } else { ANSWER_NO },
            if second { ANSWER_YES } else { ANSWER_NO },
        )
    })
}

pub fn ask_bare(
    state: &mut State,
    key: &PublicKey,
    signature: &Signature,
    allow_legacy: u32,
) -> Result<Questions, Reason> {
    let mut questions = Questions::ZEROS;
    check(unsafe { sys::minisign_ask_bare(state, key, signature, allow_legacy, &mut questions) })?;
    Ok(questions)
}

pub fn bare_verdict(state: &mut State, first: bool) -> Result<(), Reason> {
    check(unsafe { sys::minisign_bare_verdict(state, if first { ANSWER_YES } else { ANSWER_NO }) })
}

pub fn read_secret_key(sk_text: &[u8]) -> Result<Box<UnopenedKey>, Reason> {
    let mut unopened = Box::new(UnopenedKey::ZEROS);
    check(unsafe {
        sys::minisign_read_secret_key(sk_text.as_ptr(), sk_text.len(), &mut *unopened)
    })?;
    Ok(unopened)
}

pub fn read_secret_key_record(secret_record: &[u8]) -> Result<Box<UnopenedKey>, Reason> {
    let mut unopened = Box::new(UnopenedKey::ZEROS);
    check(unsafe {
        sys::minisign_read_secret_key_record(
            secret_record.as_ptr(),
            secret_record.len(),
            &mut *unopened,
        )
    })?;
    Ok(unopened)
}

pub fn encode_unopened_key(unopened: &UnopenedKey, comment: &[u8]) -> Result<String, Reason> {
    let mut text = vec![0; SECRET_KEY_BYTES + comment.len()];
    let mut len = 0;
    check(unsafe {
        sys::minisign_encode_unopened_key(
            unopened,
            comment.as_ptr(),
            comment.len(),
            text.as_mut_ptr(),
            text.len(),
            &mut len,
        )
    })?;
    text_of(text, len)
}

pub fn test_sealed_key(unopened: &UnopenedKey, most_rows: u64) -> Result<(), Reason> {
    check(unsafe { sys::minisign_test_sealed_key(unopened, most_rows) })
}

pub fn open_unsealed_key(unopened: &UnopenedKey) -> Result<Box<SecretKey>, Reason> {
    let mut key = Box::new(SecretKey::ZEROS);
    check(unsafe { sys::minisign_open_unsealed_key(unopened, &mut *key) })?;
    Ok(key)
}

pub fn open_sealed_key(
    unopened: &UnopenedKey,
    password: &[u8],
    keep_every: u64,
    most_rows: u64,
) -> Result<Box<SecretKey>, Reason> {
    let mut key = Box::new(SecretKey::ZEROS);
    check(unsafe {
        sys::minisign_open_sealed_key(
            unopened,
            password.as_ptr(),
            password.len(),
            keep_every,
            most_rows,
            &mut *key,
        )
    })?;
    Ok(key)
}

pub fn take_secret_key(new_key: &NewKey) -> Box<SecretKey> {
    let mut key = Box::new(SecretKey::ZEROS);
    unsafe { sys::minisign_take_secret_key(new_key, &mut *key) };
    key
}

pub fn public_key_of(key: &SecretKey) -> Result<PublicKey, Reason> {
    let mut public_key = PublicKey::ZEROS;
    check(unsafe { sys::minisign_public_key_of(key, &mut public_key) })?;
    Ok(public_key)
}

pub fn comment_message(first: &[u8; 64], trusted: &[u8]) -> Result<Vec<u8>, Reason> {
    let mut message = vec![0; 64 + trusted.len()];
    check(unsafe {
        sys::minisign_comment_message(
            first,
            trusted.as_ptr(),
            trusted.len(),
            message.as_mut_ptr(),
            message.len(),
        )
    })?;
    Ok(message)
}

pub fn signed_text(
    key: &PublicKey,
    signature: &[u8; 64],
    comment_signature: &[u8; 64],
    trusted_comment: &[u8],
    untrusted_comment: &[u8],
) -> Result<String, Reason> {
    let mut text = vec![0; TEXT_BYTES + trusted_comment.len() + untrusted_comment.len()];
    let mut len = 0;
    check(unsafe {
        sys::minisign_signed_text(
            key,
            &SignedParts {
                signature: *signature,
                comment_signature: *comment_signature,
                trusted_comment: trusted_comment.as_ptr(),
                trusted_comment_len: trusted_comment.len(),
                untrusted_comment: untrusted_comment.as_ptr(),
                untrusted_comment_len: untrusted_comment.len(),
            },
            text.as_mut_ptr(),
            text.len(),
            &mut len,
        )
    })?;
    text_of(text, len)
}

pub fn secret_key_text(
    key: &SecretKey,
    password: Option<&[u8]>,
    sealing: &Sealing,
    keep_every: u64,
    comment: &[u8],
) -> Result<String, Reason> {
    let (with_password, password) = (password.is_some().into(), password.unwrap_or_default());
    let mut text = vec![0; SECRET_KEY_BYTES + comment.len()];
    let mut len = 0;
    check(unsafe {
        sys::minisign_secret_key_text(
            key,
            with_password,
            password.as_ptr(),
            password.len(),
            sealing,
            keep_every,
            comment.as_ptr(),
            comment.len(),
            text.as_mut_ptr(),
            text.len(),
            &mut len,
        )
    })?;
    text_of(text, len)
}

pub fn public_key_text(key: &SecretKey, comment: &[u8]) -> Result<String, Reason> {
    let mut text = vec![0; PUBLIC_KEY_BYTES + comment.len()];
    let mut len = 0;
    check(unsafe {
        sys::minisign_public_key_text(
            key,
            comment.as_ptr(),
            comment.len(),
            text.as_mut_ptr(),
            text.len(),
            &mut len,
        )
    })?;
    text_of(text, len)
}

pub fn encode_public_key(key: &PublicKey, comment: &[u8]) -> Result<String, Reason> {
    let mut text = vec![0; PUBLIC_KEY_BYTES + comment.len()];
    let mut len = 0;
    check(unsafe {
        sys::minisign_encode_public_key(
            key,
            comment.as_ptr(),
            comment.len(),
            text.as_mut_ptr(),
            text.len(),
            &mut len,
        )
    })?;
    text_of(text, len)
}

pub fn list_ask(
    key: &PublicKey,
    signature: &Signature,
    sig_text: &[u8],
    list_name: &[u8],
    text: &[u8],
) -> Result<(List, Questions, Vec<u8>), Reason> {
    let mut list = List::ZEROS;
    let mut questions = Questions::ZEROS;
    let mut message = vec![0; 64 + signature.comment_len as usize];
    check(unsafe {
        sys::minisign_list_ask(
            &mut list,
            key,
            signature,
            sig_text.as_ptr(),
            sig_text.len(),
            list_name.as_ptr(),
            list_name.len(),
            text.as_ptr(),
            text.len(),
            &mut questions,
            message.as_mut_ptr(),
            message.len(),
        )
    })?;
    Ok((list, questions, message))
}

pub fn list_ask_any(
    key: &PublicKey,
    signature: &Signature,
    sig_text: &[u8],
    text: &[u8],
) -> Result<(List, Questions, Vec<u8>), Reason> {
    let mut list = List::ZEROS;
    let mut questions = Questions::ZEROS;
    let mut message = vec![0; 64 + signature.comment_len as usize];
    check(unsafe {
        sys::minisign_list_ask_any(
            &mut list,
            key,
            signature,
            sig_text.as_ptr(),
            sig_text.len(),
            text.as_ptr(),
            text.len(),
            &mut questions,
            message.as_mut_ptr(),
            message.len(),
        )
    })?;
    Ok((list, questions, message))
}

pub fn list_verdict(list: &mut List, first: bool, second: bool) -> Result<(), Reason> {
    check(unsafe {
        sys::minisign_list_verdict(
            list,
            if first { ANSWER_YES } else { ANSWER_NO },
            if second { ANSWER_YES } else { ANSWER_NO },
        )
    })
}

pub fn list_begin(entry: &ListEntry) -> Result<ListFile, Reason> {
    let mut file = ListFile::ZEROS;
    check(unsafe { sys::minisign_list_begin(entry, &mut file) })?;
    Ok(file)
}

pub fn list_update(file: &mut ListFile, data: &[u8]) -> Result<(), Reason> {
    check(unsafe { sys::minisign_list_update(file, data.as_ptr(), data.len()) })
}

pub fn list_finish(file: &mut ListFile) -> Result<(), Reason> {
    check(unsafe { sys::minisign_list_finish(file) })
}

pub fn list_compare_trusting_your_hash(
    entry: &ListEntry,
    hash: u32,
    digest: &[u8],
) -> Result<(), Reason> {
    check(unsafe {
        sys::minisign_list_compare_trusting_your_hash(entry, hash, digest.as_ptr(), digest.len())
    })
}

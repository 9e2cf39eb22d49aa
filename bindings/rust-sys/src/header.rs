// SPDX-License-Identifier: MIT
//! Declares the constants, structs and functions of `minisign.h`. Made by `tools/bindings.py`.
#![allow(missing_docs, non_camel_case_types)]

pub const MINISIGN_OK: u32 = 0;
pub const MINISIGN_NOT_BEGUN: u32 = 1;
pub const MINISIGN_ALREADY_ASKED: u32 = 2;
pub const MINISIGN_NOT_ASKED: u32 = 3;
pub const MINISIGN_BAD_ANSWER: u32 = 4;
pub const MINISIGN_NO_ROOM: u32 = 5;
pub const MINISIGN_BAD_LEGACY_FLAG: u32 = 6;
pub const MINISIGN_OUT_OF_MEMORY: u32 = 7;
pub const MINISIGN_NOT_UTF8: u32 = 8;
pub const MINISIGN_BAD_COMMENT: u32 = 9;
pub const MINISIGN_BAD_PASSWORD_FLAG: u32 = 10;
pub const MINISIGN_UNREADABLE_COMMENT: u32 = 11;
pub const MINISIGN_NOT_DUE: u32 = 12;
pub const MINISIGN_BAD_OPTION: u32 = 13;
pub const MINISIGN_BAD_NUMBERING: u32 = 14;
pub const MINISIGN_KEY_NOT_OPENED: u32 = 15;
pub const MINISIGN_MISSING_PUBLIC_KEY_COMMENT: u32 = 16;
pub const MINISIGN_MISSING_PUBLIC_KEY: u32 = 17;
pub const MINISIGN_PUBLIC_KEY_LENGTH: u32 = 18;
pub const MINISIGN_PUBLIC_KEY_NOT_BASE64: u32 = 19;
pub const MINISIGN_RECORD_TOO_SHORT: u32 = 20;
pub const MINISIGN_MISSING_UNTRUSTED_COMMENT: u32 = 21;
pub const MINISIGN_MISSING_SIGNATURE: u32 = 22;
pub const MINISIGN_MISSING_TRUSTED_COMMENT: u32 = 23;
pub const MINISIGN_MISSING_COMMENT_SIGNATURE: u32 = 24;
pub const MINISIGN_UNTRUSTED_COMMENT_PREFIX: u32 = 25;
pub const MINISIGN_SIGNATURE_NOT_BASE64: u32 = 26;
pub const MINISIGN_TRUSTED_COMMENT_PREFIX: u32 = 27;
pub const MINISIGN_UNSUPPORTED_ALGORITHM: u32 = 28;
pub const MINISIGN_DIFFERENT_KEY_IDS: u32 = 29;
pub const MINISIGN_LEGACY_NOT_ACCEPTED: u32 = 30;
pub const MINISIGN_SIGNATURE_REFUSED: u32 = 31;
pub const MINISIGN_COMMENT_SIGNATURE_REFUSED: u32 = 32;
pub const MINISIGN_MISSING_SECRET_KEY_COMMENT: u32 = 33;
pub const MINISIGN_MISSING_SECRET_KEY: u32 = 34;
pub const MINISIGN_SECRET_KEY_NOT_BASE64: u32 = 35;
pub const MINISIGN_KEY_SEALED: u32 = 36;
pub const MINISIGN_KEY_CORRUPTED: u32 = 37;
pub const MINISIGN_KEY_NOT_SEALED: u32 = 38;
pub const MINISIGN_UNSUPPORTED_KEY_DERIVATION: u32 = 39;
pub const MINISIGN_PARAMETERS_TOO_HIGH: u32 = 40;
pub const MINISIGN_INVALID_PARAMETERS: u32 = 41;
pub const MINISIGN_WRONG_PASSWORD: u32 = 42;
pub const MINISIGN_WORK_TOO_HIGH: u32 = 43;
pub const MINISIGN_BARE_PUBLIC_KEY_LENGTH: u32 = 44;
pub const MINISIGN_BARE_PUBLIC_KEY_NOT_BASE64: u32 = 45;
pub const MINISIGN_TARGET_IN_USE: u32 = 46;
pub const MINISIGN_NO_RECORD: u32 = 47;
pub const MINISIGN_DAMAGED_RECORD: u32 = 48;
pub const MINISIGN_OTHER_FILE: u32 = 49;
pub const MINISIGN_NO_NUMBER: u32 = 50;
pub const MINISIGN_OLDER_UPDATE: u32 = 51;
pub const MINISIGN_DIRECTORY_NOT_SYNCED: u32 = 52;
pub const MINISIGN_KEPT_BY_TIMESTAMP: u32 = 53;
pub const MINISIGN_KEPT_BY_VERSION: u32 = 54;
pub const MINISIGN_EXPIRED: u32 = 55;
pub const MINISIGN_BAD_EXPIRY: u32 = 56;
pub const MINISIGN_SAME_NUMBER: u32 = 57;
pub const MINISIGN_NO_EXPIRY: u32 = 58;
pub const MINISIGN_BAD_SIZE: u32 = 59;
pub const MINISIGN_OTHER_SIZE: u32 = 60;
pub const MINISIGN_OTHER_SIGNATURE_TEXT: u32 = 61;
pub const MINISIGN_SIGNATURE_NOT_READ: u32 = 62;
pub const MINISIGN_KEY_NOT_READ: u32 = 63;
pub const MINISIGN_READING_FAILED: u32 = 64;
pub const MINISIGN_WRITING_FAILED: u32 = 65;
pub const MINISIGN_RANDOM_SOURCE_FAILED: u32 = 67;
pub const MINISIGN_WEAK_ED25519: u32 = 81;
pub const MINISIGN_PUBLIC_KEY_NOT_READ: u32 = 82;
pub const MINISIGN_EMPTY_PASSWORD: u32 = 83;
pub const MINISIGN_WEAK_SEALING: u32 = 84;
pub const MINISIGN_LIST_NOT_VERIFIED: u32 = 85;
pub const MINISIGN_OTHER_LIST_TEXT: u32 = 86;
pub const MINISIGN_BAD_HASH: u32 = 87;
pub const MINISIGN_ENTRY_NOT_READ: u32 = 88;
pub const MINISIGN_OTHER_LIST: u32 = 89;
pub const MINISIGN_BAD_NAME: u32 = 90;
pub const MINISIGN_MALFORMED_LINE: u32 = 91;
pub const MINISIGN_NOT_LISTED: u32 = 92;
pub const MINISIGN_LISTED_TWICE: u32 = 93;
pub const MINISIGN_DIGEST_MISMATCH: u32 = 94;

pub const MINISIGN_VERSION_MAJOR: usize = 0;
pub const MINISIGN_VERSION_MINOR: usize = 3;
pub const MINISIGN_VERSION_PATCH: usize = 0;
pub const MINISIGN_ERROR_TEXT_BYTES: usize = 128;
pub const MINISIGN_PUBLIC_KEY_RECORD_BYTES: usize = 42;
pub const MINISIGN_SIGNATURE_RECORD_BYTES: usize = 74;
pub const MINISIGN_SECRET_KEY_RECORD_BYTES: usize = 158;
pub const MINISIGN_KEEP_EVERY_ROW: usize = 1;
pub const MINISIGN_KEEP_FEW_ROWS: usize = 16;
pub const MINISIGN_USUAL_ROWS: usize = 1048576;
pub const MINISIGN_ANY_ROWS: u64 = 0xffffffffffffffff;
pub const MINISIGN_OPERATIONS_LIMIT: usize = 33554432;
pub const MINISIGN_MEMORY_LIMIT: usize = 1073741824;
pub const MINISIGN_LEAST_OPERATIONS_LIMIT: usize = 524288;
pub const MINISIGN_LEAST_MEMORY_LIMIT: usize = 16777216;
pub const MINISIGN_LEAST_LOG2_ROWS: usize = 14;
pub const MINISIGN_NO_PASSWORD: usize = 0;
pub const MINISIGN_PASSWORD: usize = 1;
pub const MINISIGN_ANY_PASSWORD: usize = 2;
pub const MINISIGN_TEXT_BYTES: usize = 240;
pub const MINISIGN_SECRET_KEY_BYTES: usize = 233;
pub const MINISIGN_PUBLIC_KEY_BYTES: usize = 77;
pub const MINISIGN_LIST_ENTRIES: usize = 0;
pub const MINISIGN_LIST_ENTRY_BYTES: usize = 143;
pub const MINISIGN_VERSION_TEXT: &str = "0.3.0";
pub const MINISIGN_SIGNATURE_COMMENT: &str = "signature from minisign secret key";
pub const MINISIGN_TRUSTED_COMMENT_FORMAT: &str = "timestamp:%llu\tfile:%s\thashed";
pub const MINISIGN_SECRET_KEY_COMMENT: &str = "minisign encrypted secret key";
pub const MINISIGN_PUBLIC_KEY_COMMENT: &str = "minisign public key ";
pub const MINISIGN_KIND_NONE: u32 = 0;
pub const MINISIGN_KIND_MISUSE: u32 = 1;
pub const MINISIGN_KIND_GENERATE: u32 = 2;
pub const MINISIGN_KIND_SIGN: u32 = 3;
pub const MINISIGN_KIND_VERIFY: u32 = 4;
pub const MINISIGN_KIND_IO: u32 = 5;
pub const MINISIGN_KIND_MISC: u32 = 6;
pub const MINISIGN_KIND_HASH: u32 = 7;
pub const MINISIGN_KIND_KDF: u32 = 8;
pub const MINISIGN_KIND_RNG: u32 = 9;
pub const MINISIGN_KIND_ENCODING: u32 = 10;
pub const MINISIGN_KIND_ENCRYPTED_KEY: u32 = 11;
pub const MINISIGN_KIND_OUT_OF_MEMORY: u32 = 12;
pub const MINISIGN_ANSWER_YES: u32 = 7955827;
pub const MINISIGN_ANSWER_NO: u32 = 28271;
pub const MINISIGN_HASH_NONE: u32 = 0;
pub const MINISIGN_HASH_SHA256: u32 = 1;
pub const MINISIGN_HASH_SHA512: u32 = 2;
pub const MINISIGN_HASH_BLAKE2B: u32 = 3;

#[derive(Clone, Debug)]
#[repr(C)]
pub struct minisign_state {
    pub opaque: [u64; 64],
}

impl minisign_state {
    pub const ZEROS: Self = Self { opaque: [0; 64] };
}

#[derive(Clone, Debug, Eq, PartialEq, Ord, PartialOrd, Hash)]
#[repr(C)]
pub struct minisign_public_key {
    pub mark: u64,
    pub key: [u8; 32],
    pub key_id: [u8; 8],
}

impl minisign_public_key {
    pub const ZEROS: Self = Self {
        mark: 0,
        key: [0; 32],
        key_id: [0; 8],
    };
}

#[derive(Clone, Debug, Eq, PartialEq, Ord, PartialOrd, Hash)]
#[repr(C)]
pub struct minisign_signature {
    pub mark: u64,
    pub key_id: [u8; 8],
    pub signature: [u8; 64],
    pub comment_signature: [u8; 64],
    pub comment_offset: u64,
    pub comment_len: u64,
    pub text_digest: [u8; 32],
    pub algorithm: [u8; 2],
    pub legacy: u8,
    pub whole: u8,
    pub reserved: u32,
}

impl minisign_signature {
    pub const ZEROS: Self = Self {
        mark: 0,
        key_id: [0; 8],
        signature: [0; 64],
        comment_signature: [0; 64],
        comment_offset: 0,
        comment_len: 0,
        text_digest: [0; 32],
        algorithm: [0; 2],
        legacy: 0,
        whole: 0,
        reserved: 0,
    };
}

#[derive(Clone, Debug)]
#[repr(C)]
pub struct minisign_questions {
    pub public_key: [u8; 32],
    pub digest: [u8; 64],
    pub signature: [u8; 64],
    pub comment_signature: [u8; 64],
    pub message_len: u64,
    pub comment_offset: u64,
    pub comment_len: u64,
    pub legacy: u32,
    pub reserved: u32,
}

impl minisign_questions {
    pub const ZEROS: Self = Self {
        public_key: [0; 32],
        digest: [0; 64],
        signature: [0; 64],
        comment_signature: [0; 64],
        message_len: 0,
        comment_offset: 0,
        comment_len: 0,
        legacy: 0,
        reserved: 0,
    };
}

#[repr(C)]
pub struct minisign_unopened_key {
    pub mark: u64,
    pub bytes: [u8; 158],
    pub is_sealed: u8,
    pub log2_rows: u8,
    pub work: u32,
    pub reserved: u32,
}

impl minisign_unopened_key {
    pub const ZEROS: Self = Self {
        mark: 0,
        bytes: [0; 158],
        is_sealed: 0,
        log2_rows: 0,
        work: 0,
        reserved: 0,
    };
}

/// Clears the secret.
impl Drop for minisign_unopened_key {
    fn drop(&mut self) {
        clear(&mut self.bytes);
    }
}

#[repr(C)]
pub struct minisign_secret_key {
    pub mark: u64,
    pub key_id: [u8; 8],
    pub secret: [u8; 64],
}

impl minisign_secret_key {
    pub const ZEROS: Self = Self {
        mark: 0,
        key_id: [0; 8],
        secret: [0; 64],
    };
}

/// Clears the secret.
impl Drop for minisign_secret_key {
    fn drop(&mut self) {
        clear(&mut self.secret);
    }
}

#[repr(C)]
pub struct minisign_new_key {
    pub key_id: [u8; 8],
    pub secret: [u8; 64],
}

impl minisign_new_key {
    pub const ZEROS: Self = Self {
        key_id: [0; 8],
        secret: [0; 64],
    };
}

/// Clears the secret.
impl Drop for minisign_new_key {
    fn drop(&mut self) {
        clear(&mut self.secret);
    }
}

#[repr(C)]
pub struct minisign_signed_parts {
    pub signature: [u8; 64],
    pub comment_signature: [u8; 64],
    pub trusted_comment: *const u8,
    pub trusted_comment_len: usize,
    pub untrusted_comment: *const u8,
    pub untrusted_comment_len: usize,
}

#[repr(C)]
pub struct minisign_sealing {
    pub salt: [u8; 32],
    pub operations_limit: u64,
    pub memory_limit: u64,
}

impl minisign_sealing {
    pub const ZEROS: Self = Self {
        salt: [0; 32],
        operations_limit: 0,
        memory_limit: 0,
    };
}

#[repr(C)]
pub struct minisign_list {
    pub mark: u64,
    pub text_digest: [u8; 64],
    pub key_id: [u8; 8],
    pub whole: u32,
    pub is_named: u32,
}

impl minisign_list {
    pub const ZEROS: Self = Self {
        mark: 0,
        text_digest: [0; 64],
        key_id: [0; 8],
        whole: 0,
        is_named: 0,
    };
}

#[repr(C)]
pub struct minisign_list_entry {
    pub mark: u64,
    pub line: u64,
    pub name_offset: u64,
    pub name_len: u64,
    pub digest: [u8; 64],
    pub hash: u32,
    pub is_escaped: u32,
}

impl minisign_list_entry {
    pub const ZEROS: Self = Self {
        mark: 0,
        line: 0,
        name_offset: 0,
        name_len: 0,
        digest: [0; 64],
        hash: 0,
        is_escaped: 0,
    };
}

#[repr(C)]
pub struct minisign_list_file {
    pub opaque: [u64; 96],
}

impl minisign_list_file {
    pub const ZEROS: Self = Self { opaque: [0; 96] };
}

extern "C" {
    pub fn minisign_version() -> u32;
    pub fn minisign_error_text(error: u32, text: *mut u8, room: usize) -> usize;
    pub fn minisign_error_kind(error: u32) -> u32;
    pub fn minisign_init(state: *mut minisign_state);
    pub fn minisign_update(state: *mut minisign_state, data: *const u8, len: usize) -> u32;
    pub fn minisign_digest(state: *mut minisign_state, digest: &mut [u8; 64]) -> u32;
    pub fn minisign_clear(value: *mut u8, size: usize);
    pub fn minisign_read_public_key(
        pk_text: *const u8,
        pk_text_len: usize,
        key: *mut minisign_public_key,
    ) -> u32;
    pub fn minisign_read_bare_public_key(
        base64: *const u8,
        base64_len: usize,
        key: *mut minisign_public_key,
    ) -> u32;
    pub fn minisign_read_public_key_record(
        record: *const u8,
        record_len: usize,
        key: *mut minisign_public_key,
    ) -> u32;
    pub fn minisign_public_key_record(
        key: *const minisign_public_key,
        record: &mut [u8; 42],
    ) -> u32;
    pub fn minisign_read_signature(
        sig_text: *const u8,
        sig_text_len: usize,
        signature: *mut minisign_signature,
    ) -> u32;
    pub fn minisign_read_signature_record(
        record: *const u8,
        record_len: usize,
        signature: *mut minisign_signature,
    ) -> u32;
    pub fn minisign_signature_record(
        signature: *const minisign_signature,
        record: &mut [u8; 74],
    ) -> u32;
    pub fn minisign_ask(
        state: *mut minisign_state,
        key: *const minisign_public_key,
        signature: *const minisign_signature,
        sig_text: *const u8,
        sig_text_len: usize,
        allow_legacy: u32,
        questions: *mut minisign_questions,
        message: *mut u8,
        room: usize,
    ) -> u32;
    pub fn minisign_comment_verdict(state: *const minisign_state, second: u32) -> u32;
    pub fn minisign_verdict(state: *mut minisign_state, first: u32, second: u32) -> u32;
    pub fn minisign_ask_bare(
        state: *mut minisign_state,
        key: *const minisign_public_key,
        signature: *const minisign_signature,
        allow_legacy: u32,
        questions: *mut minisign_questions,
    ) -> u32;
    pub fn minisign_bare_verdict(state: *mut minisign_state, first: u32) -> u32;
    pub fn minisign_read_secret_key(
        sk_text: *const u8,
        sk_text_len: usize,
        unopened: *mut minisign_unopened_key,
    ) -> u32;
    pub fn minisign_read_secret_key_record(
        secret_record: *const u8,
        secret_record_len: usize,
        unopened: *mut minisign_unopened_key,
    ) -> u32;
    pub fn minisign_encode_unopened_key(
        unopened: *const minisign_unopened_key,
        comment: *const u8,
        comment_len: usize,
        text: *mut u8,
        room: usize,
        text_len: *mut usize,
    ) -> u32;
    pub fn minisign_test_sealed_key(unopened: *const minisign_unopened_key, most_rows: u64) -> u32;
    pub fn minisign_open_unsealed_key(
        unopened: *const minisign_unopened_key,
        key: *mut minisign_secret_key,
    ) -> u32;
    pub fn minisign_open_sealed_key(
        unopened: *const minisign_unopened_key,
        password: *const u8,
        password_len: usize,
        keep_every: u64,
        most_rows: u64,
        key: *mut minisign_secret_key,
    ) -> u32;
    pub fn minisign_opening_memory(
        unopened: *const minisign_unopened_key,
        keep_every: u64,
        most_rows: u64,
        words_wanted: *mut u64,
        bytes_wanted: *mut u64,
    );
    pub fn minisign_open_sealed_key_in_place(
        unopened: *const minisign_unopened_key,
        password: *const u8,
        password_len: usize,
        keep_every: u64,
        most_rows: u64,
        words: *mut u32,
        words_len: usize,
        bytes: *mut u8,
        bytes_len: usize,
        key: *mut minisign_secret_key,
    ) -> u32;
    pub fn minisign_take_secret_key(
        new_key: *const minisign_new_key,
        key: *mut minisign_secret_key,
    );
    pub fn minisign_public_key_of(
        key: *const minisign_secret_key,
        public_key: *mut minisign_public_key,
    ) -> u32;
    pub fn minisign_secret_key_record(
        key: *const minisign_secret_key,
        secret_record: &mut [u8; 158],
    ) -> u32;
    pub fn minisign_comment_message(
        first: &[u8; 64],
        trusted: *const u8,
        trusted_len: usize,
        message: *mut u8,
        room: usize,
    ) -> u32;
    pub fn minisign_signed_text(
        key: *const minisign_public_key,
        parts: *const minisign_signed_parts,
        text: *mut u8,
        room: usize,
        text_len: *mut usize,
    ) -> u32;
    pub fn minisign_secret_key_text(
        key: *const minisign_secret_key,
        with_password: u32,
        password: *const u8,
        password_len: usize,
        sealing: *const minisign_sealing,
        keep_every: u64,
        comment: *const u8,
        comment_len: usize,
        text: *mut u8,
        room: usize,
        text_len: *mut usize,
    ) -> u32;
    pub fn minisign_secret_key_text_with_any_limits(
        key: *const minisign_secret_key,
        with_password: u32,
        password: *const u8,
        password_len: usize,
        sealing: *const minisign_sealing,
        keep_every: u64,
        comment: *const u8,
        comment_len: usize,
        text: *mut u8,
        room: usize,
        text_len: *mut usize,
    ) -> u32;
    pub fn minisign_public_key_text(
        key: *const minisign_secret_key,
        comment: *const u8,
        comment_len: usize,
        text: *mut u8,
        room: usize,
        text_len: *mut usize,
    ) -> u32;
    pub fn minisign_encode_public_key(
        key: *const minisign_public_key,
        comment: *const u8,
        comment_len: usize,
        text: *mut u8,
        room: usize,
        text_len: *mut usize,
    ) -> u32;
    pub fn minisign_list_ask(
        list: *mut minisign_list,
        key: *const minisign_public_key,
        signature: *const minisign_signature,
        sig_text: *const u8,
        sig_text_len: usize,
        list_name: *const u8,
        list_name_len: usize,
        text: *const u8,
        text_len: usize,
        questions: *mut minisign_questions,
        message: *mut u8,
        room: usize,
    ) -> u32;
    pub fn minisign_list_ask_any(
        list: *mut minisign_list,
        key: *const minisign_public_key,
        signature: *const minisign_signature,
        sig_text: *const u8,
        sig_text_len: usize,
        text: *const u8,
        text_len: usize,
        questions: *mut minisign_questions,
        message: *mut u8,
        room: usize,
    ) -> u32;
    pub fn minisign_list_verdict(list: *mut minisign_list, first: u32, second: u32) -> u32;
    pub fn minisign_list_find(
        list: *const minisign_list,
        text: *const u8,
        text_len: usize,
        long_digest: u32,
        name: *const u8,
        name_len: usize,
        entry: *mut minisign_list_entry,
        line: *mut u64,
    ) -> u32;
    pub fn minisign_list_entries(
        list: *const minisign_list,
        text: *const u8,
        text_len: usize,
        long_digest: u32,
        entries: *mut minisign_list_entry,
        entries_len: usize,
        count: *mut usize,
        line: *mut u64,
    ) -> u32;
    pub fn minisign_list_begin(
        entry: *const minisign_list_entry,
        file: *mut minisign_list_file,
    ) -> u32;
    pub fn minisign_list_update(file: *mut minisign_list_file, data: *const u8, len: usize) -> u32;
    pub fn minisign_list_finish(file: *mut minisign_list_file) -> u32;
    pub fn minisign_list_compare_trusting_your_hash(
        entry: *const minisign_list_entry,
        hash: u32,
        digest: *const u8,
        digest_len: usize,
    ) -> u32;
    pub fn minisign_list_append(
        hash: u32,
        digest: *const u8,
        digest_len: usize,
        name: *const u8,
        name_len: usize,
        text: *mut u8,
        room: usize,
        text_len: *mut usize,
    ) -> u32;
}

/// Writes zeros with volatile writes, which the compiler does not remove.
pub fn clear(bytes: &mut [u8]) {
    bytes
        .iter_mut()
        .for_each(|byte| unsafe { core::ptr::write_volatile(byte, 0) });
}

// SPDX-License-Identifier: MIT
//! Calls the C library and libsodium. All `unsafe` code of this crate is in this module.
#![allow(unsafe_code)]

mod header;
mod lists;
#[cfg(feature = "sodium")]
mod sodium;

pub use header::*;
use header::{check, text_of};
pub use lists::{list_entries, list_find};
use minisign_proved_sys as sys;
use zeroize::Zeroizing;

pub fn clear(bytes: &mut [u8]) {
    unsafe { sys::minisign_clear(bytes.as_mut_ptr(), bytes.len()) }
}

pub fn error_kind(error: u32) -> u32 {
    unsafe { sys::minisign_error_kind(error) }
}

pub fn secret_key_record(key: &SecretKey) -> Result<Zeroizing<[u8; 158]>, crate::Reason> {
    let mut record = Zeroizing::new([0; 158]);
    check(unsafe { sys::minisign_secret_key_record(key, &mut record) })?;
    Ok(record)
}

/// Encodes a secret key file as `secret_key_text` does, but also accepts an empty password. For
/// callers that have set `Work::allow_empty_password`.
pub fn secret_key_text_with_any_password(
    key: &SecretKey,
    password: Option<&[u8]>,
    sealing: &Sealing,
    keep_every: u64,
    comment: &[u8],
) -> Result<String, crate::Reason> {
    let (mut text, mut len) = (vec![0; SECRET_KEY_BYTES + comment.len()], 0);
    let password = password.unwrap_or_default();
    let result = unsafe {
        sys::minisign_secret_key_text(
            key,
            ANY_PASSWORD as u32,
            password.as_ptr(),
            password.len(),
            sealing,
            keep_every,
            comment.as_ptr(),
            comment.len(),
            text.as_mut_ptr(),
            text.len(),
            &mut len,
        )
    };
    check(result)?;
    text_of(text, len)
}

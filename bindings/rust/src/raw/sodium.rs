// SPDX-License-Identifier: MIT
//! Implements Ed25519 and random bytes with libsodium.

use crate::{Random, SchemeError, Sign, Sodium, Verify};
use minisign_proved_sys::sodium;
use std::ptr::null_mut;

/// Initializes libsodium. Later calls have no effect.
fn init() -> Result<(), SchemeError> {
    check(unsafe { sodium::sodium_init() }.min(0), "sodium_init")
}

/// Returns an error unless the result of a function of libsodium is 0.
fn check(result: i32, name: &str) -> Result<(), SchemeError> {
    match result {
        0 => Ok(()),
        _ => Err(SchemeError::new(format!("libsodium: {name} failed"))),
    }
}

impl Verify for Sodium {
    fn verify(
        &self,
        signature: &[u8; 64],
        message: &[u8],
        key: &[u8; 32],
    ) -> Result<(), SchemeError> {
        init()?;
        let (data, len) = (message.as_ptr(), message.len() as u64);
        let result = unsafe { sodium::crypto_sign_verify_detached(signature, data, len, key) };
        check(result, "crypto_sign_verify_detached")
    }
}

impl Sign for Sodium {
    fn sign(&self, message: &[u8], secret: &[u8; 64]) -> Result<[u8; 64], SchemeError> {
        init()?;
        let (mut signature, data, len) = ([0; 64], message.as_ptr(), message.len() as u64);
        let result =
            unsafe { sodium::crypto_sign_detached(&mut signature, null_mut(), data, len, secret) };
        check(result, "crypto_sign_detached").map(|()| signature)
    }

    fn expand(&self, seed: &[u8; 32], secret: &mut [u8; 64]) -> Result<(), SchemeError> {
        init()?;
        let result = unsafe { sodium::crypto_sign_seed_keypair(&mut [0; 32], secret, seed) };
        check(result, "crypto_sign_seed_keypair")
    }
}

impl Random for Sodium {
    fn fill(&self, bytes: &mut [u8]) -> Result<(), SchemeError> {
        init()?;
        unsafe { sodium::randombytes_buf(bytes.as_mut_ptr(), bytes.len()) };
        Ok(())
    }
}

// SPDX-License-Identifier: MIT
//! Declares the functions of libsodium that Ed25519 needs.

extern "C" {
    /// Initializes libsodium. Returns a negative number on failure. Later calls have no effect.
    pub fn sodium_init() -> i32;
    /// Returns 0 if the signature is valid.
    pub fn crypto_sign_verify_detached(
        signature: &[u8; 64],
        message: *const u8,
        len: u64,
        public_key: &[u8; 32],
    ) -> i32;
    /// Signs a message. `signature_len` may be null.
    pub fn crypto_sign_detached(
        signature: &mut [u8; 64],
        signature_len: *mut u64,
        message: *const u8,
        len: u64,
        secret_key: &[u8; 64],
    ) -> i32;
    /// Writes the public key and the secret key that are derived from a seed.
    pub fn crypto_sign_seed_keypair(
        public_key: &mut [u8; 32],
        secret_key: &mut [u8; 64],
        seed: &[u8; 32],
    ) -> i32;
    /// Fills a buffer with random bytes.
    pub fn randombytes_buf(bytes: *mut u8, len: usize);
}

//! Replaces the module `crypto::ed25519` of the original crate minisign with calls to libsodium. The copy of the crate's
//! sources that drop_in.py uses has no `crypto::curve25519`, which the original module needs. Like the original,
//! `verify` reads 64 bytes of the signature, and panics if it is shorter.

extern "C" {
    fn crypto_sign_seed_keypair(public_key: *mut u8, secret_key: *mut u8, seed: *const u8) -> i32;
    fn crypto_sign_detached(
        signature: *mut u8,
        len: *mut u64,
        message: *const u8,
        message_len: u64,
        secret_key: *const u8,
    ) -> i32;
    fn crypto_sign_verify_detached(
        signature: *const u8,
        message: *const u8,
        message_len: u64,
        public_key: *const u8,
    ) -> i32;
}

pub fn keypair(seed: &[u8]) -> ([u8; 64], [u8; 32]) {
    let (mut secret_key, mut public_key) = ([0; 64], [0; 32]);
    assert_eq!(seed.len(), 32);
    unsafe { crypto_sign_seed_keypair(public_key.as_mut_ptr(), secret_key.as_mut_ptr(), seed.as_ptr()) };
    (secret_key, public_key)
}

pub fn signature(message: &[u8], secret_key: &[u8], _: Option<&[u8]>) -> [u8; 64] {
    let mut signature = [0; 64];
    assert_eq!(secret_key.len(), 64);
    let (from, len) = (message.as_ptr(), message.len() as u64);
    unsafe { crypto_sign_detached(signature.as_mut_ptr(), std::ptr::null_mut(), from, len, secret_key.as_ptr()) };
    signature
}

pub fn verify(message: &[u8], public_key: &[u8], signature: &[u8]) -> bool {
    let signature = &signature[..64];
    assert_eq!(public_key.len(), 32);
    unsafe {
        crypto_sign_verify_detached(signature.as_ptr(), message.as_ptr(), message.len() as u64, public_key.as_ptr())
            == 0
    }
}

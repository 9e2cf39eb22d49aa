//! The parts of the crate getrandom 0.3 that the crate minisign uses, over libsodium. Debian 12 has version 0.2, which
//! lacks `fill`.

extern "C" {
    fn randombytes_buf(bytes: *mut u8, len: usize);
}

#[derive(Clone, Copy, Debug, PartialEq, Eq)]
pub struct Error;

impl std::fmt::Display for Error {
    fn fmt(&self, f: &mut std::fmt::Formatter<'_>) -> std::fmt::Result {
        f.write_str("no random bytes")
    }
}

impl std::error::Error for Error {}

pub fn fill(bytes: &mut [u8]) -> Result<(), Error> {
    unsafe { randombytes_buf(bytes.as_mut_ptr(), bytes.len()) };
    Ok(())
}

//! Runs the tests of the crate minisign with this crate. tests/bindings/drop_in.py adds this file to a copy of the
//! crate; `UPSTREAM` names the directory of the tests. They use a few private functions and fields of their crate,
//! which this file provides.

use crate::{Result, SecretKey};
use minisign_proved::{Random, SchemeError, Sign, Verify};
use std::ops::Deref;

pub(crate) fn store_u64_le(x: u64) -> [u8; 8] {
    x.to_le_bytes()
}

pub(crate) fn load_u64_le(x: &[u8]) -> u64 {
    u64::from_le_bytes(x[..8].try_into().unwrap())
}

#[derive(Clone, Debug, PartialEq)]
pub struct Parts {
    pub keynum: [u8; 8],
    pub sk: [u8; 64],
    pub chk: [u8; 32],
}

impl Parts {
    pub fn len(&self) -> usize {
        self.keynum.len() + self.sk.len() + self.chk.len()
    }
}

pub struct Fields {
    pub keynum_sk: Parts,
}

/// Lets the tests read `sk.keynum_sk`. The fields are copied and never freed.
impl Deref for SecretKey {
    type Target = Fields;
    fn deref(&self) -> &Fields {
        let record = self.to_bytes();
        let part = |from: usize, to: usize| record[from..to].to_vec();
        let keynum_sk = Parts {
            keynum: part(54, 62).try_into().unwrap(),
            sk: part(62, 126).try_into().unwrap(),
            chk: part(126, 158).try_into().unwrap(),
        };
        Box::leak(Box::new(Fields { keynum_sk }))
    }
}

/// Replaces Ed25519 and the random source, so that `SecretKey::generate` makes a key with these parts and computes its
/// checksum.
struct FixedParts(Parts);

impl Verify for FixedParts {
    fn verify(&self, _: &[u8; 64], _: &[u8], _: &[u8; 32]) -> std::result::Result<(), SchemeError> {
        Err(SchemeError::new("not used"))
    }
}

impl Sign for FixedParts {
    fn sign(&self, _: &[u8], _: &[u8; 64]) -> std::result::Result<[u8; 64], SchemeError> {
        Err(SchemeError::new("not used"))
    }
    fn expand(&self, _: &[u8; 32], secret_key: &mut [u8; 64]) -> std::result::Result<(), SchemeError> {
        secret_key.copy_from_slice(&self.0.sk);
        Ok(())
    }
}

impl Random for FixedParts {
    fn fill(&self, bytes: &mut [u8]) -> std::result::Result<(), SchemeError> {
        if bytes.len() == 8 {
            bytes.copy_from_slice(&self.0.keynum);
        }
        Ok(())
    }
}

impl SecretKey {
    pub(crate) fn read_checksum(&self) -> Result<Vec<u8>> {
        let key = minisign_proved::SecretKey::generate(&FixedParts(self.keynum_sk.clone()))?;
        Ok(key.to_record()?[126..].to_vec())
    }

    pub(crate) fn write_checksum(&mut self) -> Result<()> {
        let record = [&self.to_bytes()[..126], &self.read_checksum()?[..]].concat();
        *self = SecretKey::from_bytes(&record)?;
        Ok(())
    }

    pub(crate) fn xor_keynum(&mut self, stream: &[u8]) {
        let mut record = self.to_bytes();
        record[54..].iter_mut().zip(stream).for_each(|(byte, other)| *byte ^= other);
        *self = SecretKey::from_bytes(&record).unwrap();
    }
}

mod getrandom {
    pub fn fill(bytes: &mut [u8]) -> std::result::Result<(), minisign_proved::SchemeError> {
        minisign_proved::Random::fill(&minisign_proved::Sodium, bytes)
    }
}

mod tests {
    use super::getrandom;
    include!(concat!(env!("UPSTREAM"), "/tests/tests/part1.rs"));
}

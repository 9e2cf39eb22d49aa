// SPDX-License-Identifier: MIT
//! Verifies a file, as an updater in Rust does:
//! `cargo run --example verify -- PUBLIC_KEY DATA SIGNATURE`.
//!
//! If the signature is valid, the program prints the trusted comment and exits with status 0.
//! Otherwise it exits with status 1, or with status 2 if a file cannot be read. Legacy signatures,
//! which sign the data itself instead of its digest, are rejected.

use minisign_proved::{Error, PublicKey, Signature};
use std::{env, fs::File, process::ExitCode};

/// Returns the trusted comment if the signature is valid for the data.
fn verify(key: &str, data: &str, signature: &str) -> Result<String, Error> {
    let (key, signature) = (PublicKey::from_file(key)?, Signature::from_file(signature)?);
    let mut verifier = key.verify_stream(&signature)?;
    verifier.update_from(File::open(data)?, |_bytes_read| ())?;
    verifier.finalize()?;
    Ok(signature.trusted_comment().into())
}

fn main() -> ExitCode {
    let arguments: Vec<String> = env::args().skip(1).collect();
    let verdict = match &arguments[..] {
        [key, data, signature] => verify(key, data, signature),
        _ => {
            eprintln!("usage: verify PUBLIC_KEY DATA SIGNATURE");
            return ExitCode::from(2);
        }
    };
    match verdict {
        Ok(comment) => {
            println!("{comment}");
            ExitCode::SUCCESS
        }
        Err(error) => {
            eprintln!("{error}");
            ExitCode::from(if error.reason().is_some() { 1 } else { 2 })
        }
    }
}

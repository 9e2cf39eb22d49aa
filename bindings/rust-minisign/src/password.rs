// SPDX-License-Identifier: MIT
//! Asks for passwords on the terminal.

use crate::{ErrorKind, PError, Result};
use std::io::{stdout, Write};
use zeroize::Zeroizing;

const MAX_BYTES: usize = 1024;

/// Prints a text to standard output and flushes it.
pub fn print(text: &str) -> Result<()> {
    stdout().write_all(text.as_bytes())?;
    Ok(stdout().flush()?)
}

#[cfg(feature = "prompt")]
fn prompt_password(prompt: &str) -> Result<Zeroizing<String>> {
    Ok(Zeroizing::new(rpassword::prompt_password(prompt)?))
}

#[cfg(not(feature = "prompt"))]
fn prompt_password(_: &str) -> Result<Zeroizing<String>> {
    let why = "a password is needed, and this program was built without the feature `prompt`";
    Err(PError::new(ErrorKind::Misc, why))
}

/// Asks for a password on the terminal, without echo.
pub fn ask(prompt: &str) -> Result<Zeroizing<String>> {
    let password = prompt_password(prompt)?;
    if password.is_empty() {
        print("<empty>\n")?;
    }
    if password.len() > MAX_BYTES {
        let why = "passphrase can't exceed 1024 bytes length";
        return Err(PError::new(ErrorKind::Misc, why));
    }
    Ok(password)
}

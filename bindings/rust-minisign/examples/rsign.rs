// SPDX-License-Identifier: MIT
//! A program like rsign2 that uses the interface of the crate `minisign`. It generates keys, signs,
//! verifies, and recreates a public key from its secret key.
//!
//!     rsign generate [-p PUBLIC_KEY] [-s SECRET_KEY] [-c COMMENT] [-W]
//!     rsign sign [-s SECRET_KEY] [-p PUBLIC_KEY] [-x SIGNATURE] [-t TRUSTED] [-c UNTRUSTED] [-W]
//!                FILE
//!     rsign verify [-p PUBLIC_KEY | -P BASE64] [-x SIGNATURE] [-q] [-o] [-l] FILE
//!     rsign recreate [-p PUBLIC_KEY] [-s SECRET_KEY] [-W]
//!
//! -W: the secret key is not encrypted. -q: print nothing. -o: print the file after verifying it.
//! -l: accept legacy signatures. With -p, `sign` also checks that the signature is valid under this
//! public key. The exit status is 0, or 1 after an error.

use minisign::{
    sign, verify, ErrorKind, KeyPair, PError, PublicKey, Result, SecretKey, SecretKeyBox,
    SignatureBox, SIG_DEFAULT_PKFILE, SIG_DEFAULT_SKFILE, SIG_SUFFIX,
};
use std::collections::HashMap;
use std::fs::{self, File, OpenOptions};
use std::io::{BufReader, Write};

const OPTIONS_WITH_VALUE: [&str; 6] = ["-p", "-s", "-c", "-x", "-t", "-P"];
const FLAGS: [&str; 4] = ["-W", "-q", "-o", "-l"];

fn usage_error<T>(why: String) -> Result<T> {
    Err(PError::new(ErrorKind::Misc, why))
}

/// The options and the file of a command line.
#[derive(Default)]
struct Options {
    values: HashMap<String, String>,
    file: Option<String>,
}

impl Options {
    fn parse(mut words: impl Iterator<Item = String>) -> Result<Options> {
        let mut options = Options::default();
        while let Some(word) = words.next() {
            let value = match &*word {
                name if FLAGS.contains(&name) => String::new(),
                name if OPTIONS_WITH_VALUE.contains(&name) => match words.next() {
                    Some(value) => value,
                    None => return usage_error(format!("{name} needs a value")),
                },
                name if name.starts_with('-') || options.file.is_some() => {
                    return usage_error(format!("unexpected argument: {name}"))
                }
                _ => {
                    options.file = Some(word);
                    continue;
                }
            };
            options.values.insert(word, value);
        }
        Ok(options)
    }

    fn value(&self, name: &str) -> Option<&str> {
        self.values.get(name).map(String::as_str)
    }

    fn has(&self, name: &str) -> bool {
        self.values.contains_key(name)
    }

    fn public_key_path(&self) -> &str {
        self.value("-p").unwrap_or(SIG_DEFAULT_PKFILE)
    }

    fn secret_key_path(&self) -> &str {
        self.value("-s").unwrap_or(SIG_DEFAULT_SKFILE)
    }

    fn file(&self) -> Result<&str> {
        match &self.file {
            Some(file) => Ok(file),
            None => usage_error("no file is named".into()),
        }
    }

    fn signature_path(&self) -> Result<String> {
        let default = format!("{}{SIG_SUFFIX}", self.file()?);
        Ok(self.value("-x").map_or(default, String::from))
    }

    fn public_key(&self) -> Result<PublicKey> {
        match self.value("-P") {
            Some(base64) => PublicKey::from_base64(base64),
            None => PublicKey::from_file(self.public_key_path()),
        }
    }

    fn secret_key(&self) -> Result<SecretKey> {
        let path = self.secret_key_path();
        if self.has("-W") {
            SecretKeyBox::from(fs::read_to_string(path)?).into_unencrypted_secret_key()
        } else {
            SecretKey::from_file(path, None)
        }
    }
}

/// Creates a secret key file that only its owner can read. Fails if the file exists.
fn create_secret(path: &str) -> Result<File> {
    let mut options = OpenOptions::new();
    options.write(true).create_new(true);
    #[cfg(unix)]
    std::os::unix::fs::OpenOptionsExt::mode(&mut options, 0o600);
    Ok(options.open(path)?)
}

fn generate(options: &Options) -> Result<()> {
    let mut secret = create_secret(options.secret_key_path())?;
    let public = File::create(options.public_key_path())?;
    let comment = options.value("-c");
    if options.has("-W") {
        let KeyPair { pk, sk } = KeyPair::generate_unencrypted_keypair()?;
        (&public).write_all(&pk.to_box()?.to_bytes())?;
        secret.write_all(&sk.to_box(comment)?.to_bytes())?;
    } else {
        KeyPair::generate_and_write_encrypted_keypair(public, secret, comment, None)?;
    }
    println!("public key: {}", options.public_key_path());
    Ok(())
}

fn sign_file(options: &Options) -> Result<()> {
    let (key, data) = (options.secret_key()?, File::open(options.file()?)?);
    let public = options.value("-p").map(PublicKey::from_file).transpose()?;
    let (trusted, untrusted) = (options.value("-t"), options.value("-c"));
    let signature = sign(public.as_ref(), &key, data, trusted, untrusted)?;
    fs::write(options.signature_path()?, signature.to_bytes())?;
    Ok(())
}

fn verify_file(options: &Options) -> Result<()> {
    let signature = SignatureBox::from_file(options.signature_path()?)?;
    let data = BufReader::new(File::open(options.file()?)?);
    let (quiet, output, legacy) = (options.has("-q"), options.has("-o"), options.has("-l"));
    verify(
        &options.public_key()?,
        &signature,
        data,
        quiet,
        output,
        legacy,
    )
}

fn recreate(options: &Options) -> Result<()> {
    let public = PublicKey::from_secret_key(&options.secret_key()?)?;
    fs::write(options.public_key_path(), public.to_box()?.to_bytes())?;
    Ok(())
}

fn run() -> Result<()> {
    let mut words = std::env::args().skip(1);
    let command = words.next().unwrap_or_default();
    let options = Options::parse(words)?;
    match &*command {
        "generate" => generate(&options),
        "sign" => sign_file(&options),
        "verify" => verify_file(&options),
        "recreate" => recreate(&options),
        _ => usage_error("the first argument is generate, sign, verify or recreate".into()),
    }
}

fn main() {
    if let Err(error) = run() {
        error.exit();
    }
}

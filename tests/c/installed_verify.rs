//! Verifies from Rust, with its own declarations of the calls. `tests/c/installed.py` builds it
//! over the library that `make -C c install` installs. Like c/examples/verify.c,
//! `installed_verify PUBLIC_KEY DATA SIGNATURE` prints the trusted comment and exits with status 0
//! if the signature is valid. Otherwise it exits with status 1, or with 2 if a file cannot be read.

use std::fs::{self, File};
use std::io::{self, Read, Write};
use std::process::ExitCode;

/// Declarations of minisign.h.
mod minisign {
    pub const OK: u32 = 0;
    pub const ANSWER_YES: u32 = 0x796573;
    pub const ANSWER_NO: u32 = 0x6e6f;
    pub const ERROR_TEXT_BYTES: usize = 128;

    #[repr(C)]
    pub struct State {
        opaque: [u64; 64],
    }

    impl State {
        /// Returns a new state.
        pub fn new() -> State {
            let mut state = State { opaque: [0; 64] };
            unsafe { minisign_init(&mut state) };
            state
        }
    }

    /// Data that is written to a state is fed to it.
    impl std::io::Write for State {
        fn write(&mut self, data: &[u8]) -> std::io::Result<usize> {
            match unsafe { minisign_update(self, data.as_ptr(), data.len()) } {
                OK => Ok(data.len()),
                _ => Err(std::io::Error::new(std::io::ErrorKind::Other, "the data could not be fed")),
            }
        }

        fn flush(&mut self) -> std::io::Result<()> {
            Ok(())
        }
    }

    #[derive(Default)]
    #[repr(C)]
    pub struct PublicKey {
        mark: u64,
        key: [u8; 32],
        key_id: [u8; 8],
    }

    #[repr(C)]
    pub struct Signature {
        pub mark: u64,
        pub key_id: [u8; 8],
        pub signature: [u8; 64],
        pub comment_signature: [u8; 64],
        pub comment_offset: u64,
        pub comment_len: u64,
        pub text_digest: [u8; 32],
        pub algorithm: [u8; 2],
        pub legacy: u8,
        pub whole: u8,
        pub reserved: u32,
    }

    #[repr(C)]
    pub struct Questions {
        pub public_key: [u8; 32],
        pub digest: [u8; 64],
        pub signature: [u8; 64],
        pub comment_signature: [u8; 64],
        pub message_len: u64,
        pub comment_offset: u64,
        pub comment_len: u64,
        pub legacy: u32,
        pub reserved: u32,
    }

    extern "C" {
        pub fn minisign_init(state: *mut State);
        pub fn minisign_update(state: *mut State, data: *const u8, len: usize) -> u32;
        pub fn minisign_digest(state: *mut State, digest: *mut u8) -> u32;
        pub fn minisign_read_public_key(pk_text: *const u8, pk_text_len: usize, key: *mut PublicKey) -> u32;
        pub fn minisign_read_signature(sig_text: *const u8, sig_text_len: usize, signature: *mut Signature) -> u32;
        #[rustfmt::skip]
        pub fn minisign_ask(state: *mut State, key: *const PublicKey, signature: *const Signature,
            sig_text: *const u8, sig_text_len: usize, allow_legacy: u32,
            questions: *mut Questions, message: *mut u8, room: usize) -> u32;
        pub fn minisign_verdict(state: *mut State, first: u32, second: u32) -> u32;
        pub fn minisign_error_text(error: u32, text: *mut u8, room: usize) -> usize;
    }
}

extern "C" {
    fn crypto_sign_verify_detached(signature: *const u8, message: *const u8, len: u64, key: *const u8) -> i32;
}

/// Returns the answer of libsodium about a signature, in the form that the library takes.
fn accepts(signature: &[u8; 64], message: &[u8], public_key: &[u8; 32]) -> u32 {
    let rejected = unsafe {
        crypto_sign_verify_detached(signature.as_ptr(), message.as_ptr(), message.len() as u64, public_key.as_ptr())
    };
    if rejected == 0 { minisign::ANSWER_YES } else { minisign::ANSWER_NO }
}

/// The reason why verification failed: an error number of the library, or an error when reading the data.
enum Rejection {
    Library(u32),
    Reading(io::Error),
}

/// Converts the result of a call.
fn expect(error: u32) -> Result<(), Rejection> {
    if error == minisign::OK { Ok(()) } else { Err(Rejection::Library(error)) }
}

/// Verifies the data, and returns the trusted comment. Errors of the key and the signature are
/// found before any data is read.
fn verify(pk_text: &[u8], sig_text: &[u8], data: &mut impl Read) -> Result<Vec<u8>, Rejection> {
    let mut key = minisign::PublicKey::default();
    let mut state = minisign::State::new();
    let mut signature = unsafe { std::mem::zeroed::<minisign::Signature>() };
    let mut questions = unsafe { std::mem::zeroed::<minisign::Questions>() };
    expect(unsafe { minisign::minisign_read_public_key(pk_text.as_ptr(), pk_text.len(), &mut key) })?;
    expect(unsafe { minisign::minisign_read_signature(sig_text.as_ptr(), sig_text.len(), &mut signature) })?;
    let mut message = vec![0; 64 + signature.comment_len as usize];
    expect(unsafe {
        minisign::minisign_ask(
            &mut state,
            &key,
            &signature,
            sig_text.as_ptr(), sig_text.len(),
            0,
            &mut questions,
            message.as_mut_ptr(), message.len(),
        )
    })?;
    io::copy(data, &mut state).map_err(Rejection::Reading)?;
    expect(unsafe { minisign::minisign_digest(&mut state, questions.digest.as_mut_ptr()) })?;
    let first = accepts(&questions.signature, &questions.digest, &questions.public_key);
    let second = accepts(&questions.comment_signature, &message, &questions.public_key);
    expect(unsafe { minisign::minisign_verdict(&mut state, first, second) })?;
    Ok(message.split_off(questions.comment_offset as usize))
}

/// Returns the text of an error.
fn error_text(error: u32) -> String {
    let mut text = vec![0; minisign::ERROR_TEXT_BYTES];
    let len = unsafe { minisign::minisign_error_text(error, text.as_mut_ptr(), text.len()) };
    text.truncate(len);
    String::from_utf8_lossy(&text).into_owned()
}

fn run(arguments: &[String]) -> io::Result<ExitCode> {
    let (pk, data, sig) = match arguments {
        [_, pk, data, sig] => (pk, data, sig),
        _ => {
            eprintln!("usage: installed_verify PUBLIC_KEY DATA SIGNATURE");
            return Ok(ExitCode::from(2));
        }
    };
    match verify(&fs::read(pk)?, &fs::read(sig)?, &mut File::open(data)?) {
        Ok(trusted_comment) => {
            io::stdout().write_all(&[&trusted_comment[..], b"\n"].concat())?;
            Ok(ExitCode::SUCCESS)
        }
        Err(Rejection::Library(error)) => {
            eprintln!("{}", error_text(error));
            Ok(ExitCode::from(1))
        }
        Err(Rejection::Reading(error)) => Err(error),
    }
}

fn main() -> ExitCode {
    let arguments: Vec<String> = std::env::args().collect();
    run(&arguments).unwrap_or_else(|error| {
        eprintln!("{error}");
        ExitCode::from(2)
    })
}

//! Runs the functions in the examples of bindings/rust/README.md that the `main` of the examples does not call.
//! tests/bindings/rust.py writes the examples to `../main.rs`.
#![allow(dead_code)]

mod pasted {
    include!("../main.rs");

    /// Generates a key, signs with it, and verifies the signature with a stream.
    pub fn run() -> Result<(), minisign_proved::Error> {
        make_key("pass word")?;
        sign("pass word")?;
        assert!(make_key("pass word").is_err(), "an existing key file was overwritten");
        let (key, signature) = (PublicKey::from_file("new.pub")?, Signature::from_file("app-3.minisig")?);
        assert!(sign("wrong").is_err(), "a wrong password decrypted the key");
        verify_stream(&key, &signature, std::fs::File::open("app-3")?)
    }
}

fn main() {
    pasted::run().unwrap();
}

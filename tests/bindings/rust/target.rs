//! A test program for each target of rust.py. Its Ed25519 prints the messages that it has to verify, and accepts all
//! signatures.

use minisign_proved::{PublicKey, SchemeError, Signature, Verify};

struct Printing;

impl Verify for Printing {
    fn verify(&self, _: &[u8; 64], message: &[u8], _: &[u8; 32]) -> Result<(), SchemeError> {
        println!("{}", message.iter().map(|byte| format!("{byte:02x}")).collect::<String>());
        Ok(())
    }
}

fn main() {
    let words: Vec<String> = std::env::args().skip(1).collect();
    let (key, signature) = (PublicKey::from_file(&words[0]).unwrap(), Signature::from_file(&words[1]).unwrap());
    println!("{:?}", key.verify_with(&Printing, &[7; 1000], &signature, false));
}

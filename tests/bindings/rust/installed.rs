//! Verifies the file `app` with the published key, as a program of a user who has installed the crate.
//! tests/bindings/install_commands.py runs it.

fn main() {
    let key =
        minisign_proved::PublicKey::from_base64("RWQf6LRCGA9i53mlYecO4IzT51TGPpvWucNSCh1CBM0QTaLn73Y7GFO3").unwrap();
    let signature = minisign_proved::Signature::from_file("app.minisig").unwrap();
    println!("{}", key.verify(&std::fs::read("app").unwrap(), &signature, false).is_ok());
}

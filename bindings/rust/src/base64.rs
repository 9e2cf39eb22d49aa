// SPDX-License-Identifier: MIT
//! Encodes signature records, the 74 bytes of a bare signature, in base64. The C library encodes
//! keys, so this module never gets a secret.

const ALPHABET: &[u8; 64] = b"ABCDEFGHIJKLMNOPQRSTUVWXYZabcdefghijklmnopqrstuvwxyz0123456789+/";

/// Encodes bytes (RFC 4648, section 4).
pub fn encode(bytes: &[u8]) -> String {
    let mut text = String::with_capacity((bytes.len() + 2) / 3 * 4);
    for part in bytes.chunks(3) {
        let word = (0..3).fold(0, |word, at| {
            word << 8 | usize::from(*part.get(at).unwrap_or(&0))
        });
        for at in 0..4 {
            let is_padding = at > part.len();
            let character = ALPHABET[word >> (18 - 6 * at) & 63];
            text.push(char::from(if is_padding { b'=' } else { character }));
        }
    }
    text
}

#[cfg(test)]
mod tests {
    use super::*;

    // The test vectors of RFC 4648, section 10.
    #[test]
    fn encodes_the_test_vectors() {
        let vectors = [
            ("", ""),
            ("f", "Zg=="),
            ("fo", "Zm8="),
            ("foo", "Zm9v"),
            ("foob", "Zm9vYg=="),
            ("fooba", "Zm9vYmE="),
            ("foobar", "Zm9vYmFy"),
        ];
        for (bytes, expected) in vectors {
            assert_eq!(encode(bytes.as_bytes()), expected);
        }
    }
}

// SPDX-License-Identifier: MIT
// Verifies Ed25519 signatures with WebCrypto. Platforms differ in the keys and
// signatures of small order, or with non-canonical encodings, that they accept.
// The library rejects all of these before Ed25519 is called (WEAK_ED25519), so
// the verdicts are the same on all platforms.

export const ED25519 = "Ed25519";

// A valid signature of the empty message, and its public key: the first test
// vector of RFC 8032, section 7.1.
const KNOWN_KEY =
  "d75a980182b10ab7d54bfed3c964073a0ee172f3daa62325af021a68f707511a";
const KNOWN_SIGNATURE =
  "e5564300c360ac729086e2cc806e828a84877f1eb8e5d974d873e06522490155" +
  "5fb8821590a33bacc61e39701cf9b46bd25bf5f0595bbe24655141438e7a100b";

// The module that has WebCrypto in Node 18, which has no global `crypto`.
const NODE_CRYPTO = "node:crypto";

function bytesOf(digits) {
  return Uint8Array.from(digits.match(/../g), (pair) => parseInt(pair, 16));
}

// Returns the platform's WebCrypto.
export async function platformCrypto() {
  const { crypto } = globalThis;
  return (
    crypto ?? (await import(/* webpackIgnore: true */ NODE_CRYPTO)).webcrypto
  );
}

// Returns true if the platform's Ed25519 accepts the signature of a message,
// and false if it rejects the signature or the key, or fails.
export async function accepts(publicKey, signature, message) {
  try {
    const { subtle } = await platformCrypto();
    const uses = ["verify"];
    const key = await subtle.importKey("raw", publicKey, ED25519, false, uses);
    return (await subtle.verify(ED25519, key, signature, message)) === true;
  } catch {
    return false;
  }
}

// Returns true if the platform has an Ed25519 that works: it accepts the known
// signature for the empty message, and rejects it for another message.
export async function hasEd25519() {
  const [key, signature] = [KNOWN_KEY, KNOWN_SIGNATURE].map(bytesOf);
  const results = [0, 1].map((length) =>
    accepts(key, signature, new Uint8Array(length)),
  );
  return (await results[0]) && !(await results[1]);
}

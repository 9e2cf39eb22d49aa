// SPDX-License-Identifier: MIT
// The entry point of the package: verifies Minisign signatures and signed
// lists, and exports the functions that sign. index.d.ts documents all of them.

import { optionsOf, bytesOfText } from "./arguments.js";
import { parseTrustedComment } from "./comments.js";
import { feedAll, pieceConsumer } from "./feeding.js";
import { checkedResult, loadLibrary } from "./library_loader.js";
import { listName, listText, longDigestOf, signedList } from "./lists.js";
import { Verification } from "./verification.js";

export { parseTrustedComment };
export * from "./errors.js";
export * from "./signing.js";

// The results of the library for the objects that readSignature and
// readPublicKey have returned. They are not properties of these objects, so
// that a caller cannot change them.
const parsedSignatures = new WeakMap();
const parsedKeys = new WeakMap();

// Checks the argument `signature`, which is a text or a result of
// readSignature. Returns a function that parses it with the library.
function signatureParser(signature) {
  const parsed = parsedSignatures.get(signature);
  const text = parsed ? null : bytesOfText(signature, "signature");
  return (library) =>
    parsed ?? checkedResult(library, library.readSignature(text));
}

// Checks the argument `key`, which is a text or a result of readPublicKey.
// Returns a function that parses it with the library. A string of one line is
// the base64 of a key.
function keyParser(key) {
  const parsed = parsedKeys.get(key);
  const isBare = typeof key === "string" && !key.trimEnd().includes("\n");
  const text = parsed ? null : bytesOfText(isBare ? key.trimEnd() : key, "key");
  return (library) =>
    parsed ?? checkedResult(library, library.readKey(text, isBare));
}

// ---- Reading ----

export async function readSignature(signature) {
  const parse = signatureParser(bytesOfText(signature, "signature"));
  const parsed = parse(await loadLibrary());
  const { keyId, isLegacy } = parsed;
  const fields = Object.freeze({ keyId, isLegacy });
  parsedSignatures.set(fields, parsed);
  return fields;
}

export async function readPublicKey(key) {
  const text = typeof key === "string" ? key : bytesOfText(key, "key");
  const parse = keyParser(text);
  const parsed = parse(await loadLibrary());
  const fields = Object.freeze({ keyId: parsed.keyId });
  parsedKeys.set(fields, parsed);
  return fields;
}

// ---- Verifying ----

export async function createVerifier(signature, key, options = {}) {
  const { allowLegacy = false } = optionsOf(options, "allowLegacy");
  const parseSignature = signatureParser(signature);
  const parseKey = keyParser(key);
  const library = await loadLibrary();
  const { key: keyStruct, keyId } = parseKey(library);
  const parsedSignature = parseSignature(library);
  const { isLegacy } = parsedSignature;
  const verification = new Verification(
    library,
    keyStruct,
    parsedSignature,
    allowLegacy,
  );
  checkedResult(library, verification);
  const feed = (piece) => verification.feed(piece);
  const end = async () => {
    checkedResult(library, await verification.end());
    const trustedComment = verification.comment();
    const fields = parseTrustedComment(trustedComment);
    return { trustedComment, fields, keyId, isLegacy };
  };
  return pieceConsumer(library, feed, end, (checkNotEnded) => ({
    keyId,
    isLegacy,
    async trustedComment() {
      checkNotEnded();
      checkedResult(library, { number: await verification.commentVerdict() });
      return verification.comment();
    },
  }));
}

export async function verify(data, signature, key, options = {}) {
  const begin = (verifierOptions) =>
    createVerifier(signature, key, verifierOptions);
  const optionNames = ["allowLegacy", "progress", "signal"];
  return feedAll(data, options, optionNames, begin);
}

// ---- Signed lists ----

export async function verifyList(text, signature, key, name, options = {}) {
  const bytes = listText(text);
  const nameBytes = listName(name);
  const longDigest = longDigestOf(options);
  const parseSignature = signatureParser(signature);
  const parseKey = keyParser(key);
  const library = await loadLibrary();
  const parsedKey = parseKey(library);
  const parsedSignature = parseSignature(library);
  const list = [nameBytes, bytes, longDigest];
  return signedList(library, parsedKey, parsedSignature, ...list);
}

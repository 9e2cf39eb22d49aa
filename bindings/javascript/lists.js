// SPDX-License-Identifier: MIT
// Implements verifyList of index.js, which verifies files with signed lists.

import { argumentError, bytesOf, bytesOfText, mustBe } from "./arguments.js";
import { optionsOf } from "./arguments.js";
import { LONG_DIGESTS, MAX_LIST_BYTES } from "./calls.js";
import { parseTrustedComment } from "./comments.js";
import { accepts, platformCrypto } from "./ed25519.js";
import { feedAll, pieceConsumer } from "./feeding.js";
import { checkedResult } from "./library_loader.js";

// The names that hash functions have in WebCrypto, which lacks BLAKE2b.
const WEBCRYPTO_NAMES = { sha256: "SHA-256", sha512: "SHA-512" };

// Checks the argument `text`, and returns a copy of the list, so that later
// changes of the caller's buffer have no effect.
export function listText(text) {
  const isText = typeof text === "string";
  const bytes = isText ? new TextEncoder().encode(text) : bytesOf(text);
  mustBe(bytes !== null, "text", "a string or bytes", text);
  if (bytes.length > MAX_LIST_BYTES) {
    throw argumentError(`text must have at most ${MAX_LIST_BYTES} bytes`);
  }
  return bytes.slice();
}

// Checks the argument `name`, and returns a copy of the name of the list, or
// null if the trusted comment may contain any name.
export function listName(name) {
  return name === null ? null : bytesOfText(name, "name").slice();
}

// Checks the options of verifyList, and returns the hash function of 128 digits
// on a line that names no hash function.
export function longDigestOf(options) {
  const { longDigest = "sha512" } = optionsOf(options, "longDigest");
  return LONG_DIGESTS.get(longDigest);
}

// Verifies the signature of a list. `key` and `signature` are results of the
// library. Resolves to the object that verifyList returns.
export async function signedList(
  library,
  key,
  signature,
  listName,
  text,
  longDigest,
) {
  const questions = library.askList(key.key, signature, listName, text);
  checkedResult(library, questions);
  const { publicKey, list, digest, message } = questions;
  const isListValid = await accepts(publicKey, questions.signature, digest);
  const isCommentValid = await accepts(
    publicKey,
    questions.commentSignature,
    message,
  );
  const number = library.listVerdict(list, isListValid, isCommentValid);
  checkedResult(library, { number });
  const decoder = new TextDecoder("utf-8", { fatal: true, ignoreBOM: true });
  const trustedComment = decoder.decode(questions.comment);
  const fieldsOf = (entry) => Object.freeze(library.fieldsOfEntry(entry, text));
  const findEntry = (name) => {
    const bytes = bytesOfText(name, "name");
    const result = library.findEntry(list, text, longDigest, bytes);
    return checkedResult(library, result).entry;
  };
  // Returns the fields of an entry if it has this digest, and throws otherwise.
  const compare = (entry, dataDigest) => {
    const number = library.compareDigest(entry, dataDigest);
    checkedResult(library, { number });
    return fieldsOf(entry);
  };
  // Begins to verify data. The library computes its digest.
  const beginFile = (name) => {
    const entry = findEntry(name);
    const { hash } = fieldsOf(entry);
    const state = library.beginHash(hash);
    const feed = (piece) =>
      library.feedInPieces(piece, () => library.feedHash(hash, state));
    const end = async () => compare(entry, library.hashDigest(hash, state));
    return pieceConsumer(library, feed, end);
  };
  const verifyListed = async (data, name, options = {}) =>
    feedAll(data, options, ["progress", "signal"], () => beginFile(name));
  return Object.freeze({
    keyId: key.keyId,
    trustedComment,
    fields: parseTrustedComment(trustedComment),
    entries() {
      const result = library.listEntries(list, text, longDigest);
      return checkedResult(library, result).entries.map(fieldsOf);
    },
    find: (name) => fieldsOf(findEntry(name)),
    verifyListed,
    async verifyListedTrustingWebCrypto(data, name) {
      const entry = findEntry(name);
      const hash = WEBCRYPTO_NAMES[fieldsOf(entry).hash];
      const isBlob = typeof data?.arrayBuffer === "function";
      const bytes = isBlob ? await data.arrayBuffer() : bytesOf(data);
      mustBe(bytes !== null, "data", "bytes or a Blob", data);
      if (hash === undefined) {
        return verifyListed(bytes, name);
      }
      const { subtle } = await platformCrypto();
      return compare(entry, new Uint8Array(await subtle.digest(hash, bytes)));
    },
  });
}

// SPDX-License-Identifier: MIT
// Makes secret keys and signatures. index.d.ts documents the functions. Secret
// keys are handled by a separate WebAssembly module, which is loaded when it is
// first used.

import {
  argumentError,
  bytesOf,
  bytesOfText,
  clearCopy,
  mustBe,
  optionsOf,
} from "./arguments.js";
import { keyIdText } from "./calls.js";
import { ED25519, accepts, platformCrypto } from "./ed25519.js";
import { ERRORS } from "./errors.js";
import { feedAll, pieceConsumer } from "./feeding.js";
import * as h from "./header.js";
import { checkedResult } from "./library_loader.js";

const READ_OPTIONS = ["password", "lowMemory", "mostRows"];
const COMMENT_OPTIONS = ["trustedComment", "untrustedComment"];
const DEFAULT_UNTRUSTED_COMMENT = "signature from minisign secret key";
// An Ed25519 key in PKCS#8 (RFC 8410) consists of these 16 bytes and its seed.
const PKCS8_PREFIX = [48, 46, 2, 1, 0, 48, 5, 6, 3, 43, 101, 112, 4, 34, 4, 32];
const NOT_IN_COMMENT =
  "cannot be in the default trusted comment; pass a trustedComment";

// The bytes of the secret keys, by the objects that the caller has. These
// objects do not show the bytes.
const secretKeys = new WeakMap();

function bytesOfKey(secretKey) {
  const bytes = secretKeys.get(secretKey);
  mustBe(bytes, "secretKey", "a secret key from this package", secretKey);
  return bytes;
}

// Concatenates secret bytes. The caller has to clear the result. It has an
// ArrayBuffer of its own, because JavaScript engines keep a short typed array
// that is made in another way, such as by Uint8Array.of, on the heap of the
// garbage collector, which moves it and leaves copies that nobody can clear.
function joinedSecret(first, second) {
  const joined = new Uint8Array(new ArrayBuffer(first.length + second.length));
  joined.set(first);
  joined.set(second, first.length);
  return joined;
}

// Returns the parameter keep_every of the library: for low memory, scrypt
// stores only every 16th row of its table, and computes the others again.
function keepEveryOf(lowMemory) {
  return lowMemory ? h.KEEP_FEW_ROWS : h.KEEP_EVERY_ROW;
}

// Returns the object for a secret key that the caller gets.
function secretKeyOf(bytes, isWeak) {
  const keyId = keyIdText(h.fieldOf("secret_key", "key_id", bytes));
  const secretKey = Object.freeze({ keyId, isWeak });
  secretKeys.set(secretKey, bytes);
  return secretKey;
}

// ---- Keys ----

export async function generateSecretKey() {
  const calls = await h.SigningCalls.load();
  const crypto = await platformCrypto();
  const { subtle } = crypto;
  const keyPair = await subtle.generateKey(ED25519, true, ["sign", "verify"]);
  const pkcs8Key = await subtle.exportKey("pkcs8", keyPair.privateKey);
  const seed = new Uint8Array(pkcs8Key, PKCS8_PREFIX.length, 32);
  const rawKey = await subtle.exportKey("raw", keyPair.publicKey);
  const secret = joinedSecret(seed, new Uint8Array(rawKey));
  const keyId = crypto.getRandomValues(new Uint8Array(8));
  const newKey = h.structOf("new_key", { key_id: keyId, secret });
  const bytes = await calls.takeSecretKey(newKey);
  [seed, secret, newKey].forEach((copy) => copy.fill(0));
  return secretKeyOf(bytes, false);
}

export async function readSecretKey(text, options = {}) {
  const { password, lowMemory, mostRows } = optionsOf(options, ...READ_OPTIONS);
  const bytes = bytesOfText(text, "text");
  const passwordBytes =
    password === undefined ? null : bytesOfText(password, "password");
  const calls = await h.SigningCalls.load();
  let unopenedKey;
  try {
    unopenedKey = await calls.readSecretKey(bytes);
    if (passwordBytes === null) {
      return secretKeyOf(await calls.openUnsealedKey(unopenedKey), false);
    }
    const scryptArguments = [keepEveryOf(lowMemory), mostRows ?? h.USUAL_ROWS];
    const openedKey = await calls.openSealedKey(
      unopenedKey,
      passwordBytes,
      ...scryptArguments,
    );
    // A key is weak if scrypt has few rows, so that passwords are fast to try.
    const [log2Rows] = h.fieldOf("unopened_key", "log2_rows", unopenedKey);
    return secretKeyOf(openedKey, log2Rows < h.LEAST_LOG2_ROWS);
  } finally {
    unopenedKey?.fill(0);
    clearCopy(bytes, text);
    clearCopy(passwordBytes, password);
  }
}

export async function writeSecretKey(secretKey, password, options = {}) {
  const { lowMemory } = optionsOf(options, "lowMemory");
  const bytes = bytesOfKey(secretKey);
  const passwordBytes =
    password === null ? null : bytesOfText(password, "password");
  if (passwordBytes?.length === 0) {
    throw argumentError("password must not be empty; use null for no password");
  }
  const calls = await h.SigningCalls.load();
  const sealing = h.structOf("sealing", {
    salt: (await platformCrypto()).getRandomValues(new Uint8Array(32)),
    operations_limit: h.OPERATIONS_LIMIT,
    memory_limit: h.MEMORY_LIMIT,
  });
  const comment = bytesOfText(h.SECRET_KEY_COMMENT);
  const work = [sealing, keepEveryOf(lowMemory)];
  try {
    return await calls.secretKeyText(bytes, passwordBytes, ...work, comment);
  } finally {
    clearCopy(passwordBytes, password);
  }
}

export async function writePublicKey(secretKey) {
  const bytes = bytesOfKey(secretKey);
  const comment = bytesOfText(h.PUBLIC_KEY_COMMENT + secretKey.keyId);
  const calls = await h.SigningCalls.load();
  return calls.publicKeyText(bytes, comment);
}

export function clearSecretKey(secretKey) {
  bytesOfKey(secretKey).fill(0);
}

// ---- Signing ----

// Signs a message, and verifies the signature before returning it, because a
// signature made with a damaged key, whose seed and public key do not match,
// reveals the secret.
async function signMessage(library, secretKey, publicKey, message) {
  const key = await importedKey(secretKey);
  const { subtle } = await platformCrypto();
  const signature = new Uint8Array(await subtle.sign(ED25519, key, message));
  const isValid = await accepts(publicKey, signature, message);
  checkedResult(library, { number: isValid ? 0 : ERRORS.SIGNATURE_REFUSED });
  return signature;
}

// Imports the seed of a key into WebCrypto.
async function importedKey(secretKey) {
  const { subtle } = await platformCrypto();
  const seed = h.fieldOf("secret_key", "secret", secretKey).subarray(0, 32);
  const der = joinedSecret(PKCS8_PREFIX, seed);
  try {
    return await subtle.importKey("pkcs8", der, ED25519, false, ["sign"]);
  } finally {
    der.fill(0);
  }
}

// Returns the last part of the name of a File, or of the path of a Node stream
// that reads a file. Returns an empty string for other data, which has no name.
function nameOf(data) {
  if (bytesOf(data) !== null) {
    return "";
  }
  if (typeof data?.stream === "function") {
    return lastPart(data.name, "/");
  }
  const isWindows = globalThis.process?.platform === "win32";
  const isStream = typeof data?.on === "function";
  return isStream ? lastPart(data.path, isWindows ? /[/\\]/ : "/") : "";
}

// Returns the part of a name after the last separator. The name is a string or
// bytes in UTF-8. For any other value, an empty string is returned.
function lastPart(name, separator) {
  const bytes = bytesOf(name);
  const isName = typeof name === "string" || bytes !== null;
  return isName ? decodedName(bytes ?? name).split(separator).pop() : "";
}

function decodedName(name) {
  try {
    const decoder = new TextDecoder("utf-8", { fatal: true, ignoreBOM: true });
    return typeof name === "string" ? name : decoder.decode(name);
  } catch {
    throw argumentError(`a file name that is not UTF-8 ${NOT_IN_COMMENT}`);
  }
}

// Returns Minisign's default trusted comment, with the time and the file name.
// If the name is empty, the comment has no field `file:`.
function defaultComment(name) {
  if (/[\r\n]/.test(name)) {
    throw argumentError(`a file name with a line break ${NOT_IN_COMMENT}`);
  }
  const file = name === "" ? "" : `\tfile:${name}`;
  return `timestamp:${Math.floor(Date.now() / 1000)}${file}\thashed`;
}

export async function createSigner(secretKey, options = {}) {
  const comments = optionsOf(options, ...COMMENT_OPTIONS);
  return makeSigner(secretKey, comments, () => "");
}

// Makes a signer. `comments` are options of `createSigner`, and `getFileName`
// returns the file name for the default trusted comment.
async function makeSigner(secretKey, comments, getFileName) {
  const { trustedComment, untrustedComment } = comments;
  const comment = trustedComment ?? defaultComment(getFileName());
  const trustedBytes = bytesOfText(comment, "trustedComment");
  const untrustedBytes = bytesOfText(
    untrustedComment ?? DEFAULT_UNTRUSTED_COMMENT,
    "untrustedComment",
  );
  const bytes = bytesOfKey(secretKey);
  const calls = await h.SigningCalls.load();
  const { library } = calls;
  const state = library.begin();
  const feed = (piece) => library.feed(state, piece);
  const end = async () => {
    // Verifying uses this call too. It stores the digest in the field `digest`
    // of the object.
    const result = {};
    library.digest(state, result);
    const publicKey = await calls.publicKeyOf(bytes);
    const keys = [bytes, h.fieldOf("public_key", "key", publicKey)];
    const dataSignature = await signMessage(library, ...keys, result.digest);
    const message = await calls.commentMessage(dataSignature, trustedBytes);
    const commentSignature = await signMessage(library, ...keys, message);
    const signatures = [dataSignature, commentSignature];
    const commentBytes = [trustedBytes, untrustedBytes];
    return calls.signedText(publicKey, ...signatures, ...commentBytes);
  };
  return pieceConsumer(library, feed, end);
}

export async function sign(data, secretKey, options = {}) {
  const optionNames = [...COMMENT_OPTIONS, "progress", "signal"];
  const begin = (comments) =>
    makeSigner(secretKey, comments, () => nameOf(data));
  return feedAll(data, options, optionNames, begin);
}

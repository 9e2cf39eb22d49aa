// SPDX-License-Identifier: MIT
// Calls the WebAssembly module of the proved library, which is built from the
// crate minisign_page. No other file calls the module.
//
// The module is proved and built for 64-bit WebAssembly. wasm-opt turns it into
// a module with a memory of 32 bits, whose functions still take each address
// and length as a number of 64 bits. This file can load either module.
//
// Each method copies its arguments into the memory of the module, and copies
// the results out. The caller holds the state of a verification, so the module
// keeps nothing between two calls, except for the piece of data that `place`
// has put there. In results, `number` is 0 or an error number of
// include/minisign.h. The section "Requirements" of that header also holds for
// callers of this file.

// Key files and signature files must be shorter than this.
export const TEXT_BYTES = 65536;
// The maximum size of a piece of data. If the memory of the module is small,
// pieces are smaller.
const MAX_PIECE_BYTES = 4 * 1048576;
// The maximum size of a signed list.
export const MAX_LIST_BYTES = 1048576;

// ---- From include/minisign.h, made by tools/bindings.py ----

const ANSWER_YES = 0x796573;
const ANSWER_NO = 0x6e6f;
const HASH_NONE = 0;
const HASH_SHA256 = 1;
const HASH_SHA512 = 2;
const HASH_BLAKE2B = 3;

// The sizes of the structs, and the offsets of the fields that are read.
const STATE_BYTES = 512;
const LIST_BYTES = 88;
const KEY_BYTES = 48;
const PUBLIC_KEY = { key: 8, key_id: 40 };
const SIGNATURE_BYTES = 200;
const SIGNATURE = { key_id: 8, legacy: 194 };
const LIST_ENTRY_BYTES = 104;
const LIST_ENTRY = {
  line: 8,
  name_offset: 16,
  name_len: 24,
  digest: 32,
  hash: 96,
  is_escaped: 100,
};
const QUESTIONS_BYTES = 256;
const QUESTIONS = {
  public_key: 0,
  digest: 32,
  signature: 96,
  comment_signature: 160,
  message_len: 224,
  comment_offset: 232,
  comment_len: 240,
  legacy: 248,
};

// ---- End of the generated part ----

// The hash functions of lists, by their numbers in the header. `bytes` is the
// size of a digest.
export const HASHES = new Map([
  [HASH_SHA256, { name: "sha256", bytes: 32 }],
  [HASH_SHA512, { name: "sha512", bytes: 64 }],
  [HASH_BLAKE2B, { name: "blake2b", bytes: 64 }],
]);
// The values of the option `longDigest`: the hash function of 128 digits on a
// line that names no hash function.
export const LONG_DIGESTS = new Map([
  ["sha512", HASH_SHA512],
  ["blake2b", HASH_BLAKE2B],
  ["none", HASH_NONE],
]);
// The sizes of the states of SHA-256 and SHA-512 in the crate minisign_sha2,
// which the header does not declare.
const SHA_BYTES = { sha256: 104, sha512: 208 };

// Formats the eight bytes of a key ID as the program minisign prints it: one
// little-endian number in upper-case hexadecimal digits, without leading zeros.
export function keyIdText(bytes) {
  const digitsOf = (byte) => byte.toString(16).padStart(2, "0");
  const digits = Array.from(bytes, digitsOf).reverse().join("").toUpperCase();
  return digits.replace(/^0+(?=.)/, "");
}

export class Library {
  // `calls` are the exports of the module.
  constructor(calls) {
    this.calls = calls;
    this.memory = new Uint8Array(calls.memory.buffer);
    // Reserves buffers behind the module's own data. The properties are the
    // addresses of the buffers.
    let end = Math.ceil(Number(calls.__heap_base.value) / 16) * 16;
    const bufferOf = (length) => (end += length) - length;
    this.state = bufferOf(STATE_BYTES);
    this.questions = bufferOf(QUESTIONS_BYTES);
    this.signature = bufferOf(208);
    this.key = bufferOf(48);
    this.scratch = bufferOf(128);
    this.list = bufferOf(LIST_BYTES);
    this.entry = bufferOf(LIST_ENTRY_BYTES);
    this.name = bufferOf(TEXT_BYTES);
    this.text = bufferOf(TEXT_BYTES);
    this.message = bufferOf(TEXT_BYTES);
    this.piece = end;
    const texts = Math.floor((this.memory.length - end) / TEXT_BYTES);
    this.pieceBytes = Math.min(MAX_PIECE_BYTES, texts * TEXT_BYTES);
    if (this.pieceBytes < TEXT_BYTES) {
      const why = new Error("the WebAssembly module is out of memory");
      throw Object.assign(why, { code: "OUT_OF_MEMORY" });
    }
  }

  static async load(bytes) {
    const { instance } = await WebAssembly.instantiate(bytes, {});
    return new Library(instance.exports);
  }

  // Copies bytes into the buffer of this size at this address. Returns their
  // span: the address and the number of bytes, as the functions of the module
  // take them.
  put(address, size, bytes) {
    if (bytes.length > size) {
      const why = new Error("an argument is too long for the library");
      throw Object.assign(why, { code: "NO_ROOM" });
    }
    this.memory.set(bytes, address);
    return [BigInt(address), BigInt(bytes.length)];
  }

  // Copies bytes out of the memory of the module.
  bytesAt(address, length) {
    return this.memory.slice(address, address + length);
  }

  // Copies a state into the module, passes its address to `call`, and copies
  // the state back. Returns the error number that `call` returns, or 0.
  onState(state, call) {
    return this.onStruct(this.state, state, call);
  }

  // Returns the message for an error number.
  errorText(number) {
    const address = BigInt(this.scratch);
    const length = Number(this.calls.page_error_text(number, address, 128n));
    return new TextDecoder().decode(this.bytesAt(this.scratch, length));
  }

  // Parses a public key file, or only the base64 of a key if isBare is true.
  // Returns the error number, the key ID, and the struct of the key.
  readKey(text, isBare) {
    const call = `page_read_${isBare ? "bare_" : ""}public_key`;
    const span = this.put(this.text, TEXT_BYTES, text);
    const number = this.calls[call](...span, BigInt(this.key)) >>> 0;
    const key = this.bytesAt(this.key, number === 0 ? KEY_BYTES : 0);
    const keyId = keyIdText(key.subarray(PUBLIC_KEY.key_id));
    return { number, keyId, key };
  }

  // Returns a new state of a verification, to which no data was fed.
  begin() {
    const state = new Uint8Array(STATE_BYTES);
    this.onState(state, (address) => this.calls.page_init(address));
    return state;
  }

  // Parses a signature file. Returns the error number, a copy of the text, the
  // struct of the signature (`value`), the key ID, and true if the signature is
  // a legacy one. `ask` takes this result.
  readSignature(text) {
    this.memory.fill(0, this.signature, this.signature + SIGNATURE_BYTES);
    const span = this.put(this.text, TEXT_BYTES, text);
    const address = BigInt(this.signature);
    const number = this.calls.page_read_signature(...span, address) >>> 0;
    const value = this.bytesAt(this.signature, SIGNATURE_BYTES);
    const keyId = value.subarray(SIGNATURE.key_id, SIGNATURE.key_id + 8);
    return {
      number,
      text: text.slice(),
      value,
      keyId: keyIdText(keyId),
      isLegacy: value[SIGNATURE.legacy] === 1,
    };
  }

  // Makes all checks of a key and a signature that need no data and no Ed25519.
  // `key` is the struct that readKey returns, `signature` the result of
  // readSignature. Returns the error number, and what Ed25519 has to check: the
  // signature of the data and the comment signature, with their messages. The
  // digest, the message of the first one, is set by the method `digest` later.
  ask(state, key, signature, allowsLegacy) {
    this.memory.fill(0, this.questions, this.questions + QUESTIONS_BYTES);
    const number = this.onState(state, (address) =>
      this.calls.page_ask(
        address,
        this.put(this.key, KEY_BYTES, key)[0],
        this.put(this.signature, SIGNATURE_BYTES, signature.value)[0],
        ...this.put(this.text, TEXT_BYTES, signature.text),
        allowsLegacy ? 1 : 0,
        ...this.questionArguments(),
      ),
    );
    return this.questionsAfter(number);
  }

  // Returns the last arguments of a call that says what Ed25519 has to check:
  // the addresses of the struct `questions` and of the buffer for the message
  // of the comment signature, and the size of this buffer.
  questionArguments() {
    return [this.questions, this.message, TEXT_BYTES].map(BigInt);
  }

  // Returns the little-endian number of `length` bytes at an address in the
  // memory of the module.
  numberAt(address, length) {
    const bytes = this.bytesAt(address, length);
    return bytes.reduceRight((value, byte) => 256 * value + byte, 0);
  }

  // Returns the result of `ask`, from this error number and the struct
  // `questions` in the memory of the module.
  questionsAfter(number) {
    const part = (name, length) =>
      this.bytesAt(this.questions + QUESTIONS[name], length);
    const numberAt = (name, length) =>
      this.numberAt(this.questions + QUESTIONS[name], length);
    const comment = this.message + numberAt("comment_offset", 8);
    return {
      number,
      publicKey: part("public_key", 32),
      signature: part("signature", 64),
      commentSignature: part("comment_signature", 64),
      message: this.bytesAt(this.message, numberAt("message_len", 8)),
      comment: this.bytesAt(comment, numberAt("comment_len", 8)),
      isLegacy: numberAt("legacy", 4) === 1,
      digest: part("digest", 64),
    };
  }

  // Copies a piece of the data, of at most pieceBytes bytes, into the module.
  // feedPlaced and feedHash use this piece.
  place(bytes) {
    this.placed = this.put(this.piece, this.pieceBytes, bytes);
  }

  // Feeds the piece that was placed last. Returns 0, or the error number if the
  // library is misused.
  feedPlaced(state) {
    return this.onState(state, (address) =>
      this.calls.page_update(address, ...this.placed),
    );
  }

  // Feeds the next bytes of the data, of any length. Returns 0, or the error
  // number if the library is misused.
  feed(state, bytes) {
    return this.feedInPieces(bytes, () => this.feedPlaced(state));
  }

  // Sets the digest of `questions`, a result of `ask`, to the digest of all
  // data that was fed. After that no more data can be fed. Returns 0, or the
  // error number if the library is misused.
  digest(state, questions) {
    const digest = this.questions + QUESTIONS.digest;
    const number = this.onState(state, (address) =>
      this.calls.page_digest(address, BigInt(digest)),
    );
    questions.digest = this.bytesAt(digest, 64);
    return number;
  }

  // Ends a verification. isDataValid is true if Ed25519 accepts the signature
  // of the data, and isCommentValid is true if it accepts the comment
  // signature. Returns 0 if and only if the signature is valid for all data
  // that was fed, otherwise the error number of the first check that fails.
  verdict(state, isDataValid, isCommentValid) {
    const answerOf = (isValid) => (isValid ? ANSWER_YES : ANSWER_NO);
    const answers = [isDataValid, isCommentValid].map(answerOf);
    return this.onState(state, (address) =>
      this.calls.page_verdict(address, ...answers),
    );
  }

  // ---- Signed lists ----

  // Makes all checks of a list that need no Ed25519, as `ask` does for data.
  // `name` is the name that the trusted comment must contain, or null if it may
  // contain any name. Returns the result of `ask`, and the struct of the list.
  askList(key, signature, name, text) {
    this.memory.fill(0, this.questions, this.questions + QUESTIONS_BYTES);
    const call = this.calls[`page_list_ask${name === null ? "_any" : ""}`];
    const number = call(
      BigInt(this.list),
      this.put(this.key, KEY_BYTES, key)[0],
      this.put(this.signature, SIGNATURE_BYTES, signature.value)[0],
      ...this.put(this.text, TEXT_BYTES, signature.text),
      ...(name === null ? [] : this.put(this.name, TEXT_BYTES, name)),
      ...this.putList(text),
      ...this.questionArguments(),
    );
    const list = this.bytesAt(this.list, LIST_BYTES);
    return { ...this.questionsAfter(number >>> 0), list };
  }

  // Copies a list into the buffer for pieces of data.
  putList(text) {
    const size = Math.min(MAX_LIST_BYTES, this.pieceBytes);
    return this.put(this.piece, size, text);
  }

  // Copies a struct to an address in the module, passes this address to `call`,
  // and copies the struct back. Returns the error number that `call` returns,
  // or 0.
  onStruct(address, struct, call) {
    const number = call(this.put(address, struct.length, struct)[0]) >>> 0;
    struct.set(this.bytesAt(address, struct.length));
    return number;
  }

  // Ends the verification of a list, as `verdict` does for data: isListValid is
  // true if Ed25519 accepts the signature of the list. Returns 0 if and only if
  // the list is verified, otherwise the error number of the first check that
  // fails.
  listVerdict(list, isListValid, isCommentValid) {
    const answerOf = (isValid) => (isValid ? ANSWER_YES : ANSWER_NO);
    const answers = [isListValid, isCommentValid].map(answerOf);
    return this.onStruct(this.list, list, (address) =>
      this.calls.page_list_verdict(address, ...answers),
    );
  }

  // Finds the entry for a name that must be listed exactly once. The list must
  // be verified. Returns the error number, the line at fault or 0, and the
  // struct of the entry.
  findEntry(list, text, longDigest, name) {
    const line = this.scratch;
    const number = this.calls.page_list_find(
      this.put(this.list, LIST_BYTES, list)[0],
      ...this.putList(text),
      longDigest,
      ...this.put(this.name, TEXT_BYTES, name),
      BigInt(this.entry),
      BigInt(line),
    );
    const entry = this.bytesAt(this.entry, LIST_ENTRY_BYTES);
    return { number: number >>> 0, line: this.numberAt(line, 8), entry };
  }

  // Returns the error number, the line at fault or 0, and the structs of all
  // entries of a verified list, in the order of their lines.
  listEntries(list, text, longDigest) {
    const line = this.scratch;
    const count = this.scratch + 8;
    const span = this.putList(text);
    // The module writes the structs behind the list. Their address has to be a
    // multiple of 16, as this.piece is.
    const entries = this.piece + Math.ceil((text.length + 1) / 16) * 16;
    const end = this.piece + this.pieceBytes;
    const number = this.calls.page_list_entries(
      this.put(this.list, LIST_BYTES, list)[0],
      ...span,
      longDigest,
      BigInt(entries),
      BigInt(Math.floor((end - entries) / LIST_ENTRY_BYTES)),
      BigInt(count),
      BigInt(line),
    );
    const length = number === 0 ? this.numberAt(count, 8) : 0;
    const structAt = (_, index) =>
      this.bytesAt(entries + index * LIST_ENTRY_BYTES, LIST_ENTRY_BYTES);
    return {
      number: number >>> 0,
      line: this.numberAt(line, 8),
      entries: Array.from({ length }, structAt),
    };
  }

  // Returns the fields of an entry, from its struct and the list. The library
  // has checked that the list is UTF-8.
  fieldsOfEntry(struct, text) {
    this.put(this.entry, LIST_ENTRY_BYTES, struct);
    const numberAt = (name, length) =>
      this.numberAt(this.entry + LIST_ENTRY[name], length);
    const { name: hash, bytes } = HASHES.get(numberAt("hash", 4));
    const begin = numberAt("name_offset", 8);
    const name = text.subarray(begin, begin + numberAt("name_len", 8));
    const digest = this.entry + LIST_ENTRY.digest;
    return {
      name: new TextDecoder("utf-8", { ignoreBOM: true }).decode(name),
      hash,
      digest: this.bytesAt(digest, bytes),
      line: numberAt("line", 8),
      isEscaped: numberAt("is_escaped", 4) === 1,
    };
  }

  // Places bytes of any length, piece by piece, and calls `feed` after each
  // piece. Stops if `feed` returns an error number. Returns what `feed`
  // returned last, or 0.
  feedInPieces(bytes, feed) {
    let number = 0;
    for (let at = 0; at < bytes.length && number === 0; at += this.pieceBytes) {
      this.place(bytes.subarray(at, at + this.pieceBytes));
      number = feed();
    }
    return number;
  }

  // Returns 0 if and only if a digest is the one in the struct of an entry,
  // otherwise an error number. The caller has to compute the digest with the
  // hash function of the entry.
  compareDigest(entry, digest) {
    const address = this.put(this.entry, LIST_ENTRY_BYTES, entry)[0];
    const hash = this.numberAt(this.entry + LIST_ENTRY.hash, 4);
    const digestSpan = this.put(this.scratch, 64, digest);
    const { page_list_compare_trusting_your_hash: compare } = this.calls;
    return compare(address, hash, ...digestSpan) >>> 0;
  }

  // ---- Digests ----

  // Returns a new state of a hash function, which has a name of HASHES.
  beginHash(hash) {
    if (hash === "blake2b") {
      return this.begin();
    }
    const state = new Uint8Array(SHA_BYTES[hash]);
    const begin = this.calls[`page_${hash}_begin`];
    this.onStruct(this.state, state, (address) => begin(address));
    return state;
  }

  // Feeds the piece of data that was placed last. Returns 0, or the error
  // number if the library is misused.
  feedHash(hash, state) {
    if (hash === "blake2b") {
      return this.feedPlaced(state);
    }
    const update = this.calls[`page_${hash}_update`];
    this.onStruct(this.state, state, (address) =>
      update(address, ...this.placed),
    );
    return 0;
  }

  // Feeds the piece of data that was placed last to several states, which are
  // properties named after their hash functions. Returns 0, or the error number
  // if the library is misused.
  feedHashes(states) {
    for (const [hash, state] of Object.entries(states)) {
      const number = this.feedHash(hash, state);
      if (number !== 0) {
        return number;
      }
    }
    return 0;
  }

  // Returns the digest of all data that was fed. The state is unchanged, so
  // more data can be fed.
  hashDigest(hash, state) {
    if (hash === "blake2b") {
      const questions = {};
      this.digest(state.slice(), questions);
      return questions.digest;
    }
    const address = this.put(this.state, STATE_BYTES, state)[0];
    this.calls[`page_${hash}_digest`](address, BigInt(this.scratch));
    return this.bytesAt(this.scratch, hash === "sha256" ? 32 : 64);
  }
}

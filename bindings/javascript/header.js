// SPDX-License-Identifier: MIT
// Calls the WebAssembly module for signing: the constants, the offsets of the
// fields of structs, and the calls of include/minisign.h. Made by
// tools/bindings.py.

import { bytesOfBase64, checkedResult, loadLibrary } from "./library_loader.js";

export const VERSION_MAJOR = 0;
export const VERSION_MINOR = 3;
export const VERSION_PATCH = 0;
export const ERROR_TEXT_BYTES = 128;
export const PUBLIC_KEY_RECORD_BYTES = 42;
export const SIGNATURE_RECORD_BYTES = 74;
export const SECRET_KEY_RECORD_BYTES = 158;
export const KEEP_EVERY_ROW = 1;
export const KEEP_FEW_ROWS = 16;
export const USUAL_ROWS = 1048576;
export const ANY_ROWS = 0xffffffffffffffffn;
export const OPERATIONS_LIMIT = 33554432;
export const MEMORY_LIMIT = 1073741824;
export const LEAST_OPERATIONS_LIMIT = 524288;
export const LEAST_MEMORY_LIMIT = 16777216;
export const LEAST_LOG2_ROWS = 14;
export const NO_PASSWORD = 0;
export const PASSWORD = 1;
export const ANY_PASSWORD = 2;
export const VERSION_TEXT = "0.3.0";
export const SIGNATURE_COMMENT = "signature from minisign secret key";
export const TRUSTED_COMMENT_FORMAT = "timestamp:%llu\tfile:%s\thashed";
export const SECRET_KEY_COMMENT = "minisign encrypted secret key";
export const PUBLIC_KEY_COMMENT = "minisign public key ";

export const STRUCTS = {
  public_key: {
    mark: [0, 8],
    key: [8, 32],
    key_id: [40, 8],
    size: 48,
  },
  unopened_key: {
    mark: [0, 8],
    bytes: [8, 158],
    is_sealed: [166, 1],
    log2_rows: [167, 1],
    work: [168, 4],
    reserved: [172, 4],
    size: 176,
  },
  secret_key: {
    mark: [0, 8],
    key_id: [8, 8],
    secret: [16, 64],
    size: 80,
  },
  new_key: {
    key_id: [0, 8],
    secret: [8, 64],
    size: 72,
  },
  sealing: {
    salt: [0, 32],
    operations_limit: [32, 8],
    memory_limit: [40, 8],
    size: 48,
  },
};

// An instance of the module with more memory than this is not used again.
const MAX_REUSED_BYTES = 8 * 1048576;

// Passed instead of a password if there is none.
const NO_BYTES = new Uint8Array(0);

// Returns a view of the bytes of a field of a struct.
export function fieldOf(struct, field, bytes) {
  const [begin, length] = STRUCTS[struct][field];
  return bytes.subarray(begin, begin + length);
}

// Makes a struct from the values of its fields, which are bytes or numbers. A
// number becomes a field of 64 bits.
export function structOf(struct, fields) {
  const bytes = new Uint8Array(STRUCTS[struct].size);
  const view = new DataView(bytes.buffer);
  for (const [name, value] of Object.entries(fields)) {
    const [begin] = STRUCTS[struct][name];
    if (typeof value === "number") {
      view.setBigUint64(begin, BigInt(value), true);
    } else {
      bytes.set(value, begin);
    }
  }
  return bytes;
}

// Decodes the text that a call has written. `length` are the bytes of the
// length that it has written. Clears the bytes of the text, which may be those
// of a secret key.
function decodeAndClear(text, length) {
  const count = new DataView(length.buffer).getUint32(0, true);
  const string = new TextDecoder().decode(text.subarray(0, count));
  text.fill(0);
  return string;
}

// Calls the functions of the module that tools/signing_module.py makes. No
// other file calls this module. Each method resolves to what the function
// writes, or rejects with a MinisignError.
export class SigningCalls {
  // A promise of the compiled module, after it was needed for the first time.
  static #modulePromise;
  // An instance of the module that no call uses, with a copy of its memory
  // before the first call. Calls do not overlap, so one instance is enough.
  static #unusedInstance;

  static async load() {
    const library = await loadLibrary();
    this.#modulePromise ??= import("./signing_module.js").then(
      ({ SIGNING_MODULE: base64 }) =>
        WebAssembly.compile(bytesOfBase64(base64)),
    );
    const module = await this.#modulePromise;
    return Object.assign(new this(), { library, module });
  }

  // Returns the unused instance, or makes one. Instances are used again,
  // because each of them reserves gigabytes of addresses.
  static #takeInstance(module) {
    const instance = this.#unusedInstance;
    this.#unusedInstance = undefined;
    if (instance) {
      return instance;
    }
    const { exports } = new WebAssembly.Instance(module, {});
    return { exports, begin: new Uint8Array(exports.memory.buffer).slice() };
  }

  // Clears the memory of an instance, which may contain secrets. Keeps the
  // instance for the next call, unless its memory has grown for scrypt.
  static #returnInstance(instance) {
    const memory = new Uint8Array(instance.exports.memory.buffer);
    memory.fill(0);
    if (memory.length <= MAX_REUSED_BYTES) {
      memory.set(instance.begin);
      this.#unusedInstance = instance;
    }
  }

  // Makes a call in an instance of the module. Arguments that are bytes are
  // copied into its memory before the call, and copied out after it. Then the
  // memory is cleared.
  async call(name, ...callArguments) {
    const instance = SigningCalls.#takeInstance(this.module);
    const { exports } = instance;
    let end = Number(exports.__heap_base.value);
    const addresses = callArguments.map((argument) => {
      const address = Math.ceil(end / 16) * 16;
      const isBytes = argument instanceof Uint8Array;
      end = isBytes ? address + argument.length : end;
      return isBytes ? address : null;
    });
    const copyEach = (copy) =>
      addresses.forEach((address, index) => {
        const memory = new Uint8Array(exports.memory.buffer);
        return address === null || copy(memory, address, callArguments[index]);
      });
    const numbers = addresses.map((address, index) =>
      address === null ? callArguments[index] : BigInt(address),
    );
    try {
      copyEach((memory, address, bytes) => memory.set(bytes, address));
      const number = exports[`machine_${name}`](...numbers) >>> 0;
      checkedResult(this.library, { number });
      copyEach((memory, address, bytes) =>
        bytes.set(memory.subarray(address, address + bytes.length)),
      );
    } finally {
      SigningCalls.#returnInstance(instance);
    }
  }

  async readSecretKey(skText) {
    const unopened = new Uint8Array(STRUCTS.unopened_key.size);
    await this.call(
      "minisign_read_secret_key",
      skText,
      BigInt(skText.length),
      unopened,
    );
    return unopened;
  }

  async openUnsealedKey(unopened) {
    const key = new Uint8Array(STRUCTS.secret_key.size);
    await this.call("minisign_open_unsealed_key", unopened, key);
    return key;
  }

  async openSealedKey(unopened, password, keepEvery, mostRows) {
    const key = new Uint8Array(STRUCTS.secret_key.size);
    await this.call(
      "minisign_open_sealed_key",
      unopened,
      password,
      BigInt(password.length),
      BigInt(keepEvery),
      BigInt(mostRows),
      key,
    );
    return key;
  }

  async takeSecretKey(newKey) {
    const key = new Uint8Array(STRUCTS.secret_key.size);
    await this.call("minisign_take_secret_key", newKey, key);
    return key;
  }

  async publicKeyOf(key) {
    const publicKey = new Uint8Array(STRUCTS.public_key.size);
    await this.call("minisign_public_key_of", key, publicKey);
    return publicKey;
  }

  async commentMessage(first, trusted) {
    const message = new Uint8Array(64 + trusted.length);
    await this.call(
      "minisign_comment_message",
      first,
      trusted,
      BigInt(trusted.length),
      message,
      BigInt(message.length),
    );
    return message;
  }

  async signedText(
    key,
    signature,
    commentSignature,
    trustedComment,
    untrustedComment,
  ) {
    const text = new Uint8Array(
      240 + trustedComment.length + untrustedComment.length,
    );
    const length = new Uint8Array(8);
    await this.call(
      "minisign_signed_text",
      key,
      signature,
      commentSignature,
      trustedComment,
      BigInt(trustedComment.length),
      untrustedComment,
      BigInt(untrustedComment.length),
      text,
      BigInt(text.length),
      length,
    );
    return decodeAndClear(text, length);
  }

  async secretKeyText(key, password, sealing, keepEvery, comment) {
    const text = new Uint8Array(233 + comment.length);
    const length = new Uint8Array(8);
    await this.call(
      "minisign_secret_key_text",
      key,
      password === null ? 0 : 1,
      password ?? NO_BYTES,
      BigInt(password?.length ?? 0),
      sealing,
      BigInt(keepEvery),
      comment,
      BigInt(comment.length),
      text,
      BigInt(text.length),
      length,
    );
    return decodeAndClear(text, length);
  }

  async publicKeyText(key, comment) {
    const text = new Uint8Array(77 + comment.length);
    const length = new Uint8Array(8);
    await this.call(
      "minisign_public_key_text",
      key,
      comment,
      BigInt(comment.length),
      text,
      BigInt(text.length),
      length,
    );
    return decodeAndClear(text, length);
  }
}

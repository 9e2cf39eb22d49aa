// SPDX-License-Identifier: MIT
// Checks the arguments of the public functions before anything is done with
// them.

import { LONG_DIGESTS, TEXT_BYTES } from "./calls.js";

// Returns a TypeError with this message. Its code is INVALID_ARGUMENT.
export function argumentError(message) {
  return Object.assign(new TypeError(message), { code: "INVALID_ARGUMENT" });
}

// Throws a TypeError if isValid is false. The message names the argument, what
// is expected, and the type of the value.
export function mustBe(isValid, name, expected, value) {
  if (!isValid) {
    const kind = value === null ? "null" : typeof value;
    throw argumentError(`${name} must be ${expected}, not ${kind}`);
  }
}

// When called on an ArrayBuffer of any realm, returns its length. Throws for
// anything else.
const { get: lengthOfBuffer } = Object.getOwnPropertyDescriptor(
  ArrayBuffer.prototype,
  "byteLength",
);

// Returns the bytes of an ArrayBuffer or of a view of one, without copying
// them, or null for anything else.
export function bytesOf(value) {
  if (ArrayBuffer.isView(value)) {
    return new Uint8Array(value.buffer, value.byteOffset, value.byteLength);
  }
  try {
    return new Uint8Array(value, 0, lengthOfBuffer.call(value));
  } catch {
    return null;
  }
}

// Returns the bytes of a text: a string in UTF-8, or bytes, which are not
// copied. Throws a TypeError for anything else, and for a text that is too
// long.
export function bytesOfText(value, name) {
  const isText = typeof value === "string";
  const bytes = isText ? new TextEncoder().encode(value) : bytesOf(value);
  mustBe(bytes !== null, name, "a string or bytes", value);
  if (bytes.length >= TEXT_BYTES) {
    throw argumentError(`${name} must have fewer than ${TEXT_BYTES} bytes`);
  }
  return bytes;
}

// Clears the bytes that `bytesOfText` has returned for a text, if this was a
// string. Bytes that the caller passed are not cleared.
export function clearCopy(bytes, text) {
  if (typeof text === "string") {
    bytes.fill(0);
  }
}

// The types of the options, by name: the words of the error message, and a
// function that returns true for a valid value. Options that are not in the
// table are texts. Here they must only not be null, and `bytesOfText` checks
// them when they are used. The table has no prototype, so that it contains no
// names such as `constructor`.
const TEXT = ["a string or bytes", (value) => value !== null];
const BOOLEAN = ["true or false", (value) => typeof value === "boolean"];
const isFunction = (value) => typeof value === "function";
const isRowCount = (value) => Number.isSafeInteger(value) && value > 0;
const isMode = (value) => Number.isInteger(value) && (value & ~0o777) === 0;
const OPTIONS = {
  __proto__: null,
  allowLegacy: BOOLEAN,
  longDigest: [
    `"sha512", "blake2b" or "none"`,
    (value) => LONG_DIGESTS.has(value),
  ],
  lowMemory: BOOLEAN,
  mode: ["an integer from 0 to 0o777", isMode],
  mostRows: ["a positive integer", isRowCount],
  progress: ["a function", isFunction],
  signal: ["an AbortSignal", (value) => isFunction(value?.addEventListener)],
};

const NOT_PLAIN =
  "options must be a plain object, not an instance of a class or an object " +
  "that inherits from another one";

// Returns true if an object inherits from nothing, or only from the
// Object.prototype of any realm. An Object.prototype is recognized by having no
// prototype, and a property `isPrototypeOf`.
function isPlain(object) {
  const prototype = Object.getPrototypeOf(object);
  return (
    prototype === null ||
    (Object.getPrototypeOf(prototype) === null &&
      Object.hasOwn(prototype, "isPrototypeOf"))
  );
}

// Copies the options from a plain object. Throws a TypeError for an object of
// any other kind, for a property whose name is not in `optionNames`, and for a
// value of the wrong type. The copy has no prototype, so an option that was
// not passed is undefined even if Object.prototype has a property of this name.
export function optionsOf(options, ...optionNames) {
  const isObject = typeof options === "object" && options !== null;
  mustBe(isObject, "options", "a plain object", options);
  if (!isPlain(options)) {
    throw argumentError(NOT_PLAIN);
  }
  const copy = { __proto__: null };
  for (const name of Reflect.ownKeys(options)) {
    if (!optionNames.includes(name)) {
      throw argumentError(`unknown option ${String(name)}`);
    }
    const value = options[name];
    const [expected, isValid] = OPTIONS[name] ?? TEXT;
    mustBe(value === undefined || isValid(value), name, expected, value);
    copy[name] = value;
  }
  return copy;
}

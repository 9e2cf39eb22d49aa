// SPDX-License-Identifier: MIT
// Loads the library once, and turns error numbers into exceptions.

import { Library } from "./calls.js";
import { hasEd25519 } from "./ed25519.js";
import { MinisignError } from "./errors.js";
import { MODULE } from "./module.js";

let libraryPromise;

// Decodes base64. This function is not in header.js, because a program that
// only verifies must not import that file: header.js imports the module for
// signing, so a bundle of the program would contain it.
export function bytesOfBase64(base64) {
  return Uint8Array.from(atob(base64), (letter) => letter.charCodeAt(0));
}

// Returns an error with the code UNSUPPORTED_PLATFORM, for a platform that
// lacks a feature.
export function platformError(message) {
  return Object.assign(new Error(message), { code: "UNSUPPORTED_PLATFORM" });
}

async function load() {
  if (!(await hasEd25519())) {
    throw platformError("the WebCrypto of this platform has no Ed25519");
  }
  return Library.load(bytesOfBase64(MODULE));
}

// Resolves to the library, which is loaded once. If loading fails, the next
// call tries again.
export function loadLibrary() {
  libraryPromise ??= load().catch((error) => {
    libraryPromise = undefined;
    throw error;
  });
  return libraryPromise;
}

// Returns a result of the library if its `number` is 0, and throws a
// MinisignError for any other number. If the error is in a line of a list of
// checksums, `line` is the number of this line, otherwise 0.
export function checkedResult(library, result) {
  const { number, line = 0 } = result;
  if (number !== 0) {
    const text = library.errorText(number);
    const message = line ? `line ${line}: ${text}` : text;
    throw new MinisignError(number, message, line);
  }
  return result;
}

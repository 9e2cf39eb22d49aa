// SPDX-License-Identifier: MIT
// Verifies files with signed lists in Node. node.d.ts documents the functions.

import { createReadStream } from "node:fs";
import { open } from "node:fs/promises";
import { basename } from "node:path";

import { argumentError, mustBe, optionsOf } from "./arguments.js";
import { MAX_LIST_BYTES, TEXT_BYTES } from "./calls.js";
import { verifyList } from "./index.js";
import { pathOf } from "./paths.js";

// Returns the content of a file, or throws if it has more than `size` bytes.
async function bytesOfFile(path, size) {
  const file = await open(path);
  try {
    const buffer = Buffer.alloc(size + 1);
    let length = 0;
    let bytesRead;
    do {
      const freeSpace = buffer.subarray(length);
      ({ bytesRead } = await file.read(freeSpace, 0, freeSpace.length));
      length += bytesRead;
    } while (bytesRead > 0);
    if (length > size) {
      throw argumentError(`${path} has more than ${size} bytes`);
    }
    return buffer.subarray(0, length);
  } finally {
    await file.close();
  }
}

export async function verifyListFile(path, key, options = {}) {
  const name = pathOf(path);
  const text = await bytesOfFile(name, MAX_LIST_BYTES);
  const signature = await bytesOfFile(`${name}.minisig`, TEXT_BYTES - 1);
  return verifyList(text, signature, key, basename(name), options);
}

export async function verifyListedFile(path, list, options = {}) {
  const file = pathOf(path);
  const isList = typeof list?.verifyListed === "function";
  mustBe(isList, "list", "the result of verifyList", list);
  const optionNames = ["name", "progress", "signal"];
  const { name = basename(file), ...feedingOptions } = optionsOf(
    options,
    ...optionNames,
  );
  return list.verifyListed(createReadStream(file), name, { ...feedingOptions });
}

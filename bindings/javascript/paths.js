// SPDX-License-Identifier: MIT
// Resolves paths and syncs directories for functions that write files in Node.

import { open } from "node:fs/promises";
import { fileURLToPath } from "node:url";

import { mustBe } from "./arguments.js";

// The errors for syncing a directory on systems that do not support this.
const SYNC_UNSUPPORTED = ["EINVAL", "EPERM"];

// Returns the path that the caller passed as a string, or as a `URL`.
export function pathOf(path) {
  const isPath = typeof path === "string" || typeof path?.href === "string";
  mustBe(isPath, "path", "a string or a URL", path);
  return typeof path === "string" ? path : fileURLToPath(path);
}

// Syncs a directory, so that the new file survives a crash. Does nothing if the
// directory cannot be opened or synced on this system.
export async function syncDirectory(name) {
  const directory = await open(name, "r").catch(() => null);
  try {
    await directory?.sync();
  } catch (why) {
    if (!SYNC_UNSUPPORTED.includes(why.code)) {
      throw why;
    }
  } finally {
    await directory?.close();
  }
}

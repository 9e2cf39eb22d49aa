// SPDX-License-Identifier: MIT
// The second entry point of the package, for functions that need Node: writes
// files, and exports the functions that read them. node.d.ts documents all of
// them. index.js does not import this file, because it also runs in browsers.

import { open, unlink } from "node:fs/promises";
import { dirname } from "node:path";

import { bytesOfText, clearCopy } from "./arguments.js";
import { pathOf, syncDirectory } from "./paths.js";

export { verifyListedFile, verifyListFile } from "./list_files.js";
export { saveVerified } from "./saving.js";

// With these flags, `open` fails if the name exists, even if it is a symbolic
// link that leads nowhere.
const ONLY_NEW = "wx";
const OWNER_ONLY = 0o600;
// The mode of a new file is corrected if one of these bits differs from
// OWNER_ONLY. The owner's permission to execute the file does not matter.
const CHECKED_MODE_BITS = 0o677;

export async function writeNew(path, text) {
  const name = pathOf(path);
  const bytes = bytesOfText(text, "text");
  try {
    const file = await open(name, ONLY_NEW, OWNER_ONLY);
    await writeAndSync(file, bytes, dirname(name)).catch(async (why) => {
      await unlink(name).catch(() => {});
      throw why;
    });
  } finally {
    clearCopy(bytes, text);
  }
}

// Writes and syncs the file and its directory, and closes the file.
async function writeAndSync(file, bytes, directory) {
  try {
    await allowOwnerOnly(file);
    await file.writeFile(bytes);
    await file.sync();
  } finally {
    await file.close();
  }
  await syncDirectory(directory);
}

// Sets the mode if it is wrong, for example because the umask has removed
// permissions of the owner. A correct mode is not set again, because some file
// systems have one mode for all files and reject any change.
async function allowOwnerOnly(file) {
  const { mode } = await file.stat();
  if ((mode & CHECKED_MODE_BITS) !== OWNER_ONLY) {
    await file.chmod(OWNER_ONLY);
  }
}

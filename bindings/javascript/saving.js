// SPDX-License-Identifier: MIT
// Implements `saveVerified` for Node, which replaces a file only if its new
// content is verified. node.d.ts documents it.

import { randomBytes } from "node:crypto";
import { lstat, open, rename, unlink } from "node:fs/promises";
import { dirname, join } from "node:path";

import { argumentError, bytesOf, mustBe } from "./arguments.js";
import { feedAll } from "./feeding.js";
import { createVerifier } from "./index.js";
import { pathOf, syncDirectory } from "./paths.js";

const OPTIONS = ["allowLegacy", "mode", "progress", "signal"];
const OWNER_ONLY = 0o600;
// The mode of a new file, if the caller passes none.
const DEFAULT_MODE = 0o644;

// A temporary file in the directory of `path`. `commit` renames it to `path`.
class Replacement {
  constructor(path) {
    const name = `.minisign-${randomBytes(8).toString("hex")}.tmp`;
    this.path = path;
    this.temporary = join(dirname(path), name);
  }

  // Creates the temporary file. Until `commit`, only its owner can read it. The
  // promise is stored, because `discard` waits until the file is created.
  begin() {
    this.creation = this.create();
    return this.creation;
  }

  async create() {
    if (this.isDiscarded) {
      throw new Error("saving was cancelled");
    }
    this.existing = await lstat(this.path).catch((why) => {
      if (why.code !== "ENOENT") {
        throw why;
      }
      return null;
    });
    if (this.existing && !this.existing.isFile()) {
      throw argumentError(`${this.path} exists, and is not a regular file`);
    }
    this.file = await open(this.temporary, "wx", OWNER_ONLY);
  }

  // Syncs the temporary file, and renames it to `path`. After a crash, `path`
  // has either its old content or all of the new content.
  async commit(mode = (this.existing?.mode ?? DEFAULT_MODE) & 0o777) {
    await this.file.chmod(mode);
    await this.file.sync();
    await this.file.close();
    await rename(this.temporary, this.path);
    await syncDirectory(dirname(this.path));
  }

  // Removes the temporary file. If it is being created, waits for this first.
  async discard() {
    this.isDiscarded = true;
    await this.creation?.catch(() => {});
    if (this.file) {
      await this.file.close().catch(() => {});
      await unlink(this.temporary).catch(() => {});
    }
  }
}

export async function saveVerified(data, path, signature, key, options = {}) {
  const replacement = new Replacement(pathOf(path));
  let requestedMode;
  const begin = async ({ mode, ...feedingOptions }) => {
    requestedMode = mode;
    const verifierOptions = { __proto__: null, ...feedingOptions };
    const verifier = await createVerifier(signature, key, verifierOptions);
    await replacement.begin();
    return {
      get bytes() {
        return verifier.bytes;
      },
      // Copies the piece, because the caller may change it between verifying
      // and writing.
      async update(piece) {
        const bytes = bytesOf(piece)?.slice();
        mustBe(bytes, "a piece of data", "bytes", piece);
        verifier.update(bytes);
        await replacement.file.writeFile(bytes);
      },
      end: () => verifier.end(),
    };
  };
  try {
    const result = await feedAll(data, options, OPTIONS, begin);
    await replacement.commit(requestedMode);
    return result;
  } catch (why) {
    await replacement.discard();
    throw why;
  }
}

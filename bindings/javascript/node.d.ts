// SPDX-License-Identifier: MIT
// Declares the functions that need Node. Like index.d.ts, this file uses only
// types of the language, and no types of Node.

import type {
  Data,
  ListedOptions,
  ListEntry,
  ListOptions,
  Options,
  PublicKey,
  Signature,
  SignedList,
  Text,
  Verified,
} from "./index.js";

/** The path of a file: a string, or a `URL` of the scheme `file:`. */
export type Path =
  | string
  | { readonly href: string; readonly protocol: string };

/**
 * Writes a text, such as the content of a secret key file, to a new file that
 * only its owner can read and write: its mode is 0600, whatever the umask is.
 * Resolves when the file and its directory are synced.
 *
 * If the path exists, even as a symbolic link, rejects with an error of Node
 * whose `code` is `EEXIST`, and changes nothing. After any other error there is
 * no file. On Windows the file inherits the permissions of its directory.
 */
export function writeNew(path: Path, text: Text): Promise<void>;

export interface SavingOptions extends Options {
  /**
   * The permissions of the file, such as 0o755. The default is those of the
   * existing file, or 0o644 if there is none.
   */
  mode?: number;
}

/**
 * Verifies data, and saves it as a file. The data is first written to a
 * temporary file in the same directory, which only its owner can read. If the
 * signature is valid for all of the data, the temporary file is synced and
 * renamed to the path, which replaces an existing file in one step. Resolves
 * when the directory is synced too.
 *
 * Rejects as `verify` does; with a TypeError with the code INVALID_ARGUMENT if
 * the path exists and is not a regular file; and with an error of Node if a
 * file cannot be written. After an error the path is unchanged, and there is no
 * temporary file. Only if syncing the directory is what failed, the new file is
 * in place. A process that is killed may leave a file with a name like
 * `.minisign-0123456789abcdef.tmp`.
 */
export function saveVerified(
  data: Data,
  path: Path,
  signature: Text | Signature,
  key: Text | PublicKey,
  options?: SavingOptions,
): Promise<Verified>;

/**
 * Reads and verifies a list, such as SHA256SUMS. Its signature is in the file
 * whose path is this path with `.minisig` appended. The name of the list is the
 * last part of the path. Rejects as `verifyList` does, and with an error of
 * Node if a file cannot be read.
 */
export function verifyListFile(
  path: Path,
  key: Text | PublicKey,
  options?: ListOptions,
): Promise<SignedList>;

export interface ListedFileOptions extends ListedOptions {
  /**
   * The name of the file in the list. The default is the last part of the path.
   * Pass the name if it is listed with directories, or the file was renamed.
   */
  name?: Text;
}

/**
 * Verifies a file with a list that was verified. Rejects as
 * `SignedList.verifyListed` does, and with an error of Node if the file cannot
 * be read.
 */
export function verifyListedFile(
  path: Path,
  list: SignedList,
  options?: ListedFileOptions,
): Promise<ListEntry>;

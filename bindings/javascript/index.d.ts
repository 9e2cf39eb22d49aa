// SPDX-License-Identifier: MIT
// Declares the public functions and types of the package. It uses only types of
// the language, and no types of the DOM or of Node.

import type { ErrorCode } from "./errors.js";

// Distinguishes types that have the same properties, so that a secret key is
// not accepted where a public key is expected.
declare const kind: unique symbol;

export type { ErrorCode };

/** Bytes: an ArrayBuffer of any realm, or a view of one. */
export type Bytes = ArrayBuffer | ArrayBufferView;

/** A web stream of bytes, such as a `ReadableStream`. */
export interface ByteStream {
  getReader(): {
    read(): Promise<{ done: boolean; value?: Uint8Array }>;
    cancel(reason?: any): Promise<void>;
    releaseLock(): void;
  };
  cancel(reason?: any): Promise<void>;
}

/** A `Blob` or a `File`. */
export interface ByteFile {
  readonly size: number;
  stream(): ByteStream;
}

/**
 * Data to verify or sign: bytes, a `Blob` or `File`, a web stream, or any
 * iterable of pieces of bytes, such as a stream of Node.
 */
export type Data =
  | Bytes
  | ByteFile
  | ByteStream
  | AsyncIterable<Bytes>
  | Iterable<Bytes>;

/** A text of fewer than 65,536 bytes in UTF-8: a string, or these bytes. */
export type Text = string | Bytes;

/** An `AbortSignal`. */
export interface Signal {
  readonly aborted: boolean;
  readonly reason?: any;
  addEventListener(type: "abort", listener: () => void): void;
  removeEventListener(type: "abort", listener: () => void): void;
}

/**
 * Options must be own properties of a plain object. An unknown option, or an
 * object that is an instance of a class or inherits from another object, is a
 * TypeError.
 */
export interface VerifierOptions {
  /**
   * If true, also accepts legacy signatures, which sign the data itself instead
   * of its digest. All data of a legacy signature is kept in memory. The
   * default is false.
   */
  allowLegacy?: boolean;
}

export interface Options extends VerifierOptions {
  /**
   * Called after each piece of at most 1 MiB, with the number of bytes read so
   * far. `total` is the size of the data, if the data is bytes or a Blob.
   */
  progress?: (bytes: number, total?: number) => void;
  /**
   * If the signal aborts, the promise rejects with the signal's reason, and the
   * stream is closed. Other tasks run after each MiB of data, so that a timer
   * can abort the signal.
   */
  signal?: Signal;
}

/** A parsed signature file. Parsing verifies nothing. */
export interface Signature {
  readonly [kind]: "signature";
  /** The key ID of the signer's key, written as in `PublicKey.keyId`. */
  readonly keyId: string;
  /** True for a legacy signature, which signs the data and not its digest. */
  readonly isLegacy: boolean;
}

/** A parsed public key. */
export interface PublicKey {
  readonly [kind]: "public key";
  /**
   * The key ID as the program minisign prints it: a number of 64 bits in
   * upper-case hexadecimal digits without leading zeros. Anybody can make a key
   * with the same key ID.
   */
  readonly keyId: string;
}

/**
 * The fields of a trusted comment, which are separated by tabs. A field is
 * undefined if it is missing or occurs more than once. A field that is a number
 * is also undefined if it does not consist of decimal digits or is greater than
 * 2^53 - 1.
 */
export interface CommentFields {
  /** The field `timestamp:`, in seconds since 1970. */
  readonly timestamp?: number;
  /** The field `file:`, the name of the signed file. */
  readonly file?: string;
  /** The field `version:`. */
  readonly version?: string;
  /** The field `expires:`, in seconds since 1970. */
  readonly expires?: number;
  /** The field `size:`, in bytes. */
  readonly size?: number;
  /** True if the comment contains the word `hashed`. */
  readonly hashed: boolean;
}

/**
 * Parses a trusted comment. Anybody can write a comment, so parse only a
 * comment that was verified, such as the result of `Verifier.trustedComment`.
 */
export function parseTrustedComment(comment: string): CommentFields;

export interface Verified {
  /** The trusted comment, which is signed with the data. It may be empty. */
  trustedComment: string;
  /** The fields of the trusted comment. */
  fields: CommentFields;
  /** The key ID of the public key. */
  keyId: string;
  /** True if the signature is a legacy one. */
  isLegacy: boolean;
}

/** A writer of a web stream. */
export interface ByteWriter {
  readonly closed: Promise<undefined>;
  readonly desiredSize: number | null;
  readonly ready: Promise<undefined>;
  abort(reason?: any): Promise<void>;
  close(): Promise<void>;
  releaseLock(): void;
  write(piece?: any): Promise<void>;
}

/** A `WritableStream`, for `pipeTo`. */
export interface ByteSink {
  readonly locked: boolean;
  abort(reason?: any): Promise<void>;
  close(): Promise<void>;
  getWriter(): ByteWriter;
}

/** Verifies data that arrives in pieces. */
export interface Verifier {
  /** The key ID of the public key. */
  readonly keyId: string;
  /** True if the signature is a legacy one. */
  readonly isLegacy: boolean;
  /** The number of bytes that were passed to `update` so far. */
  readonly bytes: number;
  /**
   * Verifies the comment signature, and resolves to the trusted comment. You
   * can call it before you have the data. The result says nothing about the
   * data. Rejects with COMMENT_SIGNATURE_REFUSED if the comment signature is
   * not valid, and with NOT_BEGUN if the verifier has ended.
   */
  trustedComment(): Promise<string>;
  /**
   * Adds the next piece of the data, of any length. Throws a TypeError if the
   * piece is not bytes, and NOT_BEGUN if the verifier has ended.
   */
  update(piece: Bytes): void;
  /**
   * A WritableStream for `pipeTo`, which adds the data that is written to it.
   * Closing it verifies the data, so `pipeTo` rejects if the signature is not
   * valid. After that, `end` returns the result. If the stream is aborted,
   * `end` rejects with the reason. Throws an Error with the code
   * UNSUPPORTED_PLATFORM if the platform has no WritableStream.
   */
  readonly writable: ByteSink;
  /**
   * Resolves if the signature is valid for all of the data. Otherwise rejects
   * with a MinisignError: SIGNATURE_REFUSED or COMMENT_SIGNATURE_REFUSED. Then
   * use none of the data. Call it once. A second call rejects with NOT_BEGUN,
   * unless `writable` was closed.
   */
  end(): Promise<Verified>;
}

/**
 * Verifies data. Resolves if the signature is valid for all of the data.
 *
 * `signature` is the content of the signature file, or the result of
 * `readSignature`. `key` is one of these:
 *
 * - the content of the public key file;
 * - a string of one line with the 56 base64 characters of the key, after which
 *   white space is ignored;
 * - the result of `readPublicKey`.
 *
 * Rejects:
 *
 * - with a TypeError with the code INVALID_ARGUMENT, which names the argument,
 *   if an argument or an option has a wrong type;
 * - with an Error with the code UNSUPPORTED_PLATFORM if WebCrypto has no
 *   Ed25519, as in a page that was loaded over http;
 * - with a MinisignError if the key, the signature or the data is rejected;
 * - with the error of the stream if the stream fails;
 * - with the reason of the signal if the signal aborts.
 *
 * Errors that do not depend on the data come before any data is read. If the
 * promise rejects, a stream of Node is destroyed, a web stream is cancelled,
 * and the method `return` of an iterator is called.
 */
export function verify(
  data: Data,
  signature: Text | Signature,
  key: Text | PublicKey,
  options?: Options,
): Promise<Verified>;

/**
 * Begins to verify data that arrives in pieces. Rejects with the errors of
 * `verify` that do not depend on the data.
 */
export function createVerifier(
  signature: Text | Signature,
  key: Text | PublicKey,
  options?: VerifierOptions,
): Promise<Verifier>;

/**
 * Parses the content of a signature file, so that you can choose a key before
 * you have the data. Parsing verifies nothing. Rejects with a MinisignError if
 * the content is malformed, and otherwise as `verify` does.
 */
export function readSignature(signature: Text): Promise<Signature>;

/** Parses a public key: the content of its file, or a string of one line. */
export function readPublicKey(key: Text): Promise<PublicKey>;

/** The hash functions of lists. */
export type HashName = "sha256" | "sha512" | "blake2b";

/** An entry of a verified list. */
export interface ListEntry {
  /** The name of the file, without a leading "./". */
  readonly name: string;
  /** The hash function. */
  readonly hash: HashName;
  /** The digest that the file must have. */
  readonly digest: Uint8Array;
  /** The line number, starting at 1. */
  readonly line: number;
  /**
   * True if the name is written with escapes. The library does not resolve
   * escapes, and no name that you look up matches such an entry.
   */
  readonly isEscaped: boolean;
}

export interface ListOptions {
  /**
   * How to read a digest of 128 digits on a line that names no hash function:
   * as SHA-512 with "sha512", which is the default; as BLAKE2b, as b2sum writes
   * it, with "blake2b"; or as a malformed line with "none".
   */
  longDigest?: "sha512" | "blake2b" | "none";
}

export interface ListedOptions {
  /** The option of `verify`. */
  progress?: (bytes: number, total?: number) => void;
  /** The option of `verify`. */
  signal?: Signal;
}

/** A verified list, such as SHA256SUMS. One signature covers all its files. */
export interface SignedList {
  /** The key ID of the public key. */
  readonly keyId: string;
  /**
   * The trusted comment, which is signed with the list. Compare its version or
   * timestamp with what you expect: an old list stays valid.
   */
  readonly trustedComment: string;
  /** The fields of the trusted comment. */
  readonly fields: CommentFields;
  /**
   * Returns all entries, in the order of their lines. A name that is listed
   * twice has two entries, and `find` throws LISTED_TWICE for it. Throws a
   * MinisignError: NOT_UTF8 or MALFORMED_LINE.
   */
  entries(): ListEntry[];
  /**
   * Returns the entry for a name that is listed exactly once. Throws a
   * MinisignError: NOT_UTF8 if the list or the name is not UTF-8; BAD_NAME if
   * the name is not a relative path, has an empty, "." or ".." part, or
   * contains a control character or a backslash; MALFORMED_LINE; NOT_LISTED; or
   * LISTED_TWICE.
   */
  find(name: Text): ListEntry;
  /**
   * Verifies data. Resolves to the entry for the name if the data has the
   * digest that is listed for this name. Rejects with the errors of `find`
   * before any data is read, with DIGEST_MISMATCH if the data has another
   * digest, and otherwise as `verify` does. After an error use none of the
   * data.
   */
  verifyListed(
    data: Data,
    name: Text,
    options?: ListedOptions,
  ): Promise<ListEntry>;
  /**
   * Verifies bytes or a Blob as `verifyListed` does, but hashes them with
   * WebCrypto. WebCrypto can use the SHA instructions of the processor, but
   * needs all of the data in memory. Nothing is proved about its hash
   * functions, so the result is only as good as WebCrypto. For entries with
   * BLAKE2b, which WebCrypto does not have, the library hashes the data.
   */
  verifyListedTrustingWebCrypto(
    data: Bytes | { arrayBuffer(): Promise<ArrayBuffer> },
    name: Text,
  ): Promise<ListEntry>;
}

/**
 * Verifies the signature of a list, such as SHA256SUMS. `text` is the whole
 * list, of at most 1 MiB. `name` is the name of the list: the trusted comment
 * must have a field `file:` with this value, so that a signed text that was
 * never meant as a list is not used as one. If `name` is null, every trusted
 * comment is accepted. `signature` and `key` are as in `verify`.
 *
 * Rejects as `verify` does for arguments, the key and the signature; with
 * SIGNATURE_REFUSED; with COMMENT_SIGNATURE_REFUSED; or with OTHER_LIST if the
 * trusted comment does not name the list. Legacy signatures are always rejected
 * with LEGACY_NOT_ACCEPTED. The lines of the list are checked when you use it.
 */
export function verifyList(
  text: Text,
  signature: Text | Signature,
  key: Text | PublicKey,
  name: Text | null,
  options?: ListOptions,
): Promise<SignedList>;

/**
 * A decrypted secret key. The object does not show the secret bytes. They are
 * in memory until `clearSecretKey`, or until the object is garbage-collected.
 */
export interface SecretKey {
  readonly [kind]: "secret key";
  /** The key ID, which is also the key ID of the public key. */
  readonly keyId: string;
  /**
   * True if the file from which the key was read was encrypted with fewer than
   * 2^14 rows of scrypt, the minimum of the program minisign. The password of
   * such a file can be guessed quickly, so encrypt the key again with
   * `writeSecretKey`.
   */
  readonly isWeak: boolean;
}

export interface MemoryOptions {
  /**
   * If true, deriving a key from a password takes at most 65 MiB of memory
   * instead of 1 GiB, but about three times as long.
   */
  lowMemory?: boolean;
}

export interface OpeningOptions extends MemoryOptions {
  /** The password of an encrypted key. Omit it for a key without a password. */
  password?: Text;
  /**
   * The maximum number of rows that scrypt computes, which is N times p. The
   * default is 2^20, which is enough for the keys of `minisign -G`.
   */
  mostRows?: number;
}

export interface SignerOptions {
  /**
   * The trusted comment: one line, which is signed with the data. The default
   * is Minisign's: the fields `timestamp:`, `file:` and `hashed`, separated by
   * tabs. `file:` has the last part of the name of a File, or of the path from
   * which a stream of Node reads. For data without a name, there is no `file:`.
   * A name that contains a line break or is not UTF-8 is a TypeError.
   */
  trustedComment?: Text;
  /**
   * The text after `untrusted comment: ` in the first line, which is not
   * signed.
   */
  untrustedComment?: Text;
}

export interface SigningOptions extends SignerOptions {
  /** The option of `verify`. */
  progress?: (bytes: number, total?: number) => void;
  /** The option of `verify`. */
  signal?: Signal;
}

/** Signs data that arrives in pieces. */
export interface Signer {
  /** A WritableStream that adds what is written to it. Closing it signs. */
  readonly writable: ByteSink;
  /** The number of bytes that were passed to `update` so far. */
  readonly bytes: number;
  /**
   * Adds the next piece of the data, of any length. Throws the errors of
   * `Verifier.update`.
   */
  update(piece: Bytes): void;
  /**
   * Signs the data, verifies the new signature, and resolves to the content of
   * the signature file, which has four lines. Call it once.
   *
   * Rejects with NOT_BEGUN if it is called a second time; with KEY_NOT_OPENED
   * if the key was cleared; with SIGNATURE_REFUSED if the key is damaged; and
   * with NOT_UTF8, BAD_COMMENT or UNREADABLE_COMMENT for a comment that
   * Minisign could not read back.
   */
  end(): Promise<string>;
}

/** Generates a secret key from random bytes. */
export function generateSecretKey(): Promise<SecretKey>;

/**
 * Reads the content of a secret key file, such as minisign.key: both lines.
 * Deriving a key from a password blocks the thread for seconds, so do it in a
 * worker.
 *
 * If the content is malformed, rejects with NOT_UTF8,
 * MISSING_SECRET_KEY_COMMENT, MISSING_SECRET_KEY, SECRET_KEY_NOT_BASE64 or
 * RECORD_TOO_SHORT. Without a password, rejects with:
 *
 * - KEY_SEALED if the key is encrypted;
 * - KEY_CORRUPTED if the checksum of the key does not match.
 *
 * With a password, rejects with:
 *
 * - NOT_UTF8 if the password is not UTF-8;
 * - KEY_NOT_SEALED if the key is not encrypted;
 * - UNSUPPORTED_KEY_DERIVATION, PARAMETERS_TOO_HIGH or INVALID_PARAMETERS if
 *   the key derivation or its limits are not supported;
 * - WORK_TOO_HIGH if scrypt would compute more rows than `mostRows`;
 * - WRONG_PASSWORD, or OUT_OF_MEMORY.
 */
export function readSecretKey(
  text: Text,
  options?: OpeningOptions,
): Promise<SecretKey>;

/**
 * Resolves to the content of a secret key file for this key: both lines. The
 * key is encrypted with the password and the scrypt limits of `minisign -G`. If
 * the password is null, the key is not encrypted. An empty password is a
 * TypeError.
 */
export function writeSecretKey(
  secretKey: SecretKey,
  password: Text | null,
  options?: MemoryOptions,
): Promise<string>;

/** Resolves to the content of a public key file for this key: both lines. */
export function writePublicKey(secretKey: SecretKey): Promise<string>;

/** Overwrites the bytes of the key with zeros. After that, it cannot sign. */
export function clearSecretKey(secretKey: SecretKey): void;

/**
 * Signs data, and verifies the new signature. Resolves to the content of the
 * signature file. Rejects as `Signer.end` does, and as `verify` does for
 * arguments, streams and the signal.
 */
export function sign(
  data: Data,
  secretKey: SecretKey,
  options?: SigningOptions,
): Promise<string>;

/** Begins to sign data that arrives in pieces. */
export function createSigner(
  secretKey: SecretKey,
  options?: SignerOptions,
): Promise<Signer>;

/** The errors of the library, with their numbers in include/minisign.h. */
export declare const ERRORS: Readonly<Record<ErrorCode, number>>;

/** An error of the library. Its `message` is a sentence. */
export class MinisignError extends Error {
  readonly name: "MinisignError";
  /** The name of the error in include/minisign.h, such as SIGNATURE_REFUSED. */
  readonly code: ErrorCode;
  /** The number of the error in include/minisign.h. */
  readonly number: number;
  /**
   * For MALFORMED_LINE and LISTED_TWICE, the number of the line at fault in the
   * list. For all other errors it is 0.
   */
  readonly line: number;
}

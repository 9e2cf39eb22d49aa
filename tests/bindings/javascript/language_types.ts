// Uses all types that the package declares. `tests/bindings/javascript.py` only compiles this program, without the types
// of browsers (DOM) and of Node, to check that the declarations need only the types of JavaScript itself. Each
// `@ts-expect-error` checks that the misuse in the next line is a type error.

import {
  clearSecretKey, createSigner, createVerifier, ERRORS, generateSecretKey, MinisignError, parseTrustedComment,
  readPublicKey, readSecretKey, readSignature, sign, verify,
  verifyList, writePublicKey, writeSecretKey,
} from "minisign-proved";
import type { CommentFields, Data, ErrorCode, ListEntry, SecretKey, SignedList, Verified } from "minisign-proved";
import { saveVerified, verifyListedFile, verifyListFile, writeNew } from "minisign-proved/node";

async function* pieces(): AsyncGenerator<Uint8Array> {
  yield new Uint8Array(1);
}

export async function all(text: string): Promise<Verified> {
  const forms: Data[] = [new Uint8Array(1), new ArrayBuffer(1), new DataView(new ArrayBuffer(1)), [new Uint8Array(1)], pieces()];
  const key = await readPublicKey(text), signature = await readSignature(text);
  const verifier = await createVerifier(signature, key, { allowLegacy: true });
  const comment: string = await verifier.trustedComment();
  verifier.update(new Uint8Array(comment.length + verifier.bytes));
  try {
    await verify(forms[0], signature, text, { progress: (bytes: number, total?: number) => bytes - (total ?? 0) });
  } catch (why) {
    const number: number = why instanceof MinisignError ? ERRORS[why.code] - why.number : 0;
    // @ts-expect-error: an unknown option
    await verify(forms[number], signature, key, { allowlegacy: true });
  }
  // @ts-expect-error: a number is not data
  await verify(7, signature, key);
  // @ts-expect-error: a secret key is not a public one
  await verify(forms[0], signature, await generateSecretKey());
  // @ts-expect-error: a public key is not a secret one
  await sign(forms[0], key);
  // @ts-expect-error: a signature is not a key
  await verify(forms[0], signature, signature);
  const saved = await saveVerified(forms[0], "app", signature, key, { mode: 0o755, allowLegacy: true });
  const { timestamp, file, version }: CommentFields = parseTrustedComment(saved.trustedComment);
  const words: string = `${(timestamp ?? 0) + 1} ${file?.length} ${version?.length} ${saved.fields.hashed && 1}`;
  // @ts-expect-error: an unknown option
  await saveVerified(forms[0], words, signature, key, { umask: 0 });
  return verifier.end();
}

export async function listed(text: string): Promise<ListEntry> {
  const list: SignedList = await verifyList(text, text, text, null, { longDigest: "blake2b" });
  const entry: ListEntry = list.find(list.entries()[0].name);
  const words: string = `${list.trustedComment} ${list.fields.version} ${list.keyId} ${entry.hash} ${entry.isEscaped}`;
  await list.verifyListed([entry.digest], words, { progress: (bytes: number) => bytes + entry.line });
  await list.verifyListedTrustingWebCrypto(entry.digest, new Uint8Array(1));
  const other: SignedList = await verifyListFile("SHA256SUMS", text, { longDigest: "none" });
  // @ts-expect-error: a stream cannot be hashed by WebCrypto
  await other.verifyListedTrustingWebCrypto(pieces(), words);
  // @ts-expect-error: a digest of 128 digits can be of SHA-512 or BLAKE2b ("blake2b") or be rejected ("none")
  await verifyList(text, text, text, "SHA256SUMS", { longDigest: "sha256" });
  // @ts-expect-error: the name of the list must be given
  await verifyList(text, text, text);
  return verifyListedFile("app", list, { name: "app" });
}

export async function signed(data: Data): Promise<string> {
  const generated: SecretKey = await generateSecretKey();
  const text: string = await writeSecretKey(generated, "password", { lowMemory: true });
  const key = await readSecretKey(text, { password: new Uint8Array(1), mostRows: 2 });
  const signer = await createSigner(key, { trustedComment: "comment", untrustedComment: key.keyId });
  signer.update(new Uint8Array(signer.bytes));
  const signature: string = await sign(data, key, { progress: (bytes: number) => bytes, trustedComment: await signer.end() });
  await writeNew("minisign.key", text), await writeNew({ href: "file:///key", protocol: "file:" }, new Uint8Array(1));
  // @ts-expect-error: a number is not a path
  await writeNew(7, text);
  // @ts-expect-error: for a key without a password, null must be passed
  await writeSecretKey(generated);
  // @ts-expect-error: an unknown option
  await readSecretKey(text, { pass: "password" });
  // @ts-expect-error: isWeak is read-only
  key.isWeak = false;
  clearSecretKey(key);
  const code: ErrorCode = "WRONG_PASSWORD";
  return code + signature + (await writePublicKey(generated));
}

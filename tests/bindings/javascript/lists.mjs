// Tests verifying files against signed lists. javascript.py copies this program into a project directory, beside `node_modules`.
//
//     node lists.mjs verify_listed        verifies the file of each case, passing its data in every form that the package accepts
//     node lists.mjs entries              prints the entries of the list of each case
//     node lists.mjs arguments            checks the errors for wrong arguments, and the properties of a list; takes one case
//     node lists.mjs files DIRECTORY      checks the functions that take paths, with files in this directory
//
// The cases are lines on standard input. The first two commands print a line for each case. The others print lines with the
// expected result, a tab, and the actual result.

import {createHash} from "node:crypto";
import {copyFileSync, mkdirSync, writeFileSync} from "node:fs";
import {join} from "node:path";
import {Readable} from "node:stream";
import {pathToFileURL} from "node:url";

import {ERRORS, generateSecretKey, MinisignError, sign, verifyList, writePublicKey} from "minisign-proved";
import {verifyListedFile, verifyListFile} from "minisign-proved/node";

const bytesOf = digits => new Uint8Array(Buffer.from(digits === "-" ? "" : digits, "hex"));
const textOf = bytes => new TextDecoder().decode(bytes);

// Returns the cases on standard input, each as a list of fields.
async function cases() {
  const chunks = [];
  for await (const chunk of process.stdin) {
    chunks.push(chunk);
  }
  return Buffer.concat(chunks).toString().split("\n").filter(line => line).map(line => line.split(" ").map(bytesOf));
}

// Splits data into pieces of these lengths, which are repeated.
function* split(data, lengths) {
  for (let begin = 0, count = 0; begin < data.length; count += 1) {
    const length = lengths[count % lengths.length];
    yield data.subarray(begin, begin + length);
    begin += length;
  }
}

const streamOf = pieces => new ReadableStream({
  pull(controller) {
    const {done, value} = pieces.next();
    done ? controller.close() : controller.enqueue(value.slice());
  },
});

// Returns `accepted`, the trusted comment and the line number of the entry; or `rejected`, the error and the number of the line at
// fault.
async function resultLine(verify) {
  try {
    const [list, entry] = await verify();
    return `accepted ${Buffer.from(list.trustedComment).toString("hex")} ${entry.line}`;
  } catch (error) {
    const isLineNamed = error.line === 0 || error.message.startsWith(`line ${error.line}: `);
    const hasMessage = error.message && !error.message.includes("unknown") && isLineNamed;
    if (!(error instanceof MinisignError) || ERRORS[error.code] !== error.number || !hasMessage) {
      throw error;
    }
    return `rejected ${error.code} ${error.line}`;
  }
}

// Verifies the list of a case.
const verifyListOf = ([key, text, signature, listName, longDigest]) =>
  verifyList(text, signature, key, listName.length === 0 ? null : listName, {longDigest: textOf(longDigest)});

async function verifyListed() {
  for (const fields of await cases()) {
    const [name, data] = fields.slice(5);
    const isText = Buffer.from(textOf(name)).equals(name);
    const names = isText ? [name, textOf(name)] : [name];
    // Streams and iterators can be read only once, so they are made anew for each call.
    const forms = () => [
      data, data.slice().buffer, new Blob([data]), split(data, [1, 7, 4096, 65536]), streamOf(split(data, [300, 1000])),
      Readable.from(split(Buffer.from(data), [1000])),
    ];
    const formsForWebCrypto = [data, data.slice().buffer, new Blob([data])];
    const results = new Set();
    for (const listedName of names) {
      const calls = [
        ...forms().map(form => list => list.verifyListed(form, listedName)),
        ...formsForWebCrypto.map(form => list => list.verifyListedTrustingWebCrypto(form, listedName)),
      ];
      for (const call of calls) {
        results.add(await resultLine(async () => {
          const list = await verifyListOf(fields);
          return [list, await call(list)];
        }));
      }
    }
    console.log(results.size === 1 ? [...results][0] : `differs ${[...results]}`);
  }
}

async function entries() {
  for (const fields of await cases()) {
    const lines = (await verifyListOf(fields)).entries().map(({line, hash, digest, name, isEscaped}) =>
      [line, hash, ...[digest, name].map(bytes => Buffer.from(bytes).toString("hex")), isEscaped].join(" "));
    console.log(lines.join(","));
  }
}

// Pairs of an expected and an actual result.
const results = [];
// Returns the result of a call: the line number of an entry, another value, or the error.
const resultOf = async call => {
  try {
    const result = await call();
    return result?.line ?? result;
  } catch (error) {
    return error instanceof TypeError ? `${error.code}: ${error.message}` : error.code ?? `${error}`;
  }
};
const check = async (expected, call) => results.push([expected, await resultOf(call)]);

async function checkArguments() {
  const [[key, text, signature, listName, , name, data]] = await cases();
  const verifyWith = changedArguments => verifyList(...Object.values({text, signature, key, listName, ...changedArguments}));
  const list = await verifyWith();
  await check("INVALID_ARGUMENT: text must be a string or bytes, not number", () => verifyWith({text: 1}));
  await check("INVALID_ARGUMENT: text must have at most 1048576 bytes", () => verifyWith({text: "#".repeat(1048577)}));
  await check("SIGNATURE_REFUSED", () => verifyWith({text: "#".repeat(1048576)}));
  await check("INVALID_ARGUMENT: signature must be a string or bytes, not null", () => verifyWith({signature: null}));
  await check("INVALID_ARGUMENT: key must be a string or bytes, not number", () => verifyWith({key: 3}));
  await check("INVALID_ARGUMENT: name must be a string or bytes, not undefined", () => verifyWith({listName: undefined}));
  await check("OTHER_LIST", () => verifyWith({listName: ""}));
  for (const value of ["SHA512", "", 1, null]) {
    const kind = value === null ? "null" : typeof value;
    await check(`INVALID_ARGUMENT: longDigest must be "sha512", "blake2b" or "none", not ${kind}`, () =>
      verifyList(text, signature, key, listName, {longDigest: value}));
  }
  await check(
    "INVALID_ARGUMENT: unknown option allowLegacy",
    () => verifyList(text, signature, key, listName, {allowLegacy: true})
  );
  for (const call of [() => list.find(1), () => list.verifyListed(data, 1), () => list.verifyListedTrustingWebCrypto(data, 1)]) {
    await check("INVALID_ARGUMENT: name must be a string or bytes, not number", call);
  }
  for (const value of [1, "data", null]) {
    const kind = value === null ? "null" : typeof value;
    await check(
      `INVALID_ARGUMENT: data must be bytes, a Blob, a stream or an iterable of bytes, not ${kind}`,
      () => list.verifyListed(value, name)
    );
    await check(
      `INVALID_ARGUMENT: data must be bytes or a Blob, not ${kind}`,
      () => list.verifyListedTrustingWebCrypto(value, name)
    );
  }
  await check("INVALID_ARGUMENT: unknown option name", () => list.verifyListed(data, name, {name: "x"}));
  await check("INVALID_ARGUMENT: progress must be a function, not string", () => list.verifyListed(data, name, {progress: "x"}));
  const progress = [];
  await check(3, () => list.verifyListed([data, data.subarray(0, 0)], name, {
    progress: (bytes, total) => progress.push(bytes, total)
  }));
  // Two calls of the function, without a total.
  results.push([`${data.length},,${data.length},`, progress.join()]);
  // An iterable without end. Closing it or its iterator sets isClosed.
  let isClosed = false;
  const close = async () => {
    isClosed = true;
    return {};
  };
  const endless = () => ({
    [Symbol.asyncIterator]: () => ({next: async () => ({done: false, value: data}), return: close}),
    return: close,
  });
  await check("NOT_LISTED", () => list.verifyListed(endless(), "absent"));
  results.push([true, isClosed]);
  const controller = new AbortController();
  setTimeout(() => controller.abort(Object.assign(new Error("late"), {code: "LATE"})), 20);
  await check("LATE", () => list.verifyListed(endless(), name, {signal: controller.signal}));
  // Changing the buffer after the call has no effect, and the returned objects are frozen.
  const buffer = text.slice();
  const listPromise = verifyList(buffer, signature, key, listName);
  buffer.fill(0);
  await check(3, async () => (await listPromise).find(name));
  results.push([true, Object.isFrozen(list) && Object.isFrozen(list.find(name)) && Object.isFrozen(list.entries()[0])]);
  // The tab of the comment is replaced, because a tab separates the expected result from the actual one.
  const comment = list.trustedComment.replace("\t", " ");
  results.push(["version:2 file:SHA256SUMS 2 SHA256SUMS", `${comment} ${list.fields.version} ${list.fields.file}`]);
  results.push([true, /^[0-9A-F]{1,16}$/.test(list.keyId)]);
}

async function checkFiles(directory) {
  mkdirSync(directory, {recursive: true});
  const pathOf = name => join(directory, name);
  const secretKey = await generateSecretKey();
  const key = await writePublicKey(secretKey);
  const digest = createHash("sha512").update("data").digest("hex");
  const writeList = async (name, text, trustedComment) => {
    writeFileSync(pathOf(name), text);
    writeFileSync(pathOf(`${name}.minisig`), await sign(Buffer.from(text), secretKey, {trustedComment}));
  };
  await writeList("SHA512SUMS", `${digest}  app\n${digest}  other\n${digest}  sub/app\n`, "version:1\tfile:SHA512SUMS");
  for (const [name, text] of [["app", "data"], ["other", "other data"], ["renamed", "data"]]) {
    writeFileSync(pathOf(name), text);
  }
  const list = await verifyListFile(pathOf("SHA512SUMS"), key);
  await check(1, () => verifyListedFile(pathOf("app"), list));
  await check(
    1,
    async () =>
      verifyListedFile(pathToFileURL(pathOf("app")), await verifyListFile(pathToFileURL(pathOf("SHA512SUMS")), key))
  );
  await check("DIGEST_MISMATCH", () => verifyListedFile(pathOf("other"), list));
  await check("NOT_LISTED", () => verifyListedFile(pathOf("renamed"), list));
  await check(3, () => verifyListedFile(pathOf("renamed"), list, {name: "sub/app"}));
  await check("ENOENT", () => verifyListedFile(pathOf("absent"), list, {name: "app"}));
  await check("INVALID_ARGUMENT: path must be a string or a URL, not number", () => verifyListedFile(1, list));
  await check(
    "INVALID_ARGUMENT: list must be the result of verifyList, not string",
    () => verifyListedFile(pathOf("app"), pathOf("SHA512SUMS"))
  );
  await check("INVALID_ARGUMENT: unknown option mode", () => verifyListedFile(pathOf("app"), list, {mode: 1}));
  await check("INVALID_ARGUMENT: path must be a string or a URL, not object", () => verifyListFile({}, key));
  await check("ENOENT", () => verifyListFile(pathOf("app"), key));
  await check("ENOENT", () => verifyListFile(pathOf("absent"), key));
  await check(
    "DIGEST_MISMATCH",
    async () =>
      verifyListedFile(pathOf("app"), await verifyListFile(pathOf("SHA512SUMS"), key, {longDigest: "blake2b"}))
  );
  copyFileSync(pathOf("SHA512SUMS"), pathOf("OTHER"));
  copyFileSync(pathOf("SHA512SUMS.minisig"), pathOf("OTHER.minisig"));
  await check("OTHER_LIST", () => verifyListFile(pathOf("OTHER"), key));
  await writeList("LARGE", `${"#".repeat(1048575)}\n`, "file:LARGE");
  await check(0, async () => (await verifyListFile(pathOf("LARGE"), key)).entries().length);
  await writeList("LARGE", `${"#".repeat(1048576)}\n`, "file:LARGE");
  await check(`INVALID_ARGUMENT: ${pathOf("LARGE")} has more than 1048576 bytes`, () => verifyListFile(pathOf("LARGE"), key));
  // A list of the maximum size that consists of the shortest entries.
  const line = index => `${digest.slice(0, 64)}  ${String(index).padStart(5, "0")}\n`;
  const count = Math.floor(1048576 / line(0).length);
  await writeList("MANY", Array.from({length: count}, (_, index) => line(index)).join(""), "file:MANY");
  const entries = (await verifyListFile(pathOf("MANY"), key)).entries();
  results.push([`${count} ${count} 00000`, `${entries.length} ${entries.at(-1).line} ${entries[0].name}`]);
}

const [command, directory] = process.argv.slice(2);
await {verify_listed: verifyListed, entries, arguments: checkArguments, files: () => checkFiles(directory)}[command]();
results.forEach(row => console.log(row.join("\t")));

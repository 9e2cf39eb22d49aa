// A test program that makes keys and signatures, in Node. javascript.py copies it into a project directory, beside `node_modules`.
//
//     node signing.mjs make DIRECTORY [PASSWORD]                   writes a key pair there
//     node signing.mjs sign KEY DATA SIGNATURE COMMENT [PASSWORD]  signs a file, passing its data in each form
//     node signing.mjs strength KEY [PASSWORD]                     prints `weak` or `strong`
//     node --expose-gc signing.mjs growth COUNT                    makes COUNT keys; prints by how many bytes memory grows after
//                                                                  a tenth of them
//     node signing.mjs threads                                     prints `true` if three threads can sign at once
//
//     node signing.mjs checks DATA
//
// `checks` prints a line for each check: the expected result, a tab, and the actual result. It checks that the text forms of a
// key show no secret, that a cleared key cannot be used, that arguments of wrong types are rejected, how progress is reported,
// and the errors for streams that fail or are aborted (AbortSignal). DATA has four bytes.

import {createReadStream, readFileSync, writeFileSync} from "node:fs";
import {inspect} from "node:util";
import vm from "node:vm";
import {isMainThread, parentPort, Worker} from "node:worker_threads";

import {
  clearSecretKey, createSigner, createVerifier, generateSecretKey, MinisignError, readSecretKey, readSignature, sign,
  verify, writePublicKey,
  writeSecretKey,
} from "minisign-proved";

const UNTRUSTED_COMMENT = "from a program in JavaScript";
// The offsets of the seed in the decoded second line of an unencrypted secret key file.
const SEED_BEGIN = 62, SEED_END = 94;

// Returns the code of an error, or its text if it has none.
const codeOf = why => why instanceof MinisignError ? why.code : String(why);

async function makeKeys(directory, password = null) {
  const key = await generateSecretKey();
  const text = await writeSecretKey(key, password);
  writeFileSync(`${directory}/secret`, text);
  writeFileSync(`${directory}/public`, await writePublicKey(key));
  return "OK";
}

async function signFile(file, path, signaturePath, trustedComment, password) {
  const key = await readSecretKey(readFileSync(file), {password, mostRows: 2 ** 20});
  const options = {trustedComment, untrustedComment: UNTRUSTED_COMMENT}, bytes = readFileSync(path);
  const expected = await sign(bytes, key, options);
  const blob = new Blob([bytes]);
  const forms = [createReadStream(path), blob, blob.stream(), [bytes.subarray(0, 7), bytes.subarray(7)],
                 vm.runInNewContext("Uint8Array.from(bytes).buffer", {bytes: [...bytes]})];
  for (const [index, form] of forms.entries()) {
    if (await sign(form, key, options) !== expected) {
      throw new Error(`data in form ${index} gets another signature than bytes`);
    }
  }
  const signer = await createSigner(key, options);
  for (let at = 0; at < bytes.length; at += 1000) {
    signer.update(bytes.subarray(at, at + 1000));
  }
  const results = [await signer.end(), signer.bytes, await signer.end().catch(why => why.code)];
  if (results[0] !== expected || results[1] !== bytes.length || results[2] !== "NOT_BEGUN") {
    throw new Error(`a signer: ${results}, expected ${expected},${bytes.length},NOT_BEGUN`);
  }
  writeFileSync(signaturePath, expected);
  const result = await verify(bytes, readFileSync(signaturePath), await writePublicKey(key));
  const hasComments = result.trustedComment === trustedComment
    && expected.startsWith(`untrusted comment: ${UNTRUSTED_COMMENT}\n`);
  return hasComments ? "OK" : `other comments: ${result.trustedComment}, ${expected}`;
}

async function strength(file, password) {
  return (await readSecretKey(readFileSync(file), {password, lowMemory: true})).isWeak ? "weak" : "strong";
}

// Checks that no text form of a key or a signer shows the secret, that a cleared key cannot be used, and that the default
// trusted comment holds the time.
async function secrecyLines() {
  const key = await generateSecretKey(), digits = (await writeSecretKey(key, null)).split("\n")[1];
  const secret = Buffer.from(digits, "base64").subarray(SEED_BEGIN, SEED_END);
  const forms = [
    inspect(key, {showHidden: true, depth: 9}),
    JSON.stringify(key),
    String(key),
    Object.entries(structuredClone(key)).join()
  ];
  const beginnings = [...["hex", "base64"].map(encoding => secret.toString(encoding).slice(0, 8)), [...secret].join()];
  const hidesSecret = form => !beginnings.some(text => form.includes(text));
  const lines = [forms.every(hidesSecret), forms[0] === inspect({keyId: key.keyId, isWeak: false}), Object.isFrozen(key)];
  const signer = await createSigner(key);
  lines.push(hidesSecret(inspect(signer, {showHidden: true, depth: 9})));
  clearSecretKey(key);
  const [, , line] = (await sign(new Uint8Array(1), await generateSecretKey())).split("\n");
  lines.push(/^trusted comment: timestamp:\d{10,}\thashed$/.test(line));
  const callsWithClearedKey = [
    () => signer.end(),
    () => sign(new Uint8Array(1), key),
    () => writeSecretKey(key, null),
    () => writePublicKey(key)
  ];
  return [...lines.map(line => `true\t${line}`), ...await outcomes(callsWithClearedKey.map(run => ["KEY_NOT_OPENED", run]))];
}

// Returns a line for each call: the expected result, a tab, and the actual result.
function outcomes(rows) {
  return Promise.all(rows.map(async ([expected, run]) => `${expected}\t${await run().then(() => "accepted", codeOf)}`));
}

async function wrongArgumentLines() {
  const key = await generateSecretKey(), bytes = new Uint8Array(1), text = await writeSecretKey(key, null);
  // The beginnings of the error messages about each argument.
  const KEY = "TypeError: secretKey must be a secret key from this package, not";
  const OPTIONS = "TypeError: options must be a plain object, not", ROWS = "TypeError: mostRows must be a positive integer, not";
  const DATA = "TypeError: data must be bytes, a Blob, a stream or an iterable of bytes, not";
  const PIECE = "TypeError: a piece of data must be bytes, not";
  const textNamed = name => `TypeError: ${name} must be a string or bytes, not`;
  return outcomes([
    [`${KEY} string`, () => sign(bytes, "a key")], [`${KEY} null`, () => sign(bytes, null)],
    [`${KEY} object`, () => sign(bytes, {...key})],
    [`${KEY} undefined`, () => createSigner()], [`${KEY} object`, () => writePublicKey({})],
    [`${KEY} number`, async () => clearSecretKey(7)],
    [`${DATA} number`, () => sign(7, key)], [`${DATA} string`, () => sign("data", key)],
    [`${PIECE} string`, () => sign(["data"], key)],
    [`${PIECE} string`, async () => (await createSigner(key)).update("data")],
    [`${OPTIONS} null`, () => sign(bytes, key, null)], [`${OPTIONS} string`, () => readSecretKey(text, "password")],
    ["TypeError: unknown option comment", () => sign(bytes, key, {comment: "c"})],
    ["TypeError: unknown option allowLegacy", () => sign(bytes, key, {allowLegacy: true})],
    ["TypeError: unknown option progress", () => createSigner(key, {progress() {}})],
    ["TypeError: unknown option low", () => writeSecretKey(key, "p", {low: true})],
    [`${textNamed("trustedComment")} number`, () => sign(bytes, key, {trustedComment: 7})],
    [`${textNamed("untrustedComment")} null`, () => sign(bytes, key, {untrustedComment: null})],
    [`${textNamed("password")} undefined`, () => writeSecretKey(key)],
    [`${textNamed("password")} number`, () => writeSecretKey(key, 7)],
    [`${textNamed("password")} number`, () => readSecretKey(text, {password: 7})],
    [`${textNamed("text")} null`, () => readSecretKey(null)],
    ["TypeError: password must not be empty; use null for no password", () => writeSecretKey(key, "")],
    ["TypeError: lowMemory must be true or false, not number", () => writeSecretKey(key, "p", {lowMemory: 1})],
    [`${ROWS} string`, () => readSecretKey(text, {mostRows: "2"})], [`${ROWS} number`, () => readSecretKey(text, {mostRows: 0.5})],
    ["MISSING_SECRET_KEY_COMMENT", () => readSecretKey("")], ["SECRET_KEY_NOT_BASE64", () => readSecretKey("x\ny")],
    ["BAD_COMMENT", () => sign(bytes, key, {trustedComment: "a\nb"})],
    ["UNREADABLE_COMMENT", () => sign(bytes, key, {untrustedComment: "a\rb"})],
    ["TypeError: trustedComment must have fewer than 65536 bytes", () => sign(bytes, key, {trustedComment: "x".repeat(65536)})],
  ]);
}

// Checks the reports of progress (the bytes that were signed, and the length of the data or null), and the errors for a
// missing file, a stream whose signing is aborted, and a stream that is passed with a wrong key. A stream that is not read
// to its end must be cancelled.
async function streamLines(path) {
  const key = await generateSecretKey(), lines = [], reports = [], bytes = readFileSync(path);
  const reason = Object.assign(new Error(), {code: "GONE"});
  await sign(bytes, key, {progress: (...report) => reports.push(report)});
  await sign([bytes, bytes], key, {progress: (...report) => reports.push(report)});
  lines.push(`[[4,4],[4,null],[8,null]]\t${JSON.stringify(reports)}`);
  lines.push(`ENOENT\t${await sign(createReadStream(`${path}.absent`), key).catch(why => why.code)}`);
  const controller = new AbortController(), record = {cancelled: null};
  const stream = new ReadableStream({cancel: why => { record.cancelled = why?.code; }});
  const error = sign(stream, key, {signal: controller.signal}).catch(why => why.code);
  setTimeout(() => controller.abort(reason), 50);
  lines.push(`GONE GONE\t${await error} ${record.cancelled}`);
  const unusedStream = new ReadableStream({cancel: why => { record.cancelled = why.name; }});
  lines.push(`TypeError TypeError\t${await sign(unusedStream, "no key").catch(why => why.name)} ${record.cancelled}`);
  return lines;
}

// Collects garbage, and resolves to the memory of this process. The pause after each collection lets the engine free what it found.
async function memoryAfterCollection() {
  for (let times = 0; times < 3; times += 1) {
    globalThis.gc();
    await new Promise(resolve => setTimeout(resolve, 20));
  }
  return process.memoryUsage().rss;
}

async function memoryGrowth(keyCount) {
  let earlyMemory = 0;
  for (let count = 0; count < keyCount; count += 1) {
    await sign(new Uint8Array(count % 1000), await generateSecretKey());
    if (count === Math.floor(keyCount / 10)) {
      earlyMemory = await memoryAfterCollection();
    }
  }
  return await memoryAfterCollection() - earlyMemory;
}

// Signs and verifies 50 times concurrently. Resolves to true if all signatures are valid.
async function signsConcurrently() {
  const key = await generateSecretKey(), text = await writePublicKey(key);
  const run = async number => {
    const data = new Uint8Array(number), signature = await sign(data, key);
    const verifier = await createVerifier(await readSignature(signature), text);
    verifier.update(data);
    return (await verifier.end()).keyId === key.keyId;
  };
  return (await Promise.all(Array.from({length: 50}, (_, number) => run(number)))).every(Boolean);
}

if (isMainThread) {
  const [command, ...words] = process.argv.slice(2);
  const threads = async () => {
    const workers = [1, 2].map(() => new Promise(resolve => new Worker(new URL(import.meta.url)).on("message", resolve)));
    return (await Promise.all([signsConcurrently(), ...workers])).every(Boolean);
  };
  const checks = async path => [...await secrecyLines(), ...await wrongArgumentLines(), ...await streamLines(path)];
  const run = {make: makeKeys, sign: signFile, strength, checks, growth: memoryGrowth, threads}[command];
  const lines = await run(...words).catch(codeOf);
  console.log([lines].flat().join("\n"));
} else {
  parentPort.postMessage(await signsConcurrently());
}

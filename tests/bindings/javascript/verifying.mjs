// A test program that verifies with the package. javascript.py copies it into a project directory, beside `node_modules`, and
// compares what it prints.
//
// These commands verify the cases on standard input, one on each line, and print a line for each. With `legacy`, legacy signatures
// are allowed.
//
//     node verifying.mjs cases [legacy]    passes the data as bytes
//     node verifying.mjs pieces [legacy]   passes the data in each form that the package accepts
//     node verifying.mjs read [legacy]     prints the fields of the parsed key and signature, and verifies with these objects
//     node verifying.mjs threads           verifies in four threads, which must print the same
//     node --expose-gc verifying.mjs growth COUNT
//                                          verifies COUNT times; prints by how many bytes memory grows after the first tenth
//     node verifying.mjs comment           verifies only the trusted comment, before there is data
//
// These commands use the published signature, whose data has four bytes. Each line has the expected result, a tab, and the actual
// result:
//
//     node verifying.mjs verifier           checks the properties and methods of a verifier
//     node verifying.mjs wrongArguments     checks the errors for arguments of wrong types and for unknown options
//     node verifying.mjs keyStrings         checks which strings are accepted as the base64 of a key

import {Readable} from "node:stream";
import {runInNewContext} from "node:vm";
import {isMainThread, parentPort, Worker, workerData} from "node:worker_threads";

import {createVerifier, ERRORS, MinisignError, readPublicKey, readSignature, verify} from "minisign-proved";

const PIECE_LENGTHS = [1, 7, 127, 128, 129, 4096, 65536];
const THREADS = 4;

// Returns the name of an error as the tests print it: its code, or the name of its class if it has none or is about an argument.
const nameOf = error => error?.code === "INVALID_ARGUMENT" ? error.name : error.code ?? error.name;
const hexOf = text => Buffer.from(text).toString("hex") || "-";
const bytesOf = digits => new Uint8Array(Buffer.from(digits === "-" ? "" : digits, "hex"));

async function textOfInput() {
  const chunks = [];
  for await (const chunk of process.stdin) {
    chunks.push(chunk);
  }
  return Buffer.concat(chunks).toString();
}

const casesOf = text => text.split("\n").filter(line => line).map(line => line.split(" ").map(bytesOf));

async function answerOf(data, signature, key, options) {
  return outcome(async () => (await verify(data, signature, key, options)).trustedComment);
}

// Verifies only the trusted comment, before and after data was passed. Both results must be the same.
async function commentOf(data, signature, key) {
  return outcome(async () => {
    const verifier = await createVerifier(signature, key);
    const before = await verifier.trustedComment();
    verifier.update(data);
    return before === await verifier.trustedComment() ? before : "another comment";
  });
}

// Returns the line for the trusted comment that a function returns, or for the error that it throws.
async function outcome(verifiedComment) {
  try {
    return `accepted ${hexOf(await verifiedComment())}`;
  } catch (why) {
    if (!(why instanceof MinisignError) || ERRORS[why.code] !== why.number || !why.message) {
      throw why;
    }
    return `rejected ${why.code}`;
  }
}

// Reads the fields of keys and signatures, and verifies with the objects that were read.
async function readAnswers(cases, options) {
  const answers = [];
  for (const [key, data, text] of cases) {
    try {
      const signature = await readSignature(text), publicKey = await readPublicKey(key);
      const results = [await answerOf(data, signature, key, options), await answerOf(data, signature, publicKey, options)];
      const outcome = results[0] === results[1] ? results[0] : results;
      answers.push(`${publicKey.keyId} ${signature.keyId} ${signature.isLegacy} ${outcome}`);
    } catch (why) {
      answers.push(`rejected ${nameOf(why)}`);
    }
  }
  return answers;
}

async function answersOf(cases, options) {
  const answers = [];
  for (const [key, data, signature] of cases) {
    answers.push(await answerOf(data, signature, key, options));
  }
  return answers;
}

// Splits data into pieces of these lengths, which are repeated.
function* split(data, lengths) {
  for (let begin = 0, count = 0; begin < data.length; count += 1) {
    const length = lengths[count % lengths.length];
    yield data.subarray(begin, begin + length);
    begin += length;
  }
}

const streamOf = pieces => new ReadableStream({
  pull(controller) {
    const {done, value} = pieces.next();
    done ? controller.close() : controller.enqueue(value.slice());
  },
});

// Copies bytes into a buffer of another realm, and into a view of that realm.
const copiesInOtherRealm = runInNewContext("bytes => [new Uint8Array(bytes).buffer, new Uint8Array(bytes)]");

// Verifies each case with the data in each form that the package accepts. Returns all results of a case if they differ.
async function answersInPieces(cases, options) {
  const answers = [];
  for (const [key, data, signature] of cases) {
    const shortLengths = data.length < 1e5 ? [1] : [1, 1, 1000];
    const forms = [
      data, data.slice().buffer, new DataView(data.buffer, data.byteOffset, data.length), new Blob([data]),
      split(data, PIECE_LENGTHS),
      streamOf(split(data, PIECE_LENGTHS)), Readable.from(split(Buffer.from(data), [1000])), streamOf(split(data, shortLengths)),
      (async function* () { yield* split(data, [300, 0, 1]); })(), ...copiesInOtherRealm(data),
    ];
    const results = new Set(await Promise.all(forms.map(form => answerOf(form, signature, key, options))));
    const [buffer, view] = copiesInOtherRealm(signature);
    const [keyBuffer, keyView] = copiesInOtherRealm(key);
    results.add(await answerOf(data, buffer, keyView, options));
    results.add(await answerOf(data, view, keyBuffer, options));
    answers.push([...results].join(" and "));
  }
  return answers;
}

async function answersInThreads(text) {
  const run = () => new Promise((resolve, reject) => {
    const thread = new Worker(new URL(import.meta.url), {workerData: text});
    thread.on("message", resolve);
    thread.on("error", reject);
  });
  const results = await Promise.all(Array.from({length: THREADS}, run));
  return results.every(each => each.join() === results[0].join()) ? results[0] : ["the threads differ"];
}

async function memoryGrowth(count, [[key, data, signature], [, otherData]]) {
  const verifyBoth = async () => {
    if (await answerOf(data, signature, key) === await answerOf(otherData, signature, key)) {
      throw new Error("the same result for different data");
    }
  };
  // Verifies this many times. Returns the memory in use afterwards.
  const memoryAfter = async count => {
    for (let callCount = 0; callCount < count; callCount += 50) {
      await Promise.all(Array.from({length: 25}, verifyBoth));
    }
    // The buffers that the first collection finds are freed before the second one ends. `external` includes the memory of the
    // module.
    globalThis.gc();
    globalThis.gc();
    const {heapUsed, external} = process.memoryUsage();
    return heapUsed + external;
  };
  const earlyMemory = await memoryAfter(count / 10);
  return [await memoryAfter(count - count / 10) - earlyMemory];
}

// The beginnings of messages about arguments of wrong types.
const DATA = "data must be bytes, a Blob, a stream or an iterable of bytes, not";
const SIGNATURE = "signature must be a string or bytes, not", KEY = "key must be a string or bytes, not";

// Makes calls that must reject with a TypeError that names the argument.
async function wrongArgumentAnswers([[key, data, signature]]) {
  const parsedSignature = await readSignature(signature), {signal} = new AbortController();
  const verifyWith = options => verify(data, signature, key, options);
  const calls = [
    [`${DATA} string`, verify("text", signature, key)], [`${DATA} number`, verify(7, signature, key)],
    [`${DATA} null`, verify(null, signature, key)],
    [`${DATA} undefined`, verify(undefined, signature, key)], [`${DATA} object`, verify({}, signature, key)],
    ["a piece of data must be bytes, not string", verify(["text"], signature, key)],
    [`${SIGNATURE} number`, verify(data, 7, key)], [`${SIGNATURE} null`, verify(data, null, key)],
    [`${SIGNATURE} object`, verify(data, {keyId: "E7620F1842B4E81F", isLegacy: false}, key)],
    ["signature must have fewer than 65536 bytes", verify(data, new Uint8Array(65536), key)],
    [`${KEY} undefined`, verify(data, signature, undefined)],
    ["key must have fewer than 65536 bytes", verify(data, signature, "x".repeat(65536))],
    [`${SIGNATURE} number`, readSignature(7)], [`${SIGNATURE} null`, readSignature(null)],
    [`${SIGNATURE} undefined`, readSignature(undefined)],
    [`${SIGNATURE} object`, readSignature({})], [`${SIGNATURE} object`, readSignature(parsedSignature)],
    ["signature must have fewer than 65536 bytes", readSignature(new Uint8Array(65536))],
    [`${KEY} number`, readPublicKey(7)], [`${KEY} null`, readPublicKey(null)], [`${KEY} object`, readPublicKey({})],
    [`${KEY} object`, readPublicKey(parsedSignature)],
    ["options must be a plain object, not null", verifyWith(null)], ["options must be a plain object, not number", verifyWith(7)],
    ["unknown option allowlegacy", verifyWith({allowlegacy: true})], ["unknown option toString", verifyWith({toString: true})],
    ["allowLegacy must be true or false, not number", verifyWith({allowLegacy: 1})],
    ["allowLegacy must be true or false, not string", verifyWith({allowLegacy: "no"})],
    ["progress must be a function, not number", verifyWith({progress: 7})],
    ["signal must be an AbortSignal, not boolean", verifyWith({signal: true})],
    ["signal must be an AbortSignal, not object", verifyWith({signal: {aborted: false}})],
    ["unknown option signal", createVerifier(signature, key, {signal})],
  ];
  return Promise.all(calls.map(
    async ([expected, promise]) => `TypeError: ${expected}\t${await promise.then(() => "accepted", String)}`
  ));
}

// Checks the properties and methods of a verifier, step by step.
async function verifierAnswers([[key, data, signature]]) {
  const answers = [];
  const check = async (expected, run) => answers.push(`${expected}\t${await (async () => run())().catch(nameOf)}`);
  const verifier = await createVerifier(signature, key), reports = [];
  await check("E7620F1842B4E81F false 0", () => `${verifier.keyId} ${verifier.isLegacy} ${verifier.bytes}`);
  await check("TypeError", () => verifier.update("text"));
  for (const piece of split(data, [1])) {
    verifier.update(piece);
  }
  await check(data.length, () => verifier.bytes);
  const trustedComment = "timestamp:1556193335\tfile:test";
  const fields = {hashed: false, file: "test", timestamp: 1556193335};
  const result = {trustedComment, fields, keyId: "E7620F1842B4E81F", isLegacy: false};
  await check(JSON.stringify(result), () => verifier.end().then(JSON.stringify));
  for (const call of [() => verifier.end(), () => verifier.update(data), () => verifier.trustedComment()]) {
    await check("NOT_BEGUN", call);
  }
  await check("TypeError", () => { "use strict"; verifier.keyId = "another"; });
  for (const form of [data, new Blob([data]), [...split(data, [1])]]) {
    await verify(form, signature, key, {progress: (...progress) => reports.push(progress)});
  }
  await check("[[4,4],[4,4],[1,null],[2,null],[3,null],[4,null]]", () => JSON.stringify(reports));
  await check("RangeError", () => verify(data, signature, key, {progress: () => { throw new RangeError(); }}));
  return answers;
}

// Checks which strings are accepted as keys. A string of one line must be the base64 of a key.
async function keyStringAnswers([[key, data, signature]]) {
  const text = Buffer.from(key).toString(), base64 = text.split("\n")[1], accepted = "E7620F1842B4E81F false";
  const strings = [
    [accepted, base64], [accepted, `${base64}\n`], [accepted, `${base64}\r\n`], [accepted, text],
    ["BARE_PUBLIC_KEY_LENGTH", base64.slice(0, -1)], ["BARE_PUBLIC_KEY_LENGTH", ""],
    ["BARE_PUBLIC_KEY_NOT_BASE64", `-${base64.slice(1)}`],
    ["BARE_PUBLIC_KEY_NOT_BASE64", ` ${base64}`], ["PUBLIC_KEY_LENGTH", `x\n${base64.slice(0, -1)}\n`],
  ];
  const answerOfKey = string => verify(data, Buffer.from(signature).toString(), string)
    .then(({keyId, isLegacy}) => `${keyId} ${isLegacy}`, why => why.code);
  return Promise.all(strings.map(async ([expected, string]) => `${expected}\t${await answerOfKey(string)}`));
}

if (isMainThread) {
  const [command, argument] = process.argv.slice(2);
  const text = await textOfInput();
  const run = {
    cases: () => answersOf(casesOf(text), {allowLegacy: argument === "legacy"}),
    pieces: () => answersInPieces(casesOf(text), {allowLegacy: argument === "legacy"}),
    read: () => readAnswers(casesOf(text), {allowLegacy: argument === "legacy"}),
    threads: () => answersInThreads(text),
    growth: () => memoryGrowth(Number(argument), casesOf(text)),
    comment: () => Promise.all(casesOf(text).map(([key, data, signature]) => commentOf(data, signature, key))),
    verifier: () => verifierAnswers(casesOf(text)),
    wrongArguments: () => wrongArgumentAnswers(casesOf(text)),
    keyStrings: () => keyStringAnswers(casesOf(text)),
  }[command];
  process.stdout.write((await run()).map(line => `${line}\n`).join(""));
} else {
  parentPort.postMessage(await answersOf(casesOf(workerData)));
}

// Checks, in Node, the writable streams of verifiers and signers, the fields of trusted comments, the codes of errors, and that
// calls of `sign` share a WebAssembly instance. javascript.py copies this program beside a directory `node_modules` with the
// package.
//
//     node writable.mjs CHECK KEY DATA SIGNATURE    runs one of CHECKS with files that verify
//
// Each line has the expected result, a tab, and the actual result.

import {readFileSync} from "node:fs";

import {
  createSigner,
  createVerifier,
  generateSecretKey,
  MinisignError,
  parseTrustedComment,
  verify,
  writePublicKey
} from "minisign-proved";

const [checkName, ...paths] = process.argv.slice(2);
const [key, data, signature] = paths.map(path => readFileSync(path));
const COMMENT = "timestamp:1556193335\tfile:test";

// Resolves to the trusted comment of a result, to "accepted", or to the error.
const outcome = promise => promise.then(result => result?.trustedComment ?? "accepted",
                                        why => why instanceof TypeError ? `${why.name} ${why.code}` : why.code ?? why.name ?? why);

// Returns a web stream of these pieces.
const streamOf = (...pieces) => new ReadableStream({start: controller => {
  pieces.forEach(piece => controller.enqueue(piece));
  controller.close();
}});

// Pipes these pieces into a verifier. Resolves to the outcomes of `pipeTo` and of `end` after it, and the number of bytes.
async function outcomesOfPiping(...pieces) {
  const verifier = await createVerifier(signature, key);
  return `${await outcome(streamOf(...pieces).pipeTo(verifier.writable))}, ${await outcome(verifier.end())}, ${verifier.bytes}`;
}

async function streams() {
  const rows = [
    [`accepted, ${COMMENT}, 4`, await outcomesOfPiping(data)],
    [`accepted, ${COMMENT}, 4`, await outcomesOfPiping(data.subarray(0, 1), data.subarray(1))],
    [
      `accepted, ${COMMENT}, 4`,
      await outcomesOfPiping(data.buffer.slice(data.byteOffset, data.byteOffset + data.length))
    ],
    ["SIGNATURE_REFUSED, SIGNATURE_REFUSED, 5", await outcomesOfPiping(data, Uint8Array.of(0))],
    ["SIGNATURE_REFUSED, SIGNATURE_REFUSED, 0", await outcomesOfPiping()],
    ["TypeError INVALID_ARGUMENT, TypeError INVALID_ARGUMENT, 4", await outcomesOfPiping(data, "text")]
  ];
  // A stream is split with `tee`, to verify the data and to store it.
  const verifier = await createVerifier(signature, key), [verifiedStream, storedStream] = streamOf(data).tee();
  const [, storedText] = await Promise.all([verifiedStream.pipeTo(verifier.writable), new Response(storedStream).text()]);
  rows.push([`${COMMENT} test`, `${(await verifier.end()).trustedComment} ${storedText}`]);
  rows.push([COMMENT, await outcome(verifier.end())]);
  // The error NOT_BEGUN also means that the verifier has already ended.
  rows.push(["NOT_BEGUN", await outcome((async () => verifier.update(data))())]);
  rows.push([true, verifier.writable === verifier.writable]);
  const abortedVerifier = await createVerifier(signature, key), reason = Object.assign(new Error(), {code: "GONE"});
  abortedVerifier.update(data);
  await abortedVerifier.writable.abort(reason);
  rows.push(["GONE", await outcome(abortedVerifier.end())]);
  // If the source fails, the verifier's stream is aborted.
  const verifierWithFailingSource = await createVerifier(signature, key);
  const source = new ReadableStream({pull: controller => controller.error(reason)});
  const pipeOutcome = await outcome(source.pipeTo(verifierWithFailingSource.writable));
  rows.push(["GONE, GONE", `${pipeOutcome}, ${await outcome(verifierWithFailingSource.end())}`]);
  const verifierWithOpenStream = await createVerifier(signature, key);
  await streamOf(data).pipeTo(verifierWithOpenStream.writable, {preventClose: true});
  const endOutcomes = [await outcome(verifierWithOpenStream.end()), await outcome(verifierWithOpenStream.end())];
  rows.push([`${COMMENT}, NOT_BEGUN`, endOutcomes.join(", ")]);
  // While a long piece is verified, other tasks run, and a timer fires after most of its 64 slices. If the piece were hashed
  // at once, the timer would fire only in the few other tasks that the stream needs.
  const verifierOfLongData = await createVerifier(signature, key), timerCalls = [];
  const timer = setInterval(() => timerCalls.push(0), 1);
  await outcome(streamOf(new Uint8Array(64 * 1048576)).pipeTo(verifierOfLongData.writable));
  clearInterval(timer);
  rows.push([true, timerCalls.length > 16]);
  const secretKey = await generateSecretKey(), signer = await createSigner(secretKey, {trustedComment: "t"});
  await streamOf(data).pipeTo(signer.writable);
  rows.push(["t", await outcome(verify(data, await signer.end(), await writePublicKey(secretKey)))]);
  const { WritableStream } = globalThis;
  delete globalThis.WritableStream;
  const verifierWithoutStreams = await createVerifier(signature, key);
  rows.push(["UNSUPPORTED_PLATFORM", await outcome((async () => verifierWithoutStreams.writable)())]);
  globalThis.WritableStream = WritableStream;
  return rows;
}

async function fields() {
  const parse = comment => JSON.stringify(parseTrustedComment(comment));
  const rows = [
    [{hashed: false, file: "test", timestamp: 1556193335}, COMMENT], [{hashed: false}, ""], [{hashed: true}, "hashed"],
    [{hashed: true, file: "a b.zip", version: "1.2.3", timestamp: 1700000000, expires: 1800000000, size: 0},
      "timestamp:1700000000\tversion:1.2.3\texpires:1800000000\tsize:0\tfile:a b.zip\thashed"],
    [{hashed: false, file: "a:b"}, "file:a:b"], [{hashed: false, file: ""}, "file:"], [{hashed: false}, "a file:x"],
    [{hashed: false}, "file:x\tfile:x"], [{hashed: false}, "file:x\tfile:y"], [{hashed: false, file: "x"}, "file:x\tFILE:y"],
    [{hashed: false}, "timestamp:-1"], [{hashed: false}, "timestamp:"], [{hashed: false}, "timestamp:1e3"],
    [{hashed: false}, "timestamp: 1"],
    [{hashed: false, timestamp: 9007199254740991}, "timestamp:9007199254740991"], [{hashed: false}, "timestamp:9007199254740992"],
    [{hashed: false, file: "x"}, "__proto__:y\tfile:x"], [{hashed: false}, "nothashed"],
  ].map(([expected, comment]) => [JSON.stringify(expected), parse(comment)]);
  const result = await verify(data, signature, key);
  rows.push([JSON.stringify({hashed: false, file: "test", timestamp: 1556193335}), JSON.stringify(result.fields)]);
  rows.push([true, Object.isFrozen(result.fields)]);
  rows.push(["TypeError INVALID_ARGUMENT", await outcome((async () => parseTrustedComment(7))())]);
  return rows;
}

// Each error has a code, even one about an argument.
async function codes() {
  const nameAndCode = promise => promise.then(() => "accepted", why => `${why.name} ${why.code}`);
  const verifier = await createVerifier(signature, key), rows = [
    ["TypeError INVALID_ARGUMENT", await nameAndCode(verify(7, signature, key))],
    ["TypeError INVALID_ARGUMENT", await nameAndCode(verify(data, 7, key))],
    ["TypeError INVALID_ARGUMENT", await nameAndCode(verify(data, signature, key, null))],
    ["TypeError INVALID_ARGUMENT", await nameAndCode(verify(data, signature, key, new Map()))],
    ["TypeError INVALID_ARGUMENT", await nameAndCode(verify(data, signature, key, {legacy: true}))],
    ["TypeError INVALID_ARGUMENT", await nameAndCode(verify(data, new Uint8Array(65536), key))],
    ["TypeError INVALID_ARGUMENT", await nameAndCode((async () => verifier.update("x"))())],
    ["TypeError INVALID_ARGUMENT", await nameAndCode(createSigner({}))],
    ["MinisignError SIGNATURE_REFUSED", await nameAndCode(verify(Uint8Array.of(1), signature, key))],
    ["MinisignError MISSING_UNTRUSTED_COMMENT", await nameAndCode(verify(data, "", key))],
    [true, await verify(data, "", key).catch(why => why instanceof MinisignError)],
  ];
  return rows;
}

// Concurrent calls of `sign` share one instance of the signing module, so the address space of the process grows by less than 32
// GiB.
async function instances() {
  const COUNT = 1000, {Instance} = WebAssembly, instantiate = WebAssembly.instantiate;
  let count = 0;
  const counting = run => new Proxy(run, {
    construct: (target, callArguments) => (count += 1, new target(...callArguments)),
    apply: (target, receiver, callArguments) => (count += 1, target.apply(receiver, callArguments)),
  });
  const secretKey = await generateSecretKey(), publicKey = await writePublicKey(secretKey);
  Object.assign(WebAssembly, {Instance: counting(Instance), instantiate: counting(instantiate)});
  const status = () => readFileSync("/proc/self/status", "latin1");
  const reservedGib = () => Number(/VmPeak:\s*(\d+) kB/.exec(status())[1]) / 1048576, reservedBefore = reservedGib();
  const { sign } = await import("minisign-proved");
  const signatures = await Promise.all(
    Array.from({length: COUNT}, (_, at) => sign(Uint8Array.of(at), secretKey, {trustedComment: `${at}`}))
  );
  const growthGib = reservedGib() - reservedBefore;
  const comments = await Promise.all(
    signatures.map((text, at) => verify(Uint8Array.of(at), text, publicKey).then(each => each.trustedComment))
  );
  return [[true, count <= 1 || `${count} instances`], [true, growthGib < 32 || `${growthGib} GiB more`],
    [COUNT, comments.filter((comment, at) => comment === `${at}`).length]];
}

const CHECKS = {streams, fields, codes, instances};
// The tab in COMMENT is replaced, because a tab separates the expected result from the actual one.
const lines = (await CHECKS[checkName]()).map(([expected, actual]) => `${expected}\t${actual}`);
console.log(lines.join("\n").replaceAll(COMMENT, COMMENT.replace("\t", " ")));

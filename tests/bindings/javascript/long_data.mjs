// Checks that long data does not block the event loop, in Node. javascript.py copies this program into a project directory, beside
// `node_modules`.
//
//     node long_data.mjs CHECK KEY SIGNATURE    runs one of CHECKS; SIGNATURE is a valid signature of other data
//
// Each line has the expected result, a tab, and the actual result.

import {readFileSync} from "node:fs";

import {createSigner, generateSecretKey, sign, verify, writePublicKey} from "minisign-proved";

const [checkName, ...paths] = process.argv.slice(2);
const [key, signature] = paths.map(path => readFileSync(path));

const MIB = 1048576;
// The size of data that takes longer to read than the longest timer of these checks.
const LONG_BYTES = 512 * MIB;
// The reason with which calls are aborted.
const ABORT_REASON = Object.assign(new Error(), {code: "GONE"});

// Returns "accepted", or the code of the error, or the name of its class if it has none or is about an argument.
const outcome = promise => promise.then(
  () => "accepted", why => why?.code === "INVALID_ARGUMENT" ? why.name : why.code ?? why.name
);

// Forms of long data that can be read without waiting.
const formsOf = data => ({
  array: data, buffer: data.buffer, list: [data.subarray(0, LONG_BYTES / 2), data.subarray(LONG_BYTES / 2)],
  pieces: Array.from({length: LONG_BYTES / MIB}, (_, at) => data.subarray(at * MIB, (at + 1) * MIB)),
  small: Array.from({length: LONG_BYTES / 4096}, (_, at) => data.subarray(at * 4096, (at + 1) * 4096)),
  generator: (async function* () { yield data; })(),
});

// Runs a call while a timer aborts it. Returns the error, true if a part of the data was read but not all, and true if nothing was
// read after the call had ended.
async function resultOfAborting(run) {
  const controller = new AbortController();
  let bytesRead = 0;
  setTimeout(() => controller.abort(ABORT_REASON), 20);
  const error = await outcome(run({signal: controller.signal, progress: bytes => { bytesRead = bytes; }}));
  const bytesReadBefore = bytesRead;
  await new Promise(resolve => setTimeout(resolve, 50));
  return `${error} ${bytesReadBefore > 0 && bytesRead < LONG_BYTES} ${bytesRead - bytesReadBefore <= MIB}`;
}

const CHECKS = {
  // A timer can abort the verification of each form, which then reads no further.
  async abortsVerifying() {
    const lines = [];
    for (const [form, data] of Object.entries(formsOf(new Uint8Array(LONG_BYTES)))) {
      const result = await resultOfAborting(options => verify(data, signature, key, options));
      lines.push([`${form} GONE true true`, `${form} ${result}`]);
    }
    return lines;
  },
  async abortsSigning() {
    const data = new Uint8Array(LONG_BYTES), secretKey = await generateSecretKey();
    return [["GONE true true", await resultOfAborting(options => sign(data, secretKey, options))]];
  },
  // Timers fire many times while an array is verified, even if there is no MessageChannel. If there is no setTimeout either, the
  // array is verified in one task.
  async runsTimers() {
    const lines = [], data = new Uint8Array(LONG_BYTES / 8), {setTimeout} = globalThis;
    for (const missingName of ["none", "MessageChannel", "setTimeout"]) {
      delete globalThis[missingName];
      let timerCount = 0;
      const timer = setInterval(() => { timerCount += 1; }, 1);
      const error = await outcome(verify(data, signature, key));
      clearInterval(timer);
      const expected = missingName === "setTimeout" ? "few" : "many";
      lines.push([`SIGNATURE_REFUSED ${expected}`, `${error} ${timerCount > 10 ? "many" : "few"}`]);
    }
    Object.assign(globalThis, {setTimeout});
    return lines;
  },
  // `sign` makes the same signature of a long array as a signer, and `verify` reports progress after each MiB.
  async signsLikeASigner() {
    const data = Uint8Array.from({length: 5 * MIB + 7}, (_, at) => at % 251), reports = [];
    const secretKey = await generateSecretKey();
    const options = {trustedComment: "same", untrustedComment: "same"}, signer = await createSigner(secretKey, options);
    signer.update(data);
    const signature = await signer.end(), publicKey = await writePublicKey(secretKey);
    await verify(data, signature, publicKey, {progress: (...report) => reports.push(report)});
    const expected = [1, 2, 3, 4, 5].map(count => [count * MIB, data.length]).concat([[data.length, data.length]]);
    return [[signature, await sign(data, secretKey, options)].map(JSON.stringify), [expected, reports].map(JSON.stringify)];
  },
  // An array whose buffer is detached or shrunk while it is read is neither verified nor signed, even if this happens just before
  // its last piece.
  async rejectsShortenedBuffers() {
    const secretKey = await generateSecretKey(), lines = [], length = 8 * MIB;
    const detach = ({buffer}) => structuredClone(buffer, {transfer: [buffer]});
    const shrink = ({buffer}) => typeof buffer.resize === "function" ? buffer.resize(2 * MIB) : detach({buffer});
    for (const [name, change] of Object.entries({detach, shrink})) {
      for (const at of [4 * MIB, length - MIB]) {
        const signing = (data, options) => sign(data, secretKey, options);
        const verifying = (data, options) => verify(data, signature, key, options);
        for (const run of [signing, verifying]) {
          const data = new Uint8Array(new ArrayBuffer(length, {maxByteLength: length}));
          const promise = run(data, {progress: bytes => bytes === at && change(data)});
          lines.push([`${name} ${at} TypeError`, `${name} ${at} ${await outcome(promise)}`]);
        }
      }
    }
    return lines;
  },
};

// Load the library before the check, so that loading it does not delay the timers.
await outcome(verify(new Uint8Array(1), signature, key));
const lines = await CHECKS[checkName]();
process.stdout.write(lines.map(line => `${line.join("\t")}\n`).join(""));

// Checks what happens to the stream that was passed to `verify`, in Node. javascript.py copies this program into a project
// directory, beside `node_modules`.
//
//     node streams.mjs CHECK KEY DATA SIGNATURE    runs one of CHECKS with files that verify
//
// Each line has the expected result, a tab, and the actual result. The program listens for no "error" events on purpose: an error
// that `verify` does not turn into a rejection ends the program.

import {createReadStream, readdirSync, readFileSync} from "node:fs";
import {EventEmitter, getEventListeners} from "node:events";
import {Readable} from "node:stream";
import {setTimeout as wait} from "node:timers/promises";

import {verify} from "minisign-proved";

const [checkName, ...paths] = process.argv.slice(2);
const [key, data, signature] = paths.map(path => readFileSync(path));
const dataPath = paths[1];

const STREAM_COUNT = 100;
// The maximum time for closing a stream, in milliseconds.
const CLOSING_MS = 5000;
// The time to wait until all files are open, in milliseconds.
const OPENING_MS = 300;

// A signature, a key and options that `verify` rejects before it reads data.
const REJECTED = [["no signature", key], [signature, "no key"], [7, key], [signature, null], [signature, key, null]];

// Returns the code of an error, or the name of its class if it has none or is about an argument.
const nameOf = error => error?.code === "INVALID_ARGUMENT" ? error.name : error?.code ?? error?.name ?? error;

// Resolves to "accepted", to the name of the error, or after CLOSING_MS to "nothing" if the promise is not settled.
function outcome(promise) {
  return Promise.race([promise.then(() => "accepted", nameOf), wait(CLOSING_MS, "nothing", {ref: false})]);
}

const countDescriptors = () => readdirSync("/proc/self/fd").length;

// Waits until no more than `before` file descriptors are open. Resolves to the number of additional ones, which is not 0 if they
// are still open after CLOSING_MS.
async function countUnclosed(before) {
  for (let elapsed = 0; countDescriptors() > before && elapsed < CLOSING_MS; elapsed += 10) {
    await wait(10);
  }
  return countDescriptors() - before;
}

// Resolves to STREAM_COUNT streams of open files.
function openStreams() {
  const open = () => new Promise(resolve => {
    const stream = createReadStream(dataPath);
    stream.once("open", () => resolve(stream));
  });
  return Promise.all(Array.from({length: STREAM_COUNT}, open));
}

// Returns a web stream of these pieces, which does not end after them, and an object in which it records why it is cancelled.
function webStream(pieces) {
  const record = {cancelled: "not cancelled"};
  const stream = new ReadableStream({
    pull: controller => pieces.length > 0 ? controller.enqueue(pieces.shift()) : undefined,
    cancel: why => { record.cancelled = nameOf(why); },
  });
  return {stream, record};
}

// Returns a stream of Node that fails with this code when it is read after these pieces.
function failingStream(pieces, code) {
  return new Readable({
    read() {
      pieces.length > 0 ? this.push(pieces.shift()) : this.destroy(Object.assign(new Error(code), {code}));
    }
  });
}

// A stream whose iteration neither ends nor fails, and that reports errors only by the event "error".
class Endless extends EventEmitter {
  async *[Symbol.asyncIterator]() {
    yield data;
    await new Promise(() => {});
  }
}

// The expected results of each check, each as the check prints it: mostly the outcome of `verify`, then what became of the stream,
// for example the number of descriptors that are still open, the reason for which it was cancelled, or if it is still locked.
const EXPECTED = {
  closesOpenFiles: ["MISSING_SIGNATURE 0", "BARE_PUBLIC_KEY_LENGTH 0", "TypeError 0", "TypeError 0", "TypeError 0"],
  closesFileBeingOpened: ["MISSING_SIGNATURE 0"],
  cancelsWebStreams: [
    "MISSING_SIGNATURE MISSING_SIGNATURE false", "BARE_PUBLIC_KEY_LENGTH BARE_PUBLIC_KEY_LENGTH false", "TypeError TypeError false",
    "TypeError TypeError false", "TypeError TypeError false", "TypeError TypeError false", "MISSING_SIGNATURE undefined",
  ],
  rejectsMissingFile: ["ENOENT"],
  rejectsMissingFileAndSignature: ["rejected"],
  rejectsIfStreamFailsEarly: ["BEGUN"],
  rejectsIfStreamFailsBetweenPieces: ["BETWEEN"],
  rejectsAfterErrorEvent: ["EVENT"],
  ignoresErrorAfterRejection: ["MISSING_SIGNATURE true"],
  rejectsFailedWebStreams: ["start", "pull", "MISSING_SIGNATURE ERR_INVALID_STATE"],
  stopsWhenSignalAborts: [
    "before web GONE GONE", "before node GONE true", "before own GONE undefined", "meanwhile web GONE GONE",
    "meanwhile node GONE true",
    "meanwhile own GONE undefined", "between GONE 1 0",
  ],
  closesVerifiedStreams: ["accepted,accepted 0 false"],
};

const CHECKS = {
  // After each kind of rejection, open files are closed.
  async closesOpenFiles() {
    const results = [];
    for (const otherArguments of REJECTED) {
      const before = countDescriptors();
      const outcomes = await Promise.all((await openStreams()).map(stream => outcome(verify(stream, ...otherArguments))));
      results.push(`${[...new Set(outcomes)]} ${await countUnclosed(before)}`);
    }
    return results;
  },
  // `verify` rejects while Node is still opening the file of the stream. The file must be closed once it is open.
  async closesFileBeingOpened() {
    const before = countDescriptors(), outcomes = new Set();
    for (let count = 0; count < STREAM_COUNT; count += 1) {
      outcomes.add(await outcome(verify(createReadStream(dataPath), "no signature", key)));
    }
    await wait(OPENING_MS);
    return [`${[...outcomes]} ${await countUnclosed(before)}`];
  },
  // Web streams are cancelled, even after a piece was read. If an iterator of a web stream is passed, that stream is cancelled too.
  async cancelsWebStreams() {
    const results = [];
    for (const otherArguments of REJECTED) {
      const {stream, record} = webStream([data]);
      results.push(`${await outcome(verify(stream, ...otherArguments))} ${record.cancelled} ${stream.locked}`);
    }
    const {stream, record} = webStream(["a text"]);
    results.push(`${await outcome(verify(stream, signature, key))} ${record.cancelled} ${stream.locked}`);
    const iterated = webStream([data]);
    results.push(`${await outcome(verify(iterated.stream.values(), "no signature", key))} ${iterated.record.cancelled}`);
    return results;
  },
  // The error of a missing file rejects the promise.
  async rejectsMissingFile() {
    return [await outcome(verify(createReadStream(`${dataPath}.absent`), signature, key))];
  },
  // If the file is missing and the signature is malformed, the promise rejects with either error.
  async rejectsMissingFileAndSignature() {
    const error = await outcome(verify(createReadStream(`${dataPath}.absent`), "no signature", key));
    await wait(100);
    return [["ENOENT", "MISSING_SIGNATURE"].includes(error) ? "rejected" : error];
  },
  // The stream fails while the library is loaded.
  async rejectsIfStreamFailsEarly() {
    const stream = failingStream([], "BEGUN");
    stream.read();
    return [await outcome(verify(stream, signature, key))];
  },
  // The stream fails after a piece.
  async rejectsIfStreamFailsBetweenPieces() {
    return [await outcome(verify(failingStream([data], "BETWEEN"), signature, key))];
  },
  // The stream reports an error by an event only, not by its iteration.
  async rejectsAfterErrorEvent() {
    const stream = new Endless();
    const promise = verify(stream, signature, key);
    setTimeout(() => stream.emit("error", Object.assign(new Error(), {code: "EVENT"})), 200);
    return [await outcome(promise)];
  },
  // The stream fails while it is destroyed, after the promise was rejected.
  async ignoresErrorAfterRejection() {
    const stream = new Readable({read() {}, destroy: (_, done) => setTimeout(done, 50, new Error("late"))});
    const error = await outcome(verify(stream, "no signature", key));
    await wait(200);
    return [`${error} ${stream.destroyed}`];
  },
  // Web streams: one that has failed, one that fails when it is read, and one that is locked to another reader.
  async rejectsFailedWebStreams() {
    const streamFailingAt = phase => new ReadableStream({
      [phase]: controller => controller.error(Object.assign(new Error(), {code: phase})),
    });
    const results = [];
    for (const phase of ["start", "pull"]) {
      results.push(await outcome(verify(streamFailingAt(phase), signature, key)));
    }
    const lockedStream = new ReadableStream();
    lockedStream.getReader();
    const outcomes = [
      await outcome(verify(lockedStream, "no signature", key)),
      await outcome(verify(lockedStream, signature, key)),
    ];
    return [...results, outcomes.join(" ")];
  },
  // The signal was aborted before the call, while a stream waits for data, or between two pieces. The streams are a web stream, one
  // of Node, and one of another class (Endless), which is neither cancelled nor destroyed.
  async stopsWhenSignalAborts() {
    const results = [], reason = Object.assign(new Error(), {code: "GONE"}), waitingStreams = () => ({
      web: webStream([]), node: {stream: new Readable({read() {}}), record: {}}, own: {stream: new Endless(), record: {}},
    });
    // Load the library first, so that the streams are being read when the signal aborts.
    await outcome(verify(data, signature, key));
    for (const phase of ["before", "meanwhile"]) {
      for (const [kind, {stream, record}] of Object.entries(waitingStreams())) {
        const controller = new AbortController(), abort = () => controller.abort(reason);
        phase === "before" ? abort() : setTimeout(abort, 100);
        const error = await outcome(verify(stream, signature, key, {signal: controller.signal}));
        await wait(50);
        results.push(`${phase} ${kind} ${error} ${record.cancelled ?? stream.destroyed}`);
      }
    }
    const controller = new AbortController(), reportedBytes = [];
    const progress = bytes => { reportedBytes.push(bytes); controller.abort(reason); };
    const error = await outcome(verify([data, data, data], signature, key, {progress, signal: controller.signal}));
    const listeners = getEventListeners(controller.signal, "abort").length;
    return [...results, `between ${error} ${reportedBytes.length} ${listeners}`];
  },
  // Streams that verify are closed and unlocked.
  async closesVerifiedStreams() {
    const before = countDescriptors(), blobStream = new Blob([data]).stream();
    const outcomes = [
      await outcome(verify(createReadStream(dataPath), signature, key)),
      await outcome(verify(blobStream, signature, key))
    ];
    return [`${outcomes} ${await countUnclosed(before)} ${blobStream.locked}`];
  },
};

const [expected, actual] = [EXPECTED[checkName], await CHECKS[checkName]()];
const length = Math.max(expected.length, actual.length);
process.stdout.write(Array.from({length}, (_, index) => `${expected[index]}\t${actual[index]}\n`).join(""));

// SPDX-License-Identifier: MIT
// Reads data of any kind in pieces, and feeds it to a verifier or signer. If a
// stream is not read to its end, it is cancelled.

import { argumentError, bytesOf, mustBe, optionsOf } from "./arguments.js";
import { ERRORS } from "./errors.js";
import { checkedResult, platformError } from "./library_loader.js";

// The maximum size of a slice of data that is fed at once. Hashing a slice
// takes a few milliseconds. Other tasks run between two slices.
const SLICE_BYTES = 1048576;

// Makes the object that createVerifier and createSigner return. It passes each
// piece of data to `feed`, and its method `end` resolves to the result of the
// parameter `end`. After that, its methods fail with NOT_BEGUN, which also
// means "already ended". An exception is `end` after `writable` was closed or
// aborted, or after a write to it failed: `end` can still be called, and
// resolves to the result, or rejects with the error or the reason for aborting.
// The function `moreProperties` returns further properties of the object. Its
// parameter is a function that throws NOT_BEGUN after the end.
export function pieceConsumer(library, feed, end, moreProperties = () => ({})) {
  let bytesFed = 0;
  let isEnded = false;
  let writable;
  // A promise of the result, after `writable` was closed or aborted.
  let streamResult;
  const checkNotEnded = () =>
    checkedResult(library, { number: isEnded ? ERRORS.NOT_BEGUN : 0 });
  const update = (piece) => {
    checkNotEnded();
    const bytes = bytesOf(piece);
    mustBe(bytes !== null, "a piece of data", "bytes", piece);
    feed(bytes);
    bytesFed += bytes.length;
  };
  const endOnce = async () => {
    checkNotEnded();
    isEnded = true;
    return end();
  };
  const fail = (why) => {
    isEnded = true;
    streamResult = Promise.reject(why);
    // The stream reports the error, so this must not be an unhandled rejection.
    streamResult.catch(() => {});
  };
  const sink = {
    async write(piece) {
      try {
        for await (const slice of slicesOfData([piece])) {
          update(slice);
        }
      } catch (why) {
        fail(why);
        throw why;
      }
    },
    async close() {
      streamResult = endOnce();
      await streamResult;
    },
    abort: fail,
  };
  return Object.freeze({
    ...moreProperties(checkNotEnded),
    get bytes() {
      return bytesFed;
    },
    get writable() {
      writable ??= new (writableStreamClass())(sink);
      return writable;
    },
    update,
    async end() {
      return streamResult ?? endOnce();
    },
  });
}

// Returns the platform's WritableStream.
function writableStreamClass() {
  const { WritableStream } = globalThis;
  if (WritableStream === undefined) {
    throw platformError("this platform has no WritableStream");
  }
  return WritableStream;
}

// Feeds all data to a verifier or signer, and resolves to the result of its
// `end`. `begin` makes the verifier or signer. It gets the options without
// `progress` and `signal`. `optionNames` lists the allowed options.
export async function feedAll(data, options, optionNames, begin) {
  const bytes = bytesOf(data);
  const isBlob = bytes === null && typeof data?.stream === "function";
  const source = isBlob ? data.stream() : data;
  const total = isBlob ? data.size : bytes?.length;
  const readOptions = () => optionsOf(options, ...optionNames);
  const stream = bytes === null ? source : null;
  const run = async ({ progress, signal, ...consumerOptions }) => {
    // No prototype, as in the result of `readOptions`, so that a property of
    // Object.prototype is not taken for an option.
    const consumer = await begin({ __proto__: null, ...consumerOptions });
    for await (const piece of slicesOfData(source, signal)) {
      await consumer.update(piece);
      progress?.(consumer.bytes, total);
    }
    return consumer.end();
  };
  return releasingOnError(stream, readOptions, run);
}

// Yields the data in slices of at most SLICE_BYTES bytes, and lets other tasks
// run each time that it has yielded SLICE_BYTES bytes. Throws the reason of the
// signal if the signal aborts.
async function* slicesOfData(source, signal) {
  let bytesSincePause = 0;
  for await (const piece of piecesOfData(source, signal)) {
    for (const slice of slicesOfPiece(piece)) {
      if (signal?.aborted) {
        throw signal.reason;
      }
      yield slice;
      // The pause is before the next slice is cut, so that slicesOfPiece sees
      // if another task has changed the buffer.
      bytesSincePause += slice?.byteLength ?? 0;
      if (bytesSincePause >= SLICE_BYTES) {
        await nextTask();
        bytesSincePause = 0;
      }
    }
  }
}

// Yields the slices of a piece of bytes. Yields anything else unchanged, and
// `update` then throws a TypeError for it.
function* slicesOfPiece(piece) {
  const bytes = bytesOf(piece);
  if (bytes === null || bytes.length <= SLICE_BYTES) {
    yield piece;
    return;
  }
  const { length } = bytes;
  for (let begin = 0; begin < length; begin += SLICE_BYTES) {
    const slice = bytes.subarray(begin, begin + SLICE_BYTES);
    // If another task has detached or shrunk the buffer, the rest of the data
    // must be neither verified nor signed.
    if (slice.length !== Math.min(SLICE_BYTES, length - begin)) {
      const message = "the data was detached or shortened while it was read";
      throw argumentError(message);
    }
    yield slice;
  }
}

// Resolves in a later task, so that timers and events are handled before. Uses
// a message if possible, because browsers delay timers by 4 ms, or by a second
// if the tab is in the background. On a platform that has neither messages nor
// timers, resolves at once.
function nextTask() {
  const { MessageChannel, setTimeout } = globalThis;
  return new Promise((resolve) => {
    if (!MessageChannel) {
      return setTimeout ? setTimeout(resolve) : resolve();
    }
    const { port1, port2 } = new MessageChannel();
    port1.onmessage = () => {
      port1.close();
      resolve();
    };
    return port2.postMessage(null);
  });
}

// Returns an iterable of the pieces of data of any kind.
function piecesOfData(source, signal) {
  if (bytesOf(source) !== null) {
    return [source];
  }
  if (typeof source?.getReader === "function") {
    return piecesOfReader(source.getReader(), signal);
  }
  const isSyncIterable =
    typeof source === "object" && source?.[Symbol.iterator];
  const isIterable = source?.[Symbol.asyncIterator] || isSyncIterable;
  const expected = "bytes, a Blob, a stream or an iterable of bytes";
  mustBe(isIterable, "data", expected, source);
  return source;
}

// Yields the pieces of a web stream. Cancels the stream if the signal aborts.
async function* piecesOfReader(reader, signal) {
  const stop = () => reader.cancel(signal.reason).catch(() => {});
  signal?.addEventListener("abort", stop);
  try {
    let result = await reader.read();
    while (!result.done) {
      yield result.value;
      result = await reader.read();
    }
  } finally {
    signal?.removeEventListener("abort", stop);
    reader.releaseLock();
  }
}

// Calls `run` with the result of `readOptions`, and resolves to its result.
// Rejects at once if a stream of Node fails meanwhile, or the signal aborts.
// If it rejects for any reason, it releases the stream. The listener for errors
// of the stream is not removed, because a stream can still fail after its
// release, and an error without a listener would end the program.
async function releasingOnError(stream, readOptions, run) {
  let reject;
  const interruption = new Promise((_, rejectInterruption) => {
    reject = rejectInterruption;
  });
  interruption.catch(() => {});
  stream?.on?.("error", reject);
  let signal;
  const abort = () => reject(signal.reason);
  try {
    const options = readOptions();
    ({ signal } = options);
    signal?.addEventListener("abort", abort);
    if (signal?.aborted) {
      throw signal.reason;
    }
    return await Promise.race([interruption, run(options)]);
  } catch (why) {
    // An error of `release` is ignored, because the promise rejects with the
    // first error.
    release(stream, why).catch(() => {});
    throw why;
  } finally {
    signal?.removeEventListener("abort", abort);
  }
}

// Destroys a stream of Node, cancels a web stream, or ends an iterator, so that
// it releases its resources although it was not read to its end.
async function release(source, why) {
  if (source?.destroy) {
    return source.destroy();
  }
  return source?.cancel ? source.cancel(why) : source?.return?.();
}

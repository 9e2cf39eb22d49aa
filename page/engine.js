// SPDX-License-Identifier: MIT
// Hashes a file in three worker threads, which take turns.
//
// While one thread hashes a slice of the file, the others read the next slices into the memory of their modules,
// because reading takes a browser up to twice as long as hashing. The page passes the hash states from one thread to
// the next. The threads run the same script as the page. If the browser or the server does not allow worker threads,
// the page hashes in its own thread.

// The maximum time in milliseconds for starting the threads, and for reading a key or signature file.
const TIMEOUT_MS = 10000;
const THREADS = 3;
// The number of bytes that a thread reads and hashes at a time. Each thread has two copies of a slice for a short time,
// and the page should take at most 32 MiB more than an empty page.
const SLICE_BYTES = 3 * 1048576;
// The maximum size of a file that is hashed in the page's own thread, which is faster than waiting for a worker thread.
const MAX_PAGE_THREAD_BYTES = 1048576;
// Before it gets a file, each thread hashes WARMUP_BYTES bytes WARMUP_TIMES times, so that the browser optimizes the module.
const WARMUP_BYTES = 262144;
const WARMUP_TIMES = 8;

// True in Firefox, the only browser that has this error class. Firefox frees the memory of a buffer at once if the
// buffer is transferred to size 0. Chromium does not.
const IS_FIREFOX = typeof InternalError === "function";

// ---- In a worker thread ----

// Frees the memory of an array at once, by posting its buffer to a closed port. Otherwise the memory would be in use until the next
// garbage collection, and could grow to hundreds of megabytes.
function freeBuffer(bytes) {
  if (IS_FIREFOX && bytes.buffer.transfer) {
    bytes.buffer.transfer(0);
    return;
  }
  const {port1, port2} = new MessageChannel();
  port2.close();
  port1.postMessage(null, [bytes.buffer]);
  port1.close();
}

// Reads a slice of a file into the memory of the library. Returns true if all of the slice was read.
function readSlice(threadLibrary, file, begin, end) {
  try {
    const bytes = new Uint8Array(new FileReaderSync().readAsArrayBuffer(file.slice(begin, end)));
    const isWhole = bytes.length === Math.min(end, file.size) - begin;
    if (isWhole) {
      threadLibrary.place(bytes);
    }
    freeBuffer(bytes);
    return isWhole;
  } catch {
    return false;
  }
}

// Handles the messages of the page. When it gets {file, begin}, the thread reads the slice that begins there. When it
// gets {states}, it feeds the slice to these hash states and posts them back, or posts null if the slice could not be
// read; then it reads its next slice.
async function serve() {
  const threadLibrary = await Library.load(await moduleBytes());
  const slice = Math.min(threadLibrary.pieceBytes, SLICE_BYTES);
  for (let times = 0; times < WARMUP_TIMES; times += 1) {
    threadLibrary.feed(threadLibrary.begin(), new Uint8Array(WARMUP_BYTES));
  }
  let file = null;
  let begin = 0;
  let isPlaced = false;
  const place = offset => {
    begin = offset;
    isPlaced = begin < file.size && readSlice(threadLibrary, file, begin, begin + slice);
  };
  onmessage = ({data}) => {
    if (data.file) {
      file = data.file;
      place(data.begin);
      return;
    }
    const isFed = isPlaced && threadLibrary.feedHashes(data.states) === 0;
    postMessage(isFed ? data.states : null);
    place(begin + THREADS * slice);
  };
  // Tells the page that the thread is ready, and the size of slices.
  postMessage(slice);
}

// ---- In the page ----

function bytesOfBase64(base64) {
  return Uint8Array.from(atob(base64), character => character.charCodeAt(0));
}

// Returns the module, which is compressed in the page.
async function moduleBytes() {
  const bytes = new Blob([bytesOfBase64(MODULE)]).stream().pipeThrough(new DecompressionStream("deflate-raw"));
  return new Uint8Array(await new Response(bytes).arrayBuffer());
}

// Returns the bytes of a part of a file, or null if the part cannot be read.
async function bytesOfFile(file, begin, end) {
  try {
    const bytes = new Uint8Array(await (begin === 0 && end >= file.size ? file : file.slice(begin, end)).arrayBuffer());
    return bytes.length === Math.min(end, file.size) - begin ? bytes : null;
  } catch {
    return null;
  }
}

// Hashes in the page's own thread.
class PageEngine {
  // Feeds a file to a Reading. Calls reportProgress with the number of bytes that were fed, before each slice. Returns
  // true if all of the file was fed, and false if it could not be read or reportProgress returned false.
  async feedFile(file, reading, reportProgress) {
    const slice = reading.library.pieceBytes;
    let next = bytesOfFile(file, 0, slice);
    for (let begin = 0; begin < file.size; begin += slice) {
      const bytes = await next;
      if (bytes === null || !reportProgress(begin)) {
        return false;
      }
      next = begin + slice < file.size ? bytesOfFile(file, begin + slice, begin + 2 * slice) : null;
      reading.feed(bytes);
    }
    return true;
  }
}

// Hashes in worker threads.
class WorkerEngine {
  constructor(threads) {
    this.threads = threads;
  }

  // Does the same as PageEngine.feedFile.
  async feedFile(file, reading, reportProgress) {
    this.threads.forEach((thread, index) => thread.postMessage({file, begin: index * this.slice}));
    for (let begin = 0, turn = 0; begin < file.size; begin += this.slice, turn = (turn + 1) % THREADS) {
      const states = await replyOf(this.threads[turn], {states: reading.states});
      if (states === null || !reportProgress(begin)) {
        return false;
      }
      reading.states = states;
    }
    return true;
  }

  end() {
    this.threads.forEach(thread => thread.terminate());
  }

  // Starts the threads, and waits until all of them are ready.
  static async begin(url) {
    const engine = new WorkerEngine(Array.from({length: THREADS}, () => new Worker(url)));
    try {
      const timeout = new Promise((_, reject) => setTimeout(reject, TIMEOUT_MS));
      [engine.slice] = await Promise.race([Promise.all(engine.threads.map(thread => replyOf(thread))), timeout]);
      return engine;
    } catch (why) {
      engine.end();
      throw why;
    }
  }
}

// Posts a message, if there is one, to a thread, and returns the next message from the thread.
function replyOf(thread, message) {
  return new Promise((resolve, reject) => {
    thread.onmessage = ({data}) => resolve(data);
    thread.onerror = thread.onmessageerror = () => reject(new Error("the thread failed"));
    if (message) {
      thread.postMessage(message);
    }
  });
}

// The URL of the script for the threads. It is created once, because its Trusted Types policy can be created only once.
let workerUrl;

function urlOf(script) {
  const url = URL.createObjectURL(new Blob([script], {type: "text/javascript"}));
  const policy = globalThis.trustedTypes?.createPolicy("minisign-thread", {createScriptURL: () => url});
  return policy ? policy.createScriptURL("") : url;
}

async function startEngine(script) {
  try {
    workerUrl ??= urlOf(script);
    return await WorkerEngine.begin(workerUrl);
  } catch {
    return new PageEngine();
  }
}

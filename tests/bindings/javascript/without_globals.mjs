// A test program that verifies with the package where the only globals are those of the language and those on the command line:
//
//     node --experimental-vm-modules without_globals.mjs context GLOBAL ..    in a new context
//     node --experimental-vm-modules without_globals.mjs thread GLOBAL ..     in a thread, after deleting all other globals
//
// It reads a case from standard input, as verifying.mjs does. It verifies the data in each form, and then other data, and prints a
// line for each.

import {webcrypto} from "node:crypto";
import {readFileSync} from "node:fs";
import vm from "node:vm";
import {isMainThread, parentPort, Worker, workerData} from "node:worker_threads";

const PACKAGE = new URL("node_modules/minisign-proved/", import.meta.url);
const INDEX = new URL("index.js", PACKAGE).href;
const LANGUAGE = new Set(vm.runInNewContext("Object.getOwnPropertyNames(globalThis)"));
LANGUAGE.delete("WebAssembly");

const descriptors = {...Object.getOwnPropertyDescriptors(globalThis), crypto: {value: globalThis.crypto ?? webcrypto}};

// Loads the package in a context that has only these globals, and where its files can import only each other.
async function inContext(names) {
  const context = vm.createContext({});
  vm.runInContext("delete globalThis.WebAssembly; delete globalThis.console", context);
  for (const name of names) {
    Object.defineProperty(context, name, descriptors[name]);
  }
  const files = new Map();
  const file = name => {
    if (!files.has(name)) {
      const text = readFileSync(new URL(name, PACKAGE), "utf8");
      files.set(name, new vm.SourceTextModule(text, {context, identifier: name}));
    }
    return files.get(name);
  };
  await file("./index.js").link(file);
  await file("./index.js").evaluate();
  return file("./index.js").namespace;
}

// Loads the package in this thread, after deleting all other globals.
async function inThread(names) {
  for (const name of Object.getOwnPropertyNames(globalThis)) {
    if (!LANGUAGE.has(name)) {
      delete globalThis[name];
    }
  }
  for (const name of names) {
    Object.defineProperty(globalThis, name, {...descriptors[name], configurable: true});
  }
  return import(INDEX);
}

// Classes that the test itself needs after the globals were deleted.
const SavedBlob = Blob, SavedStream = ReadableStream;

async function resultLines({verify, MinisignError}, [key, data, signature]) {
  const pieces = () => [data.subarray(0, 1), data.subarray(1)];
  const start = controller => {
    pieces().forEach(piece => controller.enqueue(piece));
    controller.close();
  };
  const forms = [data, new SavedBlob(pieces()), pieces(), new SavedStream({start}), data.subarray(1)];
  const lines = [];
  for (const form of forms) {
    lines.push(await verify(form, signature, key).then(
      ({trustedComment}) => `accepted ${trustedComment}`,
      why => why instanceof MinisignError ? `rejected ${why.code}` : `failed ${why}`
    ));
  }
  return lines;
}

if (isMainThread) {
  const [place, ...names] = process.argv.slice(2);
  const [key, ...otherParts] = readFileSync(0, "utf8").trim().split(" ").map(digits => Buffer.from(digits, "hex"));
  const fields = [key.toString(), ...otherParts.map(part => new Uint8Array(part))];
  if (place === "context") {
    console.log((await resultLines(await inContext(names), fields)).join("\n"));
  } else {
    new Worker(new URL(import.meta.url), {workerData: {names, fields}}).on("message", lines => console.log(lines.join("\n")));
  }
} else {
  const post = parentPort.postMessage.bind(parentPort);
  post(await resultLines(await inThread(workerData.names), workerData.fields));
}

// Uses a secret key, clears it and collects garbage, so that javascript_memory.py can search this process for the seed.
// javascript.py copies this program into a project directory, beside `node_modules`.
//
//     node --expose-gc heap.mjs read KEY [PASSWORD]    reads the key from a file
//     node --expose-gc heap.mjs generate               generates a key
//
// It prints the unencrypted key file, and waits for a line while it holds the key. Then it clears the key. After that it collects
// garbage, prints `cleared`, and waits for a line, in a loop, until it is killed.

import {readFileSync} from "node:fs";
import {createInterface} from "node:readline";
import {setTimeout as wait} from "node:timers/promises";

import {clearSecretKey, generateSecretKey, readSecretKey, sign, verify, writePublicKey, writeSecretKey} from "minisign-proved";

const SIGNATURE_COUNT = 40, COLLECTION_COUNT = 4;

const [command, path, password] = process.argv.slice(2);
const input = createInterface({input: process.stdin})[Symbol.asyncIterator]();

async function useKey(secretKey) {
  const data = new Uint8Array(1000), publicKey = await writePublicKey(secretKey);
  for (let count = 0; count < SIGNATURE_COUNT; count += 1) {
    await verify(data, await sign(data, secretKey), publicKey);
  }
}

async function collectGarbage() {
  for (let count = 0; count < COLLECTION_COUNT; count += 1) {
    globalThis.gc();
    await wait(30);
  }
}

async function newSecretKey() {
  const text = command === "generate" ? null : readFileSync(path);
  return text === null ? generateSecretKey() : readSecretKey(String(text), {password});
}

const secretKey = await newSecretKey();
await useKey(secretKey);
process.stdout.write(`${await writeSecretKey(secretKey, null)}`);
await input.next();
clearSecretKey(secretKey);
for (;;) {
  await collectGarbage();
  process.stdout.write("cleared\n");
  await input.next();
}

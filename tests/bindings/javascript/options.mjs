// Checks which objects the package accepts as options, in Node. javascript.py copies this program into a project directory, beside
// `node_modules`.
//
//     node options.mjs acceptsPlainObjects KEY DATA LEGACY         passes objects of each kind as options
//     node options.mjs ignoresPollutedPrototype KEY DATA LEGACY    makes calls while Object.prototype has additional properties
//
// LEGACY is a legacy signature, which verifies only with the option `allowLegacy`. Each line has the expected result, a tab, and
// the actual result.

import {readFileSync} from "node:fs";
import vm from "node:vm";

import {createSigner, createVerifier, generateSecretKey, readSecretKey, sign, verify, writeSecretKey} from "minisign-proved";

const [checkName, ...paths] = process.argv.slice(2);
const [key, data, legacySignature] = paths.map(path => readFileSync(path));

// Returns "accepted", or the code of the error, or the name of its class if it has none or is about an argument.
const outcome = promise => promise.then(
  () => "accepted", why => why?.code === "INVALID_ARGUMENT" ? why.name : why.code ?? why.name
);

class Options {
  allowLegacy = true;
}

async function acceptsPlainObjects() {
  const plainOptions = {allowLegacy: true}, {signal} = new AbortController(), secretKey = await generateSecretKey();
  const text = await writeSecretKey(secretKey, null);
  const rows = [
    ["accepted", plainOptions], ["accepted", Object.assign(Object.create(null), plainOptions)],
    ["accepted", vm.runInNewContext("({allowLegacy: true})")],
    ["accepted", {get allowLegacy() { return true; }}],
    ["accepted", Object.freeze({...plainOptions, signal, progress: undefined})],
    ["LEGACY_NOT_ACCEPTED", {}], ["LEGACY_NOT_ACCEPTED", undefined], ["LEGACY_NOT_ACCEPTED", {allowLegacy: undefined}],
    ["TypeError", Object.create(plainOptions)], ["TypeError", Object.create({allowLegacy: "yes"})],
    ["TypeError", Object.create(Object.create(null))],
    ["TypeError", Object.assign(Object.create(plainOptions), plainOptions)], ["TypeError", new Options()],
    ["TypeError", signal], ["TypeError", new AbortController()],
    ["TypeError", new Map([["allowLegacy", true]])], ["TypeError", []], ["TypeError", [true]],
    ["TypeError", new Date()], ["TypeError", () => plainOptions],
    ["TypeError", true], ["TypeError", "allowLegacy"], ["TypeError", null], ["TypeError", {...plainOptions, other: 1}],
    ["TypeError", {...plainOptions, [Symbol("s")]: 1}],
    ["TypeError", Object.defineProperty({...plainOptions}, "hidden", {value: 1})],
    ["TypeError", JSON.parse('{"__proto__": {"allowLegacy": true}}')],
  ];
  const lines = [];
  for (const [expected, options] of rows) {
    lines.push([expected, await outcome(verify(data, legacySignature, key, options))]);
    const otherCalls = expected !== "TypeError" ? [] : [
      createVerifier(legacySignature, key, options), sign(data, secretKey, options), createSigner(secretKey, options),
      readSecretKey(text, options),
      writeSecretKey(secretKey, null, options),
    ];
    lines.push(...(await Promise.all(otherCalls.map(outcome))).map(actual => ["TypeError", actual]));
  }
  return lines;
}

// The properties that are added to Object.prototype in turn. The package must not take them for options or for methods of data.
const POLLUTION = {
  allowLegacy: true, lowMemory: "no", mostRows: 1, password: "password", progress: () => { throw new RangeError(); },
  signal: AbortSignal.abort(),
  trustedComment: "polluted", untrustedComment: "polluted", name: "polluted", path: "polluted", on: 7, destroy: 7,
  stream: 7, getReader: 7, other: 7,
};

async function ignoresPollutedPrototype() {
  const keyFile = await writeSecretKey(await generateSecretKey(), null), lines = [];
  const makeCalls = async () => {
    const secretKey = await readSecretKey(keyFile), signature = await sign(data, secretKey);
    const signer = await createSigner(secretKey, {untrustedComment: "given", trustedComment: "given"});
    signer.update(data);
    lines.push(["false", String((signature + await signer.end()).includes("polluted"))]);
    lines.push([keyFile, await writeSecretKey(secretKey, null)].map(JSON.stringify));
    for (const options of [undefined, {}, {allowLegacy: false}]) {
      lines.push(["LEGACY_NOT_ACCEPTED", await outcome(verify(data, legacySignature, key, options))]);
    }
    lines.push(["LEGACY_NOT_ACCEPTED", await outcome(createVerifier(legacySignature, key))]);
    lines.push(["accepted", await outcome(verify(data, legacySignature, key, {allowLegacy: true}))]);
  };
  for (const [name, value] of Object.entries(POLLUTION)) {
    Object.defineProperty(Object.prototype, name, {value, writable: true, configurable: true, enumerable: true});
    try {
      await makeCalls();
    } catch (why) {
      lines.push([`nothing thrown for ${name}`, String(why)]);
    } finally {
      delete Object.prototype[name];
    }
  }
  return lines;
}

const lines = await {acceptsPlainObjects, ignoresPollutedPrototype}[checkName]();
process.stdout.write(lines.map(line => `${line.join("\t")}\n`).join(""));

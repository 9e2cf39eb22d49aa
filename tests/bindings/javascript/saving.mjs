// Checks that `saveVerified` in Node writes the target only after the data was verified, and that after any error the old file is
// unchanged and no temporary file is left. javascript.py copies this program into a project directory, beside `node_modules`.
//
//     node saving.mjs DIRECTORY KEY DATA SIGNATURE
//
// DIRECTORY is empty, and SIGNATURE is valid for DATA. For each check the program prints the expected result, a tab, and the actual
// result.

import {
  createReadStream,
  existsSync,
  mkdirSync,
  readdirSync,
  readFileSync,
  statSync,
  symlinkSync,
  chmodSync,
  writeFileSync
} from "node:fs";
import {join} from "node:path";
import {pathToFileURL} from "node:url";
import {setTimeout as wait} from "node:timers/promises";

import {saveVerified} from "minisign-proved/node";

const [directory, ...paths] = process.argv.slice(2);
const [key, data, signature] = paths.map(path => readFileSync(path));
const target = join(directory, "app"), results = [];
// Returns "saved", or the error with which saving failed.
const outcomeOf = promise => promise.then(
  () => "outcome", why => why instanceof TypeError ? `${why.name} ${why.code}` : why.code ?? why.name ?? why
);
const modeOf = path => (statSync(path).mode & 0o777).toString(8);
const namesInDirectory = () => readdirSync(directory).join(" ");
// Returns the content of the target, or "none", and the names of all files in the directory.
const state = () => `${existsSync(target) ? readFileSync(target, "latin1") : "none"} [${namesInDirectory()}]`;
const save = (source, options) => outcomeOf(saveVerified(source, target, signature, key, options));
process.umask(0);

// Yields pieces of data. After each piece, checks that the directory contains only a temporary file, which only its owner can read.
async function* checkedPieces(...pieces) {
  for (const piece of pieces) {
    yield piece;
    await wait(50);
    const names = readdirSync(directory);
    const isTemporary = /^\.minisign-[0-9a-f]{16}\.tmp$/.test(names[0]), mode = modeOf(join(directory, names[0]));
    results.push(["1 true 600 none", `${names.length} ${isTemporary} ${mode} ${existsSync(target) ? "target" : "none"}`]);
  }
}

// Yields the data, and then fails.
async function* failingPieces() {
  yield data;
  throw Object.assign(new Error(), {code: "GONE"});
}

results.push(["SIGNATURE_REFUSED none []", `${await save(checkedPieces(data, Buffer.from("x")))} ${state()}`]);
results.push(["outcome test [app] 644", `${await save(checkedPieces(data.subarray(0, 2), data.subarray(2)))} ${state()} ${
  modeOf(target)}`]);
const writeOldFile = () => { writeFileSync(target, "old"); chmodSync(target, 0o711); };
// After an error, the old file has the same content and mode as before, and the directory has no other file.
for (const [error, run] of [
  ["SIGNATURE_REFUSED", () => saveVerified(Buffer.from("x"), target, signature, key)],
  ["SIGNATURE_REFUSED", () => saveVerified([data, data], target, signature, key)],
  ["DIFFERENT_KEY_IDS", () => saveVerified(data, target, signature, "RWSQ" + key.toString().split("\n")[1].slice(4))],
  ["TypeError INVALID_ARGUMENT", () => saveVerified([data, "x"], target, signature, key)],
  ["TypeError INVALID_ARGUMENT", () => saveVerified(data, target, signature, key, {mode: 0o1000})],
  ["TypeError INVALID_ARGUMENT", () => saveVerified(data, target, signature, key, {mode: "644"})],
  ["TypeError INVALID_ARGUMENT", () => saveVerified(data, target, signature, key, {Mode: 0o644})],
  ["ENOENT", () => saveVerified(createReadStream(join(directory, "absent")), target, signature, key)],
  ["GONE", () => saveVerified(failingPieces(), target, signature, key)],
]) {
  writeOldFile();
  results.push([`${error} old [app] 711`, `${await outcomeOf(run())} ${state()} ${modeOf(target)}`]);
}
// Aborts before the temporary file is created (after 0 ms), and while data is being received (after 30 ms).
for (const milliseconds of [0, 30]) {
  writeOldFile();
  const controller = new AbortController(), reason = Object.assign(new Error(), {code: "ABORTED"});
  const endless = async function* () { for (;;) { yield Buffer.alloc(65536); await wait(1); } };
  const saving = save(endless(), {signal: controller.signal});
  await wait(milliseconds);
  controller.abort(reason);
  const result = await saving;
  await wait(100);
  results.push(["ABORTED old [app]", `${result} ${state()}`]);
}
writeOldFile();
const outcome = await outcomeOf(saveVerified(createReadStream(paths[1]), pathToFileURL(target), signature, key));
results.push(["outcome test [app] 711", `${outcome} ${state()} ${modeOf(target)}`]);
writeOldFile();
results.push(["outcome test [app] 755", `${await save(new Blob([data]), {mode: 0o755})} ${state()} ${modeOf(target)}`]);
const changingData = Buffer.from(data);
results.push(["outcome test [app]", `${await save((function* () { yield changingData; changingData.fill(0); })())} ${state()}`]);
// Directories and symbolic links are not replaced.
mkdirSync(join(directory, "d"));
symlinkSync(target, join(directory, "l"));
for (const [error, path] of [
       ["TypeError INVALID_ARGUMENT", join(directory, "d")],
       ["TypeError INVALID_ARGUMENT", join(directory, "l")],
       ["ENOENT", join(directory, "absent", "app")],
       ["TypeError INVALID_ARGUMENT", 7]]) {
  results.push([`${error} [app d l]`, `${await outcomeOf(saveVerified(data, path, signature, key))} [${namesInDirectory()}]`]);
}
const result = await saveVerified(data, target, signature, key);
results.push(["test", result.fields.file]);
console.log(results.map(([expected, actual]) => `${expected}\t${actual}`).join("\n"));

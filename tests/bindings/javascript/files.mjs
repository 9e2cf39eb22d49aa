// Checks how the package handles files, in Node. javascript.py copies this program into a project directory, beside `node_modules`.
//
//     node files.mjs comments FILE OTHER ..    prints the default trusted comments of these files, without the time, for
//                                              each form of data
//     node files.mjs specialNames              checks the default trusted comments for names that are not those of regular files
//     node files.mjs writeNew DIRECTORY        checks writing new files in this directory
//     node files.mjs failedWrites DIRECTORY    checks writing a new file while the file size limit is 0
//     node files.mjs keyIds KEY                prints the key ID of a secret key, and the first line of its public key
//
// The lines of `specialNames`, `writeNew` and `failedWrites` have the expected result, a tab, and the actual result.

import {File} from "node:buffer";
import {
  createReadStream,
  existsSync,
  lstatSync,
  readdirSync,
  readFileSync,
  readlinkSync,
  statSync,
  symlinkSync,
  writeFileSync
} from "node:fs";
import {basename, join} from "node:path";
import {Readable} from "node:stream";
import {pathToFileURL} from "node:url";

import {
  createSigner, generateSecretKey, readPublicKey, readSecretKey, readSignature, sign, writePublicKey, writeSecretKey,
} from "minisign-proved";
import {writeNew} from "minisign-proved/node";

const [command, ...words] = process.argv.slice(2);

const commentOf = text => text.split("\n")[2].replace(/timestamp:\d{10,}\t/, "timestamp:TIME\t");

async function comments(paths) {
  const secretKey = await generateSecretKey(), lines = [];
  for (const path of paths) {
    const forms = [createReadStream(path), createReadStream(Buffer.from(path)), createReadStream(pathToFileURL(path)),
                   new File([readFileSync(path)], basename(path))];
    const results = new Set();
    for (const form of forms) {
      results.add(commentOf(await sign(form, secretKey)));
    }
    lines.push([...results].join(" and "));
  }
  return lines;
}

// Returns a stream of Node whose property `path` has this value.
const streamOf = path => Object.assign(Readable.from([new Uint8Array(1)]), {path});

async function specialNames() {
  const secretKey = await generateSecretKey(), lines = [], bytes = new Uint8Array(1), {platform} = process;
  const outcome = (data, options) => sign(data, secretKey, options).then(commentOf, why => `${why.name}: ${why.message}`);
  const unnamedComment = "trusted comment: timestamp:TIME\thashed";
  const namedComment = name => `trusted comment: timestamp:TIME\tfile:${name}\thashed`;
  const errorOfName = why => `TypeError: a file name ${why} cannot be in the default trusted comment; pass a trustedComment`;
  const signer = await createSigner(secretKey);
  lines.push([unnamedComment, commentOf(await signer.end())]);
  const rows = [
    [unnamedComment, bytes],
    [unnamedComment, bytes.buffer],
    [unnamedComment, [bytes]],
    [unnamedComment, new Blob([bytes])],
    [unnamedComment, new Blob([bytes]).stream()],
    [unnamedComment, Readable.from([bytes])],
    [unnamedComment, new File([bytes], "")],
    [unnamedComment, Object.assign([bytes], {path: "a", name: "a"})],
    [unnamedComment, Object.assign(new Uint8Array(1), {path: "a", name: "a"})],
    [unnamedComment, streamOf(null)],
    [unnamedComment, streamOf(7)],
    [unnamedComment, streamOf("a/")],
    [namedComment("é 1.zip"), new File([bytes], "é 1.zip")], [namedComment("b"), new File([bytes], "a/b")],
    [namedComment("a\\b"), new File([bytes], "a\\b")],
    [namedComment("b"), streamOf("/a/b")], [namedComment("a\\b"), streamOf("a\\b")],
    [namedComment("\uFEFFb"), streamOf(Buffer.from("a/\uFEFFb"))],
    [errorOfName("with a line break"), new File([bytes], "a\nb")], [errorOfName("with a line break"), streamOf("a\rb")],
    [errorOfName("that is not UTF-8"), streamOf(Buffer.of(255))],
  ];
  for (const [expected, data] of rows) {
    lines.push([expected, await outcome(data)]);
  }
  lines.push(["trusted comment: chosen", await outcome(new File([bytes], "a\nb"), {trustedComment: "chosen"})]);
  Object.defineProperty(process, "platform", {value: "win32"});
  lines.push([namedComment("b"), await outcome(streamOf("C:\\a\\b"))], [namedComment("c"), await outcome(streamOf("C:\\a/c"))],
             [namedComment("a\\b"), await outcome(new File([bytes], "a\\b"))]);
  Object.defineProperty(process, "platform", {value: platform});
  return lines.map(line => line.map(JSON.stringify));
}

// Returns "written", or the code of the error, or the name of its class if it has none or is about an argument.
const result = promise => promise.then(() => "written", why => why?.code === "INVALID_ARGUMENT" ? why.name : why.code ?? why.name);
const modeOf = path => (statSync(path).mode & 0o7777).toString(8);

async function writeNewFiles([directory]) {
  const text = await writeSecretKey(await generateSecretKey(), null), lines = [], inDirectory = name => join(directory, name);
  for (const [umask, mode] of [[0, "600"], [0o22, "600"], [0o77, "600"], [0o277, "600"], [0o777, "600"]]) {
    process.umask(umask);
    const path = inDirectory(`mode-${umask}`);
    lines.push(
      ["written", await result(writeNew(path, text))],
      [mode, modeOf(path)],
      [text, readFileSync(path, "utf8")].map(JSON.stringify)
    );
  }
  process.umask(0o22);
  const bytes = new TextEncoder().encode(text);
  lines.push(["written", await result(writeNew(pathToFileURL(inDirectory("by-url")), bytes))]);
  lines.push(["true 600", `${readFileSync(inDirectory("by-url")).equals(bytes)} ${modeOf(inDirectory("by-url"))}`]);
  // The bytes of the caller are not cleared.
  lines.push(["true", String(bytes.some(byte => byte !== 0))]);
  writeFileSync(inDirectory("existing"), "old content", {mode: 0o644});
  symlinkSync("nowhere", inDirectory("link"));
  symlinkSync("existing", inDirectory("link-to-existing"));
  for (const name of ["existing", "link", "link-to-existing", ""]) {
    lines.push(["EEXIST", await result(writeNew(inDirectory(name), text))]);
  }
  const existingContent = readFileSync(inDirectory("existing"), "utf8");
  lines.push(["old content 644", `${existingContent} ${modeOf(inDirectory("existing"))}`]);
  lines.push(["nowhere", readlinkSync(inDirectory("link"))]);
  lines.push(["false", String(existsSync(inDirectory("nowhere")))]);
  lines.push(["true", String(lstatSync(inDirectory("link-to-existing")).isSymbolicLink())]);
  lines.push(["ENOENT", await result(writeNew(inDirectory("none/key"), text))]);
  lines.push(["ENOTDIR", await result(writeNew(inDirectory("existing/key"), text))]);
  const wrongArguments = [
    [inDirectory("no"), 7], [inDirectory("no"), undefined], [inDirectory("no"), "x".repeat(65536)], [7, text], [{}, text],
    [new URL("https://example.com/key"), text],
  ];
  for (const argumentsOfCall of wrongArguments) {
    const error = await writeNew(...argumentsOfCall).catch(why => why);
    lines.push(["true", String(error instanceof TypeError)]);
  }
  lines.push(["false", String(existsSync(inDirectory("no")))]);
  // Only one of 20 concurrent calls with the same path writes the file.
  const results = await Promise.all(Array.from({length: 20}, () => result(writeNew(inDirectory("one"), text))));
  lines.push(["1 19", `${results.filter(each => each === "written").length} ${results.filter(each => each === "EEXIST").length}`]);
  return lines;
}

async function failedWrites([directory]) {
  const text = await writeSecretKey(await generateSecretKey(), null), path = join(directory, "key"), lines = [];
  lines.push(["EFBIG", await result(writeNew(path, text))], ["", readdirSync(directory).join()]);
  return lines;
}

async function keyIds([path]) {
  const secretKey = await readSecretKey(readFileSync(path)), publicKey = await writePublicKey(secretKey);
  const parsedSignature = await readSignature(await sign(new Uint8Array(1), secretKey));
  const otherKeyIds = [await readPublicKey(publicKey), parsedSignature].map(({keyId}) => keyId);
  return [[...new Set([secretKey.keyId, ...otherKeyIds])].join(" and "), publicKey.split("\n")[0]];
}

const lines = await {comments, specialNames, writeNew: writeNewFiles, failedWrites, keyIds}[command](words);
process.stdout.write(lines.map(line => `${[line].flat().join("\t")}\n`).join(""));

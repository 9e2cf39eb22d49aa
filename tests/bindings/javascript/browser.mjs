// A test program that uses the package in a browser, in a page and in a worker. index.html runs it in both, with the cases of
// requests.json.

import {
  clearSecretKey, generateSecretKey, MinisignError, readSecretKey, sign, verify, verifyList, writePublicKey, writeSecretKey,
} from "./minisign-proved/index.js";

const bytesOf = digits => Uint8Array.from(digits.match(/../g) ?? [], pair => parseInt(pair, 16));
const hexOf = text => Array.from(new TextEncoder().encode(text), byte => byte.toString(16).padStart(2, "0")).join("") || "-";

async function answerOf(data, signature, key, options) {
  try {
    return `accepted ${hexOf((await verify(data, signature, key, options)).trustedComment)}`;
  } catch (why) {
    return why instanceof MinisignError ? `rejected ${why.code}` : String(why);
  }
}

// Returns a stream of the data in pieces of these lengths, which are repeated.
function streamOf(data, lengths) {
  let begin = 0, count = 0;
  return new ReadableStream({
    pull(controller) {
      if (begin >= data.length) {
        return controller.close();
      }
      const length = lengths[count % lengths.length];
      controller.enqueue(data.slice(begin, begin + length));
      begin += length;
      count += 1;
    },
  });
}

// Verifies data in each form that a browser has. Returns all results if they differ.
async function answerInPieces(data, signature, key) {
  const blob = new Blob([data]), address = URL.createObjectURL(blob);
  const forms = [
    data,
    data.buffer,
    blob,
    new File([data], "data"),
    blob.stream(),
    streamOf(data, [1000, 1, 65536]),
    (await fetch(address)).body
  ];
  const results = new Set(await Promise.all(forms.map(form => answerOf(form, signature, key))));
  URL.revokeObjectURL(address);
  return [...results].join(" and ");
}

// Resolves to true if a stream is cancelled when its signature is rejected.
function isCancelled() {
  return new Promise(resolve => {
    const stream = new ReadableStream({cancel: () => resolve(true)});
    verify(stream, "no signature", "no key").catch(() => setTimeout(resolve, 1000, false));
  });
}

// Signs and verifies with a generated key that was written and read again, and with an encrypted key. Returns the results, and the
// error of signing with a cleared key.
async function signingResults(encrypted) {
  const generated = await generateSecretKey(), results = [];
  const decrypted = await readSecretKey(encrypted, {password: "pass word", lowMemory: true});
  for (const [key, original] of [[await readSecretKey(await writeSecretKey(generated, null)), generated], [decrypted, decrypted]]) {
    const signature = await sign(new Blob(["data"]), key, {trustedComment: "version:2"});
    const result = await verify(new Blob(["data"]), signature, await writePublicKey(original));
    results.push(result.trustedComment, result.keyId === original.keyId && key.keyId === original.keyId, key.isWeak);
  }
  clearSecretKey(generated);
  return `${results} ${await sign(new Blob(["data"]), generated).catch(why => why.code)}`;
}

// Generates a key, and returns the encrypted secret key file and the public key file.
async function newKeyFiles() {
  const key = await generateSecretKey();
  return [await writeSecretKey(key, "pass word", {lowMemory: true}), await writePublicKey(key)];
}

// Resolves to true if a timer aborts the verification of a long array after a part of it was read.
async function isAborted() {
  const data = new Uint8Array(2 ** 28), key = await generateSecretKey(), controller = new AbortController();
  const texts = [await sign(new Uint8Array(1), key), await writePublicKey(key)];
  let bytesRead = 0;
  const options = {signal: controller.signal, progress: bytes => { bytesRead = bytes; }};
  setTimeout(() => controller.abort("gone"), 30);
  const reason = await verify(data, ...texts, options).catch(why => why);
  return reason === "gone" && bytesRead > 0 && bytesRead < data.length;
}

// Returns the default trusted comment of a file.
async function commentOfFile() {
  const key = await generateSecretKey(), file = new File(["data"], "app 1.zip");
  const {trustedComment} = await verify(file, await sign(file, key), await writePublicKey(key));
  return trustedComment.replace(/\d+/, "TIME");
}

// Verifies a file with a list, by the package's hash functions and by WebCrypto. Returns all results if they differ.
async function answerOfList([key, text, signature, listName, long, name, data]) {
  const results = new Set();
  const blob = new Blob([data]);
  for (const [method, form] of [["verifyListed", blob], ["verifyListed", data], ["verifyListedTrustingWebCrypto", blob]]) {
    try {
      const longDigest = new TextDecoder().decode(long);
      const list = await verifyList(text, signature, key, listName.length === 0 ? null : listName, {longDigest});
      results.add(`accepted ${hexOf(list.trustedComment)} ${(await list[method](form, name)).line}`);
    } catch (why) {
      results.add(why instanceof MinisignError ? `rejected ${why.code} ${why.line}` : String(why));
    }
  }
  return [...results].join(" and ");
}

async function answersOf({cases, pieces, vectors, lists, sealed}) {
  const answers = {
    legacy: [], strict: [], pieces: [], vectors: [], lists: [],
    isCancelled: await isCancelled(), isAborted: await isAborted(), defaultComment: await commentOfFile(),
    signingResults: await signingResults(sealed), keyFiles: await newKeyFiles(),
  };
  for (const parts of lists) {
    answers.lists.push(await answerOfList(parts.map(bytesOf)));
  }
  for (const [key, data, signature] of cases.map(parts => parts.map(bytesOf))) {
    answers.legacy.push(await answerOf(data, signature, key, {allowLegacy: true}));
    answers.strict.push(await answerOf(data, signature, key));
  }
  for (const [key, data, signature] of pieces.map(parts => parts.map(bytesOf))) {
    answers.pieces.push(await answerInPieces(data, signature, key));
  }
  for (const [key, data, signature] of vectors.map(parts => parts.map(bytesOf))) {
    answers.vectors.push(await answerOf(data, signature, key, {allowLegacy: true}));
  }
  return answers;
}

const answersToRequests = async () => answersOf(await (await fetch("requests.json")).json());

if (typeof document === "undefined") {
  answersToRequests().then(postMessage);
} else {
  const worker = new Worker("browser.mjs", {type: "module"});
  const workerAnswers = new Promise(
    (resolve, reject) => Object.assign(worker, {onmessage: event => resolve(event.data), onerror: reject})
  );
  const answers = await Promise.all([answersToRequests(), workerAnswers]).then(
    ([page, thread]) => ({page, thread}),
    why => ({why: String(why.message ?? why)})
  );
  document.body.textContent = JSON.stringify(answers);
  document.documentElement.dataset.ready = "";
}

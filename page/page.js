// SPDX-License-Identifier: MIT
// Accepts a public key, files and signatures from the visitor, and verifies one file after another with the proved library and the
// browser's Ed25519. build.py joins this file and the other files of PAGE_SCRIPTS to one script, so they share all names.
//
// A project can make a copy of the page for a release: a key, signatures and a signed list are then built into
// the page. This copy is called the page of the release. A link to the page can also contain a key and
// signatures, in its part after #.

const SIGNATURE_ENDING = ".minisig";
const KEY_ENDING = ".pub";
// The file name that a pasted signature gets.
const PASTED_NAME = "pasted.minisig";
// The maximum size of a file with a legacy signature. All of the file has to be in memory.
const MAX_LEGACY_BYTES = 64 * 1048576;
// The minimum time in milliseconds between two updates of the progress bar, because drawing takes long.
const PROGRESS_MS = 100;

const byId = id => document.getElementById(id);

// The library in the page's own thread. It parses keys and signatures, and gives the verdicts.
let library;
// A promise of the engine that hashes data (see engine.js).
let enginePromise;
// The public key, or null if there is none:
//   bytes, keyId  its struct and its key ID, as the library returns them
//   base64        its 56 characters
//   source        where it came from: kind, one of the kinds in KEY_SOURCES, and name, the name of its file, if any
let key = null;
// The signatures that are built into the page (isBuiltIn is true) or part of its link. Each has:
//   file          the signature, as a File
//   names         the names that its download may have
//   releaseName   the name under which the page lists its download
const presetSignatures = [];
// The downloads by their names, in the order in which they were added. A download is a file, a signature or both: what
// the visitor has added of a file and its signature. takeDownload says what properties it has.
const downloads = new Map();
// The downloads that have to be verified.
const unverified = new Set();
let isWorking = false;
// The signature that was pasted last, as a File, and how many were pasted.
let pastedSignature = null;
let pastedCount = 0;
// Resolves when all actions of the visitor so far are done. They run one after another, because an action may have to read a file
// first to recognize its kind.
let actionsDone = Promise.resolve();
// For each unfinished action, a function that returns true for the downloads that the action may change.
const unfinishedActions = new Set();
// The last action of the visitor. hasVerdict is true once a verdict that it caused was shown, hasBad once a bad one was.
let latestAction = {hasVerdict: false, hasBad: false};

// Runs an action of the visitor after all earlier ones. The downloads that it may change become unverified at once, and
// stay unverified until it is done, because reading a key, a file or a signature from a slow disk takes seconds.
function queueAction(act, mayChange = () => false) {
  // A function of its own for each action, because the set must not merge equal ones.
  const isChanging = download => mayChange(download);
  const begin = () => {
    latestAction = {hasVerdict: false, hasBad: false};
    return act();
  };
  const showPending = () => {
    document.documentElement.dataset.pending = unfinishedActions.size;
  };
  unfinishedActions.add(isChanging);
  showPending();
  [...downloads.values()].filter(isChanging).forEach(renew);
  showBand();
  actionsDone = actionsDone.then(begin).catch(() => addFilesMessage(WENT_WRONG)).finally(() => {
    unfinishedActions.delete(isChanging);
    showPending();
    reviewAll();
  });
}

// Returns true if an unfinished action may change this download.
function isBlocked(download) {
  return [...unfinishedActions].some(isChanging => isChanging(download));
}

// ---- The public key ----

// Reads a public key and shows it, or shows why there is no key. The bytes are those of a key file, or of its 56
// characters if isBare is true.
function setKey(fileBytes, isBare, source) {
  dropKey();
  if (fileBytes.length >= TEXT_BYTES) {
    showKeyMessage(TOO_LONG_A_KEY, ...nameInParentheses(source));
    return;
  }
  const {number: libraryNumber, keyId, key: bytes} = library.readKey(fileBytes, isBare);
  const text = new TextDecoder().decode(fileBytes);
  const base64 = libraryNumber === 0 ? base64OfKey(bytes) : "";
  // The library accepts a key with any algorithm, as the Rust crate does. The page accepts only "Ed", as Minisign writes it.
  const isOther = libraryNumber === 0 && !(isBare ? text : text.split("\n")[1]).includes(base64);
  const number = isOther ? UNKNOWN_ALGORITHM : libraryNumber;
  if (number === 0) {
    key = {bytes, keyId, base64, source};
    showKeyMessage("Key ", codeBox(keyId), ", ", ...sourceNodes(source), ".");
    byId("key-full").replaceChildren("In full: ", codeBox(base64));
    byId("key-full").hidden = false;
    byId("key-remove").hidden = source.kind === "page";
  } else {
    const hint = number === NOT_UTF8 ? "" : hintOf(text);
    const isKeyShown = HINTS_WITH_KEY.includes(hint) && KEY_SOURCES.get(source.kind).isTrusted;
    showKeyMessage(`No public key: ${HINTS.get(hint) ?? KEY_REASONS.get(number) ?? WENT_WRONG}`,
      ...(isKeyShown ? [" ", codeBox(keyIn(text))] : []), ...nameInParentheses(source));
  }
  byId("key-message").dataset.number = number;
}

// Returns the name of the file from which a key came, in parentheses, or nothing if the key came from no file.
function nameInParentheses({name}) {
  return name === undefined ? [] : [" (", nameBox(name), ")"];
}

// Removes the key, all verdicts, and the message about the key.
function clearKey() {
  dropKey();
  showKeyMessage();
}

// Removes the key and all verdicts.
function dropKey() {
  key = null;
  clearLog();
  delete byId("key-message").dataset.number;
  byId("key-full").hidden = byId("key-remove").hidden = true;
  for (const download of downloads.values()) {
    renew(download);
  }
}

function showKeyMessage(...nodes) {
  byId("key-message").replaceChildren(...nodes);
}

// Queues an action that sets or removes the key. The old key is removed at once.
function queueKeyAction(act) {
  clearKey();
  queueAction(act, () => true);
}

function queueKeyFile([file]) {
  queueKeyAction(() => takeKeyFile(file, "chosen"));
}

// Reads a key that was typed or pasted: the two lines of a key file, or only the second one.
function takeKeyText(typed) {
  const text = typed.trim();
  if (text === "") {
    clearKey();
  } else {
    setKey(new TextEncoder().encode(text), !text.includes("\n"), {kind: "typed"});
  }
}

// Reads a key file that was chosen as the key (kind "chosen"), or came with the downloads ("files").
async function takeKeyFile(file, kind) {
  clearKey();
  byId("key-text").value = "";
  const bytes = await bytesOfTextFile(file);
  if (bytes === null) {
    showKeyMessage(TOO_LONG_A_KEY, ...nameInParentheses(file));
  } else {
    setKey(bytes, false, {kind, name: file.name});
  }
}

function removeKey() {
  byId("key-text").value = "";
  clearKey();
  byId("key-text").focus();
}

// Loads the key and the signatures that are built into the page or part of its link. A built-in key takes
// precedence over one in the link.
function loadPresets() {
  const {keys, validKey, signatures} = partsOfLink(location.hash.slice(1));
  const add = (name, text, isBuiltIn) => {
    if (kindOfText(text) === "signature") {
      const names = [downloadName(name), ...namesIn(text)];
      presetSignatures.push({file: new File([text], name), names, isBuiltIn, releaseName: nameInRelease(name, text)});
    } else {
      addFilesMessage(NO_SIGNATURE_IN_ADDRESS);
    }
  };
  BUILT_IN_SIGNATURES.forEach(([name, text]) => add(name, text, true));
  signatures.forEach(text => add((namesIn(text)[0] ?? "link") + SIGNATURE_ENDING, text, false));
  if (BUILT_IN_KEY || validKey) {
    setKey(new TextEncoder().encode(BUILT_IN_KEY || validKey), true, {kind: BUILT_IN_KEY ? "page" : "link"});
  } else if (keys.length > 0) {
    showKeyMessage(NO_KEY_IN_ADDRESS);
  }
  if (BUILT_IN_KEY && keys.some(key => key !== BUILT_IN_KEY)) {
    byId("key-message").append(" ", OTHER_KEY_IN_ADDRESS);
  }
}

// Returns the signatures with which a download is verified, in the order in which they are tried:
//   1. the built-in signatures, so that an older file with its older signature does not pass for the file of this release;
//   2. the signature that the visitor added for the file, or the signatures in the link if there is none.
// If some of the built-in signatures are for the name of the file, only these are returned (isNamed is true), otherwise
// all of them. The same holds for the signatures in the link.
function signaturesOf({name, signature}) {
  const presetsFor = isBuiltIn => {
    const all = presetSignatures.filter(each => each.isBuiltIn === isBuiltIn);
    const matches = all.filter(each => each.names.some(other => isSimilarName(other, name)));
    const isNamed = matches.length > 0;
    return (isNamed ? matches : all).map(({file}) => ({file, isBuiltIn, isNamed}));
  };
  return [...presetsFor(true), ...(signature ? [{file: signature, isBuiltIn: false, isNamed: true}] : presetsFor(false))];
}

// ---- The files ----

// Returns the bytes of a key or signature file, or null if it is too long, cannot be read, or cannot be read within TIMEOUT_MS.
async function bytesOfTextFile(file) {
  const timeout = new Promise(resolve => setTimeout(resolve, TIMEOUT_MS, null));
  return file.size < TEXT_BYTES ? await Promise.race([bytesOfFile(file, 0, file.size), timeout]) : null;
}

// Returns the kind of a file: a result of kindOfText other than "", or "data". If the text does not show the
// kind, the name decides.
async function kindOfFile(file) {
  const bytes = await bytesOfTextFile(file);
  const kind = bytes === null ? "" : kindOfText(new TextDecoder().decode(bytes));
  if (kind) {
    return kind;
  }
  if (bytes?.[0] > MAX_ASCII && PGP_NAME.test(file.name)) {
    return "PGP";
  }
  const isKey = file.name.endsWith(KEY_ENDING) && file.size < TEXT_BYTES;
  return file.name.endsWith(SIGNATURE_ENDING) ? "signature" : isKey ? "key" : "data";
}

// Returns the name of the download to which a signature file with this name belongs: the name without .minisig, or else without its
// last extension.
function downloadName(signatureName) {
  const end = signatureName.lastIndexOf(SIGNATURE_ENDING);
  return end > 0 ? signatureName.slice(0, end) : signatureName.replace(/([^])\.[^.]*$/, "$1");
}

// Queues the action of adding files, which may change the downloads with the same or similar names.
function queueFiles(files, hasDirectories = false) {
  const names = new Set(files.flatMap(({name}) => [name, downloadName(name)]).map(bareName));
  queueAction(() => takeFiles(files, hasDirectories), ({name}) => names.has(bareName(name)));
}

// Adds files that were chosen or dropped together. Each is a public key, a signature or a download. If there is exactly
// one download and one signature, they belong together, whatever their names are.
async function takeFiles(files, hasDirectories = false) {
  clearMessages();
  if (hasDirectories) {
    addFilesMessage(HAS_DIRECTORIES);
  }
  const names = new Set(files.map(file => file.name));
  // A file is a download, whatever its content, if it was one before or comes with its signature.
  const isDownload = ({name}) => !name.endsWith(SIGNATURE_ENDING) &&
    (names.has(name + SIGNATURE_ENDING) || downloads.has(name) || presetSignatures.some(each => each.names.includes(name)));
  const kindOf = async file => isDownload(file) ? "data" : await kindOfFile(file);
  const filesWithKinds = await Promise.all(files.map(async file => ({file, kind: await kindOf(file)})));
  const filesOf = kind => filesWithKinds.filter(each => each.kind === kind).map(each => each.file);
  const [data, signatures] = [filesOf("data"), filesOf("signature")];
  const isPair = data.length === 1 && signatures.length === 1;
  for (const {file, kind} of filesWithKinds) {
    if (kind === "data") {
      takeDownload(file, file.name, "data");
    } else if (kind === "signature") {
      takeDownload(file, isPair ? data[0].name : downloadName(file.name), "signature");
    }
  }
  for (const kind of ["secret key", "PGP"]) {
    for (const file of filesOf(kind)) {
      addFilesMessage(nameBox(file.name), ` ${HINTS.get(kind)}`);
    }
  }
  pairLoneParts();
  await takeKeysAmongFiles(filesOf("key"));
}

// Queues the action of changing the text in the field for the signature. The signature that was pasted before is no longer used.
function queueSignatureText(typed) {
  queueAction(() => takeSignatureText(typed), hasPastedSignature);
}

// Returns true if the signature of a download is the one that was pasted last.
function hasPastedSignature({signature}) {
  return signature !== null && signature === pastedSignature;
}

// Reads a pasted text as a signature. It replaces the signature that was pasted before, even if that one was for another file.
function takeSignatureText(typed) {
  clearMessages();
  const text = typed.trim().replace(/\n\s+/g, "\n");
  const kind = kindOfText(text);
  const target = kind === "signature" ? downloadOfPasted(text) : undefined;
  [...downloads.values()].filter(download => hasPastedSignature(download) && download !== target).forEach(removeSignature);
  if (kind === "signature") {
    pastedSignature = new File([text], PASTED_NAME);
    takeDownload(pastedSignature, target?.name ?? "pasted", "signature");
  } else if (text !== "") {
    addFilesMessage(HINTS.get(kind) ?? NO_SIGNATURE);
  }
}

// Returns the download to which a pasted signature belongs, if any. Only downloads without a signature, or with the
// signature that was pasted before, are considered: the only one with a signed name; or else the only one for which no
// signature was ever pasted; or else the one for which a signature was pasted last.
function downloadOfPasted(text) {
  const names = namesIn(text);
  const choices = [...downloads.values()].filter(download => !download.signature || hasPastedSignature(download));
  const matches = choices.filter(({name}) => names.some(other => isSimilarName(name, other)));
  const [unpasted, otherUnpasted] = choices.filter(({pastedAt}) => pastedAt === 0);
  const [last] = choices.filter(({pastedAt}) => pastedAt > 0).sort((one, other) => other.pastedAt - one.pastedAt);
  return matches.length === 1 ? matches[0] : unpasted && !otherUnpasted ? unpasted : last;
}

// Removes the signature of a download, and the download itself if it has no data.
function removeSignature(download) {
  download.signature = null;
  if (download.data) {
    renew(download);
  } else {
    remove(download);
  }
}

// Pairs files that have no signature with signatures that have no file, if their names are alike. If there is only one
// of each, they are paired whatever their names are, unless the page or its link has signatures.
function pairLoneParts() {
  const files = downloadsWithout("signature");
  const signatures = downloadsWithout("data");
  const isPair = files.length === 1 && signatures.length === 1 && presetSignatures.length === 0;
  for (const lone of signatures) {
    const file = files.find(other => !other.signature && (isPair || isSimilarName(other.name, lone.name)));
    if (file) {
      takeDownload(lone.signature, file.name, "signature");
      remove(lone);
    }
  }
}

// Returns the downloads without a "signature" or without "data".
function downloadsWithout(part) {
  return [...downloads.values()].filter(download => !download[part]);
}

// Uses a key that came with the files, if it is the only one, the page has no key yet, and the field for the key is empty.
async function takeKeysAmongFiles(files) {
  if (key || byId("key-text").value.trim() !== "") {
    // If the key is preset (see hideUnneeded), it is shown below the other parts of the page.
    const side = byId("key").nextElementSibling ? "above" : "below";
    for (const file of files) {
      const reason = key
        ? [`this page uses the key ${side}, `, codeBox(key.keyId), "."]
        : [`the text in the field ${side} ${NO_KEY_IN_FIELD}`];
      addFilesMessage(nameBox(file.name), " came with the files and was ignored: ", ...reason);
    }
  } else if (files.length > 1) {
    clearKey();
    showKeyMessage(SEVERAL_KEYS);
  } else if (files.length === 1) {
    await takeKeyFile(files[0], "files");
  }
}

// Adds a message about the files that were chosen or dropped.
function addFilesMessage(...nodes) {
  byId("files-message").append(element("p", "", ...nodes));
}

function clearMessages() {
  clearLog();
  byId("files-message").replaceChildren();
}

// Sets a part of a download, "data" or "signature", to a File. Adds the download if there is none of this name. A download has:
//   name, bareName  its name, and the name by which it is compared with others
//   data, signature its parts, each a File or null
//   pastedAt        0, or the value of pastedCount when its signature was pasted
//   tried           the signature file that gave its verdict, or that is being tried, or null
//   row             its element in the list
//   run             its verification, as beginRun returns it, or null
//   action          the action of the visitor that made it unverified
//   list            the list that it is (see readAsList), or null
//   listedNames     the names under which a list contains it
function takeDownload(file, name, part) {
  if (!downloads.has(name)) {
    const parts = {data: null, signature: null, pastedAt: 0, tried: null};
    const row = element("li", "");
    downloads.set(name, {name, bareName: bareName(name), ...parts, row, run: null, action: null, list: null, listedNames: []});
    byId("verdicts").append(row);
  }
  const download = downloads.get(name);
  download[part] = file;
  if (file === pastedSignature) {
    download.pastedAt = ++pastedCount;
  }
  renew(download);
}

// Makes a download unverified, so that it is verified again. The last action of the visitor is noted as the cause.
function renew(download) {
  stop(download);
  unverified.add(download);
  download.action = latestAction;
  download.tried = null;
  download.listedNames = [];
  showWaiting(download);
  setList(download, null);
}

function remove(download) {
  stop(download);
  unverified.delete(download);
  download.row.remove();
  downloads.delete(download.name);
  setList(download, null);
}

function clearList() {
  for (const download of [...downloads.values()]) {
    remove(download);
  }
  clearMessages();
  byId("files").focus();
}

// ---- Verifying ----

function stop(download) {
  pendingDraws.delete(download);
  download.run?.stop();
}

// Returns an object for a verification that can be stopped at any time: `stop` stops it, and `stopped` is a
// promise that then resolves.
function beginRun() {
  const run = {isStopped: false, key};
  run.stopped = new Promise(resolve => {
    run.stop = () => resolve(run.isStopped = true);
  });
  return run;
}

// Shows the state of all unverified downloads, and verifies them.
function reviewAll() {
  unverified.forEach(showWaiting);
  byId("nothing").hidden = downloads.size > 0;
  byId("clear").hidden = downloads.size === 0;
  showBand();
  verifyAll();
}

// Returns the PARTS that a download lacks.
function missingParts(download) {
  const isMissing = [download.data === null, signaturesOf(download).length + listsFor(download).length === 0, key === null];
  return PARTS.filter((_, at) => isMissing[at]);
}

// Removes from `unverified` the next download that can be verified, and returns it, or undefined if there is none.
// Downloads that an unfinished action may change are skipped. Downloads that lack a part are removed too: renew adds
// them again when they get it.
function nextUnverified() {
  for (const download of unverified) {
    if (!isBlocked(download)) {
      unverified.delete(download);
      if (missingParts(download).length === 0) {
        return download;
      }
    }
  }
  return undefined;
}

// Verifies the downloads one after another, because they share the buffers of one library.
async function verifyAll() {
  if (isWorking) {
    return;
  }
  isWorking = true;
  for (let download = nextUnverified(); download; download = nextUnverified()) {
    await verify(download);
  }
  isWorking = false;
}

async function verify(download) {
  const run = download.run = beginRun();
  const verdict = await Promise.race([verdictOn(download, run), run.stopped]).catch(() => ({verdict: "bad", why: WENT_WRONG}));
  // The old threads may still send results for the stopped download, so they are replaced.
  if (run.isStopped || verdict.why === WENT_WRONG) {
    enginePromise.then(engine => engine.end?.());
    enginePromise = startEngine();
  }
  if (!run.isStopped) {
    download.listedNames = verdict.verdict === "good" ? verdict.listedNames ?? [] : [];
    draw(download, () => showVerdict(download, verdict, run.key.source));
    setList(download, verdict.verdict === "good" && verdict.asList?.number === 0 ? verdict.asList : null);
  }
}

// Returns the verdict for an error number of the library.
function rejectedVerdict(number, keyIds) {
  const verdict = number === LEGACY_NOT_ACCEPTED ? "unsupported" : "bad";
  return {verdict, why: REASONS.get(number) ?? WENT_WRONG, number, keyIds};
}

// Returns the verdict on a download by its first valid signature, or a combined one if none is valid, or null if the
// run was stopped. A verdict is an object with these properties, and further ones for some kinds of verdicts:
//   verdict   a key of VERDICTS
//   number    the error number of the library, which is 0 for a valid signature or list, and undefined if the library
//             was not called
//   why       the reason, if no signature or list is valid
//   comment   the trusted comment, if a signature or a list is valid
async function verdictOn(download, run) {
  const signatures = signaturesOf(download);
  const lists = listsFor(download);
  const failures = [];
  const isRelease = BUILT_IN_LIST.length > 0 || signatures[0]?.isBuiltIn === true;
  const hashes = new Set(lists.flatMap(({entries}) => entries.map(({hash}) => hash)));
  const reading = new Reading(download.data, ["blake2b", ...hashes]);
  if (builtInList !== null || signatures.length === 0) {
    // The list of the release comes first, so that an older file with its older signature does not pass for a file of this release.
    const verdict = await verdictByLists(lists, download, run, reading);
    if (verdict?.verdict !== "bad" || signatures.length === 0) {
      return verdict;
    }
  }
  for (const signature of signatures) {
    download.tried = signature.file;
    const verdict = await verdictBySignature(signature.file, download, run, reading);
    if (verdict === null) {
      return null;
    }
    if (verdict.verdict === "good") {
      const asList = await readAsList(download.data.name, reading.smallData, signature.file, verdict.comment);
      return {...signedVerdict(verdict, download, signature.isBuiltIn, isRelease), asList};
    }
    failures.push({...verdict, ...signature});
    // Other signatures do not help if the file cannot be read, or if this signature is for the file but its comment was changed.
    if (verdict.number === undefined || verdict.number === COMMENT_NOT_SIGNED) {
      return verdict;
    }
  }
  const verdict = failedVerdict(failures, isRelease);
  download.tried = verdict.file ?? null;
  return verdict;
}

// Returns the verdict on a download with a valid signature. It is good only if the file has the signed name and, on the
// page of a release, the signature is built in. inexactNames are those signed names that differ from the name of the
// file. otherNames are those that differ even if the suffix that a browser adds is removed.
function signedVerdict(verdict, {data, tried}, isBuiltIn, isRelease) {
  const namesInComment = fieldsOfComment(verdict.comment).names;
  const names = isBuiltIn && namesInComment.length === 0 ? [downloadName(tried.name)] : namesInComment;
  // Names are compared after Unicode normalization, because accented letters have several encodings.
  const inexactNames = names.filter(name => name.normalize() !== data.name.normalize());
  const otherNames = inexactNames.filter(name => !isSignedName(data.name, name));
  const finalVerdict = isRelease && !isBuiltIn ? "unlisted" : otherNames.length > 0 ? "renamed" : "good";
  return {...verdict, verdict: finalVerdict, inexactNames, otherNames};
}

// Returns the verdict on a download without a valid signature, from the verdicts by all signatures that were tried. It
// is the verdict by the signature that came with the file or the link, or else by the built-in signature for the name
// of the file. If there are several of either kind, no single reason is given.
function failedVerdict(failures, isRelease) {
  const unsupported = failures.find(({verdict, isBuiltIn}) => verdict === "unsupported" && isBuiltIn === isRelease);
  const [given, otherGiven] = failures.filter(({isBuiltIn, isNamed}) => isNamed && !isBuiltIn);
  const [builtIn, otherBuiltIn] = failures.filter(({isBuiltIn, isNamed}) => isNamed && isBuiltIn);
  if (unsupported) {
    return unsupported;
  }
  if (given && !otherGiven) {
    // On the page of a release, a legacy signature that is not built in must not turn the verdict from red to amber.
    return isRelease ? {...given, verdict: "bad", more: NOT_OF_RELEASE} : given;
  }
  if (builtIn && !otherBuiltIn) {
    return builtIn;
  }
  return failures.length === 1 ? failures[0] : {verdict: "bad", why: NONE_FITS};
}

// Reads and hashes the data of a download. Reading takes much longer than checking a signature, so the data is read only
// once for all prehashed signatures and lists, and at most once more for all legacy signatures, which need the data itself.
//   states      the states of all hash functions in use, by their names
//   legacyData  the pieces of the data, if a legacy signature needs them, otherwise null
//   smallData   the pieces of the data, if it is small enough for a list, otherwise null
class Reading {
  constructor(file, hashes) {
    Object.assign(this, {file, library, hashes, states: null, legacyData: null, smallData: null, isRead: false});
  }

  // Reads the file, unless it was read before. Returns false if it cannot be read, or if reportProgress returned false.
  async read(isLegacy, engine, reportProgress) {
    if (!this.isRead || isLegacy && this.legacyData === null) {
      this.states = Object.fromEntries(this.hashes.map(hash => [hash, library.beginHash(hash)]));
      this.legacyData = isLegacy ? [] : null;
      this.smallData = this.file.size <= MAX_LIST_BYTES ? [] : null;
      this.isRead = await engine.feedFile(this.file, this, reportProgress);
    }
    return this.isRead;
  }

  feed(bytes) {
    library.place(bytes);
    library.feedHashes(this.states);
    this.legacyData?.push(bytes);
    this.smallData?.push(bytes);
  }

  digest(hash) {
    return library.hashDigest(hash, this.states[hash]);
  }
}

// Shows how many bytes of a download were read. Returns false if the run was stopped.
function reportProgress(download, run, bytesRead) {
  if (!run.isStopped) {
    draw(download, () => showProgress(download, bytesRead), PROGRESS_MS);
  }
  return !run.isStopped;
}

// Reads the data of a download. Returns true if it was read, null if the run was stopped, and otherwise a bad verdict.
async function readDownload(download, run, reading, isLegacy) {
  const engine = isLegacy || download.data.size <= MAX_PAGE_THREAD_BYTES ? new PageEngine() : await enginePromise;
  // A stopped run must not use the threads of the next one.
  const isRead = !run.isStopped && await reading.read(isLegacy, engine, bytesRead => reportProgress(download, run, bytesRead));
  if (run.isStopped) {
    return null;
  }
  return isRead || {verdict: "bad", why: "The file could not be read, or it changed while it was read. Choose it again."};
}

// Returns the verdict on a download by one signature file, or null if the run was stopped.
async function verdictBySignature(signature, download, run, reading) {
  const {data} = download;
  reportProgress(download, run, 0);
  const text = await bytesOfTextFile(signature);
  if (text === null) {
    return {verdict: "bad", why: "The signature file cannot be read, or is too large to be a signature. Get the signature again."};
  }
  // The key and the signature are checked before any data is read.
  const fields = library.readSignature(text), keyIds = {publicKeyId: run.key.keyId, signatureKeyId: fields.keyId};
  if (fields.number !== 0) {
    return rejectedVerdict(fields.number, keyIds);
  }
  const verification = new Verification(library, run.key.bytes, fields, data.size <= MAX_LEGACY_BYTES);
  if (verification.number !== 0) {
    return rejectedVerdict(verification.number, keyIds);
  }
  const isRead = await readDownload(download, run, reading, fields.isLegacy);
  if (isRead !== true) {
    return isRead;
  }
  verification.takeState(reading.states.blake2b, reading.legacyData ?? []);
  const {number, isDataValid} = await verification.end();
  if (number === 0) {
    return {verdict: "good", number, keyIds, comment: verification.comment()};
  }
  const verdict = rejectedVerdict(number, keyIds);
  const isUntrimmed = isDataValid && await isSignedUntrimmed(new TextDecoder().decode(text), verification);
  return isUntrimmed ? {...verdict, why: UNTRIMMED_REASON} : verdict;
}

// Returns true if the comment signature is valid for a comment that differs from the trusted comment only in white space at its
// beginning or end.
async function isSignedUntrimmed(signatureText, verification) {
  const {questions} = verification;
  const comments = untrimmedComments(signatureText, verification.comment());
  const messages = comments.map(comment => Uint8Array.of(...questions.signature, ...new TextEncoder().encode(comment)));
  const results = await Promise.all(messages.map(message => accepts(questions.publicKey, questions.commentSignature, message)));
  return results.includes(true);
}

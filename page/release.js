// SPDX-License-Identifier: MIT
// Shows the files of the release for which the page was built. Also saves a copy of this page for another project, with
// the same bytes as page/build.py would build it.

// A safe link contains only these characters. page/build.py has the same rules for links, titles and names.
const LINK = /^[\w.~:/?#[\]@!$&'()*+,;=%-]+$/;
// A character that a title or a name must not contain, because it is invisible or changes the direction of other text.
const MISLEADING_CHARACTER =
  /[\u0000-\u001f\u007f-\u009f\u00ad\u061c\u180e\u200b-\u200f\u2028-\u202e\u2060-\u206f\ufeff\ufff9-\ufffb]/;

// Returns true if a link contains only safe characters, and is relative or begins with https and names a host.
function isSafeLink(link) {
  const [, scheme] = /^([^/?#]*):/.exec(link) ?? [];
  const hasHost = /^\w+:\/\/[^/?#]/.test(link);
  const hasSafeTarget = scheme === undefined ? !link.startsWith("//") : scheme === "https" && hasHost;
  return LINK.test(link) && hasSafeTarget;
}

// Returns the name of the file of a release that a signature is for: the name in its trusted comment if there is
// exactly one, otherwise the name of the signature file without .minisig.
function nameInRelease(signatureName, signatureText) {
  const names = namesIn(signatureText);
  return names.length === 1 ? withoutDirectories(names[0]) : downloadName(signatureName);
}

// ---- The files of the release ----

// The files of the release. Each has:
//   releaseName  its name
//   signature    its built-in signature, or undefined if it is in the built-in list
//   row, state   its element in the page, and the part of it that shows the state
const releaseFiles = [];

// Lists the files of the release. A file has no link if its link is not safe.
function listRelease() {
  const {name, version, links} = BUILT_IN_RELEASE;
  const linkOf = new Map(links);
  const signed = presetSignatures.filter(({isBuiltIn}) => isBuiltIn).map(({file, releaseName}) => ({signature: file, releaseName}));
  const listed = (builtInList?.entries ?? []).map(entry => ({releaseName: entry.name}));
  for (const {signature, releaseName} of [...signed, ...listed]) {
    const link = linkOf.get(releaseName) ?? "";
    const box = nameBox(releaseName);
    const state = element("span", "state");
    const anchor = Object.assign(element("a", "", box), {href: link, rel: "noreferrer"});
    const row = element("li", "", isSafeLink(link) ? anchor : box, " ", state);
    releaseFiles.push({releaseName, signature, row, state});
    byId("release-files").append(row);
  }
  const words = [name, version].filter(each => each !== "").map(each => untranslated("bdi", "", ...textNodes(each)));
  byId("release-head").append("Files of ", ...words.length > 0
    ? words.flatMap(each => [each, " "]).slice(0, -1)
    : ["this release"]);
  byId("release").hidden = releaseFiles.length === 0;
  showRelease([]);
}

// Shows the state of each file of the release. A file is "good" if a download is verified by the signature of this
// file, or as its entry in the list. Otherwise the state is the worst verdict of the downloads that have the name of
// the file, and of those for which its signature or its entry is valid although they have another name.
function showRelease(all) {
  for (const {releaseName, signature, row, state} of releaseFiles) {
    const isFor = ({tried, listedNames}) => signature ? tried === signature : listedNames.includes(releaseName);
    const signed = all.filter(download => isSigned(download) && isFor(download));
    const others = all.filter(download => download.bareName === bareName(releaseName) && verdictOf(download) !== "good");
    const verdicts = new Set([...signed, ...others].map(verdictOf));
    const worst = [...VERDICTS.keys()].find(each => verdicts.has(each)) ?? "waiting";
    const verdict = verdicts.has("good") ? "good" : worst;
    if (row.dataset.verdict !== verdict) {
      row.dataset.verdict = verdict;
      state.textContent = VERDICTS.get(verdict).slice(0, 2).join(" ");
    }
  }
}

// ---- A page for another project ----

// The HTML of this page as it was loaded, and the script in it.
let pageSource;
let pageScript;

// Stores the page as page/build.py wrote it. Has to be called before the script changes the page, and while nothing
// after the script has been parsed.
function keepSource(script) {
  const doctype = "<!doctype html>";
  const sourceOf = node => node.nodeType === Node.COMMENT_NODE ? `<!--${node.data}-->` : node.outerHTML ?? doctype;
  pageSource = `${[...document.childNodes].map(sourceOf).join("\n")}\n`;
  pageScript = script;
}

// Returns the line of the script that defines a constant, as page/build.py writes it.
function constantLine(name, value) {
  const escapeOf = unit => `\\u${unit.charCodeAt(0).toString(16).padStart(4, "0")}`;
  return `const ${name} = ${JSON.stringify(value).replace(/[<\u007f-\uffff]/g, escapeOf)};`;
}

async function sha256Base64(text) {
  const hash = await crypto.subtle.digest("SHA-256", new TextEncoder().encode(text));
  return btoa(String.fromCharCode(...new Uint8Array(hash)));
}

// Returns this page with other values of these constants and another title. The content security policy gets
// the hash of the new script.
async function pageWith(constants, title) {
  const script = Object.entries(constants).reduce((text, [name, value]) =>
    text.replace(new RegExp(`^const ${name} = .*;$`, "m"), () => constantLine(name, value)), pageScript);
  const titleMarkup = title.replace(/&/g, "&amp;").replace(/</g, "&lt;").replace(/>/g, "&gt;");
  return pageSource.replace(pageScript, () => script).replace(await sha256Base64(pageScript), await sha256Base64(script))
    .replaceAll(`>${document.title}<`, () => `>${titleMarkup}<`);
}

// Thrown for input from which no page can be made. The visitor sees the message.
class InvalidInput extends Error {}

// Returns a text, which the message calls `label`, if it has no misleading characters.
function checkText(text, label) {
  if (MISLEADING_CHARACTER.test(text)) {
    throw new InvalidInput(`${label} contains a character that is invisible or changes the direction of text.`);
  }
  return text;
}

// Compares two pairs by their names, in UTF-16 code units as page/build.py does.
function compareNames([name], [other]) {
  return name < other ? -1 : name > other ? 1 : 0;
}

// Reads a signed list and its signature from the files that the visitor has chosen. Returns the value of BUILT_IN_LIST
// and the names in the list. If the files are only signatures, both are empty.
async function projectList(files) {
  const list = files.find(({name}) => !name.endsWith(SIGNATURE_ENDING));
  if (!list) {
    return {texts: [], names: []};
  }
  const signature = files.find(({name}) => name === list.name + SIGNATURE_ENDING);
  if (!signature || files.length !== 2) {
    throw new InvalidInput(`${escaped(list.name)} is not a signature file. ` +
      "If it is a signed list, add only the list and its signature.");
  }
  const bytes = list.size <= MAX_LIST_BYTES ? await bytesOfFile(list, 0, list.size) : null;
  const signatureBytes = await bytesOfTextFile(signature);
  const result = bytes && signatureBytes && await readList(list.name, bytes, signatureBytes);
  if (result?.number !== 0) {
    throw new InvalidInput(`${escaped(list.name)} cannot be used as a list. ${result ? listReason(result) : ""}`);
  }
  const texts = [bytes, signatureBytes].map(text => new TextDecoder("utf-8", {ignoreBOM: true}).decode(text));
  return {texts: [list.name, ...texts], names: result.entries.map(({name}) => name)};
}

// Returns the names and texts of signature files with the key ID of the page's key, sorted by name.
async function projectSignatures(files) {
  const signatures = [];
  for (const file of files) {
    const bytes = await bytesOfTextFile(file);
    const fields = bytes === null ? null : library.readSignature(bytes);
    if (!file.name.endsWith(SIGNATURE_ENDING) || fields?.number !== 0) {
      throw new InvalidInput(`${escaped(file.name)} is not a signature file whose name ends in ${SIGNATURE_ENDING}.`);
    }
    if (fields.keyId !== key.keyId) {
      throw new InvalidInput(`${escaped(file.name)} was made with another key.`);
    }
    if (signatures.some(([name]) => name === file.name)) {
      throw new InvalidInput(`Two signatures have the name ${escaped(file.name)}.`);
    }
    signatures.push([file.name, new TextDecoder("utf-8", {ignoreBOM: true}).decode(bytes)]);
  }
  return signatures.sort(compareNames);
}

// Parses lines of the form "NAME ADDRESS", where NAME is one of `names`, the files of the release. Returns pairs of
// name and address, sorted by name.
function projectLinks(text, names) {
  const links = linesOf(text).filter(line => line !== "").map(line => {
    const [, name, link] = /^(.*\S)\s+(\S+)$/.exec(line) ?? [];
    if (!names.includes(name)) {
      throw new InvalidInput(`The line “${escaped(line)}” does not begin with the name of a file whose signature ` +
        "you have added.");
    }
    if (!isSafeLink(link)) {
      throw new InvalidInput(`The address “${escaped(link)}” has to begin with https or be relative.`);
    }
    return [name, link];
  });
  if (new Set(links.map(([name]) => name)).size < links.length) {
    throw new InvalidInput("Two lines have links for the same file.");
  }
  return links.sort(compareNames);
}

// Returns a page with the key of this page, and with what the visitor has filled in, built in.
async function projectPage() {
  const valueOf = name => byId(name).value.trim();
  const title = checkText(valueOf("project-title"), "The title");
  if (key === null || !KEY_SOURCES.get(key.source.kind).isTrusted) {
    throw new InvalidInput("First paste or choose your public key above.");
  }
  if (title === "") {
    throw new InvalidInput("The title is empty.");
  }
  const name = checkText(valueOf("project-name"), "The name");
  const version = checkText(valueOf("project-version"), "The version");
  const {base64} = key;
  const files = [...byId("project-signatures").files];
  const list = await projectList(files);
  const signatures = list.texts.length > 0 ? [] : await projectSignatures(files);
  const links = projectLinks(byId("project-links").value, [...signatures.map(each => nameInRelease(...each)), ...list.names]);
  if (files.length === 0 && (name || version)) {
    throw new InvalidInput("Add the signatures of the release, or leave its name and version empty.");
  }
  const constants = {
    BUILT_IN_KEY: base64,
    BUILT_IN_SIGNATURES: signatures,
    BUILT_IN_LIST: list.texts,
    BUILT_IN_RELEASE: {name, version, links},
  };
  return pageWith(constants, title);
}

async function saveProjectPage() {
  try {
    const url = URL.createObjectURL(new Blob([await projectPage()], {type: "text/html"}));
    Object.assign(document.createElement("a"), {href: url, download: "verify.html"}).click();
    setTimeout(() => URL.revokeObjectURL(url), TIMEOUT_MS);
    byId("project-message").textContent = "The page is saved as verify.html. Open it to try it, and serve it over https.";
  } catch (why) {
    byId("project-message").textContent = `No page was saved. ${why instanceof InvalidInput ? why.message : WENT_WRONG}`;
  }
}

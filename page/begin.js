// SPDX-License-Identifier: MIT
// Starts the page: loads the library and accepts files, or shows which features the browser lacks. build.py joins this file and the
// other files of PAGE_SCRIPTS to one script. The same script runs in the worker threads, which have no document.

// A WebAssembly module with a 32-bit memory and a function that takes a 64-bit number. A browser that accepts
// it can run the library.
const SMALLEST_MODULE = Uint8Array.of(0, 97, 115, 109, 1, 0, 0, 0, 1, 5, 1, 96, 1, 126, 0, 5, 3, 1, 0, 1);

const FROM_DISK = "Save the page and open it from disk";

// Returns the names of the features that the page needs and the browser lacks.
async function missingFeatures() {
  const hasWebAssembly = typeof WebAssembly === "object" && WebAssembly.validate(SMALLEST_MODULE);
  const features = hasWebAssembly ? [] : ["WebAssembly"];
  if (!await hasEd25519()) {
    features.push(isSecureContext ? "Ed25519 in WebCrypto"
      : "Ed25519 for pages that were opened over http");
  }
  return features;
}

// Shows why the page cannot verify anything.
function showUnusable(words) {
  byId("unusable").textContent = words;
  document.documentElement.dataset.ready = "no";
}

// Starts the page. Takes the text of its script, which the worker threads run too, and which keepSource keeps for
// copies of the page that the visitor saves.
async function begin(script) {
  keepSource(script);
  const features = await missingFeatures();
  if (features.length > 0) {
    showUnusable(`This browser lacks ${features.join(", and ")}, so this page cannot verify anything here. ` +
      (isSecureContext ? "Use a newer browser, or the program minisign." : `${FROM_DISK}, or open it over https.`));
    return;
  }
  let module;
  try {
    module = await moduleBytes();
    library = await Library.load(module);
  } catch (why) {
    // A valid module fails to compile only if the content security policy of the server forbids it.
    const isForbidden = why instanceof WebAssembly.CompileError && WebAssembly.validate(module);
    showUnusable(isForbidden
      ? `The server of this page forbids WebAssembly, so the page cannot verify anything. ${FROM_DISK}.`
      : "This browser cannot run the library of this page, so the page cannot verify anything. " +
        "Use a newer browser, or the program minisign.");
    return;
  }
  enginePromise = startEngine(script);
  loadPresets();
  await loadBuiltInList();
  listRelease();
  hideUnneeded();
  addListeners();
  byId("unusable").hidden = true;
  byId("controls").hidden = false;
  document.documentElement.dataset.ready = "yes";
}

// Hides the elements that ask for what the page already has. The attribute data-unless says which elements these are:
//   key        there is a built-in key
//   signature  there are signatures or a list in the page, or signatures in the link
//   preset     the visitor needs only a file, or a file and its signature: the steps are not numbered, and the key is
//              shown at the end
function hideUnneeded() {
  const has = {key: BUILT_IN_KEY !== "", signature: presetSignatures.length > 0 || BUILT_IN_LIST.length > 0};
  has.preset = has.key || key !== null && has.signature;
  for (const part of document.querySelectorAll("[data-unless]")) {
    part.hidden = has[part.dataset.unless];
  }
  if (has.preset) {
    byId("controls").append(byId("key"));
  }
}

function addListeners() {
  for (const [id, onText] of [
    ["key-text", typed => queueKeyAction(() => takeKeyText(typed))],
    ["signature-text", queueSignatureText],
  ]) {
    byId(id).value = "";
    byId(id).addEventListener("input", () => onText(byId(id).value));
  }
  for (const [id, onFiles] of [["key-file", queueKeyFile], ["files", queueFiles]]) {
    byId(id).addEventListener("change", () => {
      const files = [...byId(id).files];
      // Otherwise the browser would not report that the same file is chosen again.
      byId(id).value = "";
      onFiles(files);
    });
  }
  byId("project-title").value = document.title;
  byId("project-save").addEventListener("click", saveProjectPage);
  byId("key-remove").addEventListener("click", () => queueKeyAction(removeKey));
  byId("clear").addEventListener("click", () => queueAction(clearList));
  // A site that opened this page can change the part of the address after #. Then the page starts again.
  addEventListener("hashchange", () => location.reload());
  for (const type of ["dragenter", "dragover", "dragleave", "drop"]) {
    addEventListener(type, event => {
      event.preventDefault();
      document.body.classList.toggle("dropping", ["dragenter", "dragover"].includes(type));
    });
  }
  // Files that are dropped on the form for a project page become its signatures. A text goes into the text field of its section. A
  // single file that is dropped on the section of the key is the key. Other files are downloads, signatures or keys.
  addEventListener("drop", event => {
    const {files, hasDirectories} = droppedFiles(event.dataTransfer);
    if (byId("project").contains(event.target)) {
      byId("project-signatures").files = event.dataTransfer.files;
      return;
    }
    const section = [...document.querySelectorAll("section")].find(each => each.contains(event.target));
    if (files.length === 0 && !hasDirectories) {
      takeDroppedText(section?.querySelector("textarea"), event.dataTransfer.getData("text/plain"));
      return;
    }
    const isKey = files.length === 1 && !hasDirectories && !BUILT_IN_KEY && section === byId("key");
    if (isKey) {
      queueKeyFile(files);
    } else {
      queueFiles(files, hasDirectories);
    }
  });
}

// Puts a text that was dropped on a section into the text field of this section, if the field is visible.
function takeDroppedText(field, text) {
  if (text !== "" && field?.checkVisibility()) {
    field.value = text;
    field.dispatchEvent(new Event("input"));
  }
}

// Returns the files that were dropped, and hasDirectories, which is true if directories were dropped too.
function droppedFiles(transfer) {
  const items = [...transfer.items].filter(item => item.kind === "file");
  const isDirectory = item => item.webkitGetAsEntry()?.isDirectory === true;
  const files = items.filter(item => !isDirectory(item)).map(item => item.getAsFile()).filter(file => file !== null);
  return {files, hasDirectories: items.some(isDirectory)};
}

if (typeof document === "undefined") {
  serve();
} else {
  begin(document.currentScript.textContent);
}

// SPDX-License-Identifier: MIT
// The texts of the page: the words of the verdicts, the reasons by the error numbers of include/minisign.h, and hints
// for wrong input. Also makes the elements that show texts, including texts of unknown origin, safely.

// The ends of several reasons.
const SIG_HINT = "Download the signature again: it is incomplete or damaged, or it is not a Minisign signature.";
const KEY_HINT = "Get the public key again: it is incomplete or damaged, or it is not a Minisign key.";

// The error numbers of include/minisign.h that the page treats specially. The page uses UNKNOWN_ALGORITHM for a public
// key, too, because the library does not check the algorithm of a key.
const NOT_UTF8 = 8;
const UNKNOWN_ALGORITHM = 28;
const OTHER_KEY = 29;
const LEGACY_NOT_ACCEPTED = 30;
const COMMENT_NOT_SIGNED = 32;
const NOT_LISTED = 92;
const DIGEST_MISMATCH = 94;

// Why there is no public key, by the error number.
const KEY_REASONS = new Map([
  [UNKNOWN_ALGORITHM, `This is not a Minisign public key, which begins with RW. ${KEY_HINT}`],
  [NOT_UTF8, `The public key is not UTF-8 text. ${KEY_HINT}`],
  [16, `The public key is empty. ${KEY_HINT}`],
  [17, `The public key file has no second line. ${KEY_HINT}`],
  [18, `The second line of the public key file is not 56 characters long. ${KEY_HINT}`],
  [19, `The second line of the public key file contains a character that is not allowed in a key. ${KEY_HINT}`],
  [20, `The public key is too short. ${KEY_HINT}`],
  [44, `A public key has 56 characters. This text is longer or shorter. ${KEY_HINT}`],
  [45, `The public key contains a character that is not allowed in a key. ${KEY_HINT}`],
]);

// Why a file is not verified or a list is not used, by the error number.
const REASONS = new Map([
  [NOT_UTF8, `The signature is not UTF-8 text. ${SIG_HINT}`],
  [20, `The signature is too short. ${SIG_HINT}`],
  [21, `The signature is empty. ${SIG_HINT}`],
  [22, `The signature has no second line. ${SIG_HINT}`],
  [23, `The signature has no third line. ${SIG_HINT}`],
  [24, `The signature has no fourth line. ${SIG_HINT}`],
  [25, `The first line of the signature does not begin with “untrusted comment:”. ${SIG_HINT}`],
  [26, `The second or fourth line of the signature contains a character that is not allowed there. ${SIG_HINT}`],
  [27, `The third line of the signature does not begin with “trusted comment:”. ${SIG_HINT}`],
  [UNKNOWN_ALGORITHM, `The signature uses an algorithm that Minisign does not support. ${SIG_HINT}`],
  [OTHER_KEY, "The signature was made with another key, so the public key on this page cannot verify it."],
  [LEGACY_NOT_ACCEPTED, "The signature is in Minisign's legacy format. This page can verify such a signature only " +
    "if the file has at most 64 MiB. Verify the file with the program minisign instead."],
  [31, "This file is not the one that was signed, or the signature was not made with this key. Do not use the file."],
  [COMMENT_NOT_SIGNED, "The trusted comment was changed after the file was signed. Do not use the file."],
  [81, "The public key or the signature is weak or malformed, so it proves nothing about any file. Do not use the file."],
  [89, "The trusted comment does not name this list."],
  [90, "This name has special characters, which a list cannot contain. Do not use the file."],
  [91, "This line is malformed, so the page cannot use the list."],
  [NOT_LISTED, "The signed list has neither this file's name nor its content. Do not use the file."],
  [93, "The signed list has this file's name twice. Do not use the file."],
  [DIGEST_MISMATCH, "The signed list has this file's name, but with other content. Do not use the file."],
]);

// The reason if the trusted comment differs from the signed one only in white space at its beginning or end,
// which the library removes.
const UNTRIMMED_REASON = "The file is the one that was signed, but the signer's trusted comment has white space at its " +
  "beginning or end, and this page rejects such comments. This is probably a mistake and not an attack. Ask the signer " +
  "for a new signature, with a comment that neither begins nor ends with white space.";

const WENT_WRONG = "An internal error occurred, so the file was not verified. Reload the page and try again.";
const TOO_LONG_A_KEY = "No public key: this file cannot be read, or is too large to be a public key.";

// Hints for input of another kind than the page expects, by the results of hintOf and kindOfText.
const HINTS = new Map([
  ["secret key", "This is a secret key. Nobody but its owner may see it, and no web page needs it. " +
    "The public key is in another file, usually minisign.pub."],
  ["signature", "This is a signature, not a key. Add it together with the download."],
  ["cut signature", "This is part of a signature, not a key. A public key begins with RW."],
  ["key", `This is a public key, not a signature.${BUILT_IN_KEY ? "" : " Paste it into the field for the key."}`],
  ["PGP", "This is a PGP key or signature, which this page cannot verify. The name of a Minisign signature ends in " +
    ".minisig, and a Minisign key begins with RW."],
  ["link", "This is a link to a page like this one. Whoever made the link chose the key in it. " +
    "Paste the key that the project publishes."],
  ["command", "This is a command line. Paste only its key: the 56 characters after -P, which begin with RW."],
  ["among words", "There are other words, quotes or invisible characters around the key. Paste only the key:"],
  ["broken key", "The key is broken over several lines. Paste it as one line:"],
  ["bare key", "This is only the key, without the first line of a public key file. Paste it into the field:"],
]);
// The hints after which the page shows the key that it found in the input.
const HINTS_WITH_KEY = ["command", "among words", "broken key", "bare key"];
const NO_SIGNATURE = "This is not a signature. A signature has four lines, and the first one begins with “untrusted comment:”.";

const HAS_DIRECTORIES = "This page cannot verify a folder. Open the folder, select the files in it, and drop those here.";
const SEVERAL_KEYS = "No public key: you added several keys. Add only one.";
const NO_KEY_IN_ADDRESS = "No public key: the link to this page has no key of 56 characters after #.";
const OTHER_KEY_IN_ADDRESS =
  "The link to this page contains another key or other text, which this page ignores. It accepts only its built-in key.";
const NO_SIGNATURE_IN_ADDRESS = "The link to this page has no complete signature after sig=. It may have been cut off.";
const NONE_FITS = "None of this page's signatures is for this file. Do not use the file.";
const NOT_OF_RELEASE = "The file is not part of this release either.";
const UNLISTED = "The file is not in the release for which this page was built. Its signature came with the file or " +
  "with the link. The file may be from an older release, or something else that the owner of the key has signed.";
const BAD_BUILT_IN_LIST = "The list that is built into this page is not valid, so the page cannot verify the files of the release.";
const NO_KEY_IN_FIELD = "is not a key. Correct that text, or clear the field.";
const COMPARE_KEY =
  "This page cannot know who owns the key. Compare all of its 56 characters with the key that the project publishes.";
const KEY_WITH_FILES = "The key came with the files, so whoever made the files may have made the key.";
const KEY_IN_LINK = "The key came with the link to this page, so whoever made the link chose the key.";
const PASTE_KEY =
  "Before you use a file, get the key from where the project publishes it, and paste it into the field for the key.";
const WAIT = ["Wait until this page has read the file.", "Wait until this page has read the files."];

// The verdicts, and the states of a file without a verdict, from worst to best. Each has a symbol, words, the next step
// for one file, and the next step for several files. The colours are in page.css. "reading" and "queued" come before
// "waiting", so that the band never asks for a file that is being read. missingStep returns the next step for "waiting".
const VERDICTS = new Map([
  ["bad", ["✗", "NOT verified", ...BUILT_IN_KEY
    ? ["Do not use this file. Download it again from the project.",
      "Do not use these files. Download them again from the project."]
    : ["Do not use this file. Get it, its signature and the key again from the project.",
      "Do not use these files. Get them, their signatures and the key again from the project."]]],
  ["unchecked", ["?", "Signed, by a key that you have not checked",
    "Before you use the file, paste the key that the project publishes.",
    "Before you use the files, paste the key that the project publishes."]],
  ["unlisted", ["!", "Signed by this key, but not part of this release",
    "Download the file of this release from the project.",
    "Download the files of this release from the project."]],
  ["renamed", ["!", "Signed, but for a different file name",
    "Check that this is the file you wanted: its signed name is shown below.",
    "Check that these are the files you wanted: their signed names are shown below."]],
  ["unsupported", ["?", "This page cannot verify this file",
    "Verify the file with the program minisign, as shown below.",
    "Verify the files with the program minisign, as shown below."]],
  ["stopped", ["–", "Stopped before it was verified",
    "To verify the file, press “Verify it again”, below.",
    "To verify the files, press “Verify it again” below each of them."]],
  ["reading", ["…", "Not verified yet", ...WAIT]],
  ["queued", ["…", "Not verified yet", ...WAIT]],
  ["waiting", ["…", "Not verified yet"]],
  ["good", ["✓", "Verified", ...["file", "files"].map(each =>
    `You can use the ${each} if ${BUILT_IN_KEY ? "this page" : "the key"} is the project's own.`)]],
]);

// The parts that are needed to verify a file, in the order in which missingStep lists them.
const PARTS = ["file", "signature", "public key"];

// Returns the next step if a set of PARTS is missing.
function missingStep(parts) {
  const names = PARTS.filter(part => parts.has(part)).map(part => `the ${part}`);
  return `Add what is missing: ${names.join(", ").replace(/, ([^,]*)$/, " and $1")}.`;
}

// The sources of a key. Each has:
//   from       the words that complete a sentence after "the key .."; NAME stands for the name of the key's file
//   isTrusted  true if the visitor or the builder of the page gave the key on purpose, so that files can be verified with it
//   ifValid    a sentence that is shown once above the list if a signature is valid
//   ifInvalid  a sentence that is shown instead if no signature is valid and one is invalid
const KEY_SOURCES = new Map([
  ["typed", {from: ["which you pasted or typed"], isTrusted: true, ifValid: COMPARE_KEY, ifInvalid: ""}],
  ["chosen", {from: ["which you chose as the file ", "NAME"], isTrusted: true, ifValid: COMPARE_KEY, ifInvalid: ""}],
  ["files", {
    from: ["which came with the files as ", "NAME"],
    isTrusted: false,
    ifValid: `${KEY_WITH_FILES} ${PASTE_KEY}`,
    ifInvalid: KEY_WITH_FILES,
  }],
  ["link", {
    from: ["which came with the link to this page"],
    isTrusted: false,
    ifValid: `${KEY_IN_LINK} ${PASTE_KEY}`,
    ifInvalid: KEY_IN_LINK,
  }],
  ["page", {
    from: ["which is built into this page"],
    isTrusted: true,
    ifValid: "The key is built into this page, so trust the result only as much as the place where you got this page.",
    ifInvalid: "",
  }],
]);

// Characters that are invisible or change how other characters are shown: control characters except for tab, characters
// that change the direction of text or join other characters, line and paragraph separators, letters without ink, and
// characters that are for private use or not assigned.
const INVISIBLE = /(?!\t)[\p{Cc}\p{Cf}\p{Cs}\p{Co}\p{Cn}\p{Zl}\p{Zp}\p{Default_Ignorable_Code_Point}\u2800]/gu;

function codePointOf(character) {
  return `U+${character.codePointAt(0).toString(16).toUpperCase().padStart(4, "0")}`;
}

// Returns the text with each invisible character replaced by its code point in brackets.
function escaped(text) {
  return text.replace(INVISIBLE, character => `[${codePointOf(character)}]`);
}

// Returns an element with a class that contains these nodes and texts. Texts are never parsed as markup.
function element(name, className, ...children) {
  const node = document.createElement(name);
  if (className) {
    node.className = className;
  }
  node.append(...children);
  return node;
}

// Returns the nodes for a text. Each invisible character is replaced by an element with its code point, so that nobody
// mistakes the code point for text.
function textNodes(text) {
  const nodes = [];
  let at = 0;
  for (const match of text.matchAll(INVISIBLE)) {
    nodes.push(text.slice(at, match.index), element("span", "unseeable", codePointOf(match[0])));
    at = match.index + match[0].length;
  }
  return [...nodes, text.slice(at)];
}

// Returns an element as `element` does. Browsers do not translate it.
function untranslated(...parts) {
  const node = element(...parts);
  node.translate = false;
  return node;
}

// The maximum length of a name in the band, in characters. A longer name is shown without its middle: NAME_END
// characters are its end, where versions mostly are.
const MAX_NAME = 40;
const NAME_END = 16;

function shortened(name) {
  const letters = [...name];
  return letters.length <= MAX_NAME ? name
    : `${letters.slice(0, MAX_NAME - NAME_END - 1).join("")}…${letters.slice(-NAME_END).join("")}`;
}

// Returns an element with the name of a file.
function nameBox(name) {
  return untranslated("bdi", "name", ...textNodes(name));
}

// Returns an element with a key, a key ID or a command.
function codeBox(code) {
  return untranslated("code", "letters", code);
}

// Returns the nodes that say where a key came from.
function sourceNodes({kind, name}) {
  return KEY_SOURCES.get(kind).from.map(part => part === "NAME" ? nameBox(name) : part);
}

// Returns a size in words, with a decimal unit.
function formatSize(bytes) {
  const units = ["bytes", "kB", "MB", "GB", "TB"];
  let value = bytes;
  let unit = 0;
  while (value >= 1000 && unit < units.length - 1) {
    value /= 1000;
    unit += 1;
  }
  return bytes === 1 ? "1 byte" : `${unit === 0 ? value : value.toFixed(1)} ${units[unit]}`;
}

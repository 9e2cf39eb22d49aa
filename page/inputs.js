// SPDX-License-Identifier: MIT
// Recognizes what a visitor has typed or added: keys, secret keys, signatures and command lines. Also parses links and
// trusted comments, and compares file names.

// The base64 of keys and signatures begins with the algorithm: "Ed" for a public key and a legacy signature (RWQ to
// RWT in base64), "ED" for a prehashed signature (RUQ to RUT). A secret key also says if it is encrypted: "Sc" for
// scrypt, or two zero bytes. Both are followed by "B2", for the checksum with BLAKE2b.
const KEY_LINE = /^RW[Q-T][A-Za-z0-9+/]{53}$/;
const SIGNATURE_LINE = /^R[UW][A-Za-z0-9+/]{97}=$/;
// The beginning of the second line of a prehashed signature, if only a part of it was copied. The part may be as long as
// a key, but a key never begins with RU. For a part of a legacy signature there is no such test, because it begins like
// a key.
const CUT_SIGNATURE_LINE = /^RU[Q-T][A-Za-z0-9+/]{20,}$/;
const SECRET_KEY_LINE = /RW(RTY0Iy|QAAEIy)[A-Za-z0-9+/]{100}/;
const PGP_LINE = /^-----BEGIN PGP /;
// A file with such a name is a binary PGP file if its first byte is greater than MAX_ASCII.
const PGP_NAME = /\.(asc|gpg|pgp|sig)$/i;
const MAX_ASCII = 0x7f;
// A command line of minisign or minisign-verify, or an option -P with a key.
const COMMAND = /\bminisign(-verify)?(\.exe)?["']?\s+-|(^|\s)-P\s*["']?RW/;

function linesOf(text) {
  return text.split("\n").map(line => line.trim());
}

// Returns "secret key", "PGP", "signature" or "key", or "" for any other text. A key is a key file or only its second line.
function kindOfText(text) {
  const lines = linesOf(text);
  if (lines.some(line => SECRET_KEY_LINE.test(line))) {
    return "secret key";
  }
  if (PGP_LINE.test(lines[0])) {
    return "PGP";
  }
  if (KEY_LINE.test(text.trim())) {
    return "key";
  }
  if (lines[0].startsWith("untrusted comment:") && lines[2]?.startsWith("trusted comment:")) {
    return "signature";
  }
  return lines[0].startsWith("untrusted comment:") && KEY_LINE.test(lines[1] ?? "") ? "key" : "";
}

// Returns the public key in a text, which may contain other characters, or line breaks within the key. Returns "" if the text
// does not contain exactly one key.
function keyIn(text) {
  const joined = linesOf(text).filter(line => !line.startsWith("untrusted comment:")).join("");
  const keys = new Set([joined, ...text.split(/[^A-Za-z0-9+/]+/)].filter(word => KEY_LINE.test(word)));
  return keys.size === 1 ? [...keys][0] : "";
}

// Returns which of HINTS is the one for a text that cannot be read as a public key, or "" if there is none: the kind of
// the text, or where it has the public key. "bare key": it consists of only the key, but is in a file, which needs a
// comment above the key. "among words": there are other characters around the key. "broken key": there are line breaks
// within the key.
function hintOf(text) {
  const lines = linesOf(text);
  const kind = kindOfText(text);
  if (kind && kind !== "key") {
    return kind;
  }
  if (lines.some(line => SIGNATURE_LINE.test(line))) {
    return "signature";
  }
  if (lines.some(line => CUT_SIGNATURE_LINE.test(line))) {
    return "cut signature";
  }
  if (text.includes("#") && partsOfLink(text.trim().replace(/^.*?#/s, "")).validKey) {
    return "link";
  }
  if (COMMAND.test(text)) {
    return "command";
  }
  const key = keyIn(text);
  return key === "" ? "" : text.trim() === key ? "bare key" : text.includes(key) ? "among words" : "broken key";
}

// Returns the 56 characters of a public key, as Minisign writes them, from the struct of the key. In the struct
// the key ID follows the key.
function base64OfKey(struct) {
  const {key: begin, key_id: end} = PUBLIC_KEY;
  return btoa(String.fromCharCode(0x45, 0x64, ...struct.subarray(end), ...struct.subarray(begin, end)));
}

// Decodes a part of a link, which has percent encoding. If mayBeBase64 is true, the part may also be the base64 of a
// text. Returns "" if the part cannot be decoded.
function decoded(part, mayBeBase64) {
  try {
    const text = decodeURIComponent(part);
    // A signature contains a colon, and base64 does not.
    return mayBeBase64 && !text.includes(":") ? new TextDecoder().decode(bytesOfBase64(text)) : text;
  } catch {
    return "";
  }
}

// Parses the part of a link after #. `signatures` are the values of sig=. `keys` are the values of key=, or if there are
// none, all parts that do not begin with sig=. `validKey` is the only key if it has the form of a key, otherwise "".
function partsOfLink(fragment) {
  const parts = fragment.split("&").filter(part => part !== "");
  const valuesOf = (name, mayBeBase64) =>
    parts.filter(part => part.startsWith(name)).map(part => decoded(part.slice(name.length), mayBeBase64));
  const values = valuesOf("key=", false);
  const keys = values.length > 0 ? values : parts.filter(part => !part.startsWith("sig=")).map(part => decoded(part, false));
  const validKey = keys.length === 1 && KEY_LINE.test(keys[0]) ? keys[0] : "";
  return {keys, validKey, signatures: valuesOf("sig=", true)};
}

// Returns the file names in the trusted comment of a signature file, before the comment is verified.
function namesIn(signatureText) {
  return fieldsOfComment((linesOf(signatureText)[2] ?? "").replace("trusted comment: ", "")).names;
}

// Returns the fields of a trusted comment that Minisign writes by default: all file names, and the time as
// text, or "" if there is none.
function fieldsOfComment(comment) {
  const fields = {names: [], time: ""};
  for (const part of comment.split("\t")) {
    if (part.startsWith("file:")) {
      fields.names.push(part.slice(5));
    } else if (/^timestamp:\d{1,11}$/.test(part)) {
      fields.time = `${new Date(1000 * Number(part.slice(10))).toISOString().slice(0, 16).replace("T", ", ")} UTC`;
    }
  }
  return fields;
}

// Returns a file name in lower case, without directories and without a number in parentheses, for isSimilarName.
function bareName(name) {
  return withoutDirectories(name).replace(/\s?\(\d+\)(?=(\.[^.\s]+)*$)/, "").normalize().toLowerCase();
}

function withoutDirectories(name) {
  return name.replace(/^.*[\\/]/s, "");
}

// Returns true if a file and a signature for these names may belong together. This decides only which signature is
// tried; isSignedName decides if the name is the signed one.
function isSimilarName(name, other) {
  return bareName(name) === bareName(other);
}

// A name with the suffix that a browser adds to the name of a second download, before the extensions:
// "app (1).zip", "app(1).tar.gz".
const NAME_WITH_SUFFIX = /^(.+?)\s?\(\d{1,2}\)((?:\.[^.\s()]+)*)$/s;

// Returns true if the name of a file, or this name without the suffix of a browser, is the signed name. The directories
// of the signed name are not compared, because a browser does not tell the page the directory of a file.
function isSignedName(name, signedName) {
  const fileName = name.normalize(), expected = signedName.normalize();
  return [fileName, fileName.replace(NAME_WITH_SUFFIX, "$1$2")]
    .some(each => each === expected || each === withoutDirectories(expected));
}

// Returns comments that the signer may have signed instead of `comment`, from which the library has removed white space at
// both ends: the comment with the white space that the signature file has, and with white space that may have been lost
// when the file was copied or pasted.
function untrimmedComments(signatureText, comment) {
  const line = signatureText.split("\n")[2] ?? "";
  const source = line.slice(line.indexOf(":") + 1).replace(/^ /, "");
  const spaces = [" ", "  ", "\t", "\r"];
  return [source, source.replace(/\r$/, ""), ...spaces.map(space => comment + space), ...spaces.map(space => space + comment)]
    .filter(each => each !== comment);
}

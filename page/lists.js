// SPDX-License-Identifier: MIT
// Verifies files with a signed list, such as SHA256SUMS. The proved library verifies the list, finds its entries,
// hashes the files, and compares the digests.

// The beginning of an entry. A file whose first line that is neither empty nor a comment begins like this is passed to
// the library as a list. The library decides if it is one.
const ENTRY_LINE = /^(\\?[0-9a-f]{64}([0-9a-f]{64})? [ *]|(SHA256|SHA512|BLAKE2b) \()/i;
// The names of lists that b2sum has written. In these lists, a digest of 128 digits on a line that names no hash
// function is BLAKE2b; in other lists it is SHA-512.
const BLAKE2B_LIST_NAME = /b2|blake2/i;

// The list that is built into the page, after it was verified, or null.
let builtInList = null;

// Verifies a list, whose name has to be in the trusted comment. If the list cannot be used, returns the error number
// and the line at fault, or 0 if no line is at fault. Otherwise returns:
//   number      0
//   name        the name of the list
//   list        the struct of the list
//   text        the bytes of the list
//   longDigest  the hash function of 128 digits, as the library takes it
//   entries     the entries, each with its struct and its fields
//   comment     the trusted comment
async function readList(name, text, signatureText) {
  const signature = library.readSignature(signatureText);
  const result = signature.number === 0 ? library.askList(key.bytes, signature, new TextEncoder().encode(name), text) : signature;
  if (result.number !== 0) {
    return result;
  }
  const {list, publicKey, digest, message} = result;
  const answers = [await accepts(publicKey, result.signature, digest), await accepts(publicKey, result.commentSignature, message)];
  const number = library.listVerdict(list, ...answers);
  const longDigest = LONG_DIGESTS.get(BLAKE2B_LIST_NAME.test(name) ? "blake2b" : "sha512");
  const listing = number === 0 ? library.listEntries(list, text, longDigest) : {number};
  if (listing.number !== 0) {
    return listing;
  }
  const entries = listing.entries.map(struct => ({struct, ...library.fieldsOfEntry(struct, text)}));
  const comment = new TextDecoder("utf-8", {ignoreBOM: true}).decode(result.comment);
  return {number: 0, name, list, text, longDigest, entries, comment};
}

// Returns the result of readList for a file with a valid signature, or null if the file does not look like a list. The
// name of the list is the one in the trusted comment, if the file has this name.
async function readAsList(fileName, smallData, signatureFile, comment) {
  const bytes = smallData && new Uint8Array(await new Blob(smallData).arrayBuffer());
  const firstLine = bytes && new TextDecoder().decode(bytes).split("\n").find(line => line.trim() !== "" && !line.startsWith("#"));
  if (!ENTRY_LINE.test(firstLine ?? "")) {
    return null;
  }
  const [signedName] = fieldsOfComment(comment).names;
  const name = signedName !== undefined && isSignedName(fileName, signedName) ? signedName : fileName;
  return readList(name, bytes, await bytesOfFile(signatureFile, 0, signatureFile.size));
}

// Verifies the list that is built into the page.
async function loadBuiltInList() {
  const [name, ...texts] = BUILT_IN_LIST;
  if (name !== undefined && key !== null) {
    const list = await readList(name, ...texts.map(text => new TextEncoder().encode(text)));
    if (list.number === 0) {
      builtInList = list;
    } else {
      addFilesMessage(`${BAD_BUILT_IN_LIST} ${listReason(list)}`);
    }
  }
}

// Returns the lists by which a download is verified: on a page with a built-in list, only this one, or none if it is
// not valid; on other pages, the lists among the downloads.
function listsFor(download) {
  const lists = [...downloads.values()].filter(other => other !== download && other.list !== null).map(({list}) => list);
  return BUILT_IN_LIST.length === 0 ? lists : builtInList === null ? [] : [builtInList];
}

// Stores the list that a download is, or null if it is not a list. If this is a change, all downloads without a
// signature are verified again.
function setList(download, list) {
  if (download.list === list) {
    return;
  }
  download.list = list;
  for (const other of downloads.values()) {
    if (other !== download && other.data && !other.signature) {
      renew(other);
    }
  }
}

// Returns the verdict on a download by a list, a result of readList, after the download was read. The verdict is good
// only if an entry has the name of the file and the digest of its data, and no other entry has this name.
function verdictByList({name, list, text, longDigest, entries, comment}, {data}, reading) {
  const matches = entries.filter(({struct, hash}) => library.compareDigest(struct, reading.digest(hash)) === 0);
  const isNamed = entry => isSignedName(data.name, entry.name);
  const entry = matches.find(isNamed) ?? entries.find(isNamed);
  const nameToFind = new TextEncoder().encode(entry?.name ?? withoutDirectories(data.name));
  const {number, line} = library.findEntry(list, text, longDigest, nameToFind);
  const keyIds = {publicKeyId: key.keyId};
  const listedNames = [...new Set(matches.map(each => each.name))];
  if (matches.length > 0 && (number === 0 || !matches.some(isNamed))) {
    const isGood = matches.some(isNamed);
    const [verdict, otherNames] = isGood ? ["good", []] : ["renamed", listedNames];
    return {verdict, number: 0, keyIds, comment, listName: name, listedNames, otherNames};
  }
  const verdict = rejectedVerdict(number === 0 ? DIGEST_MISMATCH : number, keyIds);
  return {...verdict, more: `List: ${escaped(name)}${line ? `, line ${line}` : ""}.`, listName: name};
}

// The verdicts by a list that contains the file, from best to worst.
const BEST_FIRST = ["good", "renamed"];

// Returns the best verdict on a download by these lists, or null if the run was stopped. If no list contains the file,
// a list that contains its name gives the reason.
async function verdictByLists(lists, download, run, reading) {
  const isRead = await readDownload(download, run, reading, false);
  if (isRead !== true) {
    return isRead;
  }
  const verdicts = lists.map(list => verdictByList(list, download, reading));
  return BEST_FIRST.map(best => verdicts.find(({verdict}) => verdict === best)).find(each => each) ??
    verdicts.find(({number}) => number !== NOT_LISTED) ?? verdicts[0];
}

// Returns why a list is not used, from the result of readList.
function listReason({number, line}) {
  return `${line ? `Line ${line}: ` : ""}${REASONS.get(number) ?? WENT_WRONG}`;
}

// Returns a paragraph for a verified file that is a list, or looks like one, and nothing for any other file. asList is
// the result of readAsList.
function listLines({asList}) {
  if (!asList) {
    return [];
  }
  return [asList.number === 0
    ? element("p", "", `This is a list of ${asList.entries.length} files. ` +
      "Add any of them, without a signature, and this page verifies them by the list.")
    : element("p", "caution", `This looks like a list of files, but this page does not use it. ${listReason(asList)}`)];
}

// Returns the paragraph that says under which names a list contains a download.
function listedLine({listName, listedNames, otherNames}, source) {
  const names = listedNames.flatMap((name, at) => [at === 0 ? "" : ", ", nameBox(name)]);
  const line = element("p", otherNames.length > 0 ? "caution" : "", "This file matches the entry ", ...names,
    " in the list ", nameBox(listName), ". The list was signed with the key ", codeBox(key.keyId), ", ",
    ...sourceNodes(source), ".");
  if (otherNames.length > 0) {
    line.append(" Your file has another name. It may be an older version.");
  }
  return line;
}

// SPDX-License-Identifier: MIT
// Shows the list of downloads, one row for each, and the band at the top of the window with the worst verdict.

function button(words, onClick) {
  const node = element("button", "", words);
  node.addEventListener("click", onClick);
  return node;
}

// Returns an element with the symbol and the words of a verdict, followed by the nodes `more`.
function verdictBox(verdict, ...more) {
  const [symbol, words] = VERDICTS.get(verdict);
  const symbolBox = element("span", "", `${symbol} `);
  symbolBox.ariaHidden = "true";
  return element("span", "verdict", symbolBox, words, ...more);
}

// The maximum number of files that the band names. page.css cuts off names for which there is no space.
const MAX_NAMED_FILES = 20;

// The element of a download's row has data-verdict, a key of VERDICTS, and data-number, the error number of
// the library if there is one.
function verdictOf({row}) {
  return row.dataset.verdict;
}

// Returns true if a download has a valid signature, or is in a valid list.
function isSigned({row}) {
  return row.dataset.number === "0";
}

// Shows in the band the worst verdict, the files that have it, and the next step. Also updates all else that depends on
// all downloads: the order of the rows, the notice about the key, and the files of the release.
function showBand() {
  const all = [...downloads.values()];
  const verdicts = new Set(all.map(verdictOf));
  orderRows(all);
  showKeyNotice(all);
  showRelease(all);
  const worst = [...VERDICTS.keys()].find(each => verdicts.has(each));
  byId("band").hidden = worst === undefined;
  if (worst === undefined) {
    return;
  }
  const files = all.filter(download => verdictOf(download) === worst);
  const count = all.length > 1 ? ` (${files.length} of ${all.length} files)` : "";
  // An action that is reading a file may add the missing part.
  const isReading = worst === "waiting" && unfinishedActions.size > 0;
  const [, , ...steps] = VERDICTS.get(isReading ? "reading" : worst);
  const step = steps.length > 0 ? steps[files.length > 1 ? 1 : 0] : missingStep(new Set(files.flatMap(missingParts)));
  byId("band").dataset.verdict = worst;
  byId("band").replaceChildren(element("p", "", verdictBox(worst, `${count}: `, ...namesOf(files))), element("p", "", step));
}

// Moves the rows of bad files to the beginning of the list. Among bad files, and among others, the rows are in the
// order in which the files were added. If the element with the focus is moved, it keeps the focus.
function orderRows(all) {
  const isBad = download => verdictOf(download) === "bad";
  const focused = document.activeElement;
  let nextRow = byId("verdicts").firstChild;
  for (const {row} of [...all.filter(isBad), ...all.filter(download => !isBad(download))]) {
    if (row === nextRow) {
      nextRow = row.nextSibling;
    } else {
      byId("verdicts").insertBefore(row, nextRow);
    }
  }
  if (byId("verdicts").contains(focused)) {
    focused.focus({preventScroll: true});
  }
}

// Shows above the list what the source of the key means for the results, once for all files.
function showKeyNotice(all) {
  const {isTrusted = true, ifValid = "", ifInvalid = ""} = KEY_SOURCES.get(key?.source.kind) ?? {};
  const hasBad = all.some(download => verdictOf(download) === "bad");
  const words = all.some(isSigned) ? ifValid : hasBad ? ifInvalid : "";
  // A screen reader reads the sentence whenever it is set, so it is set only if it changes.
  if (byId("key-notice").textContent !== words) {
    byId("key-notice").textContent = words;
    byId("key-notice").className = words === "" || isTrusted ? "" : "caution";
  }
}

// Returns nodes with the names of files, with commas between them. Long names are shortened.
function namesOf(files) {
  const names = files.slice(0, MAX_NAMED_FILES).map(({name}) => untranslated("bdi", "", ...textNodes(shortened(name))));
  const more = files.length > MAX_NAMED_FILES ? [` and ${files.length - MAX_NAMED_FILES} more`] : [];
  return [...names.flatMap((name, at) => at === 0 ? [name] : [", ", name]), ...more];
}

// Returns a paragraph with the size of the file, and the name of the signature unless it is the default NAME.minisig.
function partsLine({name, data, signature, tried}) {
  const size = data ? formatSize(data.size) : "";
  const shownSignature = tried ?? signature;
  const isDefault = !shownSignature || shownSignature.name === name + SIGNATURE_ENDING;
  const more = isDefault ? [] : ["with the signature ", nameBox(shownSignature.name)];
  return element("p", "aside", size, size && more.length > 0 ? ", " : "", ...more);
}

// For each download whose row has to be drawn, the function that draws it.
const pendingDraws = new Map();
// The time at which rows were last drawn, and the timer for the next time.
let drawnAt = -Infinity;
let drawTimer;
// The row that has to be scrolled into view after all rows were drawn, or null.
let rowToView = null;

// Schedules the drawing of a row, at least `delay` milliseconds after rows were last drawn. The more rows there are,
// the less often they are drawn.
function draw(download, drawRow, delay = 0) {
  pendingDraws.set(download, drawRow);
  clearTimeout(drawTimer);
  drawTimer = setTimeout(drawAll, drawnAt + Math.max(delay, downloads.size / 2) - performance.now());
}

function drawAll() {
  const draws = [...pendingDraws.values()];
  pendingDraws.clear();
  draws.forEach(drawRow => drawRow());
  showBand();
  rowToView?.scrollIntoView({block: "nearest"});
  rowToView = null;
  drawnAt = performance.now();
}

// Replaces the content of a row by a heading with the verdict and the name, and these nodes. If an element of the row
// had the focus, the button in the row gets the focus, or the row itself if it has no button.
function fillRow(download, verdict, ...nodes) {
  const {row} = download;
  const hadFocus = row.contains(document.activeElement);
  row.dataset.verdict = verdict;
  delete row.dataset.number;
  row.replaceChildren(element("h3", "", verdictBox(verdict), " ", nameBox(download.name)), ...nodes);
  if (hadFocus) {
    row.tabIndex = -1;
    (row.querySelector("button") ?? row).focus();
  }
}

// Shows why a download is not verified yet: it waits for an action or for other files, or parts are missing.
function showWaiting(download) {
  const missing = missingParts(download);
  const linesOfParts = new Map([
    ["file", ["The file itself is missing. Choose or drop it."]],
    ["signature", ["Its signature is missing. Choose or drop ", nameBox(download.name + SIGNATURE_ENDING), "."]],
    ["public key", ["The public key is missing. Paste it, or choose its file."]],
  ]);
  const [state, lines] = isBlocked(download)
    ? ["queued", [["It will be verified once this page has read the files that you added last."]]]
    : missing.length === 0 ? ["queued", [["It will be verified after the files before it."]]]
      : ["waiting", missing.map(part => linesOfParts.get(part))];
  fillRow(download, state, partsLine(download), ...lines.map(line => element("p", "", ...line)));
}

function showProgress(download, bytesRead) {
  const {row, data} = download;
  if (verdictOf(download) !== "reading") {
    const bar = element("progress", "");
    bar.ariaLabel = `Reading ${escaped(download.name)}`;
    fillRow(download, "reading", partsLine(download), bar, element("p", "share"), button("Stop", () => stopByHand(download)));
  }
  row.querySelector("progress").max = Math.max(data.size, 1);
  row.querySelector("progress").value = bytesRead;
  row.querySelector(".share").textContent = `${formatSize(bytesRead)} of ${formatSize(data.size)} read`;
}

function stopByHand(download) {
  stop(download);
  fillRow(download, "stopped", partsLine(download), button("Verify it again", () => {
    renew(download);
    reviewAll();
  }));
  showBand();
  announce(download, `${VERDICTS.get("stopped")[1]}.`);
}

// Shows a verdict. A valid signature by a key from a source that is not trusted is "unchecked" instead of "good". The
// row is scrolled into view if this is the first verdict that the action of the visitor caused, or the first bad one.
function showVerdict(download, verdict, source) {
  const {why, number, keyIds, comment, otherNames = []} = verdict;
  const hasComment = comment !== undefined;
  const name = hasComment && !KEY_SOURCES.get(source.kind).isTrusted ? "unchecked" : verdict.verdict;
  const warning = name === "unlisted" ? UNLISTED : "";
  fillRow(download, name, ...(warning ? [element("p", "caution", warning)] : []), partsLine(download),
    ...(hasComment ? signedLines(verdict, source) : rejectionLines(verdict)),
    ...(name === "unsupported" ? commandLines(download) : []), ...listLines(verdict));
  if (number !== undefined) {
    download.row.dataset.number = number;
  }
  const [, words] = VERDICTS.get(name);
  const prefix = verdict.listName === undefined ? "The signature is for a file named" : "The name of this file in the list is";
  const names = otherNames.map(other => `${prefix} ${escaped(other)}.`);
  const sentences = [`${words}.`, hasComment ? `The key is ${keyIds.publicKeyId}.` : why, warning, ...names];
  announce(download, sentences.filter(each => each).join(" "));
  const {action, row} = download;
  const isFirstBad = name === "bad" && !action.hasBad;
  if (!action.hasVerdict || isFirstBad) {
    action.hasVerdict = true;
    action.hasBad ||= isFirstBad;
    rowToView = row;
  }
}

// A file name that a shell takes as one word, and that a program does not take as an option.
const PLAIN_NAME = /^[A-Za-z0-9_][A-Za-z0-9_.+-]*$/;

// Returns the paragraphs with the command that verifies a file which this page cannot verify. The command has FILE
// instead of a name that a shell may misinterpret.
function commandLines({name, tried}) {
  const file = PLAIN_NAME.test(name) ? name : "FILE";
  const signature = tried?.name ?? "";
  const option = signature === name + SIGNATURE_ENDING ? ""
    : ` -x ${PLAIN_NAME.test(signature) ? signature : `FILE${SIGNATURE_ENDING}`}`;
  return [element("p", "", "In the folder of the file and its signature, run:"),
    element("p", "", codeBox(`minisign -Vm ${file}${option} -P ${key.base64}`))];
}

// Returns the elements that explain the verdict on a file with a valid signature, or in a valid list.
function signedLines(verdict, source) {
  const {keyIds, comment, inexactNames = [], otherNames, listName} = verdict;
  const kind = listName === undefined ? "file" : "list";
  const intro = listName !== undefined ? listedLine(verdict, source)
    : element("p", "", "This file is exactly what was signed with the key ", codeBox(keyIds.publicKeyId), ", ",
      ...sourceNodes(source), ".");
  const names = inexactNames.map(name => nameLine(name, otherNames.includes(name)));
  if (comment === "") {
    return [intro, ...names, element("p", "", `The trusted comment, which was signed with the ${kind}, is empty.`)];
  }
  const box = untranslated("div", "comment", ...textNodes(comment));
  box.tabIndex = 0;
  box.role = "group";
  box.ariaLabel = "Trusted comment";
  const {time} = fieldsOfComment(comment);
  return [
    intro, ...names, element("p", "", `The trusted comment, which was signed with the ${kind}:`), box,
    ...(time ? [element("p", "", `According to the signer's clock, it was signed on ${time}.`)] : []),
  ];
}

// Returns the paragraph with a signed name. It is a warning if isOther is true, so that the file may be a different one.
function nameLine(signedName, isOther) {
  const line = element("p", isOther ? "caution" : "", "The signature is for a file named ", nameBox(signedName), ".");
  if (isOther) {
    line.append(" The file that you have may be a different one, or an older version.");
  }
  return line;
}

// Returns the elements that explain a verdict without a valid signature.
function rejectionLines({why, more, number, keyIds}) {
  const lines = [element("p", "why", why)];
  if (number === OTHER_KEY) {
    const {signatureKeyId, publicKeyId} = keyIds;
    lines.push(element("p", "", "The key ID of the signature is ", codeBox(signatureKeyId), ", and that of the public key is ",
      codeBox(publicKeyId), "."));
  }
  if (more) {
    lines.push(element("p", "", more));
  }
  if (number !== undefined) {
    lines.push(element("p", "aside", `Library message: ${library.errorText(number)}.`));
  }
  return lines;
}

// Makes a screen reader read these words, and then the name of the download.
function announce(download, words) {
  byId("log").append(element("p", "", `${words} The file's name: ${escaped(download.name)}`));
}

// Removes the announcements for screen readers, which are no longer true.
function clearLog() {
  byId("log").replaceChildren();
}

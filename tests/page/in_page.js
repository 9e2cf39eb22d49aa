// Functions that the tests run in the page, to act on it, to read what it shows, to break it, and to call its script.
// `Person.call_in_page` and `Person.act_in_page` of person.py call
// them.

const all = (parts, root = document) => Array.from(root.querySelectorAll(parts));
const allRows = () => all("#verdicts > li");
const boxOf = part => part.getBoundingClientRect();

// Returns the rows: verdict, error number or null, and texts.
function rows() {
  const isBold = part => getComputedStyle(part).fontWeight >= 600 && !part.parentElement.closest(".verdict, .caution");
  return allRows().map(row => ({
    verdict: row.dataset.verdict, number: row.dataset.number === undefined ? null : Number(row.dataset.number),
    head: row.querySelector(".verdict").textContent, name: row.querySelector(".name").textContent, text: row.innerText,
    why: row.querySelector(".why")?.textContent ?? "", comment: row.querySelector(".comment")?.textContent ?? null,
    cautions: all(".caution", row).map(caution => caution.innerText),
    bold: all("*", row).filter(isBold).map(part => part.innerText.trim()),
  }));
}

// Returns the verdict and the lines of the band at the top of the window, or null if there is no band.
function band() {
  const band = document.getElementById("band");
  return band?.checkVisibility() ? [band.dataset.verdict, ...Array.from(band.children, line => line.innerText)] : null;
}

// Returns five things: the rows; the band; true if this is a project's page, which has no field for a key; the notice
// about the key, with true if it is a warning; and the message that names the key and its source.
function pageState() {
  const notice = document.getElementById("key-notice");
  return [
    rows(),
    band(),
    !document.getElementById("key-text").checkVisibility(),
    [notice.innerText, notice.checkVisibility() && notice.classList.contains("caution")],
    document.getElementById("key-message").innerText
  ];
}

// Returns the error number of what was given as a key, 0 for a valid key, or null if nothing was given.
function numberOfKey() {
  const {number} = document.getElementById("key-message").dataset;
  return number === undefined ? null : Number(number);
}

// Returns true if the first element comes before the second one.
function isBefore(...names) {
  const [first, second] = names.map(name => document.getElementById(name));
  return (first.compareDocumentPosition(second) & Node.DOCUMENT_POSITION_FOLLOWING) !== 0;
}

// Sets the text of a field.
function typeText(name, text) {
  const field = document.getElementById(name);
  field.value = text;
  field.dispatchEvent(new Event("input", {bubbles: true}));
}

// Returns true if the page has processed all actions of the user.
function hasProcessedActions() {
  return !(Number(document.documentElement.dataset.pending) > 0);
}

// Returns true if the page with this query can be used, or has said that it cannot. (While it is being loaded, there may be no root
// element yet.)
function isReady(search = location.search) {
  return location.search === search && document.documentElement?.dataset.ready !== undefined && hasProcessedActions();
}

// Returns true if the page shows a message about the key.
function isKeyMessageShown() {
  return hasProcessedActions() && document.getElementById("key-message").innerText !== "";
}

function click(name) {
  document.getElementById(name).click();
}

// Clears the fields and the list.
function clearInputs() {
  typeText("key-text", "");
  typeText("signature-text", "");
  click("clear");
}

// Returns true if no action is being processed and no row is queued or being read, and otherwise the progress.
function progress() {
  const rows = allRows();
  const waiting = rows.filter(row => row.dataset.verdict === "queued").length;
  const reading = rows.find(row => row.dataset.verdict === "reading");
  return hasProcessedActions() && waiting === 0 && !reading ||
    [document.documentElement.dataset.pending, rows.length, waiting, reading?.innerText];
}

// Calls a function until it returns true, or for a second, and returns the last result.
async function waitUntil(condition) {
  const deadline = performance.now() + 1000;
  let result = condition();
  while (result !== true && performance.now() <= deadline) {
    await new Promise(resolve => setTimeout(resolve, 10));
    result = condition();
  }
  return result;
}

// Returns true if the verdict of this row, and all of its warnings, are in the window and not hidden by the band.
function isInView(name) {
  const row = allRows().find(each => each.querySelector(".name").textContent === name);
  const top = document.getElementById("band")?.getBoundingClientRect().bottom ?? 0;
  return all(".verdict, .caution", row).every(part => boxOf(part).top >= top && boxOf(part).bottom <= innerHeight);
}

// Returns true if the place for the download is completely in the window without scrolling.
function isDropAreaVisible() {
  const {top, bottom} = boxOf(document.querySelector("#files + label"));
  return scrollY === 0 && top >= 0 && bottom <= innerHeight;
}

// Returns true if the element with the focus, or the label that is shown instead of it, begins behind the band.
function isFocusBehindBand() {
  const active = document.activeElement, place = active.classList.contains("unseen") ? active.nextElementSibling : active;
  return boxOf(place).top < boxOf(document.getElementById("band")).bottom;
}

// Scrolls the page to a share of its length. Returns the band's position, and true if it has the full width, if it is
// at most a quarter of the window high, and if nothing covers it.
function bandAt(share) {
  scrollTo(0, share * document.documentElement.scrollHeight);
  const band = document.getElementById("band"), {left, top, width, height} = boxOf(band);
  return [left, top, width === document.documentElement.clientWidth, height <= innerHeight / 4,
    band.contains(document.elementFromPoint(left + width / 2, top + height / 2))];
}

// Gives each row this verdict, without details, and shows the band. Returns its share of the window's height, and its faults.
function bandWith(verdict) {
  for (const row of allRows()) {
    row.dataset.verdict = verdict;
  }
  showBand();
  const band = document.getElementById("band"), [head, step] = band.children, {top, bottom} = boxOf(band);
  const isWithin = part => boxOf(part).top >= top && boxOf(part).bottom <= bottom, middle = box => (box.top + box.bottom) / 2;
  return [boxOf(band).height / innerHeight, [
    [band.scrollHeight <= band.clientHeight, "the band is cut off"],
    [isWithin(head) && isWithin(step), "the verdict or the next step is out of view"],
    [middle(Array.from(head.querySelector("bdi").getClientRects()).pop()) < boxOf(head).bottom, "the first name is out of view"],
    [document.documentElement.scrollWidth <= document.documentElement.clientWidth, "the page is wider than the window"],
  ].filter(([isRight]) => !isRight).map(([, words]) => words)];
}

// Returns by what verdicts differ in rows or in the band: colours, the style of the border on this side, and words.
function verdictLooks(parts, side) {
  return Object.fromEntries(all(parts).map(row => {
    const style = getComputedStyle(row), head = row.querySelector(".verdict");
    const colours = side === "Left" ? [getComputedStyle(head).color, style.borderLeftColor] : [style.backgroundColor];
    return [row.dataset.verdict, {colours, line: [style[`border${side}Style`]], words: [head.textContent]}];
  }));
}

// Returns the styles that make elements look like buttons, for the button below the list and for each place for files.
function buttons() {
  const styleOf = part => {
    const {backgroundColor, borderTopWidth, borderTopStyle, borderTopColor, paddingLeft, display} = getComputedStyle(part);
    return [backgroundColor, borderTopWidth, borderTopStyle, borderTopColor, paddingLeft, display].join(" ");
  };
  return [document.getElementById("clear"), ...all(".drop-area .button")].map(styleOf);
}

// Returns true if the page is not wider than the window, and no part of a row overflows the row.
function fitsWindow() {
  const isWithin = (part, row) => {
    const inner = boxOf(part), outer = boxOf(row);
    return inner.left >= outer.left - 1 && inner.right <= outer.right + 1
      && inner.top >= outer.top - 1 && inner.bottom <= outer.bottom + 1;
  };
  const {scrollWidth, clientWidth} = document.documentElement;
  return scrollWidth <= clientWidth
    && allRows().every(row => all(".verdict, .name, .comment, .why, button, progress", row).every(part => isWithin(part, row)));
}

// Returns the elements whose content is cut off, or overflows, on the right.
function cutOffParts() {
  return all("main, main *, footer, footer *")
    .filter(
      part => part.checkVisibility() && !part.closest(".unseen") && part.clientWidth > 0
        && part.scrollWidth > part.clientWidth + 1
    )
    .map(part => `${part.tagName} ${part.className}: ${part.innerText.slice(0, 40)}`);
}

function textsBelow(part) {
  const walker = document.createTreeWalker(part, NodeFilter.SHOW_TEXT), texts = [];
  while (walker.nextNode()) {
    texts.push(walker.currentNode);
  }
  return texts;
}

// Returns the texts that contain one of these words and that a browser may translate.
function translatableTexts(words) {
  return textsBelow(document.querySelector("main"))
    .filter(text => text.parentElement.translate && words.some(word => text.data.includes(word))).map(text => text.data);
}

// Returns the title of the window and the heading of the page.
function titles() {
  return [document.title, document.querySelector("h1").innerText];
}

// Returns the page's title, the number of elements that a text could have added to the rows, and the classes of unexpected elements
// inside of names and comments.
function markup() {
  const classes = all(".comment *, .name *").map(part => part.className);
  return [
    document.title,
    all("#verdicts :is(img, script, a, iframe, style, b)").length,
    classes.filter(name => name !== "unseeable")
  ];
}

// Returns the contrast of each visible text to its background (WCAG 2), and the text. On paper the background is white,
// because browsers do not print backgrounds.
function contrasts(isPrinted = false) {
  const channel = value => value <= 0.04045 ? value / 12.92 : ((value + 0.055) / 1.055) ** 2.4;
  const luminance = color => {
    const [r, g, b] = color.match(/[\d.]+/g).map(Number);
    return 0.2126 * channel(r / 255) + 0.7152 * channel(g / 255) + 0.0722 * channel(b / 255);
  };
  const isClear = color => color === "transparent" || /, 0\)$/.test(color);
  const backgroundOf = part => {
    const color = part && !isPrinted ? getComputedStyle(part).backgroundColor : "rgb(255, 255, 255)";
    return isClear(color) ? backgroundOf(part.parentElement) : color;
  };
  const visible = textsBelow(document.body).filter(({data, parentElement: part}) =>
    data.trim() && part.checkVisibility() && !part.closest("script, .unseen"));
  return visible.map(({data, parentElement: part}) => {
    const [text, background] = [getComputedStyle(part).color, backgroundOf(part)].map(luminance);
    return [(Math.max(text, background) + 0.05) / (Math.min(text, background) + 0.05), data.trim().slice(0, 40)];
  });
}

// Returns the widths of the borders of rows and warnings, true if the media feature has this value, and true if the
// page's background is white.
function mediaEffects(feature, value) {
  return [
    all("#verdicts > li, .caution").map(part => getComputedStyle(part).borderLeftWidth),
    matchMedia(`(${feature}: ${value})`).matches,
    getComputedStyle(document.body).backgroundColor === "rgb(255, 255, 255)"
  ];
}

// Scrolls an element into view, and returns the middle of its visible part.
function middleOf(name) {
  const part = document.getElementById(name);
  part.scrollIntoView();
  const {left, top, width, height} = boxOf(part);
  return [left + width / 2, top + Math.min(height, innerHeight) / 2];
}

// Returns the heading of the files of the release, and for each of them its name, its state, the words of that, and its
// link, if any.
function releaseList() {
  return [document.getElementById("release-head").innerText, all("#release-files > li").map(row => [
    row.querySelector(".name").innerText, row.dataset.verdict, row.querySelector(".state").innerText,
    row.querySelector("a")?.getAttribute("href") ?? null])];
}

// ---- Actions for which Firefox has no command ----

// Sets the size of the page within the browser's window. Without a width the page fills the window.
function resizeIn(width, height) {
  gBrowser.selectedBrowser.style.cssText = width === null ? ""
    : `min-width: 0; flex: none; align-self: flex-start; width: ${width}px; height: ${height}px`;
}

// Shows the page as it would be printed on a system with a dark colour scheme, or returns to the normal view.
function printIn(isPrinted) {
  const {browsingContext} = gBrowser.selectedBrowser;
  browsingContext.mediumOverride = isPrinted ? "print" : "";
  browsingContext.prefersColorSchemeOverride = isPrinted ? "dark" : "none";
}

function forceColours(isForced) {
  Services.prefs.setIntPref("browser.display.document_color_use", isForced ? 2 : 0);
}

// Sets the directory for downloads.
function saveInto(directory) {
  Services.prefs.setStringPref("browser.download.dir", directory);
}

// Adds a file field. dropFrom drops its files on another element.
function addPlace(name) {
  document.body.append(Object.assign(document.createElement("input"), {type: "file", multiple: true, id: name}));
}

function dropFrom(place, name) {
  const input = document.getElementById(name), data = new DataTransfer();
  for (const file of input.files) {
    data.items.add(file);
  }
  input.remove();
  dropData(place, data);
}

function dropText(place, text) {
  const data = new DataTransfer();
  data.setData("text/plain", text);
  dropData(place, data);
}

function dropData(place, dataTransfer) {
  document.getElementById(place).dispatchEvent(new DragEvent("drop", {dataTransfer, bubbles: true, cancelable: true}));
}

// ---- Breaking the page ----

// Counts in window.readings how often the page begins to read a file of this name, in its own thread or in others.
function countReadings(name) {
  const {prototype} = Worker, {postMessage} = prototype, {bytesOfFile} = window;
  window.readings = 0;
  prototype.postMessage = function (message) {
    window.readings += message.file?.name === name && message.begin === 0 ? 1 : 0;
    postMessage.call(this, message);
  };
  window.bytesOfFile = (file, begin, end) => {
    window.readings += file.name === name && begin === 0 ? 1 : 0;
    return bytesOfFile(file, begin, end);
  };
}

// Makes the next call of a function of the page hang.
function hangOnce(name) {
  const original = window[name];
  window[name] = () => {
    window[name] = original;
    window.isBroken = true;
    return new Promise(() => {});
  };
}

// Makes worker threads end when they get a message, four times.
function endThreads() {
  const {prototype} = Worker, original = prototype.postMessage;
  let count = 0;
  prototype.postMessage = function () {
    this.terminate();
    if (++count === 4) {
      prototype.postMessage = original;
      window.isBroken = true;
    }
  };
}

// Delays the first text that is read until a part of the next file has been read.
function waitOnce() {
  const original = window.bytesOfTextFile;
  window.bytesOfTextFile = async file => {
    window.bytesOfTextFile = original;
    await new Promise(resolve => {
      new MutationObserver((_, observer) => {
        if ((document.querySelector("progress")?.value ?? 0) > 0) {
          observer.disconnect();
          resolve();
        }
      }).observe(document.getElementById("verdicts"), {attributes: true, childList: true, subtree: true});
    });
    window.isBroken = true;
    return original(file);
  };
}

// Delays each file that the page reads until letFilesGo is called. (Texts are delayed before their time limit starts.)
function holdFiles() {
  const {bytesOfFile, bytesOfTextFile} = window;
  const released = new Promise(resolve => {
    window.letFilesGo = () => {
      Object.assign(window, {bytesOfFile, bytesOfTextFile});
      resolve();
    };
  });
  window.bytesOfFile = async (...range) => {
    await released;
    return bytesOfFile(...range);
  };
  window.bytesOfTextFile = async file => {
    await released;
    return bytesOfTextFile(file);
  };
}

// Makes reading files with this name fail.
function breakFiles(name) {
  const original = window.bytesOfFile;
  window.bytesOfFile = async (file, ...range) => file.name === name ? null : await original(file, ...range);
}

// ---- Calling the page's script ----

// Verifies COUNT generated files, and counts the good verdicts in window.verified.
function verifyMany(count, text, data) {
  const original = window.showVerdict;
  const files = Array.from({length: count}, (_, at) => [new File([data], `f${at}`), new File([text], `f${at}.minisig`)]).flat();
  window.verified = 0;
  window.showVerdict = (download, verdict, source) => {
    original(download, verdict, source);
    window.verified += verdict.verdict === "good" ? 1 : 0;
  };
  queueAction(() => takeFiles(files));
}

// Requests an address by fetch and as a picture, and returns which of the two succeeded.
async function fetchFrom(address) {
  const succeeded = [], picture = new Image();
  await fetch(`${address}?fetched`).then(() => succeeded.push("fetch"), () => {});
  await new Promise(resolve => {
    picture.onload = () => resolve(succeeded.push("picture"));
    picture.onerror = resolve;
    picture.src = `${address}?picture`;
  });
  return succeeded;
}

// Calls page_ask with any number as `allow_legacy`; the page itself passes 0 or 1. Returns the error number, and true
// if the state is unchanged.
function askWithFlag(key, signature, flag, isBegun) {
  const state = isBegun ? library.begin() : new Uint8Array(STATE_BYTES), stateBefore = state.slice();
  const keyStruct = library.readKey(Uint8Array.from(key), false).key;
  const {text, value} = library.readSignature(Uint8Array.from(signature));
  const number = library.onState(state, address => library.calls.page_ask(
    address, library.put(library.key, KEY_BYTES, keyStruct)[0], library.put(library.signature, SIGNATURE_BYTES, value)[0],
    ...library.put(library.text, TEXT_BYTES, text), flag, BigInt(library.questions), BigInt(library.message), BigInt(TEXT_BYTES)));
  return [number, state.every((byte, at) => byte === stateBefore[at])];
}

// Collects the results of the page's module for keys, signatures and data: all error numbers, output structs and
// states, also for signatures that were tampered with after parsing. tests/page/module_32_bit.py runs it with
// bindings/javascript/calls.js in Chromium, which can load the module with 64-bit memory too.

function bytesOf(base64) {
  return Uint8Array.from(atob(base64), letter => letter.charCodeAt(0));
}

function hexOf(bytes) {
  return Array.from(bytes, byte => byte.toString(16).padStart(2, "0")).join("");
}

function textOf(answer) {
  return JSON.stringify(answer, (_, value) => value instanceof Uint8Array ? hexOf(value) : value);
}

// Returns the results for one case in a list. If the key cannot be parsed, neither as a file nor as a line, the
// signature is checked with a key of zeros.
function answersAbout(library, {pk, sig, data}) {
  const [keyText, signatureText, bytes] = [pk, sig, data].map(bytesOf);
  const results = [library.readKey(keyText, false), library.readKey(keyText, true)];
  const key = results.find(result => result.number === 0)?.key ?? new Uint8Array(40);
  const signature = library.readSignature(signatureText);
  results.push(signature);
  for (const change of [{text: signatureText.subarray(1)}, {value: signature.value.map((byte, at) => at === 147 ? 9 : byte)}]) {
    const state = library.begin();
    results.push({asked: library.ask(state, key, {...signature, ...change}, true), state});
  }
  for (const allowsLegacy of [false, true]) {
    for (const [first, second] of [[true, true], [true, false], [false, true], [false, false]]) {
      const state = library.begin();
      const asked = library.ask(state, key, signature, allowsLegacy);
      const fed = library.feed(state, bytes);
      if (asked.number !== 0) {
        results.push({asked, fed, state});
        break;
      }
      const digest = library.digest(state, asked);
      const before = state.slice();
      results.push({asked, fed, digest, before, verdict: library.verdict(state, first, second), state});
    }
  }
  return results;
}

// Returns the module's error texts, followed by the results for all cases.
async function answersOf(Library, module, cases) {
  const library = await Library.load(bytesOf(module));
  const texts = Array.from({length: 256}, (_, number) => library.errorText(number));
  return [textOf(texts), ...cases.map(each => textOf(answersAbout(library, each)))];
}

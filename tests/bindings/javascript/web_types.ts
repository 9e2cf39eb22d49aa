// Checks the types of the package with those of the web. `tests/bindings/javascript.py` compiles this program with the DOM library.

import { createVerifier, verify } from "minisign-proved";

export async function all(file: File, answer: Response, signature: Blob, key: string): Promise<string[]> {
  const text = await signature.arrayBuffer(), { signal } = new AbortController();
  const verified = [await verify(file, text, key, { signal }), await verify(new Blob([file]), text, key)];
  if (answer.body !== null) {
    verified.push(await verify(answer.body, text, key, { signal, allowLegacy: false }));
    const verifier = await createVerifier(text, key), [first, second] = new Response("x").body!.tee();
    await Promise.all([first.pipeTo(verifier.writable), second.pipeTo(new WritableStream())]);
  }
  return verified.map((result) => result.trustedComment);
}

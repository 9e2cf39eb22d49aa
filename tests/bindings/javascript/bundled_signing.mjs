// A program that signs and verifies, which javascript.py bundles. It makes and verifies a signature, and prints the trusted
// comment.

import {generateSecretKey, sign, verify, writePublicKey} from "minisign-proved";

const data = new Uint8Array(1);

async function signAndVerify() {
  const key = await generateSecretKey();
  return verify(data, await sign(data, key, {trustedComment: "signed"}), await writePublicKey(key));
}

signAndVerify().then(({trustedComment}) => console.log(trustedComment), console.log);

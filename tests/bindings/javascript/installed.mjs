// Verifies the file `app` with the published key, as a program of a user who has installed the package.
// tests/bindings/install_commands.py runs it.

import {readFileSync} from "node:fs";

import {verify} from "minisign-proved";

const [data, signature] = ["app", "app.minisig"].map(name => readFileSync(name));
const verdict = verify(data, signature, "RWQf6LRCGA9i53mlYecO4IzT51TGPpvWucNSCh1CBM0QTaLn73Y7GFO3");
console.log(await verdict.then(() => true, () => false));

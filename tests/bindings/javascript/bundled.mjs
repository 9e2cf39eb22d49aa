// A program that only verifies, which javascript.py bundles. Its arguments are a key, data and a signature in hexadecimal digits.

import {verify} from "minisign-proved";

const [key, data, signature] = process.argv.slice(2).map(digits => Uint8Array.from(Buffer.from(digits, "hex")));
verify(data, signature, key).then(({trustedComment}) => console.log(trustedComment), why => console.log(why.code));

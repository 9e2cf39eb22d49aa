// Makes calls to the functions of a WebAssembly module in Node. wasm_translation.py runs this program:
//
//     node wasm_translation.js MODULE DESCRIPTION < CALLS > RESULTS
//
// DESCRIPTION is a JSON file with the names and parameter types of the functions, the name of the global variable for the
// stack pointer, the end of the stack, and the address and length of the buffer. A call consists of the index of the function,
// three numbers of 64 bits, and the content of the buffer. A result consists of a byte that is 1 if the function trapped, 8
// bytes with the returned number, and the content of the buffer.
'use strict';
const fs = require('fs');
const [functions, stackPointer, stackEnd, bufferAddress, bufferLength] = JSON.parse(fs.readFileSync(process.argv[3]));
const env = { [stackPointer]: new WebAssembly.Global({ value: 'i64', mutable: true }, BigInt(stackEnd)) };
const wasmModule = new WebAssembly.Module(fs.readFileSync(process.argv[2]));
const wasmExports = new WebAssembly.Instance(wasmModule, { env }).exports;
const calls = fs.readFileSync(0);
const callLength = 32 + bufferLength;
const results = [];

// Converts a 64-bit number to an argument of this type. An argument of the type 'base' is the address of the buffer.
function argument(type, number) {
  if (type === 'base') { return BigInt(bufferAddress); }
  return type === 'i32' ? Number(BigInt.asIntN(32, number)) : number;
}

for (let at = 0; at < calls.length; at += callLength) {
  const [index, ...numbers] = [0, 8, 16, 24].map((offset) => calls.readBigUInt64LE(at + offset));
  const [name, types] = functions[Number(index)];
  const memory = new Uint8Array(wasmExports.memory.buffer, bufferAddress, bufferLength);
  memory.set(calls.subarray(at + 32, at + callLength));
  const result = Buffer.alloc(9);
  try {
    const returned = wasmExports[name](...types.map((type, i) => argument(type, numbers[i])));
    result.writeBigUInt64LE(typeof returned === 'bigint' ? BigInt.asUintN(64, returned) : BigInt((returned ?? 0) >>> 0), 1);
  } catch (error) {
    if (!(error instanceof WebAssembly.RuntimeError)) { throw error; }
    result[0] = 1;
  }
  results.push(result, Buffer.from(memory));
}
fs.writeSync(1, Buffer.concat(results));

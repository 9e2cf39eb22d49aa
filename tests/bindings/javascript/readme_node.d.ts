// Declares the functions of Node that README.md uses, because Debian has no package of Node's types.

declare module "node:fs" {
  export function createReadStream(path: string): AsyncIterable<Uint8Array>;
}

declare module "node:fs/promises" {
  export function readFile(path: string): Promise<Uint8Array>;
  export function writeFile(path: string, text: string): Promise<void>;
}

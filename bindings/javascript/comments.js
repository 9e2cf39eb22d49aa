// SPDX-License-Identifier: MIT
// Parses trusted comments. index.d.ts documents parseTrustedComment.

import { mustBe } from "./arguments.js";

// The labels of the fields that are returned as strings, and as numbers.
const TEXT_FIELDS = ["file", "version"];
const NUMBER_FIELDS = ["timestamp", "expires", "size"];

export function parseTrustedComment(comment) {
  mustBe(typeof comment === "string", "comment", "a string", comment);
  const fields = { hashed: false };
  const parts = comment.split("\t");
  for (const name of [...TEXT_FIELDS, ...NUMBER_FIELDS]) {
    const [value, secondValue] = parts
      .filter((part) => part.startsWith(`${name}:`))
      .map((part) => part.slice(name.length + 1));
    const isNumber = /^\d+$/.test(value) && Number.isSafeInteger(Number(value));
    // A field that occurs twice is left out, because other programs may use the
    // first or the second value.
    if (value !== undefined && secondValue === undefined) {
      if (TEXT_FIELDS.includes(name)) {
        fields[name] = value;
      } else if (isNumber) {
        fields[name] = Number(value);
      }
    }
  }
  fields.hashed = parts.includes("hashed");
  return Object.freeze(fields);
}

// SPDX-License-Identifier: MIT
// Verifies one signature: makes the calls of the library in the right order,
// and the two Ed25519 checks. Several verifications can share one library.

import { accepts } from "./ed25519.js";

export class Verification {
  // Begins to verify a signature, a result of Library.readSignature, with a
  // key, the struct that Library.readKey returns. Sets `number` to 0, or to the
  // error number if the signature is rejected whatever the data is. For an
  // allowed legacy signature, all data is kept in memory, because Ed25519 needs
  // the data itself and not its digest.
  constructor(library, key, signature, allowsLegacy) {
    this.library = library;
    this.askArguments = [key, signature, allowsLegacy];
    this.state = library.begin();
    this.questions = library.ask(this.state, ...this.askArguments);
    this.number = this.questions.number;
    this.legacyData = [];
  }

  // Feeds the next bytes of the data, of any length.
  feed(bytes) {
    checkUse(this.library.feed(this.state, bytes));
    if (this.questions.isLegacy) {
      this.legacyData.push(bytes.slice());
    }
  }

  // Uses data that was already fed to another state, so that data which is read
  // once can be verified with many signatures. `state` is a state of
  // Library.begin to which all data was fed. It is copied. If the signature is
  // a legacy one, `legacyData` has the pieces of the data.
  takeState(state, legacyData) {
    this.state = state.slice();
    this.questions = this.library.ask(this.state, ...this.askArguments);
    checkUse(this.questions.number);
    this.legacyData = legacyData;
  }

  // Resolves to true if Ed25519 accepts the comment signature.
  acceptsComment() {
    const { publicKey, commentSignature, message } = this.questions;
    return accepts(publicKey, commentSignature, message);
  }

  // Resolves to 0 if the comment signature is valid, and otherwise to the error
  // number. The result does not depend on the data: this method ends another
  // verification, of empty data, and passes `true` as the result of Ed25519 for
  // the signature of the data.
  async commentVerdict() {
    const { library } = this;
    const state = library.begin();
    checkUse(library.digest(state, library.ask(state, ...this.askArguments)));
    return library.verdict(state, true, await this.acceptsComment());
  }

  // Ends the verification. Resolves to `number`, which is 0 if and only if the
  // signature is valid for all data that was fed, otherwise the error number;
  // and to `isDataValid`, which is true if Ed25519 accepts the signature of the
  // data.
  async end() {
    const { library, state, questions } = this;
    checkUse(library.digest(state, questions));
    const { isLegacy, publicKey, signature } = questions;
    const message = isLegacy ? joinedPieces(this.legacyData) : questions.digest;
    const isDataValid = await accepts(publicKey, signature, message);
    const isCommentValid = await this.acceptsComment();
    this.number = library.verdict(state, isDataValid, isCommentValid);
    return { number: this.number, isDataValid };
  }

  // Returns the trusted comment, which is the end of the message that the
  // comment signature signs. The library has checked that it is UTF-8.
  comment() {
    const decoder = new TextDecoder("utf-8", { fatal: true, ignoreBOM: true });
    return decoder.decode(this.questions.comment);
  }
}

// Concatenates pieces of bytes.
function joinedPieces(pieces) {
  const length = pieces.reduce((sum, piece) => sum + piece.length, 0);
  const bytes = new Uint8Array(length);
  let end = 0;
  for (const piece of pieces) {
    bytes.set(piece, end);
    end += piece.length;
  }
  return bytes;
}

// Throws if a call returned an error number. No call does if the calls are made
// in the right order.
function checkUse(number) {
  if (number !== 0) {
    const why = new Error(`internal error of the library: ${number}`);
    throw Object.assign(why, { code: "MISUSED" });
  }
}

// SPDX-License-Identifier: MIT

//go:build cgo

// Package minisign verifies and makes Minisign signatures with proved code. Its functions for verifying have the names,
// parameters and results of go-minisign.
package minisign

import (
	"bytes"
	"crypto/ed25519"
	"encoding/base64"
	"encoding/binary"
	"errors"
	"fmt"
	"io"
	"os"
	"strings"
)

// A PublicKey verifies signatures. Verifying uses the current values of its fields.
type PublicKey struct {
	// "Ed" in every key that was read, whatever algorithm the key file has. With any other value, verifying returns
	// ErrUnsupportedAlgorithm.
	SignatureAlgorithm [2]byte
	KeyId              [8]byte
	PublicKey          [32]byte
}

// KeyIdText returns the key ID as the program minisign prints it: in upper-case hexadecimal digits without leading zeros.
func (publicKey *PublicKey) KeyIdText() string { return keyIdText(publicKey.KeyId) }

func keyIdText(keyId [8]byte) string {
	return fmt.Sprintf("%X", binary.LittleEndian.Uint64(keyId[:]))
}

// A Signature is a parsed signature file, such as data.minisig. Parsing verifies nothing. Verifying checks the current
// values of the fields, so changing any field except UntrustedComment makes the signature invalid.
type Signature struct {
	// The first line, including "untrusted comment: ". It is not signed.
	UntrustedComment string
	// "ED", or "Ed" for a legacy signature, which signs the data itself instead of its digest.
	SignatureAlgorithm [2]byte
	KeyId              [8]byte
	Signature          [64]byte
	// The third line, including "trusted comment: ". The text after these words is signed.
	TrustedComment string
	// The comment signature. If the file has fewer than 64 bytes for it, all bytes are zero, and Verify returns
	// ErrWeakEd25519.
	GlobalSignature [64]byte
}

// KeyIdText returns the key ID as the program minisign prints it: in upper-case hexadecimal digits without leading zeros.
func (signature *Signature) KeyIdText() string { return keyIdText(signature.KeyId) }

// Encode returns the four lines of a signature file, such as data.minisig.
func (signature *Signature) Encode() string {
	record := bytes.Join([][]byte{signature.SignatureAlgorithm[:], signature.KeyId[:], signature.Signature[:]}, nil)
	lines := []string{
		signature.UntrustedComment, base64.StdEncoding.EncodeToString(record),
		signature.TrustedComment, base64.StdEncoding.EncodeToString(signature.GlobalSignature[:]),
	}
	return strings.Join(lines, "\n") + "\n"
}

// NewPublicKey parses the 56 base64 characters of a public key, which are the second line of its file and the argument
// of minisign -P. It returns ErrNotUtf8, ErrBarePublicKeyLength, ErrBarePublicKeyNotBase64 or ErrRecordTooShort if they are
// malformed.
func NewPublicKey(publicKeyStr string) (PublicKey, error) {
	return readPublicKey(publicKeyStr, true)
}

// DecodePublicKey parses the content of a public key file, such as minisign.pub: both lines. It returns ErrNotUtf8,
// ErrMissingPublicKeyComment, ErrMissingPublicKey, ErrPublicKeyLength, ErrPublicKeyNotBase64 or ErrRecordTooShort if the
// content is malformed.
func DecodePublicKey(in string) (PublicKey, error) {
	return readPublicKey(in, false)
}

// NewPublicKeyFromFile reads a public key file, such as minisign.pub. It returns the errors of os.ReadFile and of
// DecodePublicKey.
func NewPublicKeyFromFile(file string) (PublicKey, error) {
	text, err := os.ReadFile(file)
	if err != nil {
		return PublicKey{}, err
	}
	return DecodePublicKey(string(text))
}

// DecodeSignature parses the content of a signature file, such as data.minisig: four lines. It verifies nothing.
//
// If the content is malformed, it returns ErrNotUtf8, ErrMissingUntrustedComment, ErrMissingSignature,
// ErrMissingTrustedComment, ErrMissingCommentSignature, ErrUntrustedCommentPrefix, ErrSignatureNotBase64,
// ErrRecordTooShort, ErrTrustedCommentPrefix or ErrUnsupportedAlgorithm.
func DecodeSignature(in string) (Signature, error) {
	parsed, err := parseSignature(in)
	if err != nil {
		return Signature{}, err
	}
	return parsed.signature(), nil
}

// NewSignatureFromFile reads a signature file, such as data.minisig. It verifies nothing. It returns the errors of
// os.ReadFile and of DecodeSignature.
func NewSignatureFromFile(file string) (Signature, error) {
	text, err := os.ReadFile(file)
	if err != nil {
		return Signature{}, err
	}
	return DecodeSignature(string(text))
}

// Verify returns true if the signature is valid for the data, and otherwise false and the reason: one of the errors of
// NewVerifier except ErrLegacyNotAccepted, or ErrSignatureRefused or ErrCommentSignatureRefused. It also accepts legacy
// signatures, which sign the data itself, as Minisign made them before version 0.10.
func (publicKey *PublicKey) Verify(bin []byte, signature Signature) (bool, error) {
	verifier, err := begin(publicKey, signature, true)
	if err == nil {
		_, err = verifier.Write(bin)
	}
	if err == nil {
		err = verifier.end(bin)
	}
	return err == nil, err
}

// VerifyFromFile verifies a file as Verify verifies data. It reads the file in pieces, but keeps the whole file in memory
// if the signature is a legacy one.
func (publicKey *PublicKey) VerifyFromFile(file string, signature Signature) (bool, error) {
	reader, err := os.Open(file)
	if err != nil {
		return false, err
	}
	defer reader.Close()
	verifier, err := begin(publicKey, signature, true)
	if err != nil {
		return false, err
	}
	var legacyData bytes.Buffer
	writer := io.Writer(verifier)
	if verifier.questions.isLegacy() {
		writer = io.MultiWriter(verifier, &legacyData)
	}
	if _, err = io.Copy(writer, reader); err == nil {
		err = verifier.end(legacyData.Bytes())
	}
	return err == nil, err
}

// VerifyReader verifies the data of a reader, up to its end, as Verify does, but rejects legacy signatures with
// ErrLegacyNotAccepted.
func (publicKey *PublicKey) VerifyReader(reader io.Reader, signature Signature) (bool, error) {
	if reader == nil {
		return false, errors.New("minisign: reader is nil")
	}
	verifier, err := NewVerifier(publicKey, signature)
	if err == nil {
		_, err = io.Copy(verifier, reader)
	}
	if err != nil {
		return false, err
	}
	return verifier.Verify()
}

// A Verifier verifies data that arrives in pieces. It is an io.Writer: write the data, then call Verify once. Make one
// with NewVerifier.
type Verifier struct {
	publicKey [32]byte
	state     *state
	questions *questions
}

// NewVerifier begins a verification, and checks everything that does not depend on the data.
//
// It returns an error if publicKey is nil; ErrUnsupportedAlgorithm if the algorithm of the key is not "Ed"; the errors of
// DecodeSignature if a field of the signature is malformed; ErrDifferentKeyIds if the signature has another key ID;
// ErrLegacyNotAccepted for a legacy signature; ErrWeakEd25519 for a weak key or signature; and ErrBadComment if a comment
// cannot be written to a signature file and read back, for example because it contains a line feed.
func NewVerifier(publicKey *PublicKey, signature Signature) (*Verifier, error) {
	return begin(publicKey, signature, false)
}

// begin does the same as NewVerifier, but accepts legacy signatures if allowLegacy is true.
func begin(publicKey *PublicKey, signature Signature, allowLegacy bool) (*Verifier, error) {
	if publicKey == nil {
		return nil, errors.New("minisign: publicKey is nil")
	}
	if publicKey.SignatureAlgorithm != [2]byte{'E', 'd'} {
		return nil, ErrUnsupportedAlgorithm
	}
	parsed, err := parseSignature(signature.Encode())
	if err != nil {
		return nil, err
	}
	state := callInit()
	questions, err := ask(state, publicKey, parsed, allowLegacy)
	if err != nil {
		return nil, err
	}
	// The fields differ if a comment contains a line feed or ends with white space.
	if parsed.signature() != signature {
		return nil, ErrBadComment
	}
	return &Verifier{publicKey.PublicKey, state, questions}, nil
}

// Write adds the next piece of the data, of any length. After Verify it returns ErrNotBegun.
func (verifier *Verifier) Write(piece []byte) (int, error) {
	if verifier.state == nil {
		return 0, ErrNotBegun
	}
	if err := callUpdate(verifier.state, piece); err != nil {
		return 0, err
	}
	return len(piece), nil
}

// VerifyTrustedComment returns true if the comment signature is valid, and otherwise false and ErrCommentSignatureRefused.
// You can call it before you have the data. The result says nothing about the data. After Verify it returns ErrNotBegun.
func (verifier *Verifier) VerifyTrustedComment() (bool, error) {
	if verifier.state == nil {
		return false, ErrNotBegun
	}
	err := callCommentVerdict(verifier.state, verifier.acceptsComment())
	return err == nil, err
}

func (verifier *Verifier) acceptsComment() bool {
	return accepts(verifier.publicKey, verifier.questions.commentMessage, verifier.questions.commentSignature())
}

// accepts returns true if the Ed25519 of the standard library accepts a signature. The standard library accepts some
// signatures that libsodium rejects, but ask has already rejected these (ErrWeakEd25519).
func accepts(publicKey [32]byte, message []byte, signature [64]byte) bool {
	return ed25519.Verify(publicKey[:], message, signature[:])
}

// Verify returns true if the signature is valid for all data that was written, and otherwise false and
// ErrSignatureRefused or ErrCommentSignatureRefused. Then use none of the data. Call it once: a second call returns
// ErrNotBegun.
func (verifier *Verifier) Verify() (bool, error) {
	err := verifier.end(nil)
	return err == nil, err
}

// end ends the verification and returns nil if the signature is valid. For a legacy signature, bin must be all of the data.
// For other signatures it is not used.
func (verifier *Verifier) end(bin []byte) error {
	if verifier.state == nil {
		return ErrNotBegun
	}
	digest, err := callDigest(verifier.state)
	if err != nil {
		return err
	}
	message := digest[:]
	if verifier.questions.isLegacy() {
		message = bin
	}
	isDataValid := accepts(verifier.publicKey, message, verifier.questions.dataSignature())
	return callVerdict(verifier.state, isDataValid, verifier.acceptsComment())
}

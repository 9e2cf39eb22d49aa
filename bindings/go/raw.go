// SPDX-License-Identifier: MIT

//go:build cgo

package minisign

/*
#cgo CFLAGS: -I${SRCDIR}
#cgo portable !linux !amd64,!arm64 CFLAGS: -DMINISIGN_PORTABLE
#cgo !linux 386 arm mips mipsle CFLAGS: -DMINISIGN_MALLOC_ALONE
#cgo linux,!portable LDFLAGS: -L${SRCDIR}
#cgo linux,!portable,amd64,!amd64.v3 LDFLAGS: -l:calls-x86-64-v2.a
#cgo linux,!portable,amd64,amd64.v3 LDFLAGS: -l:calls-x86-64-v3.a
#cgo linux,!portable,arm64 LDFLAGS: -l:calls-aarch64.a
#include "archive.h"
#include <minisign_list.h>
*/
import "C"
import (
	"encoding/base64"
	"runtime"
	"strings"
	"unsafe"
)

// An Error is an error code of minisign.h. Its message is that of minisign_error_text.
type Error uint32

// Name returns the name of the error in minisign.h, without MINISIGN_. It returns "" for a number that is not an error.
func (err Error) Name() string { return names[err] }

func (err Error) Error() string {
	var text [C.MINISIGN_ERROR_TEXT_BYTES]C.char
	C.minisign_error_text(C.uint32_t(err), &text[0], C.MINISIGN_ERROR_TEXT_BYTES)
	return "minisign: " + C.GoString(&text[0])
}

// A state is the library's state of one verification or signature.
type state = C.minisign_state

// A parsedSignature is the content of a signature file, with the struct that the library has parsed it into.
type parsedSignature struct {
	text string
	raw  *C.minisign_signature
}

func parseSignature(text string) (*parsedSignature, error) {
	raw, err := callReadSignature([]byte(text))
	return &parsedSignature{text, raw}, err
}

// signature returns the fields of the signature. The untrusted comment comes from the text, because the library does not
// return it.
func (parsed *parsedSignature) signature() Signature {
	firstLine, _, _ := strings.Cut(parsed.text, "\n")
	raw := parsed.raw
	return Signature{
		UntrustedComment:   strings.TrimRight(firstLine, "\r"),
		SignatureAlgorithm: *(*[2]byte)(unsafe.Pointer(&raw.algorithm)),
		KeyId:              *(*[8]byte)(unsafe.Pointer(&raw.key_id)),
		Signature:          *(*[64]byte)(unsafe.Pointer(&raw.signature)),
		TrustedComment:     "trusted comment: " + parsed.text[raw.comment_offset:][:raw.comment_len],
		GlobalSignature:    *(*[64]byte)(unsafe.Pointer(&raw.comment_signature)),
	}
}

// questions are the two signatures that Ed25519 has to check, and the message that the comment signature signs.
type questions struct {
	raw            *C.minisign_questions
	commentMessage []byte
}

// raw encodes the key and lets the library parse it, because the library accepts only keys that it has parsed itself.
func (publicKey *PublicKey) raw() (*C.minisign_public_key, error) {
	record := append(append([]byte("Ed"), publicKey.KeyId[:]...), publicKey.PublicKey[:]...)
	return callReadBarePublicKey([]byte(base64.StdEncoding.EncodeToString(record)))
}

// ask makes all checks of a key and a signature that need neither the data nor Ed25519.
func ask(state *state, publicKey *PublicKey, signature *parsedSignature, allowLegacy bool) (*questions, error) {
	key, err := publicKey.raw()
	if err != nil {
		return nil, err
	}
	var legacy C.uint32_t
	if allowLegacy {
		legacy = 1
	}
	raw, commentMessage, err := callAsk(state, key, signature.raw, []byte(signature.text), legacy)
	return &questions{raw, commentMessage}, err
}

func (questions *questions) isLegacy() bool { return questions.raw.legacy == 1 }

func (questions *questions) dataSignature() [64]byte {
	return *(*[64]byte)(unsafe.Pointer(&questions.raw.signature))
}

func (questions *questions) commentSignature() [64]byte {
	return *(*[64]byte)(unsafe.Pointer(&questions.raw.comment_signature))
}

func readPublicKey(text string, isBare bool) (PublicKey, error) {
	readKey := callReadPublicKey
	if isBare {
		readKey = callReadBarePublicKey
	}
	key, err := readKey([]byte(text))
	return publicKeyOf(key), err
}

func publicKeyOf(key *C.minisign_public_key) PublicKey {
	bytes, keyId := *(*[32]byte)(unsafe.Pointer(&key.key)), *(*[8]byte)(unsafe.Pointer(&key.key_id))
	return PublicKey{[2]byte{'E', 'd'}, keyId, bytes}
}

// An openedKey is the library's struct of a decrypted secret key. A finalizer clears it when it is no longer referenced.
type openedKey C.minisign_secret_key

func withFinalizer(key *C.minisign_secret_key) *openedKey {
	runtime.SetFinalizer((*openedKey)(key), (*openedKey).clear)
	return (*openedKey)(key)
}

// newKey makes a key from a key ID and the 64 bytes of an Ed25519 secret key.
func newKey(keyId [8]byte, secret []byte) *openedKey {
	var key C.minisign_new_key
	*(*[8]byte)(unsafe.Pointer(&key.key_id)) = keyId
	*(*[64]byte)(unsafe.Pointer(&key.secret)) = *(*[64]byte)(secret)
	defer func() { key = C.minisign_new_key{} }()
	return withFinalizer(callTakeSecretKey(&key))
}

// raw returns the library's struct. For the zero value of SecretKey it returns a struct of zeros, which the library rejects
// with ErrKeyNotOpened.
func (key *openedKey) raw() *C.minisign_secret_key {
	if key == nil {
		key = new(openedKey)
	}
	return (*C.minisign_secret_key)(key)
}

func (key *openedKey) clear() { *key = openedKey{} }

func (key *openedKey) keyId() [8]byte { return *(*[8]byte)(unsafe.Pointer(&key.key_id)) }

// bytes returns the 64 secret bytes without copying them.
func (key *openedKey) bytes() []byte { return (*[64]byte)(unsafe.Pointer(&key.secret))[:] }

func (work Work) keepEvery() C.uint64_t {
	if work.LowMemory {
		return C.MINISIGN_KEEP_FEW_ROWS
	}
	return C.MINISIGN_KEEP_EVERY_ROW
}

// orDefault returns a field of Work, or the default value if the field is 0.
func orDefault(value, defaultValue C.uint64_t) C.uint64_t {
	if value == 0 {
		return defaultValue
	}
	return value
}

// openSecretKey decrypts the content of a secret key file. The second result is true if the file was encrypted with limits
// below the minimum.
func openSecretKey(text, password []byte, work Work) (*openedKey, bool, error) {
	unopenedKey, err := callReadSecretKey(text)
	if err != nil {
		return nil, false, err
	}
	defer func() { *unopenedKey = C.minisign_unopened_key{} }()
	if password == nil {
		key, err := callOpenUnsealedKey(unopenedKey)
		return withFinalizer(key), false, err
	}
	mostRows := orDefault(C.uint64_t(work.MostRows), C.MINISIGN_USUAL_ROWS)
	key, err := callOpenSealedKey(unopenedKey, password, work.keepEvery(), mostRows)
	return withFinalizer(key), unopenedKey.log2_rows < C.MINISIGN_LEAST_LOG2_ROWS, err
}

// text returns the content of a secret key file. It is encrypted unless password is nil. Limits below the minimum are
// rejected with ErrWeakLimits.
func (key *openedKey) text(password []byte, salt [32]byte, work Work) ([]byte, error) {
	sealing := C.minisign_sealing{
		operations_limit: orDefault(C.uint64_t(work.OperationsLimit), C.MINISIGN_OPERATIONS_LIMIT),
		memory_limit:     orDefault(C.uint64_t(work.MemoryLimit), C.MINISIGN_MEMORY_LIMIT),
	}
	if sealing.operations_limit < C.MINISIGN_LEAST_OPERATIONS_LIMIT || sealing.memory_limit < C.MINISIGN_LEAST_MEMORY_LIMIT {
		return nil, ErrWeakLimits
	}
	*(*[32]byte)(unsafe.Pointer(&sealing.salt)) = salt
	return callSecretKeyText(key.raw(), password, &sealing, work.keepEvery(), []byte(C.MINISIGN_SECRET_KEY_COMMENT))
}

func (key *openedKey) publicKeyText(keyId string) ([]byte, error) {
	return callPublicKeyText(key.raw(), []byte(C.MINISIGN_PUBLIC_KEY_COMMENT+keyId))
}

func (key *openedKey) publicKey() (PublicKey, error) {
	publicKey, err := callPublicKeyOf(key.raw())
	return publicKeyOf(publicKey), err
}

func (key *openedKey) signatureText(
	dataSignature, commentSignature *[64]byte, trustedComment, untrustedComment []byte,
) ([]byte, error) {
	publicKey, err := callPublicKeyOf(key.raw())
	if err != nil {
		return nil, err
	}
	return callSignedText(publicKey, dataSignature, commentSignature, trustedComment, untrustedComment)
}

// A rawList is the library's struct of a list, together with the text of the list.
type rawList struct {
	raw        *C.minisign_list
	text       []byte
	longDigest C.enum_minisign_hash
}

// listQuestions are the two signatures of a list that Ed25519 has to check.
type listQuestions struct {
	list *rawList
	questions
}

// askList makes all checks of a list that need no Ed25519. The trusted comment must name the list, unless anyName is true.
func askList(
	publicKey *PublicKey, signature *parsedSignature, text, name []byte, anyName bool, longDigest LongDigest,
) (*listQuestions, error) {
	key, err := publicKey.raw()
	if err != nil {
		return nil, err
	}
	hash, ok := map[LongDigest]C.enum_minisign_hash{
		LongSHA512: C.MINISIGN_HASH_SHA512, LongBLAKE2b: C.MINISIGN_HASH_BLAKE2B, LongRejected: C.MINISIGN_HASH_NONE,
	}[longDigest]
	if !ok {
		return nil, ErrBadHash
	}
	list := &rawList{text: append([]byte(nil), text...), longDigest: hash}
	questions := &listQuestions{list: list}
	if anyName {
		list.raw, questions.raw, questions.commentMessage, err = callListAskAny(
			key, signature.raw, []byte(signature.text), list.text,
		)
	} else {
		list.raw, questions.raw, questions.commentMessage, err = callListAsk(
			key, signature.raw, []byte(signature.text), name, list.text,
		)
	}
	return questions, err
}

func (questions *questions) digest() []byte {
	return (*[64]byte)(unsafe.Pointer(&questions.raw.digest))[:]
}

// comment returns the trusted comment, which is a part of the message that the comment signature signs.
func (questions *questions) comment() string {
	return string(questions.commentMessage[questions.raw.comment_offset:][:questions.raw.comment_len])
}

// lineError returns nil if a call succeeded, and otherwise its error, which is a LineError if a line is at fault.
func lineError(err C.enum_minisign_error, line C.uint64_t) error {
	if line != 0 {
		return &LineError{Error(err), uint64(line)}
	}
	return errorOf(err)
}

func (list *rawList) find(name []byte) (*C.minisign_list_entry, error) {
	entry, line := new(C.minisign_list_entry), C.uint64_t(0)
	err := C.minisign_list_find(
		list.raw, pointer(list.text), C.size_t(len(list.text)), list.longDigest,
		pointer(name), C.size_t(len(name)), entry, &line,
	)
	return entry, lineError(err, line)
}

func (list *rawList) entries() ([]ListEntry, error) {
	// An entry has at least 67 bytes and a line feed, which may be missing after the last one. There is one element more,
	// because &raw[0] needs one.
	raw := make([]C.minisign_list_entry, (len(list.text)+1)/68+1)
	count, line := C.size_t(0), C.uint64_t(0)
	err := C.minisign_list_entries(
		list.raw, pointer(list.text), C.size_t(len(list.text)), list.longDigest,
		&raw[0], C.size_t(len(raw)), &count, &line,
	)
	entries := make([]ListEntry, count)
	for index := range entries {
		entries[index] = list.entry(&raw[index])
	}
	return entries, lineError(err, line)
}

// hashes has the hash functions by their numbers in the library.
var hashes = map[C.uint32_t]Hash{C.MINISIGN_HASH_SHA256: SHA256, C.MINISIGN_HASH_SHA512: SHA512, C.MINISIGN_HASH_BLAKE2B: BLAKE2b}

// entry converts an entry of the library, and copies its name from the list.
func (list *rawList) entry(raw *C.minisign_list_entry) ListEntry {
	hash := hashes[raw.hash]
	return ListEntry{
		Name:      string(list.text[raw.name_offset:][:raw.name_len]),
		Hash:      hash,
		Digest:    append([]byte(nil), (*[64]byte)(unsafe.Pointer(&raw.digest))[:hash.size()]...),
		Line:      uint64(raw.line),
		IsEscaped: raw.is_escaped == 1,
	}
}

// A rawFile is the library's state for comparing data with an entry. It is an io.Writer.
type rawFile C.minisign_list_file

func beginFile(entry *C.minisign_list_entry) (*rawFile, error) {
	file, err := callListBegin(entry)
	return (*rawFile)(file), err
}

func (file *rawFile) Write(piece []byte) (int, error) {
	if err := callListUpdate((*C.minisign_list_file)(file), piece); err != nil {
		return 0, err
	}
	return len(piece), nil
}

func (file *rawFile) finish() error { return callListFinish((*C.minisign_list_file)(file)) }

// compareTrustingHash compares the digest of an entry with a digest that the library did not compute.
func compareTrustingHash(entry *C.minisign_list_entry, digest []byte) error {
	return callListCompareTrustingYourHash(entry, C.enum_minisign_hash(entry.hash), digest)
}

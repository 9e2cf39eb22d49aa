// SPDX-License-Identifier: MIT

//go:build cgo

package minisign

/*
#include <string.h>
#include "archive.h"
#include <minisign_list.h>

static enum minisign_error flat_minisign_signed_text(const minisign_public_key *key, const uint8_t *signature,
        const uint8_t *comment_signature, const uint8_t *trusted_comment, size_t trusted_comment_len,
        const uint8_t *untrusted_comment, size_t untrusted_comment_len, uint8_t *text, size_t room,
        size_t *text_len)
{
    minisign_signed_parts parts;

    memcpy(parts.signature, signature, sizeof parts.signature);
    memcpy(parts.comment_signature, comment_signature, sizeof parts.comment_signature);
    parts.trusted_comment = trusted_comment;
    parts.trusted_comment_len = trusted_comment_len;
    parts.untrusted_comment = untrusted_comment;
    parts.untrusted_comment_len = untrusted_comment_len;
    return minisign_signed_text(key, &parts, text, room, text_len);
}
*/
import "C"

// The calls of minisign.h, made by tools/bindings.py. A nil password means that the key is not encrypted.

// nothing is what the pointer for an empty slice points to, because the proved calls do not accept NULL.
var nothing [1]byte

func pointer(bytes []byte) *C.uint8_t {
	if len(bytes) == 0 {
		bytes = nothing[:]
	}
	return (*C.uint8_t)(&bytes[0])
}

// errorOf returns nil if a call succeeded, and otherwise its error number as an Error.
func errorOf(err C.enum_minisign_error) error {
	if err == C.MINISIGN_OK {
		return nil
	}
	return Error(err)
}

func answer(accepted bool) C.enum_minisign_answer {
	if accepted {
		return C.MINISIGN_ANSWER_YES
	}
	return C.MINISIGN_ANSWER_NO
}

func isGiven(password []byte) C.uint32_t {
	if password == nil {
		return 0
	}
	return 1
}

func callInit() *C.minisign_state {
	state := new(C.minisign_state)
	C.minisign_init(state)
	return state
}

func callUpdate(state *C.minisign_state, data []byte) error {
	return errorOf(C.minisign_update(state, pointer(data), C.size_t(len(data))))
}

func callDigest(state *C.minisign_state) ([64]byte, error) {
	var digest [64]byte
	err := C.minisign_digest(state, (*C.uint8_t)(&digest[0]))
	return digest, errorOf(err)
}

func callReadPublicKey(pkText []byte) (*C.minisign_public_key, error) {
	key := new(C.minisign_public_key)
	err := C.minisign_read_public_key(pointer(pkText), C.size_t(len(pkText)), key)
	return key, errorOf(err)
}

func callReadBarePublicKey(base64 []byte) (*C.minisign_public_key, error) {
	key := new(C.minisign_public_key)
	err := C.minisign_read_bare_public_key(pointer(base64), C.size_t(len(base64)), key)
	return key, errorOf(err)
}

func callReadPublicKeyRecord(record []byte) (*C.minisign_public_key, error) {
	key := new(C.minisign_public_key)
	err := C.minisign_read_public_key_record(pointer(record), C.size_t(len(record)), key)
	return key, errorOf(err)
}

func callPublicKeyRecord(key *C.minisign_public_key) ([42]byte, error) {
	var record [42]byte
	err := C.minisign_public_key_record(key, (*C.uint8_t)(&record[0]))
	return record, errorOf(err)
}

func callReadSignature(sigText []byte) (*C.minisign_signature, error) {
	signature := new(C.minisign_signature)
	err := C.minisign_read_signature(pointer(sigText), C.size_t(len(sigText)), signature)
	return signature, errorOf(err)
}

func callReadSignatureRecord(record []byte) (*C.minisign_signature, error) {
	signature := new(C.minisign_signature)
	err := C.minisign_read_signature_record(pointer(record), C.size_t(len(record)), signature)
	return signature, errorOf(err)
}

func callSignatureRecord(signature *C.minisign_signature) ([74]byte, error) {
	var record [74]byte
	err := C.minisign_signature_record(signature, (*C.uint8_t)(&record[0]))
	return record, errorOf(err)
}

func callAsk(
	state *C.minisign_state, key *C.minisign_public_key, signature *C.minisign_signature, sigText []byte,
	allowLegacy C.uint32_t,
) (*C.minisign_questions, []byte, error) {
	questions := new(C.minisign_questions)
	message := make([]byte, 64+signature.comment_len)
	err := C.minisign_ask(
		state, key, signature, pointer(sigText), C.size_t(len(sigText)), allowLegacy, questions, pointer(message),
		C.size_t(len(message)),
	)
	return questions, message, errorOf(err)
}

func callCommentVerdict(state *C.minisign_state, second bool) error {
	return errorOf(C.minisign_comment_verdict(state, answer(second)))
}

func callVerdict(state *C.minisign_state, first bool, second bool) error {
	return errorOf(C.minisign_verdict(state, answer(first), answer(second)))
}

func callAskBare(
	state *C.minisign_state, key *C.minisign_public_key, signature *C.minisign_signature, allowLegacy C.uint32_t,
) (*C.minisign_questions, error) {
	questions := new(C.minisign_questions)
	err := C.minisign_ask_bare(state, key, signature, allowLegacy, questions)
	return questions, errorOf(err)
}

func callBareVerdict(state *C.minisign_state, first bool) error {
	return errorOf(C.minisign_bare_verdict(state, answer(first)))
}

func callReadSecretKey(skText []byte) (*C.minisign_unopened_key, error) {
	unopened := new(C.minisign_unopened_key)
	err := C.minisign_read_secret_key(pointer(skText), C.size_t(len(skText)), unopened)
	return unopened, errorOf(err)
}

func callReadSecretKeyRecord(secretRecord []byte) (*C.minisign_unopened_key, error) {
	unopened := new(C.minisign_unopened_key)
	err := C.minisign_read_secret_key_record(pointer(secretRecord), C.size_t(len(secretRecord)), unopened)
	return unopened, errorOf(err)
}

func callEncodeUnopenedKey(unopened *C.minisign_unopened_key, comment []byte) ([]byte, error) {
	text, length := make([]byte, 233+len(comment)), C.size_t(0)
	err := C.minisign_encode_unopened_key(
		unopened, pointer(comment), C.size_t(len(comment)), pointer(text), C.size_t(len(text)), &length,
	)
	return text[:length], errorOf(err)
}

func callTestSealedKey(unopened *C.minisign_unopened_key, mostRows C.uint64_t) error {
	return errorOf(C.minisign_test_sealed_key(unopened, mostRows))
}

func callOpenUnsealedKey(unopened *C.minisign_unopened_key) (*C.minisign_secret_key, error) {
	key := new(C.minisign_secret_key)
	err := C.minisign_open_unsealed_key(unopened, key)
	return key, errorOf(err)
}

func callOpenSealedKey(
	unopened *C.minisign_unopened_key, password []byte, keepEvery C.uint64_t, mostRows C.uint64_t,
) (*C.minisign_secret_key, error) {
	key := new(C.minisign_secret_key)
	err := C.minisign_open_sealed_key(unopened, pointer(password), C.size_t(len(password)), keepEvery, mostRows, key)
	return key, errorOf(err)
}

func callTakeSecretKey(newKey *C.minisign_new_key) *C.minisign_secret_key {
	key := new(C.minisign_secret_key)
	C.minisign_take_secret_key(newKey, key)
	return key
}

func callPublicKeyOf(key *C.minisign_secret_key) (*C.minisign_public_key, error) {
	publicKey := new(C.minisign_public_key)
	err := C.minisign_public_key_of(key, publicKey)
	return publicKey, errorOf(err)
}

func callCommentMessage(first *[64]byte, trusted []byte) ([]byte, error) {
	message := make([]byte, 64+len(trusted))
	err := C.minisign_comment_message(
		(*C.uint8_t)(&first[0]), pointer(trusted), C.size_t(len(trusted)), pointer(message), C.size_t(len(message)),
	)
	return message, errorOf(err)
}

func callSignedText(
	key *C.minisign_public_key, signature *[64]byte, commentSignature *[64]byte, trustedComment []byte,
	untrustedComment []byte,
) ([]byte, error) {
	text, length := make([]byte, 240+len(trustedComment)+len(untrustedComment)), C.size_t(0)
	err := C.flat_minisign_signed_text(
		key, (*C.uint8_t)(&signature[0]), (*C.uint8_t)(&commentSignature[0]), pointer(trustedComment),
		C.size_t(len(trustedComment)), pointer(untrustedComment), C.size_t(len(untrustedComment)), pointer(text),
		C.size_t(len(text)), &length,
	)
	return text[:length], errorOf(err)
}

func callSecretKeyText(
	key *C.minisign_secret_key, password []byte, sealing *C.minisign_sealing, keepEvery C.uint64_t, comment []byte,
) ([]byte, error) {
	text, length := make([]byte, 233+len(comment)), C.size_t(0)
	err := C.minisign_secret_key_text(
		key, isGiven(password), pointer(password), C.size_t(len(password)), sealing, keepEvery, pointer(comment),
		C.size_t(len(comment)), pointer(text), C.size_t(len(text)), &length,
	)
	return text[:length], errorOf(err)
}

func callPublicKeyText(key *C.minisign_secret_key, comment []byte) ([]byte, error) {
	text, length := make([]byte, 77+len(comment)), C.size_t(0)
	err := C.minisign_public_key_text(
		key, pointer(comment), C.size_t(len(comment)), pointer(text), C.size_t(len(text)), &length,
	)
	return text[:length], errorOf(err)
}

func callEncodePublicKey(key *C.minisign_public_key, comment []byte) ([]byte, error) {
	text, length := make([]byte, 77+len(comment)), C.size_t(0)
	err := C.minisign_encode_public_key(
		key, pointer(comment), C.size_t(len(comment)), pointer(text), C.size_t(len(text)), &length,
	)
	return text[:length], errorOf(err)
}

func callListAsk(
	key *C.minisign_public_key, signature *C.minisign_signature, sigText []byte, listName []byte, text []byte,
) (*C.minisign_list, *C.minisign_questions, []byte, error) {
	list := new(C.minisign_list)
	questions := new(C.minisign_questions)
	message := make([]byte, 64+signature.comment_len)
	err := C.minisign_list_ask(
		list, key, signature, pointer(sigText), C.size_t(len(sigText)), pointer(listName), C.size_t(len(listName)),
		pointer(text), C.size_t(len(text)), questions, pointer(message), C.size_t(len(message)),
	)
	return list, questions, message, errorOf(err)
}

func callListAskAny(
	key *C.minisign_public_key, signature *C.minisign_signature, sigText []byte, text []byte,
) (*C.minisign_list, *C.minisign_questions, []byte, error) {
	list := new(C.minisign_list)
	questions := new(C.minisign_questions)
	message := make([]byte, 64+signature.comment_len)
	err := C.minisign_list_ask_any(
		list, key, signature, pointer(sigText), C.size_t(len(sigText)), pointer(text), C.size_t(len(text)), questions,
		pointer(message), C.size_t(len(message)),
	)
	return list, questions, message, errorOf(err)
}

func callListVerdict(list *C.minisign_list, first bool, second bool) error {
	return errorOf(C.minisign_list_verdict(list, answer(first), answer(second)))
}

func callListBegin(entry *C.minisign_list_entry) (*C.minisign_list_file, error) {
	file := new(C.minisign_list_file)
	err := C.minisign_list_begin(entry, file)
	return file, errorOf(err)
}

func callListUpdate(file *C.minisign_list_file, data []byte) error {
	return errorOf(C.minisign_list_update(file, pointer(data), C.size_t(len(data))))
}

func callListFinish(file *C.minisign_list_file) error {
	return errorOf(C.minisign_list_finish(file))
}

func callListCompareTrustingYourHash(entry *C.minisign_list_entry, hash C.enum_minisign_hash, digest []byte) error {
	return errorOf(C.minisign_list_compare_trusting_your_hash(entry, hash, pointer(digest), C.size_t(len(digest))))
}

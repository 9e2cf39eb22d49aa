// Verifies with keys and signatures whose fields were changed or set by the program. It uses only functions of
// go-minisign, so tests/bindings/go.py builds it with go-minisign too.
//
// The arguments are the paths of a public key, of data and of a signature. For each change, the program prints the name
// of the change, the expected error, the verdict, and the error.
package main

import (
	"encoding/json"
	"fmt"
	"os"

	"proved/minisign"
)

// A change is applied to a key and a signature. expectedError is the name of an error in minisign.h, or "" if the
// changed key and signature must be accepted.
type change struct {
	name, expectedError string
	apply               func(key *minisign.PublicKey, signature *minisign.Signature)
}

var changes = []change{
	{"none", "", func(key *minisign.PublicKey, signature *minisign.Signature) {}},
	{"a copy", "", func(key *minisign.PublicKey, signature *minisign.Signature) {
		keys, signatures := []minisign.PublicKey{*key}, map[string]minisign.Signature{"": *signature}
		*key, *signature = keys[0], signatures[""]
	}},
	{"composed from fields", "", func(key *minisign.PublicKey, signature *minisign.Signature) {
		*key = minisign.PublicKey{SignatureAlgorithm: key.SignatureAlgorithm, KeyId: key.KeyId, PublicKey: key.PublicKey}
		*signature = minisign.Signature{
			UntrustedComment: signature.UntrustedComment, SignatureAlgorithm: signature.SignatureAlgorithm,
			KeyId: signature.KeyId, Signature: signature.Signature,
			TrustedComment: signature.TrustedComment, GlobalSignature: signature.GlobalSignature,
		}
	}},
	{"written as JSON and read", "", func(key *minisign.PublicKey, signature *minisign.Signature) {
		keyText, _ := json.Marshal(key)
		signatureText, _ := json.Marshal(signature)
		*key, *signature = minisign.PublicKey{}, minisign.Signature{}
		if json.Unmarshal(keyText, key) != nil || json.Unmarshal(signatureText, signature) != nil {
			panic("JSON")
		}
	}},
	{"a key of zeros", "UNSUPPORTED_ALGORITHM", func(key *minisign.PublicKey, signature *minisign.Signature) {
		*key = minisign.PublicKey{}
	}},
	{"a signature of zeros", "UNTRUSTED_COMMENT_PREFIX", func(key *minisign.PublicKey, signature *minisign.Signature) {
		*signature = minisign.Signature{}
	}},
	{"another algorithm of the key", "UNSUPPORTED_ALGORITHM", func(key *minisign.PublicKey, signature *minisign.Signature) {
		key.SignatureAlgorithm[1] = 'D'
	}},
	{"another key ID of the key", "DIFFERENT_KEY_IDS", func(key *minisign.PublicKey, signature *minisign.Signature) {
		key.KeyId[7] ^= 1
	}},
	{"another key", "SIGNATURE_REFUSED", func(key *minisign.PublicKey, signature *minisign.Signature) {
		key.PublicKey[31] ^= 1
	}},
	{"another untrusted comment", "", func(key *minisign.PublicKey, signature *minisign.Signature) {
		signature.UntrustedComment = "untrusted comment: other"
	}},
	{"no untrusted comment", "UNTRUSTED_COMMENT_PREFIX", func(key *minisign.PublicKey, signature *minisign.Signature) {
		signature.UntrustedComment = ""
	}},
	{"another first line", "UNTRUSTED_COMMENT_PREFIX", func(key *minisign.PublicKey, signature *minisign.Signature) {
		signature.UntrustedComment = "other"
	}},
	{"an untrusted comment of two lines", "SIGNATURE_NOT_BASE64", func(key *minisign.PublicKey, signature *minisign.Signature) {
		signature.UntrustedComment = "untrusted comment: other\nof two lines"
	}},
	{"another trusted comment after a valid file", "BAD_COMMENT", func(key *minisign.PublicKey, signature *minisign.Signature) {
		text, err := os.ReadFile(os.Args[3])
		if err != nil {
			panic(err)
		}
		signature.UntrustedComment, signature.TrustedComment = string(text), "trusted comment: other"
	}},
	{"the legacy algorithm", "SIGNATURE_REFUSED", func(key *minisign.PublicKey, signature *minisign.Signature) {
		signature.SignatureAlgorithm[1] = 'd'
	}},
	{"another algorithm", "UNSUPPORTED_ALGORITHM", func(key *minisign.PublicKey, signature *minisign.Signature) {
		signature.SignatureAlgorithm[0] = 'X'
	}},
	{"another key ID", "DIFFERENT_KEY_IDS", func(key *minisign.PublicKey, signature *minisign.Signature) {
		signature.KeyId[0] ^= 1
	}},
	{"another signature", "SIGNATURE_REFUSED", func(key *minisign.PublicKey, signature *minisign.Signature) {
		signature.Signature[63] ^= 1
	}},
	{"another trusted comment", "COMMENT_SIGNATURE_REFUSED", func(key *minisign.PublicKey, signature *minisign.Signature) {
		signature.TrustedComment = "trusted comment: other"
	}},
	{"a longer trusted comment", "COMMENT_SIGNATURE_REFUSED", func(key *minisign.PublicKey, signature *minisign.Signature) {
		signature.TrustedComment += "2"
	}},
	{"a space after the trusted comment", "BAD_COMMENT", func(key *minisign.PublicKey, signature *minisign.Signature) {
		signature.TrustedComment += " "
	}},
	{"a line feed after the trusted comment", "BAD_COMMENT", func(key *minisign.PublicKey, signature *minisign.Signature) {
		signature.TrustedComment += "\n"
	}},
	{"a carriage return after the trusted comment", "BAD_COMMENT", func(key *minisign.PublicKey, signature *minisign.Signature) {
		signature.TrustedComment += "\r"
	}},
	{"no trusted comment", "TRUSTED_COMMENT_PREFIX", func(key *minisign.PublicKey, signature *minisign.Signature) {
		signature.TrustedComment = ""
	}},
	{"another third line", "TRUSTED_COMMENT_PREFIX", func(key *minisign.PublicKey, signature *minisign.Signature) {
		signature.TrustedComment = "other"
	}},
	{"a trusted comment that is not UTF-8", "NOT_UTF8", func(key *minisign.PublicKey, signature *minisign.Signature) {
		signature.TrustedComment += "\xff"
	}},
	{"another signature of the comment", "COMMENT_SIGNATURE_REFUSED", func(key *minisign.PublicKey, signature *minisign.Signature) {
		signature.GlobalSignature[0] ^= 1
	}},
	{"no signature of the comment", "WEAK_ED25519", func(key *minisign.PublicKey, signature *minisign.Signature) {
		signature.GlobalSignature = [64]byte{}
	}},
}

// read reads a key and a signature from their files.
func read(paths []string) (minisign.PublicKey, minisign.Signature) {
	key, err := minisign.NewPublicKeyFromFile(paths[0])
	if err != nil {
		panic(err)
	}
	signature, err := minisign.NewSignatureFromFile(paths[2])
	if err != nil {
		panic(err)
	}
	return key, signature
}

func main() {
	paths := os.Args[1:]
	data, err := os.ReadFile(paths[1])
	if err != nil {
		panic(err)
	}
	for _, change := range changes {
		key, signature := read(paths)
		change.apply(&key, &signature)
		good, err := key.Verify(data, signature)
		fromFile, fileErr := key.VerifyFromFile(paths[1], signature)
		if good != fromFile || fmt.Sprint(err) != fmt.Sprint(fileErr) {
			panic(fmt.Sprintf("%s: Verify: %t, %v; VerifyFromFile: %t, %v", change.name, good, err, fromFile, fileErr))
		}
		fmt.Printf("%s: %s: %t, %v\n", change.name, change.expectedError, good, err)
	}
}

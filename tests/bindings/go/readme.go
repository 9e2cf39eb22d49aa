// Runs the examples of bindings/go/README.md that their main does not call. tests/bindings/go.py adds this file to
// them.
package main

import (
	"bytes"
	"crypto/sha256"
	"errors"
	"fmt"
	"os"
	"strings"
	"testing"

	"proved/minisign"
)

func TestExamples(t *testing.T) {
	if err := makeKey([]byte("pass word")); err != nil {
		t.Fatal(err)
	}
	if err := makeKey([]byte("pass word")); !os.IsExist(err) {
		t.Fatal("an existing key file is overwritten: ", err)
	}
	if err := sign([]byte("password")); err != minisign.ErrWrongPassword {
		t.Fatal(err)
	}
	if err := sign([]byte("pass word")); err != nil {
		t.Fatal(err)
	}
	key, keyErr := minisign.NewPublicKeyFromFile("new.pub")
	signature, signatureErr := minisign.NewSignatureFromFile("app-3.minisig")
	var seen bytes.Buffer
	err := verifyStream(key, signature, strings.NewReader("version 3"), &seen)
	if keyErr != nil || signatureErr != nil || err != nil || seen.String() != "version 3" {
		t.Fatal(keyErr, signatureErr, err, seen.String())
	}
	if err = verifyStream(key, signature, strings.NewReader("version 4"), &seen); err != minisign.ErrSignatureRefused {
		t.Fatal(err)
	}
	signList(t, "version 3")
	if err = verifyFiles(key, "."); err != nil {
		t.Fatal(err)
	}
	signList(t, "version 4")
	if err = verifyFiles(key, "."); !errors.Is(err, minisign.ErrDigestMismatch) {
		t.Fatal(err)
	}
}

// signList writes a signed list with the digest of this content for app-3.
func signList(t *testing.T, content string) {
	key, err := minisign.NewSecretKeyFromFile("new.key", []byte("pass word"), minisign.Work{})
	if err != nil {
		t.Fatal(err)
	}
	list := []byte(fmt.Sprintf("%x  app-3\n", sha256.Sum256([]byte(content))))
	signature, err := key.SignBytes(list, "file:SHA256SUMS", "by a test")
	if err == nil {
		err = os.WriteFile("SHA256SUMS", list, 0o644)
	}
	if err == nil {
		err = os.WriteFile("SHA256SUMS.minisig", []byte(signature.Encode()), 0o644)
	}
	if err != nil {
		t.Fatal(err)
	}
}

// SPDX-License-Identifier: MIT

//go:build cgo

package minisign

import (
	"fmt"
	"strings"
	"sync"
	"testing"
)

const (
	keyText       = "RWQf6LRCGA9i53mlYecO4IzT51TGPpvWucNSCh1CBM0QTaLn73Y7GFO3"
	signatureText = `untrusted comment: signature from minisign secret key
RUQf6LRCGA9i559r3g7V1qNyJDApGip8MfqcadIgT9CuhV3EMhHoN1mGTkUidF/z7SrlQgXdy8ofjb7bNJJylDOocrCo8KLzZwo=
trusted comment: timestamp:1556193335	file:test
y/rUw2y8/hOUYjZU71eHp/Wo1KZ40fGy2VJEDl34XMJM+TX48Ss/17u3IvIfbVR1FkZZSNCisQbuQY+bHwhEBg==
`
)

func ExamplePublicKey_Verify() {
	key, err := NewPublicKey(keyText)
	if err != nil {
		panic(err)
	}
	signature, err := DecodeSignature(signatureText)
	if err != nil {
		panic(err)
	}
	fmt.Println(key.Verify([]byte("test"), signature))
	fmt.Println(key.Verify([]byte("tests"), signature))
	fmt.Printf("%q\n", signature.TrustedComment)
	// Output:
	// true <nil>
	// false minisign: Signature verification failed
	// "trusted comment: timestamp:1556193335\tfile:test"
}

func ExamplePublicKey_VerifyReader() {
	key, _ := NewPublicKey(keyText)
	signature, _ := DecodeSignature(signatureText)
	fmt.Println(key.VerifyReader(strings.NewReader("test"), signature))
	// Output: true <nil>
}

func TestFinishedVerifierRejectsCalls(t *testing.T) {
	key, _ := NewPublicKey(keyText)
	signature, _ := DecodeSignature(signatureText)
	verifier, err := NewVerifier(&key, signature)
	if err != nil {
		t.Fatal(err)
	}
	fmt.Fprint(verifier, "te")
	fmt.Fprint(verifier, "st")
	if good, err := verifier.Verify(); !good || err != nil {
		t.Fatalf("Verify() = %v, %v, expected true", good, err)
	}
	var zero Verifier
	for name, verifier := range map[string]*Verifier{"a finished Verifier": verifier, "a zero Verifier": &zero} {
		if good, err := verifier.Verify(); good || err != ErrNotBegun {
			t.Errorf("%s: Verify() = %v, %v, expected ErrNotBegun", name, good, err)
		}
		if good, err := verifier.VerifyTrustedComment(); good || err != ErrNotBegun {
			t.Errorf("%s: VerifyTrustedComment() = %v, %v, expected ErrNotBegun", name, good, err)
		}
		for _, piece := range [][]byte{nil, []byte("more")} {
			if _, err := verifier.Write(piece); err != ErrNotBegun {
				t.Errorf("%s: Write(%q) = %v, expected ErrNotBegun", name, piece, err)
			}
		}
	}
}

func TestZeroSignatureIsRejected(t *testing.T) {
	key, _ := NewPublicKey(keyText)
	if good, err := key.Verify([]byte("test"), Signature{}); good || err != ErrUntrustedCommentPrefix {
		t.Fatalf("Verify() = %v, %v, expected ErrUntrustedCommentPrefix", good, err)
	}
}

// VerifyTrustedComment verifies only the comment signature, so its result does not depend on the data.
func TestTrustedCommentIsVerifiedWithoutData(t *testing.T) {
	key, _ := NewPublicKey(keyText)
	signature, _ := DecodeSignature(signatureText)
	longer := signature
	longer.TrustedComment += "2"
	for _, testCase := range []struct {
		signature  Signature
		commentErr error
		data       string
		err        error
	}{
		{signature, nil, "test", nil},
		{signature, nil, "tests", ErrSignatureRefused},
		{longer, ErrCommentSignatureRefused, "test", ErrCommentSignatureRefused},
	} {
		verifier, err := NewVerifier(&key, testCase.signature)
		if err != nil {
			t.Fatal(err)
		}
		for _, piece := range []string{"", testCase.data} {
			fmt.Fprint(verifier, piece)
			good, err := verifier.VerifyTrustedComment()
			if good != (testCase.commentErr == nil) || err != testCase.commentErr {
				t.Fatalf("%q, %q: VerifyTrustedComment() = %v, %v, expected %v",
					testCase.signature.TrustedComment, piece, good, err, testCase.commentErr)
			}
		}
		if good, err := verifier.Verify(); good != (testCase.err == nil) || err != testCase.err {
			t.Fatalf("%q, %q: Verify() = %v, %v, expected %v", testCase.signature.TrustedComment, testCase.data, good, err, testCase.err)
		}
	}
}

// Verifying uses the current values of the fields of a signature and a key.
func TestChangedFieldsAreRejected(t *testing.T) {
	key, _ := NewPublicKey(keyText)
	signature, _ := DecodeSignature(signatureText)
	changed := signature
	changed.TrustedComment = "trusted comment: other"
	if good, err := key.VerifyReader(strings.NewReader("test"), changed); good || err != ErrCommentSignatureRefused {
		t.Fatalf("a changed comment: %v, %v, expected ErrCommentSignatureRefused", good, err)
	}
	if good, err := key.VerifyReader(strings.NewReader("test"), signature); !good || err != nil {
		t.Fatalf("the original signature: %v, %v, expected true", good, err)
	}
	key.SignatureAlgorithm = [2]byte{}
	if _, err := NewVerifier(&key, signature); err != ErrUnsupportedAlgorithm {
		t.Fatalf("a changed key: %v, expected ErrUnsupportedAlgorithm", err)
	}
}

func TestNilArgumentIsNamedInError(t *testing.T) {
	key, _ := NewPublicKey(keyText)
	signature, _ := DecodeSignature(signatureText)
	var nilKey *PublicKey
	if _, err := NewVerifier(nilKey, signature); err == nil || err.Error() != "minisign: publicKey is nil" {
		t.Fatalf("NewVerifier: %v", err)
	}
	if good, err := nilKey.Verify([]byte("test"), signature); good || err == nil || err.Error() != "minisign: publicKey is nil" {
		t.Fatalf("Verify: %v, %v", good, err)
	}
	if good, err := key.VerifyReader(nil, signature); good || err == nil || err.Error() != "minisign: reader is nil" {
		t.Fatalf("VerifyReader: %v, %v", good, err)
	}
}

// With -race, this test also shows that verifying does not write to the key and the signature.
func TestGoroutinesShareKeyAndSignature(t *testing.T) {
	key, _ := NewPublicKey(keyText)
	signature, _ := DecodeSignature(signatureText)
	var running sync.WaitGroup
	for goroutine := 0; goroutine < 8; goroutine++ {
		running.Add(1)
		go func() {
			defer running.Done()
			for count := 0; count < 50; count++ {
				if good, err := key.Verify([]byte("test"), signature); !good || err != nil {
					t.Errorf("Verify: %v, %v, expected true", good, err)
				}
				if good, _ := key.VerifyReader(strings.NewReader("tests"), signature); good {
					t.Error("VerifyReader accepts data that was not signed")
				}
			}
		}()
	}
	running.Wait()
}

func ExampleSecretKey_SignBytes() {
	secret, err := GenerateKey()
	if err != nil {
		panic(err)
	}
	defer secret.Clear()
	signature, err := secret.SignBytes([]byte("some data"), "version:2\tfile:app", "made by my program")
	if err != nil {
		panic(err)
	}
	key, err := secret.PublicKey()
	if err != nil {
		panic(err)
	}
	fmt.Println(key.Verify([]byte("some data"), signature))
	fmt.Printf("%q %q\n", signature.UntrustedComment, signature.TrustedComment)
	// Output:
	// true <nil>
	// "untrusted comment: made by my program" "trusted comment: version:2\tfile:app"
}

func TestDecodedKeyMakesValidSignatures(t *testing.T) {
	secret, err := GenerateKey()
	if err != nil {
		t.Fatal(err)
	}
	key, err := secret.PublicKey()
	if err != nil {
		t.Fatal(err)
	}
	encrypted, err := secret.Encode([]byte("pass word"), Work{OperationsLimit: 1 << 19, MemoryLimit: 1 << 24})
	if err != nil {
		t.Fatal(err)
	}
	unencrypted, err := secret.EncodeUnsealed()
	if err != nil {
		t.Fatal(err)
	}
	for _, file := range []struct{ text, password []byte }{{encrypted, []byte("pass word")}, {unencrypted, nil}} {
		decoded, err := DecodeSecretKey(file.text, file.password, Work{LowMemory: true})
		if err != nil {
			t.Fatal(err)
		}
		signature, err := decoded.Sign(strings.NewReader("data"), "c", "u")
		if err != nil {
			t.Fatal(err)
		}
		if good, err := key.Verify([]byte("data"), signature); !good || err != nil {
			t.Fatalf("the signature of the decoded key: %v, %v, expected true", good, err)
		}
		if decoded.IsWeak() || decoded.KeyId() != key.KeyId {
			t.Fatalf("IsWeak() = %v, KeyId() = %x, expected false, %x", decoded.IsWeak(), decoded.KeyId(), key.KeyId)
		}
	}
	if _, err := DecodeSecretKey(encrypted, []byte("pass"), Work{}); err != ErrWrongPassword {
		t.Fatalf("a wrong password: %v, expected ErrWrongPassword", err)
	}
	if _, err := secret.Encode([]byte("pass word"), Work{OperationsLimit: 1}); err != ErrWeakLimits {
		t.Fatalf("a low limit: %v, expected ErrWeakLimits", err)
	}
}

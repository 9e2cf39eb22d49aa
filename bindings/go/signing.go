// SPDX-License-Identifier: MIT

//go:build cgo

package minisign

import (
	"bytes"
	"crypto/ed25519"
	"crypto/rand"
	"errors"
	"fmt"
	"io"
	"os"
)

// ErrWeakLimits is returned by Encode for limits below the minimum of the program minisign.
var ErrWeakLimits = errors.New("minisign: the scrypt limits are below 524288 operations or 16 MiB")

// Work has the limits for scrypt, which derives a key from a password: its memory and time. A field that is 0 means the
// limit of minisign -G.
type Work struct {
	// LowMemory makes scrypt use at most 65 MiB instead of 1 GiB, but take about three times as long.
	LowMemory bool
	// MostRows limits the work for decrypting a key file: the number of rows that scrypt computes, which is N times p. A key
	// file that needs more is rejected with ErrWorkTooHigh.
	MostRows uint64
	// OperationsLimit and MemoryLimit are the limits with which a key is encrypted, as libsodium counts them. The memory is
	// in bytes.
	OperationsLimit, MemoryLimit uint64
}

// A SecretKey is a decrypted or new secret key. Printing it shows only its key ID. Clear clears its bytes. If Clear is not
// called, a finalizer clears them when the key is no longer referenced.
type SecretKey struct {
	openedKey *openedKey
	isWeak    bool
}

// GenerateKey generates a new key from random bytes of the system.
func GenerateKey() (*SecretKey, error) {
	var keyId [8]byte
	if _, err := rand.Read(keyId[:]); err != nil {
		return nil, err
	}
	_, secret, err := ed25519.GenerateKey(rand.Reader)
	if err != nil {
		return nil, err
	}
	defer Wipe(secret)
	return &SecretKey{openedKey: newKey(keyId, secret)}, nil
}

// DecodeSecretKey decrypts the content of a secret key file, such as minisign.key: both lines. Pass nil as the password of
// a key that is not encrypted.
//
// If the content is malformed, it returns ErrNotUtf8, ErrMissingSecretKeyComment, ErrMissingSecretKey,
// ErrSecretKeyNotBase64 or ErrRecordTooShort. Without a password, it returns ErrKeySealed if the key is encrypted, and
// ErrKeyCorrupted if the checksum of the key does not match. With a password, it returns ErrNotUtf8 if the password is not
// UTF-8; ErrKeyNotSealed if the key is not encrypted; ErrUnsupportedKeyDerivation, ErrParametersTooHigh or
// ErrInvalidParameters if its key derivation or its limits are not supported; ErrWorkTooHigh if scrypt would compute more
// than work.MostRows rows; ErrOutOfMemory; and ErrWrongPassword.
func DecodeSecretKey(in, password []byte, work Work) (*SecretKey, error) {
	key, isWeak, err := openSecretKey(in, password, work)
	if err != nil {
		return nil, err
	}
	return &SecretKey{key, isWeak}, nil
}

// NewSecretKeyFromFile reads and decrypts a secret key file, such as minisign.key. It returns the errors of os.ReadFile and
// of DecodeSecretKey.
func NewSecretKeyFromFile(file string, password []byte, work Work) (*SecretKey, error) {
	text, err := os.ReadFile(file)
	if err != nil {
		return nil, err
	}
	defer Wipe(text)
	return DecodeSecretKey(text, password, work)
}

// Wipe overwrites a password, or the content of a secret key file, with zeros.
func Wipe(secret []byte) {
	for index := range secret {
		secret[index] = 0
	}
}

// Encode returns the content of a secret key file for this key, encrypted with the password and a new salt. Write the
// content to a file with WriteNew.
//
// It returns an error if the password is empty; ErrWeakLimits if work has limits below the minimum of Minisign;
// ErrKeyNotOpened after Clear; ErrNotUtf8 if the password is not UTF-8; ErrParametersTooHigh or ErrInvalidParameters if
// scrypt does not allow the limits; and ErrOutOfMemory.
func (key *SecretKey) Encode(password []byte, work Work) ([]byte, error) {
	if len(password) == 0 {
		return nil, errors.New("minisign: password is empty; use EncodeUnsealed for a key without a password")
	}
	var salt [32]byte
	if _, err := rand.Read(salt[:]); err != nil {
		return nil, err
	}
	return key.openedKey.text(password, salt, work)
}

// EncodeUnsealed returns the content of a secret key file that is not encrypted, so anybody who can read it can sign. Write
// it to a file with WriteNew, so that only its owner can read it.
func (key *SecretKey) EncodeUnsealed() ([]byte, error) {
	return key.openedKey.text(nil, [32]byte{}, Work{})
}

// IsWeak returns true if the file from which the key was read was encrypted with limits below the minimum of Encode. The
// password of such a file can be guessed quickly, so encrypt the key again.
func (key *SecretKey) IsWeak() bool { return key.isWeak }

// KeyId returns the key ID, which is also the key ID of the public key.
func (key *SecretKey) KeyId() [8]byte { return key.openedKey.keyId() }

// KeyIdText returns the key ID as the program minisign prints it: in upper-case hexadecimal digits without leading zeros.
func (key *SecretKey) KeyIdText() string { return keyIdText(key.KeyId()) }

// PublicKey returns the public key, which verifies the signatures of this key.
func (key *SecretKey) PublicKey() (PublicKey, error) { return key.openedKey.publicKey() }

// EncodePublicKey returns the content of a public key file, such as minisign.pub: both lines.
func (key *SecretKey) EncodePublicKey() ([]byte, error) {
	return key.openedKey.publicKeyText(key.KeyIdText())
}

// Clear overwrites the key with zeros. After that, it cannot sign.
func (key *SecretKey) Clear() { key.openedKey.clear() }

// Format prints only the key ID, whatever the verb is.
func (key SecretKey) Format(to fmt.State, _ rune) { fmt.Fprintf(to, "SecretKey(%s)", key.KeyIdText()) }

// SignBytes signs data. trustedComment is signed with the data, and untrustedComment is not signed. Each is one line. The
// errors are those of Signer.Sign.
func (key *SecretKey) SignBytes(bin []byte, trustedComment, untrustedComment string) (Signature, error) {
	return key.Sign(bytes.NewReader(bin), trustedComment, untrustedComment)
}

// SignFile signs a file as SignBytes signs data.
func (key *SecretKey) SignFile(file, trustedComment, untrustedComment string) (Signature, error) {
	reader, err := os.Open(file)
	if err != nil {
		return Signature{}, err
	}
	defer reader.Close()
	return key.Sign(reader, trustedComment, untrustedComment)
}

// Sign signs the data of a reader, up to its end, as SignBytes does.
func (key *SecretKey) Sign(reader io.Reader, trustedComment, untrustedComment string) (Signature, error) {
	if reader == nil {
		return Signature{}, errors.New("minisign: reader is nil")
	}
	signer, err := NewSigner(key)
	if err == nil {
		_, err = io.Copy(signer, reader)
	}
	if err != nil {
		return Signature{}, err
	}
	return signer.Sign(trustedComment, untrustedComment)
}

// A Signer signs data that arrives in pieces. It is an io.Writer: write the data, then call Sign once. Make one with
// NewSigner.
type Signer struct {
	key   *SecretKey
	state *state
}

// NewSigner begins a signature.
func NewSigner(key *SecretKey) (*Signer, error) {
	if key == nil {
		return nil, errors.New("minisign: key is nil")
	}
	return &Signer{key, callInit()}, nil
}

// Write adds the next piece of the data, of any length. After Sign it returns ErrAlreadyAsked.
func (signer *Signer) Write(piece []byte) (int, error) {
	if signer.state == nil {
		return 0, ErrNotBegun
	}
	if err := callUpdate(signer.state, piece); err != nil {
		return 0, err
	}
	return len(piece), nil
}

// Sign signs all data that was written, verifies the signature, and returns it. Call it once.
//
// It returns ErrAlreadyAsked if it is called a second time; ErrKeyNotOpened after Clear; ErrSignatureRefused if the key is
// damaged, so that its seed and its public key do not match; and ErrNotUtf8, ErrBadComment or ErrUnreadableComment for a
// comment that Minisign could not read back.
func (signer *Signer) Sign(trustedComment, untrustedComment string) (Signature, error) {
	if signer.state == nil {
		return Signature{}, ErrNotBegun
	}
	digest, err := callDigest(signer.state)
	if err != nil {
		return Signature{}, err
	}
	dataSignature, err := signer.signMessage(digest[:])
	if err != nil {
		return Signature{}, err
	}
	message, err := callCommentMessage(dataSignature, []byte(trustedComment))
	if err != nil {
		return Signature{}, err
	}
	commentSignature, err := signer.signMessage(message)
	if err != nil {
		return Signature{}, err
	}
	text, err := signer.key.openedKey.signatureText(
		dataSignature, commentSignature, []byte(trustedComment), []byte(untrustedComment),
	)
	if err != nil {
		return Signature{}, err
	}
	return DecodeSignature(string(text))
}

// signMessage signs a message, and verifies the signature before returning it, because a signature made with a damaged key,
// whose seed and public key do not match, reveals the secret.
func (signer *Signer) signMessage(message []byte) (*[64]byte, error) {
	key, err := signer.key.PublicKey()
	if err != nil {
		return nil, err
	}
	signature := (*[64]byte)(ed25519.Sign(signer.key.openedKey.bytes(), message))
	if !accepts(key.PublicKey, message, *signature) {
		return nil, ErrSignatureRefused
	}
	return signature, nil
}

// SPDX-License-Identifier: MIT

//go:build cgo

package minisign

import (
	"bytes"
	"crypto/sha256"
	"crypto/sha512"
	"errors"
	"fmt"
	"hash"
	"io"
	"io/fs"
	"os"
	"path"
	"path/filepath"
)

// A Hash is a hash function of a list.
type Hash string

// The hash functions of lists.
const (
	SHA256  Hash = "sha256"
	SHA512  Hash = "sha512"
	BLAKE2b Hash = "blake2b"
)

// size returns the number of bytes of a digest.
func (hash Hash) size() int {
	if hash == SHA256 {
		return 32
	}
	return 64
}

// A LongDigest says how to read a digest of 128 hexadecimal digits on a line that names no hash function. SHA-512 and
// BLAKE2b digests both have this length.
type LongDigest int

const (
	// LongSHA512 is the default: the digest is SHA-512, as sha512sum writes it.
	LongSHA512 LongDigest = iota
	// LongBLAKE2b means that the digest is BLAKE2b, as b2sum writes it.
	LongBLAKE2b
	// LongRejected means that the line is malformed.
	LongRejected
)

// ListOptions says which lists are accepted.
type ListOptions struct {
	// Name is the name of the list, such as SHA256SUMS. The trusted comment must have a field "file:" with this value, so
	// that a signed text that was never meant as a list is not used as one. VerifyListFromFile and VerifyListFS use the
	// name of the file instead.
	Name string
	// AnyName means that every trusted comment is accepted.
	AnyName bool
	// LongDigest says how to read a digest of 128 hexadecimal digits on a line that names no hash function.
	LongDigest LongDigest
}

// A LineError is an error in one line of a list. It wraps ErrMalformedLine or ErrListedTwice.
type LineError struct {
	Err Error
	// Line is the line number, starting at 1.
	Line uint64
}

func (err *LineError) Error() string { return fmt.Sprintf("%v: line %d", err.Err, err.Line) }

// Unwrap returns the error without the line number.
func (err *LineError) Unwrap() error { return err.Err }

// A ListEntry is an entry of a verified list.
type ListEntry struct {
	// Name is the name of the file, without a leading "./".
	Name string
	// Hash is the hash function, and Digest the digest that the file must have.
	Hash   Hash
	Digest []byte
	// Line is the line number, starting at 1.
	Line uint64
	// IsEscaped is true if the name is written with escapes. The library does not resolve escapes, and no name that you look
	// up matches such an entry.
	IsEscaped bool
}

// A SignedList is a verified list, such as SHA256SUMS. One signature covers all of its files. It is safe for concurrent use
// by multiple goroutines.
type SignedList struct {
	list    *rawList
	comment string
}

// VerifyList verifies the signature of a list. text is the whole list. Its lines are checked when you use it.
//
// VerifyList returns the errors of NewVerifier, ErrSignatureRefused, ErrCommentSignatureRefused, or ErrOtherList if the
// trusted comment does not name the list. Legacy signatures are always rejected with ErrLegacyNotAccepted. It returns
// ErrBadHash if options.LongDigest is not one of the three constants.
func (publicKey *PublicKey) VerifyList(text []byte, signature Signature, options ListOptions) (*SignedList, error) {
	if publicKey == nil {
		return nil, errors.New("minisign: publicKey is nil")
	}
	if publicKey.SignatureAlgorithm != [2]byte{'E', 'd'} {
		return nil, ErrUnsupportedAlgorithm
	}
	parsed, err := parseSignature(signature.Encode())
	if err != nil {
		return nil, err
	}
	questions, err := askList(publicKey, parsed, text, []byte(options.Name), options.AnyName, options.LongDigest)
	if err != nil {
		return nil, err
	}
	// Encoding and parsing the signature changed its fields if a comment contains a line feed or ends with white space.
	if parsed.signature() != signature {
		return nil, ErrBadComment
	}
	isListValid := accepts(publicKey.PublicKey, questions.digest(), questions.dataSignature())
	isCommentValid := accepts(publicKey.PublicKey, questions.commentMessage, questions.commentSignature())
	if err = callListVerdict(questions.list.raw, isListValid, isCommentValid); err != nil {
		return nil, err
	}
	return &SignedList{questions.list, questions.comment()}, nil
}

// VerifyListFromFile reads a list and its signature, file.minisig, and verifies it as VerifyList does. The name of the list
// is the last part of file.
func (publicKey *PublicKey) VerifyListFromFile(file string, options ListOptions) (*SignedList, error) {
	text, err := os.ReadFile(file)
	if err != nil {
		return nil, err
	}
	signature, err := NewSignatureFromFile(file + ".minisig")
	if err != nil {
		return nil, err
	}
	options.Name = filepath.Base(file)
	return publicKey.VerifyList(text, signature, options)
}

// VerifyListFS does the same as VerifyListFromFile with the files of a file system.
func (publicKey *PublicKey) VerifyListFS(fsys fs.FS, file string, options ListOptions) (*SignedList, error) {
	if fsys == nil {
		return nil, errors.New("minisign: fsys is nil")
	}
	text, err := fs.ReadFile(fsys, file)
	if err != nil {
		return nil, err
	}
	signatureText, err := fs.ReadFile(fsys, file+".minisig")
	if err != nil {
		return nil, err
	}
	signature, err := DecodeSignature(string(signatureText))
	if err != nil {
		return nil, err
	}
	options.Name = path.Base(file)
	return publicKey.VerifyList(text, signature, options)
}

// TrustedComment returns the trusted comment, without "trusted comment: ". It is signed with the list. Compare its version
// or timestamp with what you expect, because an old list stays valid.
func (list *SignedList) TrustedComment() string { return list.comment }

// Entries returns all entries, in the order of their lines. A name that is listed twice has two entries, and Find returns
// an error for it. The errors are ErrNotUtf8, and a LineError with ErrMalformedLine.
func (list *SignedList) Entries() ([]ListEntry, error) {
	entries, err := list.list.entries()
	if err != nil {
		return nil, err
	}
	return entries, nil
}

// Find returns the entry for a name, which must be listed exactly once.
//
// The errors are ErrNotUtf8 if the list or the name is not UTF-8; ErrBadName if the name is not a relative path, has an
// empty, "." or ".." part, or contains a control character or a backslash; a LineError with ErrMalformedLine; ErrNotListed;
// and a LineError with ErrListedTwice. Compare them with errors.Is.
func (list *SignedList) Find(name string) (ListEntry, error) {
	raw, err := list.list.find([]byte(name))
	if err != nil {
		return ListEntry{}, err
	}
	return list.list.entry(raw), nil
}

// VerifyListed checks that data has the digest that is listed for a name, and returns the entry. The errors are those of
// Find, and ErrDigestMismatch if the data has another digest.
func (list *SignedList) VerifyListed(bin []byte, name string) (ListEntry, error) {
	return list.VerifyListedReader(bytes.NewReader(bin), name)
}

// VerifyListedReader verifies the data of a reader, up to its end, as VerifyListed does. After an error use none of the
// data.
func (list *SignedList) VerifyListedReader(reader io.Reader, name string) (ListEntry, error) {
	if reader == nil {
		return ListEntry{}, errors.New("minisign: reader is nil")
	}
	raw, err := list.list.find([]byte(name))
	if err != nil {
		return ListEntry{}, err
	}
	file, err := beginFile(raw)
	if err == nil {
		_, err = io.Copy(file, reader)
	}
	if err == nil {
		err = file.finish()
	}
	if err != nil {
		return ListEntry{}, err
	}
	return list.list.entry(raw), nil
}

// VerifyListedFromFile verifies a file as VerifyListed verifies data. The name in the list must be the last part of the
// path. If the file is listed with directories, or was renamed, open it and call VerifyListedReader with its name in the
// list.
func (list *SignedList) VerifyListedFromFile(file string) (ListEntry, error) {
	reader, err := os.Open(file)
	if err != nil {
		return ListEntry{}, err
	}
	defer reader.Close()
	return list.VerifyListedReader(reader, filepath.Base(file))
}

// VerifyListedFS opens the file with this name in a file system, and verifies it as VerifyListed verifies data. The name is
// looked up first, so a file that is not listed is not opened.
func (list *SignedList) VerifyListedFS(fsys fs.FS, name string) (ListEntry, error) {
	if fsys == nil {
		return ListEntry{}, errors.New("minisign: fsys is nil")
	}
	entry, err := list.Find(name)
	if err != nil {
		return ListEntry{}, err
	}
	reader, err := fsys.Open(entry.Name)
	if err != nil {
		return ListEntry{}, err
	}
	defer reader.Close()
	return list.VerifyListedReader(reader, name)
}

// VerifyListedTrustingCrypto verifies the data of a reader as VerifyListedReader does, but hashes it with crypto/sha256 or
// crypto/sha512, which can use the SHA instructions of the processor. Nothing is proved about these packages, so the result
// is only as good as they are. For entries with BLAKE2b, which the standard library does not have, the proved functions hash
// the data.
func (list *SignedList) VerifyListedTrustingCrypto(reader io.Reader, name string) (ListEntry, error) {
	if reader == nil {
		return ListEntry{}, errors.New("minisign: reader is nil")
	}
	raw, err := list.list.find([]byte(name))
	if err != nil {
		return ListEntry{}, err
	}
	entry := list.list.entry(raw)
	newHasher, ok := map[Hash]func() hash.Hash{SHA256: sha256.New, SHA512: sha512.New}[entry.Hash]
	if !ok {
		return list.VerifyListedReader(reader, name)
	}
	hasher := newHasher()
	if _, err = io.Copy(hasher, reader); err == nil {
		err = compareTrustingHash(raw, hasher.Sum(nil))
	}
	if err != nil {
		return ListEntry{}, err
	}
	return entry, nil
}

// A test program that verifies files with signed lists. `verify_listed` verifies the file of each case on standard
// input with each function of the module, and `entries` prints the entries of each list. `files DIRECTORY` verifies
// files and lists that it writes to a directory, and checks the errors for wrong arguments. tests/bindings/go.py
// compares the output.
package main

import (
	"bufio"
	"bytes"
	"crypto/sha512"
	"encoding/hex"
	"errors"
	"fmt"
	"io"
	"io/fs"
	"os"
	"path/filepath"
	"strings"
	"sync"
	"testing/fstest"
	"testing/iotest"

	"proved/minisign"
)

var longDigests = map[string]minisign.LongDigest{
	"sha512": minisign.LongSHA512, "blake2b": minisign.LongBLAKE2b, "none": minisign.LongRejected,
}

// A listCase is a case on standard input. It corresponds to ListCase in tests/bindings/shared_cases.py.
type listCase struct {
	key, text, signature                []byte
	listName, longDigest, name, content string
}

func cases() []listCase {
	var result []listCase
	scanner := bufio.NewScanner(os.Stdin)
	scanner.Buffer(nil, 1<<24)
	for scanner.Scan() {
		var parts [7][]byte
		for index, digits := range strings.Split(scanner.Text(), " ") {
			parts[index], _ = hex.DecodeString(strings.Trim(digits, "-"))
		}
		result = append(result, listCase{
			parts[0], parts[1], parts[2], string(parts[3]), string(parts[4]), string(parts[5]), string(parts[6]),
		})
	}
	return result
}

func verified(testCase listCase) (*minisign.SignedList, error) {
	key, err := minisign.DecodePublicKey(string(testCase.key))
	if err != nil {
		return nil, err
	}
	signature, err := minisign.DecodeSignature(string(testCase.signature))
	if err != nil {
		return nil, err
	}
	options := minisign.ListOptions{
		Name: testCase.listName, AnyName: testCase.listName == "", LongDigest: longDigests[testCase.longDigest],
	}
	text := append([]byte(nil), testCase.text...)
	list, err := key.VerifyList(text, signature, options)
	// The SignedList must contain a copy of the text, so clearing the text has no effect.
	for index := range text {
		text[index] = 0
	}
	return list, err
}

// A verifyFunc verifies the data of a case with one of the functions of the module.
type verifyFunc func(list *minisign.SignedList, testCase listCase) (minisign.ListEntry, error)

var verifyFuncs = []verifyFunc{
	func(list *minisign.SignedList, testCase listCase) (minisign.ListEntry, error) {
		return list.VerifyListed([]byte(testCase.content), testCase.name)
	},
	func(list *minisign.SignedList, testCase listCase) (minisign.ListEntry, error) {
		return list.VerifyListedReader(iotest.HalfReader(strings.NewReader(testCase.content)), testCase.name)
	},
	func(list *minisign.SignedList, testCase listCase) (minisign.ListEntry, error) {
		name := strings.TrimPrefix(testCase.name, "./")
		return list.VerifyListedFS(fstest.MapFS{name: &fstest.MapFile{Data: []byte(testCase.content)}}, testCase.name)
	},
	func(list *minisign.SignedList, testCase listCase) (minisign.ListEntry, error) {
		return list.VerifyListedTrustingCrypto(iotest.DataErrReader(strings.NewReader(testCase.content)), testCase.name)
	},
}

// nameAndLine returns the name of an error, and the number of the line at fault, or 0. It also checks the text of a
// LineError.
func nameAndLine(err error) (string, uint64) {
	var atLine *minisign.LineError
	if errors.As(err, &atLine) {
		if !errors.Is(err, atLine.Err) || err.Error() != fmt.Sprintf("%v: line %d", atLine.Err, atLine.Line) {
			return "another error: " + err.Error(), atLine.Line
		}
		return atLine.Err.Name(), atLine.Line
	}
	var named minisign.Error
	if errors.As(err, &named) {
		return named.Name(), 0
	}
	return err.Error(), 0
}

func answer(testCase listCase, verify verifyFunc) string {
	list, err := verified(testCase)
	if err == nil {
		var entry minisign.ListEntry
		if entry, err = verify(list, testCase); err == nil {
			return fmt.Sprintf("accepted %x %d", list.TrustedComment(), entry.Line)
		} else if entry.Name != "" || entry.Line != 0 {
			return "an entry with an error"
		}
	}
	name, line := nameAndLine(err)
	return fmt.Sprintf("rejected %s %d", name, line)
}

func verifyListed() {
	for _, testCase := range cases() {
		expected := answer(testCase, verifyFuncs[0])
		for index, verify := range verifyFuncs {
			if other := answer(testCase, verify); other != expected {
				expected = fmt.Sprintf("%s, but function %d: %s", expected, index, other)
			}
		}
		fmt.Println(expected)
	}
}

func entries() {
	for _, testCase := range cases() {
		list, err := verified(testCase)
		if err != nil {
			fmt.Println(err)
			continue
		}
		all, err := list.Entries()
		var shown []string
		for _, entry := range all {
			shown = append(shown, fmt.Sprintf("%d %s %x %x %t", entry.Line, entry.Hash, entry.Digest, entry.Name, entry.IsEscaped))
		}
		if err != nil {
			shown = []string{err.Error()}
		}
		fmt.Println(strings.Join(shown, ","))
	}
}

// show prints the expected result, a tab, and the actual result or the name of the error.
func show(expected string, result interface{}, err error) {
	actual := fmt.Sprint(result)
	if err != nil {
		actual, _ = nameAndLine(err)
	}
	fmt.Printf("%s\t%s\n", expected, actual)
}

// writeSignedList writes a list, and its signature by a new key, into a directory. It returns the public key.
func writeSignedList(directory, text, comment string) minisign.PublicKey {
	key, err := minisign.GenerateKey()
	if err == nil {
		err = os.WriteFile(filepath.Join(directory, "SHA512SUMS"), []byte(text), 0o644)
	}
	var signature minisign.Signature
	if err == nil {
		signature, err = key.SignBytes([]byte(text), comment, "by a test")
	}
	if err == nil {
		err = os.WriteFile(filepath.Join(directory, "SHA512SUMS.minisig"), []byte(signature.Encode()), 0o644)
	}
	if err != nil {
		panic(err)
	}
	public, _ := key.PublicKey()
	return public
}

// files checks the functions that read files.
func files(directory string) {
	at := func(name string) string { return filepath.Join(directory, name) }
	os.MkdirAll(at("sub"), 0o755)
	for _, name := range []string{"app", "renamed", "sub/app"} {
		os.WriteFile(at(name), []byte("data"), 0o644)
	}
	os.WriteFile(at("other"), []byte("other data"), 0o644)
	digest := sha512.Sum512([]byte("data"))
	lines := fmt.Sprintf("%[1]x  app\n%[1]x  other\n%[1]x  sub/app\n%[1]x  absent\n", digest)
	key := writeSignedList(directory, lines, "version:1\tfile:SHA512SUMS")
	var none minisign.ListOptions
	list, err := key.VerifyListFromFile(at("SHA512SUMS"), minisign.ListOptions{Name: "not used"})
	show("version:1 file:SHA512SUMS", strings.ReplaceAll(list.TrustedComment(), "\t", " "), err)
	inFS, err := key.VerifyListFS(os.DirFS(directory), "SHA512SUMS", none)
	show("true", inFS.TrustedComment() == list.TrustedComment(), err)
	line := func(entry minisign.ListEntry, err error) (uint64, error) { return entry.Line, err }
	result := func(expected string, entry minisign.ListEntry, err error) {
		shown, err := line(entry, err)
		show(expected, shown, err)
	}
	entry, err := list.VerifyListedFromFile(at("app"))
	result("1", entry, err)
	entry, err = list.VerifyListedFromFile(at("other"))
	result("DIGEST_MISMATCH", entry, err)
	entry, err = list.VerifyListedFromFile(at("renamed"))
	result("NOT_LISTED", entry, err)
	entry, err = list.VerifyListedFS(os.DirFS(directory), "./sub/app")
	result("3", entry, err)
	_, err = list.VerifyListedFS(os.DirFS(directory), "absent")
	show("true", errors.Is(err, fs.ErrNotExist), nil)
	_, err = list.VerifyListedFS(os.DirFS(directory), "renamed")
	show("true", errors.Is(err, minisign.ErrNotListed), nil)
	_, err = list.VerifyListedFromFile(at("absent"))
	show("true", errors.Is(err, fs.ErrNotExist), nil)

	os.Rename(at("SHA512SUMS"), at("OTHER"))
	os.Rename(at("SHA512SUMS.minisig"), at("OTHER.minisig"))
	_, err = key.VerifyListFromFile(at("OTHER"), none)
	show("OTHER_LIST", "", err)
	_, err = key.VerifyListFS(os.DirFS(directory), "OTHER", none)
	show("OTHER_LIST", "", err)
	_, err = key.VerifyListFromFile(at("OTHER"), minisign.ListOptions{AnyName: true})
	show("accepted", "accepted", err)
	os.Remove(at("OTHER.minisig"))
	_, err = key.VerifyListFromFile(at("OTHER"), none)
	show("true", errors.Is(err, fs.ErrNotExist), nil)
	_, err = key.VerifyListFS(os.DirFS(directory), "OTHER", none)
	show("true", errors.Is(err, fs.ErrNotExist), nil)

	signature, _ := minisign.DecodeSignature("")
	_, err = key.VerifyList(nil, signature, none)
	show("UNTRUSTED_COMMENT_PREFIX", "", err)
	wrong := key
	wrong.SignatureAlgorithm = [2]byte{}
	_, err = wrong.VerifyList(nil, signature, none)
	show("UNSUPPORTED_ALGORITHM", "", err)
	key = writeSignedList(directory, "", "file:SHA512SUMS")
	_, err = key.VerifyListFromFile(at("SHA512SUMS"), minisign.ListOptions{LongDigest: 3})
	show("BAD_HASH", "", err)
	signature, _ = minisign.NewSignatureFromFile(at("SHA512SUMS.minisig"))
	signature.TrustedComment += " "
	_, err = key.VerifyList(nil, signature, minisign.ListOptions{Name: "SHA512SUMS"})
	show("BAD_COMMENT", "", err)
	wrongArguments(list)
	_, err = list.VerifyListedReader(iotest.ErrReader(io.ErrUnexpectedEOF), "app")
	show("unexpected EOF", "", err)
	_, err = list.VerifyListedTrustingCrypto(iotest.ErrReader(io.ErrUnexpectedEOF), "app")
	show("unexpected EOF", "", err)
	show("true", sharedByGoroutines(list), nil)
}

// wrongArguments checks the errors for nil arguments.
func wrongArguments(list *minisign.SignedList) {
	var key *minisign.PublicKey
	_, err := key.VerifyList(nil, minisign.Signature{}, minisign.ListOptions{})
	show("minisign: publicKey is nil", "", err)
	_, err = key.VerifyListFS(nil, "x", minisign.ListOptions{})
	show("minisign: fsys is nil", "", err)
	_, err = list.VerifyListedFS(nil, "app")
	show("minisign: fsys is nil", "", err)
	_, err = list.VerifyListedReader(nil, "app")
	show("minisign: reader is nil", "", err)
	_, err = list.VerifyListedTrustingCrypto(nil, "app")
	show("minisign: reader is nil", "", err)
}

// sharedByGoroutines returns true if concurrent goroutines that share a list get the right results.
func sharedByGoroutines(list *minisign.SignedList) bool {
	var all sync.WaitGroup
	good := make(chan bool, 8)
	for thread := 0; thread < cap(good); thread++ {
		all.Add(1)
		go func() {
			defer all.Done()
			isRight := true
			for count := 0; count < 50; count++ {
				_, err := list.VerifyListed([]byte("data"), "app")
				_, otherErr := list.VerifyListedReader(bytes.NewReader([]byte("date")), "sub/app")
				isRight = isRight && err == nil && errors.Is(otherErr, minisign.ErrDigestMismatch)
			}
			good <- isRight
		}()
	}
	all.Wait()
	close(good)
	result := true
	for isRight := range good {
		result = result && isRight
	}
	return result
}

func main() {
	switch os.Args[1] {
	case "verify_listed":
		verifyListed()
	case "entries":
		entries()
	case "files":
		files(os.Args[2])
	}
}

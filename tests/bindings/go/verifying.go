// A test program that uses the module as go-minisign. It runs the check that its first argument names, most of them on
// the cases on standard input, and prints the results, which tests/bindings/go.py compares.
package main

import (
	"bufio"
	"bytes"
	"encoding/hex"
	"errors"
	"fmt"
	"io"
	"os"
	"path/filepath"
	"runtime"
	"runtime/debug"
	"strconv"
	"strings"
	"sync"

	"proved/minisign"
)

// A verifyCase is a line on standard input.
type verifyCase struct{ key, data, signature []byte }

// readCases returns the cases on standard input.
func readCases() []verifyCase {
	var result []verifyCase
	scanner := bufio.NewScanner(os.Stdin)
	scanner.Buffer(nil, 1<<24)
	for scanner.Scan() {
		var parts [3][]byte
		for index, digits := range strings.Split(scanner.Text(), " ") {
			parts[index], _ = hex.DecodeString(strings.Trim(digits, "-"))
		}
		result = append(result, verifyCase{parts[0], parts[1], parts[2]})
	}
	return result
}

// pieces is a reader that returns data in pieces of one length, or of lengths that grow by 1.
type pieces struct {
	rest []byte
	next int
	grow bool
}

func (from *pieces) Read(to []byte) (int, error) {
	if len(from.rest) == 0 {
		return 0, io.EOF
	}
	if from.next < len(to) {
		to = to[:from.next]
	}
	length := copy(to, from.rest)
	from.rest = from.rest[length:]
	if from.grow {
		from.next++
	}
	return length, nil
}

// A verifyFunc verifies data with one of the functions of the module.
type verifyFunc func(key *minisign.PublicKey, data []byte, signature minisign.Signature) (bool, error)

func atOnce(key *minisign.PublicKey, data []byte, signature minisign.Signature) (bool, error) {
	return key.Verify(data, signature)
}

func inPieces(length int) verifyFunc {
	return func(key *minisign.PublicKey, data []byte, signature minisign.Signature) (bool, error) {
		next := length
		if next == 0 {
			next = 1
		}
		return key.VerifyReader(&pieces{data, next, length == 0}, signature)
	}
}

// fromFile reads the key, the signature and the data from files.
func fromFile(directory string) verifyFunc {
	return func(_ *minisign.PublicKey, data []byte, signature minisign.Signature) (bool, error) {
		key, err := minisign.NewPublicKeyFromFile(filepath.Join(directory, "key"))
		if err != nil {
			return false, err
		}
		fileSignature, err := minisign.NewSignatureFromFile(filepath.Join(directory, "signature"))
		if err != nil || fileSignature != signature {
			return false, fmt.Errorf("another signature: %w", err)
		}
		if err := os.WriteFile(filepath.Join(directory, "data"), data, 0o644); err != nil {
			return false, err
		}
		return key.VerifyFromFile(filepath.Join(directory, "data"), fileSignature)
	}
}

func verify(testCase verifyCase, verifyData verifyFunc) (string, error) {
	key, err := minisign.DecodePublicKey(string(testCase.key))
	if err != nil {
		return "", err
	}
	signature, err := minisign.DecodeSignature(string(testCase.signature))
	if err != nil {
		return "", err
	}
	good, err := verifyData(&key, testCase.data, signature)
	if good != (err == nil) {
		panic(fmt.Sprintf("the verdict is %t, but the error is %v", good, err))
	}
	return strings.TrimPrefix(signature.TrustedComment, "trusted comment: "), err
}

func answer(testCase verifyCase, verifyData verifyFunc) string {
	comment, err := verify(testCase, verifyData)
	if err != nil {
		number, _ := err.(minisign.Error)
		return fmt.Sprintf("rejected %s %q", number.Name(), err.Error())
	}
	if comment == "" {
		return "accepted -"
	}
	return "accepted " + hex.EncodeToString([]byte(comment))
}

// fields returns the key IDs of a key and of a signature, and the algorithm of the signature. Nothing is verified.
func fields(testCase verifyCase) string {
	key, err := minisign.DecodePublicKey(string(testCase.key))
	if err != nil {
		return err.Error()
	}
	signature, err := minisign.DecodeSignature(string(testCase.signature))
	if err != nil {
		return err.Error()
	}
	ids := fmt.Sprintf("%x %x %s %s", key.KeyId, signature.KeyId, key.KeyIdText(), signature.KeyIdText())
	return fmt.Sprintf("%s %s", ids, signature.SignatureAlgorithm)
}

// pages returns the number of pages of this process that are in memory.
func pages() int {
	debug.FreeOSMemory()
	text, _ := os.ReadFile("/proc/self/statm")
	number, _ := strconv.Atoi(strings.Fields(string(text))[1])
	return number
}

// growth verifies count times, and returns by how many pages the memory grows after the first tenth of these calls.
func growth(cases []verifyCase, count int) int {
	early := 0
	for number := 0; number < count; number++ {
		verifyData := verifyFunc(atOnce)
		if number%2 == 1 {
			verifyData = inPieces(7000)
		}
		answer(cases[number/2%len(cases)], verifyData)
		if number == count/10 {
			early = pages()
		}
	}
	return pages() - early
}

// threads verifies all cases in concurrent goroutines. It returns true if each of them gets the same results as a
// single one.
func threads(cases []verifyCase) bool {
	answers := func() string {
		var all bytes.Buffer
		for _, testCase := range cases {
			fmt.Fprintln(&all, answer(testCase, atOnce), answer(testCase, inPieces(1000)))
		}
		return all.String()
	}
	expected, same := answers(), make(chan bool, 2*runtime.NumCPU())
	var all sync.WaitGroup
	for number := 0; number < cap(same); number++ {
		all.Add(1)
		go func() {
			defer all.Done()
			same <- answers() == expected
		}()
	}
	all.Wait()
	close(same)
	good := true
	for isSame := range same {
		good = good && isSame
	}
	return good
}

func main() {
	verifyData := verifyFunc(atOnce)
	switch word := os.Args[1]; word {
	case "pieces":
		length, _ := strconv.Atoi(os.Args[2])
		verifyData = inPieces(length)
	case "growth":
		count, _ := strconv.Atoi(os.Args[2])
		fmt.Println(growth(readCases(), count))
		return
	case "threads":
		fmt.Println(threads(readCases()))
		return
	case "errors":
		for number := minisign.Error(0); number < 1000; number++ {
			wrapped := fmt.Errorf("the file: %w", number)
			isRecognized := errors.Is(wrapped, number) && !errors.Is(wrapped, number+1)
			fmt.Printf("%d %q %t %s\n", number, number.Name(), isRecognized, number)
		}
		return
	case "bare":
		key, err := minisign.NewPublicKey(os.Args[2])
		fmt.Printf("%x %x %v\n", key.KeyId, key.PublicKey, err)
		return
	}
	for _, testCase := range readCases() {
		if os.Args[1] == "read" {
			fmt.Println(fields(testCase))
			continue
		}
		if os.Args[1] == "files" {
			os.WriteFile(filepath.Join(os.Args[2], "key"), testCase.key, 0o644)
			os.WriteFile(filepath.Join(os.Args[2], "signature"), testCase.signature, 0o644)
			verifyData = fromFile(os.Args[2])
		}
		fmt.Println(answer(testCase, verifyData))
	}
}

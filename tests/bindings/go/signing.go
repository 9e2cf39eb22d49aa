// A test program that makes keys and signatures. It runs the check that its first argument names, and prints the
// results, which tests/bindings/go.py compares.
package main

import (
	"bytes"
	"errors"
	"fmt"
	"os"
	"os/signal"
	"runtime/debug"
	"strconv"
	"strings"
	"sync"
	"syscall"
	"unsafe"

	"proved/minisign"
)

// nameOf returns the name of an error in minisign.h, or its text if it has no name there, or "OK" for nil.
func nameOf(err error) string {
	var number minisign.Error
	switch {
	case err == nil:
		return "OK"
	case errors.As(err, &number):
		return number.Name()
	case errors.Is(err, minisign.ErrWeakLimits):
		return "WEAK_LIMITS"
	}
	return err.Error()
}

// must panics if there is an error.
func must(err error) {
	if err != nil {
		panic(err)
	}
}

// The lowest limits that Encode accepts.
var lowestLimits = minisign.Work{OperationsLimit: 524288, MemoryLimit: 1 << 24}

// makePair writes a key pair into a directory. With a password, the secret key is encrypted.
func makePair(directory string, password []byte) error {
	key, err := minisign.GenerateKey()
	must(err)
	text, err := key.EncodeUnsealed()
	if password != nil {
		text, err = key.Encode(password, lowestLimits)
		second, secondErr := key.Encode(password, lowestLimits)
		if secondErr != nil || bytes.Equal(text, second) {
			panic("two encrypted key files have the same salt")
		}
	}
	must(err)
	public, err := key.EncodePublicKey()
	must(err)
	must(os.WriteFile(directory+"/secret", text, 0o600))
	return os.WriteFile(directory+"/public", public, 0o644)
}

// sign signs a file in three ways, which must give the same signature, writes the signature, and verifies it.
func sign(file, data, to, comment string, password []byte) error {
	const untrusted = "from a program in Go"
	key, err := minisign.NewSecretKeyFromFile(file, password, minisign.Work{LowMemory: true})
	if err != nil {
		return err
	}
	signature, err := key.SignFile(data, comment, untrusted)
	if err != nil {
		return err
	}
	bin, err := os.ReadFile(data)
	must(err)
	atOnce, err := key.SignBytes(bin, comment, untrusted)
	must(err)
	signer, err := minisign.NewSigner(key)
	must(err)
	for begin := 0; begin < len(bin); begin += 1000 {
		end := begin + 1000
		if end > len(bin) {
			end = len(bin)
		}
		signer.Write(bin[begin:end])
	}
	inPieces, err := signer.Sign(comment, untrusted)
	must(err)
	if atOnce != signature || inPieces != signature {
		panic("SignFile, SignBytes and Signer give different signatures")
	}
	if _, err := signer.Sign(comment, untrusted); err != minisign.ErrAlreadyAsked {
		panic("a signer signs twice")
	}
	must(os.WriteFile(to, []byte(signature.Encode()), 0o644))
	written, err := minisign.NewSignatureFromFile(to)
	must(err)
	if written.TrustedComment != "trusted comment: "+comment || written.UntrustedComment != "untrusted comment: "+untrusted {
		panic("the signature file has other comments")
	}
	public, err := key.PublicKey()
	must(err)
	_, err = public.Verify(bin, written)
	return err
}

// strength returns "weak" for a key that is encrypted with limits below the minimum, otherwise "strong", or an error.
func strength(file string, password []byte) string {
	key, err := minisign.NewSecretKeyFromFile(file, password, minisign.Work{})
	if err != nil {
		return nameOf(err)
	}
	if key.IsWeak() {
		return "weak"
	}
	return "strong"
}

// encrypt encrypts a new key with these limits, and returns "OK" or an error.
func encrypt(words []string) string {
	operations, _ := strconv.ParseUint(words[0], 10, 64)
	memory, _ := strconv.ParseUint(words[1], 10, 64)
	key, err := minisign.GenerateKey()
	must(err)
	text, err := key.Encode([]byte("pass word"), minisign.Work{OperationsLimit: operations, MemoryLimit: memory})
	if (err == nil) != (len(text) > 0) {
		panic("Encode returns a text and an error, or neither")
	}
	return nameOf(err)
}

// printPair prints the expected value, a tab, and the actual value.
func printPair(expected, actual interface{}) {
	fmt.Printf("%v\t%v\n", expected, actual)
}

// shown checks that a key prints as its key ID with each verb, and that Clear clears it.
func shown() {
	key, err := minisign.GenerateKey()
	must(err)
	id := fmt.Sprintf("SecretKey(%s)", key.KeyIdText())
	for _, verb := range []string{"%v", "%+v", "%#v", "%s", "%q", "%x", "%d"} {
		for _, value := range []interface{}{key, *key} {
			printPair(id, fmt.Sprintf(verb, value))
		}
	}
	signer, err := minisign.NewSigner(key)
	must(err)
	text := fmt.Sprintf("%+v", struct{ Key *minisign.SecretKey }{key})
	printPair(true, strings.Contains(text, id))
	// The secret is in the struct that the field `opened` points to, after the mark and the key ID.
	secret := unsafe.Slice((*byte)(unsafe.Add(*(*unsafe.Pointer)(unsafe.Pointer(key)), 16)), 64)
	printPair(false, bytes.Equal(secret, make([]byte, 64)))
	key.Clear()
	printPair(true, bytes.Equal(secret, make([]byte, 64)))
	_, err = signer.Sign("c", "u")
	printPair("KEY_NOT_OPENED", nameOf(err))
	_, err = key.EncodeUnsealed()
	printPair("KEY_NOT_OPENED", nameOf(err))
	password := []byte("pass word")
	minisign.Wipe(password)
	printPair([9]byte{}, password)
}

// wrong calls functions with nil and zero values.
func wrong() {
	key, err := minisign.GenerateKey()
	must(err)
	_, err = key.Sign(nil, "c", "u")
	printPair("minisign: reader is nil", err)
	_, err = minisign.NewSigner(nil)
	printPair("minisign: key is nil", err)
	for _, password := range [][]byte{nil, {}} {
		_, err = key.Encode(password, lowestLimits)
		printPair("minisign: password is empty; use EncodeUnsealed for a key without a password", err)
	}
	_, err = minisign.DecodeSecretKey(nil, nil, minisign.Work{})
	printPair("MISSING_SECRET_KEY_COMMENT", nameOf(err))
	_, err = new(minisign.SecretKey).PublicKey()
	printPair("KEY_NOT_OPENED", nameOf(err))
	_, err = new(minisign.SecretKey).SignBytes([]byte("data"), "c", "u")
	printPair("KEY_NOT_OPENED", nameOf(err))
	var signer minisign.Signer
	_, err = signer.Write([]byte("data"))
	printPair("NOT_BEGUN", nameOf(err))
	_, err = signer.Sign("c", "u")
	printPair("NOT_BEGUN", nameOf(err))
}

// keyIDs prints the key IDs of a secret key and of its public key, and the content of the public key file.
func keyIDs(file string) {
	key, err := minisign.NewSecretKeyFromFile(file, nil, minisign.Work{})
	must(err)
	public, err := key.PublicKey()
	must(err)
	text, err := key.EncodePublicKey()
	must(err)
	fmt.Printf("%s %s\n%s", key.KeyIdText(), public.KeyIdText(), text)
}

// pages returns the number of pages of this process that are in memory.
func pages() int {
	debug.FreeOSMemory()
	text, _ := os.ReadFile("/proc/self/statm")
	number, _ := strconv.Atoi(strings.Fields(string(text))[1])
	return number
}

// growth generates a key and signs with it, count times. It returns by how many pages the memory grows after the first
// tenth of them.
func growth(count int) int {
	early := 0
	for number := 0; number < count; number++ {
		key, err := minisign.GenerateKey()
		must(err)
		_, err = key.SignBytes([]byte{byte(number)}, "c", "u")
		must(err)
		if number == count/10 {
			early = pages()
		}
	}
	return pages() - early
}

// threads signs with one key in concurrent goroutines. It returns true if all signatures are valid.
func threads() bool {
	key, err := minisign.GenerateKey()
	must(err)
	public, err := key.PublicKey()
	must(err)
	var all sync.WaitGroup
	same := make(chan bool, 16)
	for number := 0; number < cap(same); number++ {
		all.Add(1)
		go func(data []byte) {
			defer all.Done()
			isGood := true
			for turn := 0; turn < 50; turn++ {
				signature, err := key.SignBytes(data, "c", "u")
				good, _ := public.Verify(data, signature)
				isGood = isGood && good && err == nil
			}
			same <- isGood
		}([]byte{byte(number)})
	}
	all.Wait()
	close(same)
	good := true
	for isGood := range same {
		good = good && isGood
	}
	return good
}

func password(words []string) []byte {
	if len(words) == 0 {
		return nil
	}
	return []byte(words[0])
}

func main() {
	switch words := os.Args[2:]; os.Args[1] {
	case "make":
		fmt.Println(nameOf(makePair(words[0], password(words[1:]))))
	case "sign":
		fmt.Println(nameOf(sign(words[0], words[1], words[2], words[3], password(words[4:]))))
	case "key_ids":
		keyIDs(words[0])
	case "write":
		// Without this, a write beyond the file size limit would end the program instead of returning an error.
		signal.Ignore(syscall.SIGXFSZ)
		fmt.Println(nameOf(minisign.WriteNew(words[0], []byte(words[1]))))
	case "strength":
		fmt.Println(strength(words[0], password(words[1:])))
	case "encrypt":
		fmt.Println(encrypt(words))
	case "shown":
		shown()
	case "wrong":
		wrong()
	case "growth":
		count, _ := strconv.Atoi(words[0])
		fmt.Println(growth(count))
	case "threads":
		fmt.Println(threads())
	}
}

// Verifies cases with go-minisign. Each line on standard input is a case: a public key, data and a signature in
// hexadecimal digits. The program prints the verdict and the error for each. tests/bindings/go.py builds it with
// go-minisign.
package main

import (
	"bufio"
	"encoding/hex"
	"fmt"
	"os"
	"strings"

	"proved/minisign"
)

func verify(parts [3]string) (bool, error) {
	key, err := minisign.DecodePublicKey(parts[0])
	if err != nil {
		return false, err
	}
	signature, err := minisign.DecodeSignature(parts[2])
	if err != nil {
		return false, err
	}
	return key.Verify([]byte(parts[1]), signature)
}

func main() {
	scanner := bufio.NewScanner(os.Stdin)
	scanner.Buffer(nil, 1<<24)
	for scanner.Scan() {
		var parts [3]string
		for index, digits := range strings.Split(scanner.Text(), " ") {
			part, _ := hex.DecodeString(strings.Trim(digits, "-"))
			parts[index] = string(part)
		}
		good, err := verify(parts)
		fmt.Printf("%t, %v\n", good, err)
	}
}

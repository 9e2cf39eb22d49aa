// Verifies the file `app` with the published key, as a program of a user who has installed the module.
// tests/bindings/install_commands.py runs it.
package main

import (
	"fmt"

	"proved/minisign"
)

func main() {
	key, _ := minisign.NewPublicKey("RWQf6LRCGA9i53mlYecO4IzT51TGPpvWucNSCh1CBM0QTaLn73Y7GFO3")
	signature, _ := minisign.NewSignatureFromFile("app.minisig")
	good, _ := key.VerifyFromFile("app", signature)
	fmt.Println(good)
}

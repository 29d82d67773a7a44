// Command pion times reading with pion, as from_c.c does from C:   pion BATCHES FILE..
package main

import (
	"fmt"
	"os"

	"github.com/pion/sdp"
)

func read(text []byte) error {
	var session sdp.SessionDescription
	return session.Unmarshal(text)
}

func main() {
	if err := show("pion", read); err != nil {
		fmt.Fprintln(os.Stderr, err)
		os.Exit(1)
	}
}

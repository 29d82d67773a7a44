// Command from_go times reading from Go, as from_c.c does from C:   from_go BATCHES FILE..
package main

import (
	"fmt"
	"os"

	"zaxmonth"
)

func read(text []byte) error {
	session, err := zaxmonth.Read(text)
	if err != nil {
		return err
	}
	return session.Close()
}

func main() {
	if err := show("Go", read); err != nil {
		fmt.Fprintln(os.Stderr, err)
		os.Exit(1)
	}
}

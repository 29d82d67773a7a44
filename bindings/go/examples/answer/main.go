// Command answer negotiates an offer with the default codecs, and prints one's own description with what is agreed:   answer OFFER OWN
package main

import (
	"errors"
	"fmt"
	"os"

	"zaxmonth"
)

// answered is one's own description with what is agreed in each of its sections.
func answered(offer, text []byte) (*zaxmonth.Session, error) {
	config, err := zaxmonth.NewConfig()
	if err != nil {
		return nil, err
	}
	defer config.Close()
	outcomes, err := config.Negotiate(offer)
	if err != nil {
		return nil, err
	}
	for i, outcome := range outcomes {
		if outcome.Cause != zaxmonth.Accepted {
			fmt.Fprintf(os.Stderr, "round %d refused: %v\n", i+1, outcome)
		}
	}
	own, err := zaxmonth.Read(text)
	if err != nil {
		return nil, err
	}
	for section := 0; section < own.Sections(); section++ {
		err := config.Answer(own, section)
		if err != nil && !errors.Is(err, zaxmonth.ErrNothing) {
			return nil, err
		}
		if err != nil {
			fmt.Fprintf(os.Stderr, "section %d: %v\n", section, err)
		}
	}
	return own, nil
}

func run(offerPath, ownPath string) error {
	offer, err := os.ReadFile(offerPath)
	if err != nil {
		return err
	}
	text, err := os.ReadFile(ownPath)
	if err != nil {
		return err
	}
	own, err := answered(offer, text)
	if err != nil {
		return err
	}
	defer own.Close()
	_, err = own.WriteTo(os.Stdout)
	return err
}

func main() {
	if len(os.Args) != 3 {
		fmt.Fprintln(os.Stderr, "usage: answer OFFER OWN")
		os.Exit(2)
	}
	if err := run(os.Args[1], os.Args[2]); err != nil {
		fmt.Fprintln(os.Stderr, err)
		os.Exit(1)
	}
}

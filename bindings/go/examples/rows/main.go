// Command rows prints the rows of an offer:   rows FILE
package main

import (
	"errors"
	"fmt"
	"os"

	"zaxmonth"
)

func show(path string) error {
	text, err := os.ReadFile(path)
	if err != nil {
		return err
	}
	offer, err := zaxmonth.Read(text)
	if err != nil {
		return err
	}
	defer offer.Close()
	if line, _ := offer.Rest(); line > 0 {
		fmt.Fprintf(os.Stderr, "reading ended at line %d\n", line)
	}
	for section := 0; section < offer.Sections(); section++ {
		if err := showSection(offer, section); err != nil {
			return err
		}
	}
	return nil
}

func showSection(offer *zaxmonth.Session, section int) error {
	mid, err := offer.Mid(section)
	if err != nil {
		return err
	}
	rows, err := offer.Rows(section)
	if err != nil {
		return err
	}
	for _, row := range rows {
		lead := ""
		if row.Fmtp != "" {
			lead = ", "
		}
		fmt.Printf("mid %s: payload type %d, %s at %d Hz%s%s\n", mid, row.PT, row.Name, row.ClockRate, lead, row.Fmtp)
	}
	return nil
}

func main() {
	if len(os.Args) != 2 {
		fmt.Fprintln(os.Stderr, "usage: rows FILE")
		os.Exit(2)
	}
	if err := show(os.Args[1]); err != nil {
		var refused *zaxmonth.Error
		if errors.As(err, &refused) {
			fmt.Fprintln(os.Stderr, refused.Message)
		} else {
			fmt.Fprintln(os.Stderr, err)
		}
		os.Exit(1)
	}
}

// Command texts writes what each text of a folder is by the package, as the files of data/ have it:   texts DATA OUT
//
// Beside NAME.sdp stand there NAME.text, NAME.rows and NAME.negotiate: a line "status N", and what sdpshow writes.
package main

import (
	"errors"
	"fmt"
	"log"
	"os"
	"path/filepath"
	"strings"

	"zaxmonth"
)

func ptOr(pt uint8) string {
	if pt == zaxmonth.NoType {
		return "-"
	}
	return fmt.Sprint(pt)
}

func orDash(text string) string {
	if text == "" {
		return "-"
	}
	return text
}

func columns(row zaxmonth.Row) string {
	codec := fmt.Sprintf("%s/%d", row.Name, row.ClockRate)
	if row.Channels != 0 {
		codec += fmt.Sprintf("/%d", row.Channels)
	}
	return fmt.Sprintf("%d %s %s %s %s\n", row.PT, ptOr(row.RTX), ptOr(row.RED), codec, orDash(row.Fmtp))
}

func printed(text []byte) (string, error) {
	read, err := zaxmonth.Read(text)
	if err != nil {
		return "", err
	}
	var said strings.Builder
	_, err = read.WriteTo(&said)
	return said.String(), err
}

func rows(text []byte) (string, error) {
	read, err := zaxmonth.Read(text)
	if err != nil {
		return "", err
	}
	said := ""
	for at := 0; at < read.Sections(); at++ {
		mid, err := read.Mid(at)
		if err != nil {
			return "", err
		}
		rows, err := read.Rows(at)
		if err != nil {
			return "", err
		}
		for _, row := range rows {
			said += orDash(mid) + " " + columns(row)
		}
	}
	return said, nil
}

func roundLine(number int, outcome zaxmonth.Outcome) string {
	if outcome.Cause == zaxmonth.Accepted {
		return fmt.Sprintf("round %d ok\n", number)
	}
	return fmt.Sprintf("round %d refused: %v\n", number, outcome)
}

func lockedOr(row zaxmonth.Row) string {
	if row.Locked {
		return "locked "
	}
	return "open "
}

func negotiated(text []byte) (string, error) {
	config, err := zaxmonth.NewConfig()
	if err != nil {
		return "", err
	}
	outcomes, err := config.Negotiate(text)
	if err != nil {
		return "", err
	}
	said := ""
	for i, outcome := range outcomes {
		said += roundLine(i+1, outcome)
	}
	rows, err := config.Rows()
	for _, row := range rows {
		said += lockedOr(row) + columns(row)
	}
	return said, err
}

func answer(call func([]byte) (string, error), text []byte) string {
	said, err := call(text)
	var refused *zaxmonth.Error
	switch {
	case err == nil:
		return "status 0\n" + said
	case errors.As(err, &refused):
		return "status 1\n" + refused.Message + "\n"
	}
	return err.Error()
}

func write(path, out string) error {
	text, err := os.ReadFile(path)
	if err != nil {
		return err
	}
	name := strings.TrimSuffix(filepath.Base(path), ".sdp")
	for word, call := range map[string]func([]byte) (string, error){"text": printed, "rows": rows, "negotiate": negotiated} {
		if err := os.WriteFile(filepath.Join(out, name+"."+word), []byte(answer(call, text)), 0o644); err != nil {
			return err
		}
	}
	return nil
}

func main() {
	paths, err := filepath.Glob(filepath.Join(os.Args[1], "*.sdp"))
	if err != nil {
		log.Fatal(err)
	}
	for _, path := range paths {
		if err := write(path, os.Args[2]); err != nil {
			log.Fatal(err)
		}
	}
}

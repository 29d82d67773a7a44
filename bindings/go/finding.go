package zaxmonth

// #include <zaxmonth.h>
import "C"

import (
	"encoding/json"
	"fmt"
)

// A Finding is why a text is refused, or what is lost of it.
type Finding struct {
	Line     int    // from 1
	Column   int    // in characters, from 1
	Severity string // "error", "warning" or "note"
	Code     string // docs/LINT.md says of each what it means and what to do
	Message  string
}

// String is the finding on one line.
func (f Finding) String() string {
	return fmt.Sprintf("%d:%d: %s: %s [%s]", f.Line, f.Column, f.Severity, f.Message, f.Code)
}

// Findings are what is found in a text, by its lines, whether it describes a session or not. Errors: ErrUTF8, ErrMemory.
func Findings(text []byte) (found []Finding, err error) {
	said, err := textOf(func(room *C.char, size C.size_t, needed *C.size_t) C.zax_status {
		return C.zax_findings(chars(text), C.size_t(len(text)), room, size, needed)
	})
	if err != nil {
		return nil, err
	}
	err = json.Unmarshal(said, &found)
	return found, err
}

package zaxmonth

import (
	"bytes"
	"errors"
	"fmt"
	"testing"
)

// What is expected is worked out by hand, by docs/LINT.md.

func TestFindings(t *testing.T) {
	found := must[[]Finding](t)(Findings([]byte("x")))
	is(t, len(found), 1)
	is(t, found[0].String(), fmt.Sprintf("1:1: error: %s [version-line]", found[0].Message))
	lines, unknown := 500, []int{}
	for _, it := range must[[]Finding](t)(Findings(append(ownText(t), bytes.Repeat([]byte("a=what-is-this\r\n"), lines)...))) {
		if it.Code == "unknown-attribute" {
			unknown = append(unknown, it.Line)
		}
	}
	is(t, len(unknown), lines)
	is(t, unknown[0], bytes.Count(ownText(t), []byte("\n"))+1)
	_, err := Findings([]byte("\xff"))
	is(t, errors.Is(err, ErrUTF8), true)
}

package zaxmonth

// #include <zaxmonth.h>
import "C"

import (
	"errors"
	"fmt"
)

// A Status is why a call was refused, by its number in zaxmonth.h.
type Status uint32

// The statuses of calls that were refused.
const (
	StatusParse    Status = C.ZAX_E_PARSE
	StatusUTF8     Status = C.ZAX_E_UTF8
	StatusMemory   Status = C.ZAX_E_MEMORY
	StatusRoom     Status = C.ZAX_E_ROOM // which no call of this package answers: it gives as much room as is asked for
	StatusSection  Status = C.ZAX_E_SECTION
	StatusNothing  Status = C.ZAX_E_NOTHING
	StatusArgument Status = C.ZAX_E_ARGUMENT
	StatusState    Status = C.ZAX_E_STATE
	StatusUnread   Status = C.ZAX_E_UNREAD
	StatusFit      Status = C.ZAX_E_FIT
	StatusPrint    Status = C.ZAX_E_PRINT
	StatusRows     Status = C.ZAX_E_ROWS
	StatusChannels Status = C.ZAX_E_CHANNELS
	StatusName     Status = C.ZAX_E_NAME
	StatusOwn      Status = C.ZAX_E_OWN
)

// What errors.Is knows an error by: one for each status.
var (
	ErrParse    = errors.New("the text describes no session")
	ErrUTF8     = errors.New("text is not UTF-8")
	ErrMemory   = errors.New("out of memory")
	ErrRoom     = errors.New("the room is too small")
	ErrSection  = errors.New("there is no such section or row")
	ErrNothing  = errors.New("nothing is agreed that could be printed there")
	ErrArgument = errors.New("an argument is none that the library takes")
	ErrState    = errors.New("the call is out of turn")
	ErrUnread   = errors.New("a line of the text fits nowhere")
	ErrFit      = errors.New("a section breaks a rule")
	ErrPrint    = errors.New("the description would be read as another one")
	ErrRows     = errors.New("this side has no codec for media of that kind")
	ErrChannels = errors.New("this side takes no data channels")
	ErrName     = errors.New("no name is left for a section")
	ErrOwn      = errors.New("a text of this side is no fingerprint, or no candidate")
)

// ErrClosed is answered by each call over a Session, a Config or an Exchange that is closed; it is an ErrArgument.
var ErrClosed error = &Error{Status: StatusArgument, Message: "it is closed"}

var sentinels = map[Status]error{
	StatusParse:    ErrParse,
	StatusUTF8:     ErrUTF8,
	StatusMemory:   ErrMemory,
	StatusRoom:     ErrRoom,
	StatusSection:  ErrSection,
	StatusNothing:  ErrNothing,
	StatusArgument: ErrArgument,
	StatusState:    ErrState,
	StatusUnread:   ErrUnread,
	StatusFit:      ErrFit,
	StatusPrint:    ErrPrint,
	StatusRows:     ErrRows,
	StatusChannels: ErrChannels,
	StatusName:     ErrName,
	StatusOwn:      ErrOwn,
}

// An Error says why a call was refused. Nothing has changed then.
type Error struct {
	Status  Status
	Line    int    // of the text, from 1; 0 where the library tells none
	Message string // a line of English
}

func (e *Error) Error() string {
	return "zaxmonth: " + e.Message
}

// Unwrap is the value by which errors.Is knows the error: ErrParse and the like.
func (e *Error) Unwrap() error {
	return sentinels[e.Status]
}

// errorOf is the error of a status: nil where it is ZAX_OK.
func errorOf(status C.zax_status, told *C.zax_error) error {
	if status == C.ZAX_OK {
		return nil
	}
	made := &Error{Status: Status(status)}
	if told != nil {
		made.Line, made.Message = int(told.line), C.GoString(&told.message[0])
	}
	if made.Message != "" {
		return made
	}
	if known := sentinels[made.Status]; known != nil {
		made.Message = known.Error()
	} else {
		made.Message = fmt.Sprintf("the call is answered by the unknown status %d", made.Status)
	}
	return made
}

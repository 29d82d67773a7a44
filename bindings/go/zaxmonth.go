// Package zaxmonth reads, negotiates and prints session descriptions (SDP) by libzaxmonth, whose calls are proved.
//
//	config, err := zaxmonth.NewConfig()
//	outcomes, err := config.Negotiate(offer)
//	own, err := zaxmonth.Read(text)
//	err = config.Answer(own, 0)
//	_, err = own.WriteTo(os.Stdout)
//
// An offer is answered as a whole by an Exchange:
//
//	exchange, err := zaxmonth.NewExchange(own, config)
//	answer, err := exchange.AcceptOffer(offer)
//	_, err = answer.WriteTo(os.Stdout)
//
// A Session, a Config and an Exchange own memory of the library's. Close frees it at once; where nobody calls Close, the garbage collector does.
// Any goroutine may call them: one call waits for another over the same value.
//
// cgo finds the library by pkg-config: PKG_CONFIG_PATH names the folder of zaxmonth.pc, and LD_LIBRARY_PATH that of the shared library when
// the program runs.
package zaxmonth

/*
#cgo pkg-config: zaxmonth
#include <stdlib.h>
#include <zaxmonth.h>

// What is read of a text. A value that C returns lies on Go's stack; the places that zax_read writes to would lie in its heap.
struct reading {
	zax_session *session;
	zax_error *error; // why there is none, for free; NULL where there is no memory for it
	zax_status status;
	uint32_t line;
	size_t offset;
};

static struct reading reading_of(const char *text, size_t length)
{
	struct reading made = {0};
	zax_error error;
	made.status = zax_read(text, length, &made.session, &error);
	made.line = error.line;
	made.offset = error.offset;
	if (made.status != ZAX_OK && (made.error = malloc(sizeof error)))
		*made.error = error;
	return made;
}

// A number, since cgo puts a pointer into Go's heap to look behind it for pointers of Go's, of which a handle has none.
static void free_session(uintptr_t session)
{
	zax_session_free((zax_session *)session);
}
*/
import "C"

import (
	"bytes"
	"io"
	"unsafe"
)

// Version is the version of the library.
func Version() string {
	return C.GoString(C.zax_version())
}

func chars(text []byte) *C.char {
	if len(text) == 0 {
		return nil
	}
	return (*C.char)(unsafe.Pointer(&text[0]))
}

// A Session is a description that was read of a text. The zero value is closed.
type Session struct {
	handle               handle[*C.zax_session]
	restLine, restOffset int
}

// Read reads the description that a text begins with: UTF-8, which nobody changes during the call. Errors: ErrParse, ErrUTF8, ErrMemory.
func Read(text []byte) (*Session, error) {
	made := C.reading_of(chars(text), C.size_t(len(text)))
	if made.status != C.ZAX_OK {
		defer C.free(unsafe.Pointer(made.error))
		return nil, errorOf(made.status, made.error)
	}
	return &Session{sessions.handle(made.session), int(made.line), int(made.offset)}, nil
}

var sessions = kind[*C.zax_session]{free: func(it *C.zax_session) {
	C.free_session(C.uintptr_t(uintptr(unsafe.Pointer(it))))
}}

// Close frees the session, where it isn't freed yet; other calls answer ErrClosed from then on. It answers nil.
func (s *Session) Close() error {
	s.handle.close()
	return nil
}

// Rest is where reading ended: the line, from 1, and the byte, from 0. The line is 0 where all was read.
func (s *Session) Rest() (line, offset int) {
	return s.restLine, s.restOffset
}

// MarshalText is the description as SDP, with CR and LF at the end of each line.
func (s *Session) MarshalText() ([]byte, error) {
	return s.handle.text(func(it *C.zax_session, room *C.char, size C.size_t, needed *C.size_t) C.zax_status {
		return C.zax_print(it, room, size, needed)
	})
}

// WriteTo prints the description to a writer.
func (s *Session) WriteTo(writer io.Writer) (int64, error) {
	text, err := s.MarshalText()
	return write(writer, text, err)
}

// write writes a text, where there is one.
func write(writer io.Writer, text []byte, err error) (int64, error) {
	if err != nil {
		return 0, err
	}
	wrote, err := writer.Write(text)
	return int64(wrote), err
}

// JSON is the description as the library's JSON has it.
func (s *Session) JSON() ([]byte, error) {
	return s.handle.text(func(it *C.zax_session, room *C.char, size C.size_t, needed *C.size_t) C.zax_status {
		return C.zax_json(it, room, size, needed)
	})
}

// Sections is how many sections there are; a section is named by its number, from 0. It is 0 for a session that is closed.
func (s *Session) Sections() int {
	count := 0
	_ = s.handle.use(func(it *C.zax_session) error {
		count = int(C.zax_sections(it))
		return nil
	})
	return count
}

// Mid is the mid of a section; empty where it has none. Errors: ErrSection.
func (s *Session) Mid(section int) (string, error) {
	mid, err := s.handle.text(func(it *C.zax_session, room *C.char, size C.size_t, needed *C.size_t) C.zax_status {
		return C.zax_section_mid(it, C.size_t(section), room, size, needed)
	})
	return string(mid), err
}

// Rows are the rows of a section. Errors: ErrSection.
func (s *Session) Rows(section int) (rows []Row, err error) {
	at := C.size_t(section)
	err = s.handle.use(func(it *C.zax_session) error {
		rows, err = rowsOf(
			func(room *C.zax_row, size C.size_t, needed *C.size_t) C.zax_status {
				return C.zax_rows(it, at, room, size, needed)
			},
			func(row C.size_t, room *C.char, size C.size_t, needed *C.size_t) C.zax_status {
				return C.zax_row_codec(it, at, row, room, size, needed)
			},
			func(row C.size_t, room *C.char, size C.size_t, needed *C.size_t) C.zax_status {
				return C.zax_row_fmtp(it, at, row, room, size, needed)
			})
		return err
	})
	return rows, err
}

// A Config is the rows of one side, of which some are locked. The zero value is closed.
type Config struct {
	handle handle[*C.zax_config]
}

// NewConfig makes a configuration with the default rows. Errors: ErrMemory.
func NewConfig() (*Config, error) {
	var made *C.zax_config
	return configOf(&made, C.zax_config_defaults(&made))
}

// EmptyConfig makes a configuration without rows. Errors: ErrMemory.
func EmptyConfig() (*Config, error) {
	var made *C.zax_config
	return configOf(&made, C.zax_config_empty(&made))
}

func configOf(made **C.zax_config, status C.zax_status) (*Config, error) {
	if err := errorOf(status, nil); err != nil {
		return nil, err
	}
	return &Config{configs.handle(*made)}, nil
}

var configs = kind[*C.zax_config]{free: func(it *C.zax_config) { C.zax_config_free(it) }}

func flag(on bool) C.int {
	if on {
		return 1
	}
	return 0
}

// Enable takes all rows of a codec out and, where enabled, puts its default rows last, with RED where useRED asks for it and the codec has
// it. Errors: ErrArgument where the codec has no default rows, ErrMemory.
func (c *Config) Enable(codec Codec, enabled, useRED bool) error {
	return c.handle.use(func(it *C.zax_config) error {
		return errorOf(C.zax_config_enable(it, C.zax_codec(codec), flag(enabled), flag(useRED)), nil)
	})
}

// Add adds a row at the end, with the payload type, RTX (or NoType), codec, clock rate, channels and format of this one: with the feedback
// of its kind, without RED, not locked. What its format says that doesn't read is passed over. Errors: ErrArgument where the codec has no
// number or the clock rate is 0, ErrUTF8, ErrMemory.
func (c *Config) Add(row Row) error {
	fmtp := []byte(row.Fmtp)
	return c.handle.use(func(it *C.zax_config) error {
		pt, rtx, channels := C.uint8_t(row.PT), C.uint8_t(row.RTX), C.uint8_t(row.Channels)
		codec, rate := C.zax_codec(row.Codec), C.uint32_t(row.ClockRate)
		return errorOf(C.zax_config_add(it, pt, rtx, codec, rate, channels, chars(fmtp), C.size_t(len(fmtp))), nil)
	})
}

// Close frees the configuration, where it isn't freed yet; other calls answer ErrClosed from then on. It answers nil.
func (c *Config) Close() error {
	c.handle.close()
	return nil
}

// Negotiate reads a text, and runs a round for each of its audio and video sections; it answers the outcome of each. A round that is
// refused changes nothing, and the next one runs. Where there is an error, ErrParse, ErrUTF8 or ErrMemory, no round has run.
func (c *Config) Negotiate(text []byte) ([]Outcome, error) {
	room := make([]C.zax_outcome, bytes.Count(text, []byte("m="))+1) // (each section begins so)
	var needed C.size_t
	err := c.handle.use(func(it *C.zax_config) error {
		var told C.zax_error
		status := C.zax_negotiate(it, chars(text), C.size_t(len(text)), &room[0], C.size_t(len(room)), &needed, &told)
		return errorOf(status, &told)
	})
	if err != nil {
		return nil, err
	}
	return outcomesOf(room[:needed]), nil
}

// Rows are all rows.
func (c *Config) Rows() (rows []Row, err error) {
	err = c.handle.use(func(it *C.zax_config) error {
		rows, err = rowsOf(
			func(room *C.zax_row, size C.size_t, needed *C.size_t) C.zax_status {
				return C.zax_config_rows(it, room, size, needed)
			},
			func(row C.size_t, room *C.char, size C.size_t, needed *C.size_t) C.zax_status {
				return C.zax_config_row_codec(it, row, room, size, needed)
			},
			func(row C.size_t, room *C.char, size C.size_t, needed *C.size_t) C.zax_status {
				return C.zax_config_row_fmtp(it, row, room, size, needed)
			})
		return err
	})
	return rows, err
}

// Answer puts the locked rows of its kind into a section of one's own description. Errors: ErrNothing, ErrSection, ErrMemory.
func (c *Config) Answer(own *Session, section int) error {
	// The configuration's lock is the first, always: so no two answers wait for each other.
	return c.handle.use(func(config *C.zax_config) error {
		return own.handle.use(func(session *C.zax_session) error {
			return errorOf(C.zax_answer(config, session, C.size_t(section)), nil)
		})
	})
}

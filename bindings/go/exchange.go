package zaxmonth

// #include <zaxmonth.h>
import "C"

import "io"

// A State is whether an offer of this side waits for its answer (RFC 8829, section 3.2).
type State uint32

// The states.
const (
	Stable         State = C.ZAX_STABLE
	HaveLocalOffer State = C.ZAX_HAVE_LOCAL_OFFER
)

// An Exchange is one side of a session: it answers offers, makes its own, and takes answers to them (RFC 3264, RFC 8829). The zero value is
// closed. A call that answers an error has changed nothing.
type Exchange struct {
	handle handle[*C.zax_exchange]
}

// NewExchange makes one side of a session. It takes the configuration, which is closed then; Rows tells its rows. Errors: ErrOwn, ErrUTF8,
// ErrMemory; then the configuration is as it was.
func NewExchange(own OwnSide, config *Config) (*Exchange, error) {
	var texts blocks
	defer texts.free()
	raw := own.raw(&texts)
	var made *C.zax_exchange
	err := config.handle.give(func(rows *C.zax_config) error {
		var told C.zax_error
		return errorOf(C.zax_exchange_new(&raw, rows, &made, &told), &told)
	})
	if err != nil {
		return nil, err
	}
	return &Exchange{exchanges.handle(made)}, nil
}

var exchanges = kind[*C.zax_exchange]{free: func(it *C.zax_exchange) { C.zax_exchange_free(it) }}

// Close frees the exchange, where it isn't freed yet; other calls answer ErrClosed from then on. It answers nil.
func (e *Exchange) Close() error {
	e.handle.close()
	return nil
}

// A Description is an offer or an answer of this side. It prints with its version in the o= line: of two of a session the later has the
// greater.
type Description struct {
	Session
	Version uint64 // 1 at first
}

// MarshalText is the description as SDP, as the other side is to get it.
func (d *Description) MarshalText() ([]byte, error) {
	return d.handle.text(func(it *C.zax_session, room *C.char, size C.size_t, needed *C.size_t) C.zax_status {
		return C.zax_print_version(it, C.uint64_t(d.Version), room, size, needed)
	})
}

// WriteTo prints the description to a writer.
func (d *Description) WriteTo(writer io.Writer) (int64, error) {
	text, err := d.MarshalText()
	return write(writer, text, err)
}

// described is the description that a call makes.
func (e *Exchange) described(
	call func(*C.zax_exchange, **C.zax_session, *C.uint64_t, *C.zax_error) C.zax_status,
) (*Description, error) {
	var made *C.zax_session
	var version C.uint64_t
	err := e.handle.use(func(it *C.zax_exchange) error {
		var told C.zax_error
		return errorOf(call(it, &made, &version, &told), &told)
	})
	if err != nil {
		return nil, err
	}
	return &Description{Session{handle: sessions.handle(made)}, uint64(version)}, nil
}

// AcceptOffer answers an offer of the other side. Errors: ErrParse, ErrUTF8, ErrUnread, ErrFit, ErrPrint, ErrState, ErrMemory.
func (e *Exchange) AcceptOffer(offer []byte) (*Description, error) {
	return e.described(func(it *C.zax_exchange, made **C.zax_session, version *C.uint64_t, told *C.zax_error) C.zax_status {
		return C.zax_accept_offer(it, chars(offer), C.size_t(len(offer)), made, version, told)
	})
}

// CreateOffer makes an offer of what was added and what goes on, which waits for its answer then. Errors: ErrState, ErrPrint, ErrName,
// ErrMemory.
func (e *Exchange) CreateOffer() (*Description, error) {
	return e.described(func(it *C.zax_exchange, made **C.zax_session, version *C.uint64_t, told *C.zax_error) C.zax_status {
		return C.zax_create_offer(it, made, version, told)
	})
}

// told runs a call that tells why it is refused.
func (e *Exchange) told(call func(*C.zax_exchange, *C.zax_error) C.zax_status) error {
	return e.handle.use(func(it *C.zax_exchange) error {
		var told C.zax_error
		return errorOf(call(it, &told), &told)
	})
}

// AcceptAnswer takes the other side's answer to the offer that waits for it. Errors: as of AcceptOffer.
func (e *Exchange) AcceptAnswer(answer []byte) error {
	return e.told(func(it *C.zax_exchange, told *C.zax_error) C.zax_status {
		return C.zax_accept_answer(it, chars(answer), C.size_t(len(answer)), told)
	})
}

// Rollback drops the offer that waits for its answer; where none does, nothing changes.
func (e *Exchange) Rollback() error {
	return e.handle.use(func(it *C.zax_exchange) error {
		return errorOf(C.zax_rollback(it), nil)
	})
}

// AddMedia has the next offer add a section of media. Errors: ErrRows, ErrMemory; ErrArgument for a kind or a direction that isn't one.
func (e *Exchange) AddMedia(kind Kind, direction Direction) error {
	return e.told(func(it *C.zax_exchange, told *C.zax_error) C.zax_status {
		return C.zax_add_media(it, C.zax_kind(kind), C.zax_direction(direction), told)
	})
}

// AddChannels has the next offer add a section of data channels. Errors: ErrChannels, ErrMemory.
func (e *Exchange) AddChannels() error {
	return e.told(func(it *C.zax_exchange, told *C.zax_error) C.zax_status {
		return C.zax_add_channels(it, told)
	})
}

// RestartICE has the next description say these credentials of ICE. Errors: ErrUTF8, ErrMemory.
func (e *Exchange) RestartICE(ufrag, pwd string) error {
	var texts blocks
	defer texts.free()
	return e.handle.use(func(it *C.zax_exchange) error {
		return errorOf(C.zax_restart_ice(it, texts.slice(ufrag), texts.slice(pwd)), nil)
	})
}

// SetDirection has the next description say this direction in the section of a mid, to hold its media and to resume it. Errors: ErrUTF8,
// ErrMemory; ErrArgument for a direction that isn't one, or a mid of more than 16 bytes.
func (e *Exchange) SetDirection(mid string, direction Direction) error {
	text := []byte(mid)
	return e.handle.use(func(it *C.zax_exchange) error {
		return errorOf(C.zax_set_direction(it, chars(text), C.size_t(len(text)), C.zax_direction(direction)), nil)
	})
}

// Rows are the rows of its configuration.
func (e *Exchange) Rows() (rows []Row, err error) {
	err = e.handle.use(func(it *C.zax_exchange) error {
		rows, err = rowsOf(
			func(room *C.zax_row, size C.size_t, needed *C.size_t) C.zax_status {
				return C.zax_exchange_rows(it, room, size, needed)
			},
			func(row C.size_t, room *C.char, size C.size_t, needed *C.size_t) C.zax_status {
				return C.zax_exchange_row_codec(it, row, room, size, needed)
			},
			func(row C.size_t, room *C.char, size C.size_t, needed *C.size_t) C.zax_status {
				return C.zax_exchange_row_fmtp(it, row, room, size, needed)
			})
		return err
	})
	return rows, err
}

// State is whether an offer of this side waits for its answer.
func (e *Exchange) State() (State, error) {
	var found C.uint32_t
	err := e.handle.use(func(it *C.zax_exchange) error {
		return errorOf(C.zax_exchange_state(it, &found), nil)
	})
	return State(found), err
}

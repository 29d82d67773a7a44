package zaxmonth

// #include <zaxmonth.h>
import "C"

// A Kind is what a section carries.
type Kind uint8

// The kinds; the first two are those of media.
const (
	Audio       Kind = C.ZAX_AUDIO
	Video       Kind = C.ZAX_VIDEO
	Application Kind = C.ZAX_APPLICATION // data channels
	OtherKind   Kind = C.ZAX_OTHER_KIND
)

// A Protocol is what carries a section.
type Protocol uint8

// The protocols.
const (
	RTP  Protocol = C.ZAX_PROTOCOL_RTP
	SCTP Protocol = C.ZAX_PROTOCOL_SCTP
)

// A Direction is what a side is ready for in a section.
type Direction uint8

// The directions; SendRecv is the zero value.
const (
	SendRecv Direction = C.ZAX_SENDRECV
	SendOnly Direction = C.ZAX_SENDONLY
	RecvOnly Direction = C.ZAX_RECVONLY
	Inactive Direction = C.ZAX_INACTIVE
)

// A Setup is a role in the DTLS handshake.
type Setup uint8

// The roles; NoSetup where none is said.
const (
	NoSetup Setup = C.ZAX_NO_SETUP
	ActPass Setup = C.ZAX_ACTPASS
	Active  Setup = C.ZAX_ACTIVE
	Passive Setup = C.ZAX_PASSIVE
)

// A Section is what a section is.
type Section struct {
	Kind      Kind
	Protocol  Protocol
	Direction Direction // Inactive where it says none
	Setup     Setup     // where it says one itself
	Disabled  bool      // whether its port is 0
}

// Section is what a section is. Errors: ErrSection.
func (s *Session) Section(section int) (found Section, err error) {
	err = s.handle.use(func(it *C.zax_session) error {
		var raw C.zax_section
		if err := errorOf(C.zax_section_info(it, C.size_t(section), &raw), nil); err != nil {
			return err
		}
		found = Section{Kind(raw.kind), Protocol(raw.protocol), Direction(raw.direction), Setup(raw.setup), raw.disabled != 0}
		return nil
	})
	return found, err
}

// IsWritable says whether Config.Answer may write into a section. Errors: ErrSection, ErrMemory.
func (s *Session) IsWritable(section int) (bool, error) {
	var writable C.int
	err := s.handle.use(func(it *C.zax_session) error {
		return errorOf(C.zax_is_writable(it, C.size_t(section), &writable), nil)
	})
	return writable != 0, err
}

// ICEUfrag is the user fragment of ICE of the session, else of the first section that says fragment and password; empty where none does.
func (s *Session) ICEUfrag() (string, error) {
	said, err := s.handle.text(func(it *C.zax_session, room *C.char, size C.size_t, needed *C.size_t) C.zax_status {
		return C.zax_ice_ufrag(it, room, size, needed)
	})
	return string(said), err
}

// ICEPwd is the password that belongs to ICEUfrag.
func (s *Session) ICEPwd() (string, error) {
	said, err := s.handle.text(func(it *C.zax_session, room *C.char, size C.size_t, needed *C.size_t) C.zax_status {
		return C.zax_ice_pwd(it, room, size, needed)
	})
	return string(said), err
}

// Fingerprint is the fingerprint of the session, else of the first section that has one, as "sha-256 AB:CD"; empty where none has.
func (s *Session) Fingerprint() (string, error) {
	said, err := s.handle.text(func(it *C.zax_session, room *C.char, size C.size_t, needed *C.size_t) C.zax_status {
		return C.zax_fingerprint(it, room, size, needed)
	})
	return string(said), err
}

// Setup is the role of the session, else of the first section that says one.
func (s *Session) Setup() (Setup, error) {
	var setup C.uint32_t
	err := s.handle.use(func(it *C.zax_session) error { return errorOf(C.zax_session_setup(it, &setup), nil) })
	return Setup(setup), err
}

// Candidates are the candidates, each once, without "a=".
func (s *Session) Candidates() (found []string, err error) {
	err = s.handle.use(func(it *C.zax_session) error {
		var count C.size_t
		if err := errorOf(C.zax_candidates(it, &count), nil); err != nil {
			return err
		}
		candidate := itemText(func(i C.size_t, room *C.char, size C.size_t, needed *C.size_t) C.zax_status {
			return C.zax_candidate(it, i, room, size, needed)
		})
		for i := 0; i < int(count); i++ {
			said, err := candidate.of(i)
			if err != nil {
				return err
			}
			found = append(found, said)
		}
		return nil
	})
	return found, err
}

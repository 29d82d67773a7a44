package zaxmonth

import (
	"bytes"
	"encoding/json"
	"errors"
	"fmt"
	"os"
	"path/filepath"
	"reflect"
	"strings"
	"testing"
)

// What is expected is worked out by hand from the texts of examples/, by docs/SECTIONS.md, docs/ROUNDS.md and docs/GRAMMAR.md, or stands
// in data/.
const top = "../.."

const opus = "a=rtpmap:111 opus/48000/2\r\na=rtcp-fb:111 transport-cc\r\na=fmtp:111 minptime=10;useinbandfec=1\r\n"

func text(t testing.TB, path ...string) []byte {
	t.Helper()
	found, err := os.ReadFile(filepath.Join(append([]string{top}, path...)...))
	if err != nil {
		t.Fatal(err)
	}
	return found
}

func offer(t testing.TB) []byte { return text(t, "examples", "chromium-audio-offer.sdp") }

func twoSections(t testing.TB) []byte { return text(t, "examples", "firefox-audio-video-offer.sdp") }

func ownText(t testing.TB) []byte { return text(t, "scripts", "c_tests", "short.sdp") }

// printedOwn is ownText with what is lost of it: another origin (docs/GRAMMAR.md).
func printedOwn(t testing.TB) string {
	was, is := "o=- 4611731400430051336 2 IN IP4 127.0.0.1", "o=str0m-0.25.0 4611731400430051336 2 IN IP4 0.0.0.0"
	return strings.Replace(string(ownText(t)), was, is, 1)
}

func must[T any](t testing.TB) func(T, error) T {
	return func(it T, err error) T {
		t.Helper()
		if err != nil {
			t.Fatal(err)
		}
		return it
	}
}

func read(t testing.TB, from []byte) *Session {
	t.Helper()
	return must[*Session](t)(Read(from))
}

func config(t testing.TB) *Config {
	t.Helper()
	return must[*Config](t)(NewConfig())
}

func is(t testing.TB, found, wanted any) {
	t.Helper()
	if !reflect.DeepEqual(found, wanted) {
		t.Errorf("%#v, not %#v", found, wanted)
	}
}

func printed(t testing.TB, session *Session) string {
	t.Helper()
	var said strings.Builder
	wrote := must[int64](t)(session.WriteTo(&said))
	is(t, wrote, int64(said.Len()))
	return said.String()
}

func TestRowsOfAnOffer(t *testing.T) {
	session := read(t, offer(t))
	is(t, session.Sections(), 1)
	is(t, must[string](t)(session.Mid(0)), "0")
	is(t, must[[]Row](t)(session.Rows(0)), []Row{
		{111, NoType, 63, CodecOpus, "opus", 48000, 2, TransportCC, false, "minptime=10;useinbandfec=1"},
		{9, NoType, NoType, CodecG722, "G722", 16000, 0, 0, false, ""},
		{0, NoType, NoType, CodecPCMU, "PCMU", 8000, 0, 0, false, ""},
		{8, NoType, NoType, CodecPCMA, "PCMA", 8000, 0, 0, false, ""},
		{13, NoType, NoType, CodecCN, "CN", 8000, 0, 0, false, ""},
		{110, NoType, NoType, CodecTelephoneEvent, "telephone-event", 48000, 0, 0, false, "0-16"},
		{126, NoType, NoType, CodecTelephoneEvent, "telephone-event", 8000, 0, 0, false, "0-16"},
	})
}

func TestRowsOfVideo(t *testing.T) {
	session := read(t, twoSections(t))
	is(t, session.Sections(), 2)
	is(t, must[string](t)(session.Mid(1)), "1")
	found := []uint8{}
	for _, row := range must[[]Row](t)(session.Rows(1)) {
		if row.Codec != CodecUnknown {
			found = append(found, row.PT, row.RTX)
			is(t, row.Feedback.Has(TransportCC|NACK|PLI|FIR|REMB), true)
		}
	}
	is(t, found, []uint8{120, 124, 121, 125, 99, 100})
}

func TestPrinting(t *testing.T) {
	is(t, printed(t, read(t, ownText(t))), printedOwn(t))
	is(t, printed(t, read(t, bytes.ReplaceAll(ownText(t), []byte("\r\n"), []byte("\n")))), printedOwn(t))
	beyond := "a=title:Größe 你好 🎧\r\n"
	is(t, strings.HasSuffix(printed(t, read(t, append(ownText(t), beyond...))), beyond), true)
	for _, path := range must[[]string](t)(filepath.Glob(filepath.Join(top, "examples", "*.sdp"))) {
		once := printed(t, read(t, text(t, "examples", filepath.Base(path))))
		is(t, printed(t, read(t, []byte(once))), once)
	}
}

type fullWriter struct{}

func (fullWriter) Write([]byte) (int, error) { return 3, os.ErrClosed }

func TestWriterThatIsFull(t *testing.T) {
	wrote, err := read(t, offer(t)).WriteTo(fullWriter{})
	is(t, wrote, int64(3))
	is(t, err, os.ErrClosed)
}

func TestRest(t *testing.T) {
	line, offset := read(t, offer(t)).Rest()
	is(t, []int{line, offset}, []int{0, 0})
	line, offset = read(t, append(offer(t), "what isn't read\r\n"...)).Rest()
	is(t, []int{line, offset}, []int{bytes.Count(offer(t), []byte("\n")) + 1, len(offer(t))})
}

func TestJSON(t *testing.T) {
	var found struct {
		Media []struct{ Rows []struct{ Pt int } }
	}
	if err := json.Unmarshal(must[[]byte](t)(read(t, twoSections(t)).JSON()), &found); err != nil {
		t.Fatal(err)
	}
	is(t, fmt.Sprint(len(found.Media), found.Media[0].Rows), "2 [{109} {9} {0} {8} {101}]")
}

func TestTextsThatAreRefused(t *testing.T) {
	for from, wanted := range map[string]error{
		"": ErrParse, "x": ErrParse, "\x00": ErrParse, "v=0\r\n\x00x": ErrParse, "\r\n" + string(offer(t)): ErrParse,
		"\xff": ErrUTF8, "v=0\xc3": ErrUTF8, "\xed\xa0\x80": ErrUTF8, string(offer(t)) + "a=x:\xc0\x80\r\n": ErrUTF8,
	} {
		session, err := Read([]byte(from))
		is(t, session, (*Session)(nil))
		outcomes, inRounds := config(t).Negotiate([]byte(from))
		is(t, outcomes, []Outcome(nil))
		is(t, []bool{errors.Is(err, wanted), errors.Is(inRounds, wanted)}, []bool{true, true})
	}
	_, err := Read(nil)
	is(t, errors.Is(err, ErrParse), true)
	_, err = Read(text(t, "data", "chromium-munged-truncated-offer.sdp"))
	var refused *Error
	is(t, errors.As(err, &refused), true)
	is(t, *refused, Error{StatusParse, 0, "SDP parse: Missing a=rtp_map:103 for mid: 1"})
	is(t, err.Error(), "zaxmonth: SDP parse: Missing a=rtp_map:103 for mid: 1")
}

func TestSectionThatIsNotThere(t *testing.T) {
	session, rows := read(t, offer(t)), config(t)
	must[[]Outcome](t)(rows.Negotiate(offer(t)))
	for _, section := range []int{1, 99, -1, 1 << 62, -1 << 63} {
		_, ofMid := session.Mid(section)
		_, ofRows := session.Rows(section)
		for _, err := range []error{ofMid, ofRows, rows.Answer(session, section)} {
			is(t, errors.Is(err, ErrSection), true)
		}
	}
}

func TestErrors(t *testing.T) {
	is(t, errorOf(0, nil), nil)
	known := []error{
		ErrParse, ErrUTF8, ErrMemory, ErrRoom, ErrSection, ErrNothing, ErrArgument,
		ErrState, ErrUnread, ErrFit, ErrPrint, ErrRows, ErrChannels, ErrName, ErrOwn,
	}
	for status, wanted := range known {
		err := &Error{Status: Status(status + 1), Message: wanted.Error()}
		is(t, errors.Is(err, wanted), true)
		is(t, errors.Is(err, ErrClosed), false)
	}
	is(t, errorOf(3, nil), error(&Error{StatusMemory, 0, "out of memory"}))
	is(t, errorOf(99, nil), error(&Error{99, 0, "the call is answered by the unknown status 99"}))
	is(t, errors.Is(ErrClosed, ErrArgument), true)
}

func TestRounds(t *testing.T) {
	rows := config(t)
	all := must[[]Row](t)(rows.Rows())
	is(t, len(all), 13)
	is(t, all[0], Row{111, NoType, NoType, CodecOpus, "opus", 48000, 2, TransportCC, false, "minptime=10;useinbandfec=1"})
	is(t, must[[]Outcome](t)(rows.Negotiate(twoSections(t))), []Outcome{{Accepted, NoType}, {Accepted, NoType}})
	is(t, lockedTypes(t, rows), []uint8{109, 120, 121, 99})
	refused := must[[]Outcome](t)(config(t).Negotiate(text(t, "data", "made-type-demanded-twice.sdp")))
	is(t, refused, []Outcome{{Accepted, NoType}, {ClaimedTwice, 109}})
	is(t, fmt.Sprint(refused), "[ok payload type 109 is claimed twice]")
}

func TestConfigurationOfRows(t *testing.T) {
	rows, err := EmptyConfig()
	if err != nil {
		t.Fatal(err)
	}
	defer rows.Close()
	is(t, len(must[[]Row](t)(rows.Rows())), 0)
	is(t, rows.Enable(CodecPCMU, true, true), nil)
	is(t, errors.Is(rows.Enable(CodecRTX, true, true), ErrArgument), true)
	is(t, rows.Add(Row{PT: 100, RTX: 101, Codec: CodecOpus, ClockRate: 48000, Channels: 2, Fmtp: "stereo=1;unknown=2"}), nil)
	is(t, errors.Is(rows.Add(Row{PT: 102, RTX: NoType, Codec: CodecUnknown, ClockRate: 48000}), ErrArgument), true)
	is(t, errors.Is(rows.Add(Row{PT: 102, RTX: NoType, Codec: CodecOpus}), ErrArgument), true)
	is(t, errors.Is(rows.Add(Row{PT: 102, RTX: NoType, Codec: CodecOpus, ClockRate: 1, Fmtp: "\xff"}), ErrUTF8), true)
	is(t, must[[]Row](t)(rows.Rows()), []Row{
		{0, NoType, 61, CodecPCMU, "PCMU", 8000, 0, TransportCC, false, ""},
		{100, 101, NoType, CodecOpus, "opus", 48000, 2, TransportCC, false, "stereo=1"},
	})
	is(t, rows.Enable(CodecPCMU, false, false), nil)
	is(t, len(must[[]Row](t)(rows.Rows())), 1)
}

func lockedTypes(t testing.TB, rows *Config) []uint8 {
	found := []uint8{}
	for _, row := range must[[]Row](t)(rows.Rows()) {
		if row.Locked {
			found = append(found, row.PT)
		}
	}
	return found
}

func TestEverySectionHasAnOutcome(t *testing.T) {
	from := "v=0\r\no=- 1 1 IN IP4 0.0.0.0\r\ns=-\r\nt=0 0\r\n"
	for i := 0; i < 500; i++ {
		from += fmt.Sprintf("m=audio 9 UDP/TLS/RTP/SAVPF 0\r\nc=IN IP4 0.0.0.0\r\na=mid:%d\r\na=sendrecv\r\n", i)
	}
	is(t, len(must[[]Outcome](t)(config(t).Negotiate([]byte(from)))), 500)
}

func TestAnswer(t *testing.T) {
	rows, own := config(t), read(t, ownText(t))
	is(t, errors.Is(rows.Answer(own, 0), ErrNothing), true)
	is(t, printed(t, own), printedOwn(t))
	must[[]Outcome](t)(rows.Negotiate(offer(t)))
	if err := rows.Answer(own, 0); err != nil {
		t.Fatal(err)
	}
	head, _, _ := strings.Cut(strings.Replace(printedOwn(t), "SAVPF 111 0\r\n", "SAVPF 111\r\n", 1), "a=rtpmap")
	is(t, printed(t, own), head+opus)
}

func TestNames(t *testing.T) {
	causes := []Outcome{{TypeTooLarge, 200}, {Exhausted, NoType}, {RoundMemory, NoType}, {77, NoType}}
	wanted := "[payload type 200 is above 127 payload type ranges exhausted out of memory refused for the unknown cause 77]"
	is(t, fmt.Sprint(causes), wanted)
	is(t, Version(), "0.1.0")
}

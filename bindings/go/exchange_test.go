package zaxmonth

import (
	"bytes"
	"errors"
	"strings"
	"testing"
)

// What is expected stands in data/answers/, or is worked out by hand, by docs/EXCHANGE.md.

const head = "v=0\r\no=- 1 1 IN IP4 0.0.0.0\r\ns=-\r\nt=0 0\r\n"

const section = "m=audio 9 UDP/TLS/RTP/SAVPF 0\r\nc=IN IP4 0.0.0.0\r\na=mid:0\r\na=sendrecv\r\n"

func taken(t testing.TB, name string) []byte { return text(t, "data", "answers", name+".sdp") }

// ownSide is what this side said when the browsers took its answers.
func ownSide(t testing.TB) OwnSide {
	said := map[string][]string{}
	for _, line := range strings.Split(strings.TrimSpace(string(text(t, "examples", "own-side.txt"))), "\n") {
		word, value, _ := strings.Cut(line, " ")
		said[word] = append(said[word], value)
	}
	return OwnSide{
		SessionID: 4711, ICEUfrag: said["ufrag"][0], ICEPwd: said["pwd"][0], Fingerprint: said["fingerprint"][0], StreamID: said["stream"][0],
		Extensions: said["extension"], Candidates: said["candidate"], Channels: &DataChannels{5000, 262144}, ReceivesSimulcast: true,
	}
}

func exchangeOf(t testing.TB, own OwnSide) *Exchange {
	t.Helper()
	return must[*Exchange](t)(NewExchange(own, config(t)))
}

func said(t testing.TB, description *Description) string {
	t.Helper()
	var text strings.Builder
	is(t, must[int64](t)(description.WriteTo(&text)), int64(text.Len()))
	return text.String()
}

func TestAnswersThatBrowsersTook(t *testing.T) {
	for _, name := range []string{"chromium-all", "chromium-simulcast-all", "firefox-all", "firefox-sendonly"} {
		exchange := exchangeOf(t, ownSide(t))
		answer := must[*Description](t)(exchange.AcceptOffer(taken(t, name+"-offer")))
		is(t, exchange.Close(), nil)
		is(t, said(t, answer), string(taken(t, name+"-answer")))
		is(t, answer.Version, uint64(1))
	}
}

func TestOffersOneBehindTheOther(t *testing.T) {
	exchange := exchangeOf(t, ownSide(t))
	for i, number := range []string{"1", "2", "3"} {
		answer := must[*Description](t)(exchange.AcceptOffer(taken(t, "firefox-reneg-grow-"+number+"-offer")))
		is(t, said(t, answer), string(taken(t, "firefox-reneg-grow-"+number+"-answer")))
		is(t, answer.Version, uint64(i+1))
	}
}

func TestCredentialsOfARestart(t *testing.T) {
	exchange := exchangeOf(t, ownSide(t))
	must[*Description](t)(exchange.AcceptOffer(taken(t, "chromium-restart-1-offer")))
	is(t, exchange.RestartICE("ansr1", "0123456789abcdef012345671"), nil)
	answer := must[*Description](t)(exchange.AcceptOffer(taken(t, "chromium-restart-2-offer")))
	is(t, said(t, answer), string(taken(t, "chromium-restart-2-answer")))
	is(t, errors.Is(exchange.RestartICE("ansr", "\xff"), ErrUTF8), true)
}

func TestAnswerIsASession(t *testing.T) {
	exchange := exchangeOf(t, ownSide(t))
	answer := must[*Description](t)(exchange.AcceptOffer(offer(t)))
	is(t, answer.Sections(), 1)
	is(t, must[string](t)(answer.Mid(0)), "0")
	is(t, must[[]Row](t)(answer.Rows(0))[0].PT, uint8(111))
	rows := must[[]Row](t)(exchange.Rows())
	is(t, []any{len(rows), rows[0].Locked, rows[1].Locked}, []any{13, true, false})
	is(t, []string{rows[0].Name, rows[0].Fmtp}, []string{"opus", "minptime=10;useinbandfec=1"})
	is(t, answer.Close(), nil)
	_, err := answer.MarshalText()
	is(t, err, ErrClosed)
}

func TestOneSideOffersAndTheOtherAnswers(t *testing.T) {
	here, there := exchangeOf(t, ownSide(t)), exchangeOf(t, ownSide(t))
	is(t, []error{here.AddMedia(Audio, SendOnly), here.AddChannels()}, make([]error, 2))
	made := must[*Description](t)(here.CreateOffer())
	is(t, must[State](t)(here.State()), HaveLocalOffer)
	is(t, []string{must[string](t)(made.Mid(0)), must[string](t)(made.Mid(1))}, []string{"0", "1"})
	is(t, strings.Contains(said(t, made), "a=sendonly\r\n"), true)
	answer := must[*Description](t)(there.AcceptOffer([]byte(said(t, made))))
	is(t, here.AcceptAnswer([]byte(said(t, answer))), nil)
	is(t, must[State](t)(here.State()), Stable)
}

// offered is an offer, which the other side answers.
func offered(t testing.TB, here, there *Exchange) string {
	t.Helper()
	made := said(t, must[*Description](t)(here.CreateOffer()))
	answer := said(t, must[*Description](t)(there.AcceptOffer([]byte(made))))
	is(t, here.AcceptAnswer([]byte(answer)), nil)
	return made
}

func TestSectionIsHeldAndResumed(t *testing.T) {
	here, there := exchangeOf(t, ownSide(t)), exchangeOf(t, ownSide(t))
	is(t, here.AddMedia(Audio, SendRecv), nil)
	is(t, strings.Contains(offered(t, here, there), "a=sendrecv\r\n"), true)
	is(t, here.SetDirection("0", Inactive), nil)
	is(t, here.SetDirection("1", SendRecv), nil)
	is(t, errors.Is(here.SetDirection("0", Direction(4)), ErrArgument), true)
	is(t, errors.Is(here.SetDirection("0123456789abcdef0", SendRecv), ErrArgument), true)
	is(t, errors.Is(here.SetDirection("\xff", SendRecv), ErrUTF8), true)
	is(t, strings.Contains(offered(t, here, there), "a=inactive\r\n"), true)
	is(t, here.SetDirection("0", SendOnly), nil)
	is(t, strings.Contains(offered(t, here, there), "a=sendonly\r\n"), true)
}

func TestOfferIsDropped(t *testing.T) {
	exchange := exchangeOf(t, ownSide(t))
	is(t, []error{exchange.Rollback(), exchange.AddMedia(Video, RecvOnly)}, make([]error, 2))
	must[*Description](t)(exchange.CreateOffer())
	_, again := exchange.CreateOffer()
	_, answered := exchange.AcceptOffer(offer(t))
	is(t, []bool{errors.Is(again, ErrState), errors.Is(answered, ErrState)}, []bool{true, true})
	is(t, exchange.Rollback(), nil)
	is(t, must[*Description](t)(exchange.CreateOffer()).Version, uint64(2))
}

func TestOffersThatAreRefused(t *testing.T) {
	exchange := exchangeOf(t, ownSide(t))
	_, err := exchange.AcceptOffer(append(offer(t), "what fits nowhere\r\n"...))
	line := bytes.Count(offer(t), []byte("\n")) + 1
	var refused *Error
	is(t, errors.As(err, &refused), true)
	is(t, []any{refused.Status, refused.Line, errors.Is(err, ErrUnread)}, []any{StatusUnread, line, true})
	for from, wanted := range map[string]error{"x": ErrParse, "": ErrParse, "\xff": ErrUTF8, head + section + section: ErrFit} {
		answer, err := exchange.AcceptOffer([]byte(from))
		is(t, answer, (*Description)(nil))
		is(t, errors.Is(err, wanted), true)
	}
	is(t, errors.Is(exchange.AcceptAnswer(offer(t)), ErrState), true)
	is(t, errors.Is(exchange.AddMedia(Kind(2), SendRecv), ErrArgument), true)
	is(t, errors.Is(exchange.AddMedia(Audio, Direction(4)), ErrArgument), true)
	is(t, must[*Description](t)(exchange.AcceptOffer(offer(t))).Version, uint64(1))
}

func TestOwnSidesThatAreRefused(t *testing.T) {
	rows := config(t)
	must[[]Outcome](t)(rows.Negotiate(offer(t)))
	for wanted, change := range map[string]func(*OwnSide){
		"zaxmonth: fingerprint: ":              func(own *OwnSide) { own.Fingerprint = "" },
		"zaxmonth: candidate: ":                func(own *OwnSide) { own.Candidates = []string{"word"} },
		"zaxmonth: text is not UTF-8":          func(own *OwnSide) { own.Extensions = []string{"", "\xff"} },
		"zaxmonth: no configuration, no text,": func(own *OwnSide) { own.Audio = 4 },
	} {
		own := ownSide(t)
		change(&own)
		exchange, err := NewExchange(own, rows)
		is(t, exchange, (*Exchange)(nil))
		is(t, strings.HasPrefix(err.Error(), wanted), true)
	}
	is(t, lockedTypes(t, rows), []uint8{111})
	own := ownSide(t)
	own.Channels, own.StreamID = nil, "a\r\nb"
	exchange := must[*Exchange](t)(NewExchange(own, rows))
	is(t, errors.Is(exchange.AddChannels(), ErrChannels), true)
	_, err := exchange.AcceptOffer(offer(t))
	is(t, errors.Is(err, ErrPrint), true)
	_, err = rows.Rows()
	is(t, []error{err, rows.Close()}, []error{ErrClosed, nil})
}

func TestClosedExchange(t *testing.T) {
	closed := exchangeOf(t, ownSide(t))
	is(t, []error{closed.Close(), closed.Close()}, make([]error, 2))
	for _, exchange := range []*Exchange{closed, {}} {
		_, ofOffer := exchange.AcceptOffer(offer(t))
		_, ofMaking := exchange.CreateOffer()
		_, ofRows := exchange.Rows()
		_, ofState := exchange.State()
		found := []error{
			ofOffer, ofMaking, ofRows, ofState, exchange.AcceptAnswer(nil), exchange.Rollback(), exchange.AddMedia(Audio, SendRecv),
			exchange.AddChannels(), exchange.RestartICE("a", "b"), exchange.SetDirection("0", Inactive),
		}
		for _, err := range found {
			is(t, err, ErrClosed)
		}
	}
	_, err := NewExchange(ownSide(t), &Config{})
	is(t, err, ErrClosed)
}

func TestOffersOfOneExchange(t *testing.T) {
	exchange := exchangeOf(t, ownSide(t))
	is(t, exchange.AddMedia(Audio, SendRecv), nil)
	versions := make(chan uint64, goroutines*20)
	atOnce(func(int) {
		for i := 0; i < 20; i++ {
			made, err := exchange.CreateOffer()
			if err == nil {
				versions <- made.Version
				continue
			}
			is(t, errors.Is(err, ErrState), true)
			is(t, exchange.Rollback(), nil)
		}
	})
	close(versions)
	found := map[uint64]bool{}
	for version := range versions {
		is(t, found[version], false)
		found[version] = true
	}
}

func TestNothingIsLeftOfExchanges(t *testing.T) {
	own, from := ownSide(t), offer(t)
	cycle := func() {
		exchange := exchangeOf(t, own)
		must[*Description](t)(exchange.AcceptOffer(from))
		_, err := NewExchange(OwnSide{}, config(t))
		is(t, errors.Is(err, ErrOwn), true)
	}
	if more := grows(t, 2000, cycle); more > 8192 { // (some of which the race detector takes)
		t.Errorf("%d kB more", more)
	}
}

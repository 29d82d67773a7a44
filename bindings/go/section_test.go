package zaxmonth

import (
	"errors"
	"testing"
)

func TestSections(t *testing.T) {
	session := read(t, offer(t))
	is(t, must[Section](t)(session.Section(0)), Section{Audio, RTP, SendRecv, ActPass, false})
	is(t, must[bool](t)(session.IsWritable(0)), true)
	is(t, must[Section](t)(streams(t).Section(1)), Section{Audio, RTP, RecvOnly, NoSetup, false})
	channels := read(t, text(t, "examples", "chromium-data-channel-offer.sdp"))
	is(t, must[Section](t)(channels.Section(0)), Section{Application, SCTP, Inactive, ActPass, false})
	for _, section := range []int{1, 99, -1, 1 << 62} {
		_, ofSection := session.Section(section)
		_, ofWritable := session.IsWritable(section)
		is(t, []bool{errors.Is(ofSection, ErrSection), errors.Is(ofWritable, ErrSection)}, []bool{true, true})
	}
}

func TestTransport(t *testing.T) {
	session := read(t, offer(t))
	is(t, must[string](t)(session.ICEUfrag()), "yf/6")
	is(t, must[string](t)(session.ICEPwd()), "7g8S/bjynZu683rC6kNE6Y/l")
	is(t, must[string](t)(session.Fingerprint())[:13], "sha-256 89:EB")
	is(t, must[Setup](t)(session.Setup()), ActPass)
	candidates := must[[]string](t)(session.Candidates())
	is(t, len(candidates), 4)
	is(t, candidates[1], "candidate:1435511020 1 udp 2122194687 198.51.100.7 43652 typ host")
	none := streams(t)
	is(t, must[string](t)(none.ICEUfrag())+must[string](t)(none.ICEPwd())+must[string](t)(none.Fingerprint()), "")
	is(t, must[Setup](t)(none.Setup()), NoSetup)
	is(t, len(must[[]string](t)(none.Candidates())), 0)
}

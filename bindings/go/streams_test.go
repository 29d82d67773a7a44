package zaxmonth

import (
	"errors"
	"testing"
)

// streams is a text that says of streams all that a section can.
func streams(t testing.TB) *Session { return read(t, text(t, "scripts", "c_tests", "streams.sdp")) }

func TestMsid(t *testing.T) {
	session := streams(t)
	is(t, must[Msid](t)(session.Msid(0)), Msid{"stream", "track one"})
	is(t, must[Msid](t)(session.Msid(1)), Msid{})
	is(t, must[Msid](t)(read(t, offer(t)).Msid(0)), Msid{"-", "cadf95cb-38b4-4d30-8162-af882e48b3b0"})
}

func TestExtensions(t *testing.T) {
	session := streams(t)
	is(t, must[[]Extension](t)(session.Extensions(0)), []Extension{
		{3, "urn:ietf:params:rtp-hdrext:sdes:mid"},
		{14, "urn:ietf:params:rtp-hdrext:sdes:rtp-stream-id"},
		{255, "urn:x"},
	})
	is(t, must[[]Extension](t)(session.Extensions(1)), []Extension{})
}

func TestRids(t *testing.T) {
	session := streams(t)
	is(t, must[[]Rid](t)(session.Rids(0)), []Rid{
		{"hi", SendOnly, ""},
		{"lo", SendOnly, "pt=96,97;max-width=320;max-fps=15"},
		{"back", RecvOnly, "max-height=90"},
	})
	is(t, must[[]Rid](t)(session.Rids(1)), []Rid{})
}

func TestLayers(t *testing.T) {
	session := streams(t)
	is(t, must[[]Layer](t)(session.Layers(0)), []Layer{{"hi", SendOnly, false}, {"lo", SendOnly, true}, {"back", RecvOnly, false}})
	is(t, must[[]Layer](t)(session.Layers(1)), []Layer{})
}

func TestSources(t *testing.T) {
	session := streams(t)
	is(t, must[[]Source](t)(session.Sources(0)), []Source{
		{11, 0, false, "end point", "stream", "track"},
		{12, 0, false, "other", "", ""},
		{4294967295, 11, true, "", "", ""},
	})
	is(t, must[[]Source](t)(session.Sources(1)), []Source{})
}

func TestSourceGroups(t *testing.T) {
	session := streams(t)
	is(t, must[[]SourceGroup](t)(session.SourceGroups(0)), []SourceGroup{{"FID", []uint32{11, 4294967295}}, {"SIM", []uint32{11, 12}}})
	is(t, len(must[[]SourceGroup](t)(session.SourceGroups(1))), 0)
}

func TestStreamsOfASectionThatIsNotThere(t *testing.T) {
	session := streams(t)
	for _, section := range []int{2, 99, -1, 1 << 62, -1 << 63} {
		_, ofMsid := session.Msid(section)
		_, ofExtensions := session.Extensions(section)
		_, ofRids := session.Rids(section)
		_, ofLayers := session.Layers(section)
		_, ofSources := session.Sources(section)
		_, ofGroups := session.SourceGroups(section)
		for _, err := range []error{ofMsid, ofExtensions, ofRids, ofLayers, ofSources, ofGroups} {
			is(t, errors.Is(err, ErrSection), true)
		}
	}
}

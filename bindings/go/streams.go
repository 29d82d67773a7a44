package zaxmonth

// #include <zaxmonth.h>
import "C"

import "strings"

// An Msid is the ids of a stream and of a track in it (RFC 8830, section 2).
type Msid struct {
	Stream string // "-" for none
	Track  string
}

// Msid is what the first msid line of a section says; the zero value where it has none. Errors: ErrSection.
func (s *Session) Msid(section int) (Msid, error) {
	said, err := s.handle.text(func(it *C.zax_session, room *C.char, size C.size_t, needed *C.size_t) C.zax_status {
		return C.zax_section_msid(it, C.size_t(section), room, size, needed)
	})
	stream, track, _ := strings.Cut(string(said), " ")
	return Msid{stream, track}, err
}

// An Extension is a header extension that a section maps (RFC 8285).
type Extension struct {
	ID  uint8 // its number, by which packets have it
	URI string
}

// Extensions are the header extensions of a section, in order. Errors: ErrSection.
func (s *Session) Extensions(section int) (found []Extension, err error) {
	at := C.size_t(section)
	err = s.handle.use(func(it *C.zax_session) error {
		found, err = itemsOf(
			func(room *C.zax_extension, size C.size_t, needed *C.size_t) C.zax_status {
				return C.zax_section_extensions(it, at, room, size, needed)
			},
			func(raw *C.zax_extension, said []string) Extension {
				return Extension{uint8(raw.id), said[0]}
			},
			func(i C.size_t, room *C.char, size C.size_t, needed *C.size_t) C.zax_status {
				return C.zax_extension_uri(it, at, i, room, size, needed)
			})
		return err
	})
	return found, err
}

// A Rid is a stream that may be restricted (RFC 8851).
type Rid struct {
	Name         string
	Direction    Direction // SendOnly or RecvOnly
	Restrictions string    // "pt=96,97;max-width=320"; empty where it has none
}

// Rids are the streams of a section that may be restricted, in order. Errors: ErrSection.
func (s *Session) Rids(section int) (found []Rid, err error) {
	at := C.size_t(section)
	err = s.handle.use(func(it *C.zax_session) error {
		found, err = itemsOf(
			func(room *C.zax_rid, size C.size_t, needed *C.size_t) C.zax_status {
				return C.zax_section_rids(it, at, room, size, needed)
			},
			func(raw *C.zax_rid, said []string) Rid {
				return Rid{said[0], Direction(raw.direction), said[1]}
			},
			func(i C.size_t, room *C.char, size C.size_t, needed *C.size_t) C.zax_status {
				return C.zax_rid_name(it, at, i, room, size, needed)
			},
			func(i C.size_t, room *C.char, size C.size_t, needed *C.size_t) C.zax_status {
				return C.zax_rid_restrictions(it, at, i, room, size, needed)
			})
		return err
	})
	return found, err
}

// A Layer is a layer of simulcast (RFC 8853).
type Layer struct {
	Name      string    // that of a Rid
	Direction Direction // SendOnly or RecvOnly
	Paused    bool
}

// Layers are the layers that a section sends, and then those that it receives, in order. Errors: ErrSection.
func (s *Session) Layers(section int) (found []Layer, err error) {
	at := C.size_t(section)
	err = s.handle.use(func(it *C.zax_session) error {
		found, err = itemsOf(
			func(room *C.zax_layer, size C.size_t, needed *C.size_t) C.zax_status {
				return C.zax_section_layers(it, at, room, size, needed)
			},
			func(raw *C.zax_layer, said []string) Layer {
				return Layer{said[0], Direction(raw.direction), raw.paused != 0}
			},
			func(i C.size_t, room *C.char, size C.size_t, needed *C.size_t) C.zax_status {
				return C.zax_layer_name(it, at, i, room, size, needed)
			})
		return err
	})
	return found, err
}

// A Source is a source of RTP packets (RFC 5576). A text is empty where the section doesn't say it.
type Source struct {
	SSRC     uint32
	Repairs  uint32 // the source whose packets it sends again, where IsRepair
	IsRepair bool
	CNAME    string // the name of the endpoint that sends it
	Stream   string // the id of its stream
	Track    string
}

func sourceOf(raw *C.zax_source, said []string) Source {
	return Source{uint32(raw.ssrc), uint32(raw.repairs), raw.is_repair != 0, said[0], said[1], said[2]}
}

// Sources are the sources of a section, in order. Errors: ErrSection.
func (s *Session) Sources(section int) (found []Source, err error) {
	at := C.size_t(section)
	err = s.handle.use(func(it *C.zax_session) error {
		found, err = itemsOf(
			func(room *C.zax_source, size C.size_t, needed *C.size_t) C.zax_status {
				return C.zax_section_sources(it, at, room, size, needed)
			},
			sourceOf,
			func(i C.size_t, room *C.char, size C.size_t, needed *C.size_t) C.zax_status {
				return C.zax_source_cname(it, at, i, room, size, needed)
			},
			func(i C.size_t, room *C.char, size C.size_t, needed *C.size_t) C.zax_status {
				return C.zax_source_stream(it, at, i, room, size, needed)
			},
			func(i C.size_t, room *C.char, size C.size_t, needed *C.size_t) C.zax_status {
				return C.zax_source_track(it, at, i, room, size, needed)
			})
		return err
	})
	return found, err
}

// A SourceGroup is sources that belong together (RFC 5576, section 4.2).
type SourceGroup struct {
	Semantics string // what they have in common, as "FID"
	SSRCs     []uint32
}

// SourceGroups are the groups of a section's sources, in order. Errors: ErrSection.
func (s *Session) SourceGroups(section int) (found []SourceGroup, err error) {
	at := C.size_t(section)
	err = s.handle.use(func(it *C.zax_session) error {
		semantics := itemText(func(i C.size_t, room *C.char, size C.size_t, needed *C.size_t) C.zax_status {
			return C.zax_group_semantics(it, at, i, room, size, needed)
		})
		members, err := filled(128, func(room *C.zax_group_source, size C.size_t, needed *C.size_t) C.zax_status {
			return C.zax_section_source_groups(it, at, room, size, needed)
		})
		for i, member := range members {
			if i == 0 || member.group != members[i-1].group {
				said, err := semantics.of(int(member.group))
				if err != nil {
					return err
				}
				found = append(found, SourceGroup{Semantics: said})
			}
			group := &found[len(found)-1]
			group.SSRCs = append(group.SSRCs, uint32(member.ssrc))
		}
		return err
	})
	return found, err
}

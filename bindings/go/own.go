package zaxmonth

/*
#include <stdlib.h>
#include <zaxmonth.h>
*/
import "C"

import "unsafe"

// DataChannels is where data channels are reached.
type DataChannels struct {
	Port           uint16 // of SCTP, as 5000
	MaxMessageSize uint64 // in bytes; 0 for any
}

// An OwnSide is what this side says of itself, the same in each of its descriptions.
type OwnSide struct {
	SessionID         uint64 // in the o= line
	ICEUfrag          string
	ICEPwd            string
	Fingerprint       string        // the hash of its certificate: "sha-256 AB:CD:.."
	StreamID          string        // of what it sends
	Extensions        []string      // the header extensions that it knows: their URIs
	Candidates        []string      // where it is reached: lines as browsers trickle them, with or without "a="
	Channels          *DataChannels // nil: it takes no data channels
	Audio             Direction     // what it is ready for
	Video             Direction
	ReceivesSimulcast bool
}

// blocks are texts in the memory of C: what C is given points to no memory of Go's that points to more of it.
type blocks []unsafe.Pointer

func (b *blocks) free() {
	for _, it := range *b {
		C.free(it)
	}
}

// slice is a text; it has a place of its own, though it is empty.
func (b *blocks) slice(text string) C.zax_slice {
	at := C.CString(text)
	*b = append(*b, unsafe.Pointer(at))
	return C.zax_slice{at: at, length: C.size_t(len(text))}
}

// slices is a list of texts.
func (b *blocks) slices(texts []string) (*C.zax_slice, C.size_t) {
	if len(texts) == 0 {
		return nil, 0
	}
	at := C.malloc(C.size_t(len(texts)) * C.sizeof_zax_slice)
	*b = append(*b, at)
	for i, text := range texts {
		unsafe.Slice((*C.zax_slice)(at), len(texts))[i] = b.slice(text)
	}
	return (*C.zax_slice)(at), C.size_t(len(texts))
}

func bit(on bool) C.uint8_t {
	if on {
		return 1
	}
	return 0
}

// raw is the side as C has it.
func (o *OwnSide) raw(texts *blocks) C.zax_own {
	made := C.zax_own{
		session_id:         C.uint64_t(o.SessionID),
		ice_ufrag:          texts.slice(o.ICEUfrag),
		ice_pwd:            texts.slice(o.ICEPwd),
		fingerprint:        texts.slice(o.Fingerprint),
		stream_id:          texts.slice(o.StreamID),
		audio:              C.uint8_t(o.Audio),
		video:              C.uint8_t(o.Video),
		receives_simulcast: bit(o.ReceivesSimulcast),
	}
	made.extensions, made.extension_count = texts.slices(o.Extensions)
	made.candidates, made.candidate_count = texts.slices(o.Candidates)
	if o.Channels != nil {
		made.has_channels = 1
		made.sctp_port, made.max_message_size = C.uint16_t(o.Channels.Port), C.uint64_t(o.Channels.MaxMessageSize)
	}
	return made
}

package zaxmonth

// #include <zaxmonth.h>
import "C"

import "fmt"

// A Codec is a codec, by its number in zaxmonth.h; Row.Name is its name.
type Codec uint8

// The codecs. CodecUnknown is one that isn't known, or that has no number.
const (
	CodecUnknown        Codec = C.ZAX_UNKNOWN
	CodecOpus           Codec = C.ZAX_OPUS
	CodecPCMU           Codec = C.ZAX_PCMU
	CodecPCMA           Codec = C.ZAX_PCMA
	CodecG722           Codec = C.ZAX_G722
	CodecCN             Codec = C.ZAX_CN
	CodecAMRWB          Codec = C.ZAX_AMR_WB
	CodecH264           Codec = C.ZAX_H264
	CodecH265           Codec = C.ZAX_H265
	CodecH266           Codec = C.ZAX_H266
	CodecVP8            Codec = C.ZAX_VP8
	CodecVP9            Codec = C.ZAX_VP9
	CodecAV1            Codec = C.ZAX_AV1
	CodecTelephoneEvent Codec = C.ZAX_TELEPHONE_EVENT
	CodecRTX            Codec = C.ZAX_RTX
	CodecRED            Codec = C.ZAX_RED
	CodecNull           Codec = C.ZAX_NULL_CODEC
)

// Feedback is the kinds of feedback (rtcp-fb) of a row, a bit each.
type Feedback uint8

// The kinds of feedback.
const (
	TransportCC Feedback = C.ZAX_TRANSPORT_CC
	NACK        Feedback = C.ZAX_NACK
	PLI         Feedback = C.ZAX_PLI
	FIR         Feedback = C.ZAX_FIR
	REMB        Feedback = C.ZAX_REMB
)

// Has says whether all of these kinds are on.
func (f Feedback) Has(kinds Feedback) bool {
	return f&kinds == kinds
}

// NoType stands where there is no payload type.
const NoType = C.ZAX_NO_TYPE

// A Row is a codec under a payload type.
type Row struct {
	PT        uint8
	RTX       uint8 // the payload type of retransmissions, or NoType
	RED       uint8 // the payload type of RED, or NoType
	Codec     Codec
	Name      string // the name of the codec, as an rtpmap line has it
	ClockRate uint32 // at which the codec samples, in Hz
	Channels  uint8  // 0: not said
	Feedback  Feedback
	Locked    bool   // whether the other side has agreed to its types
	Fmtp      string // what its format says, as an fmtp line has it; empty where it says nothing
}

// A Cause is why a round was refused.
type Cause uint8

// The causes; Accepted where the round wasn't refused.
const (
	Accepted     Cause = C.ZAX_ACCEPTED
	TypeTooLarge Cause = C.ZAX_TYPE_TOO_LARGE
	ClaimedTwice Cause = C.ZAX_CLAIMED_TWICE
	Exhausted    Cause = C.ZAX_EXHAUSTED
	RoundMemory  Cause = C.ZAX_ROUND_MEMORY
)

// An Outcome is what a round came to.
type Outcome struct {
	Cause Cause
	PT    uint8 // the payload type at fault, or NoType
}

// String is "ok", or why the round was refused.
func (o Outcome) String() string {
	switch o.Cause {
	case Accepted:
		return "ok"
	case TypeTooLarge:
		return fmt.Sprintf("payload type %d is above 127", o.PT)
	case ClaimedTwice:
		return fmt.Sprintf("payload type %d is claimed twice", o.PT)
	case Exhausted:
		return "payload type ranges exhausted"
	case RoundMemory:
		return "out of memory"
	}
	return fmt.Sprintf("refused for the unknown cause %d", o.Cause)
}

func outcomesOf(raw []C.zax_outcome) []Outcome {
	outcomes := make([]Outcome, len(raw))
	for i, it := range raw {
		outcomes[i] = Outcome{Cause(it.cause), uint8(it.pt)}
	}
	return outcomes
}

func rowOf(raw *C.zax_row, name, fmtp string) Row {
	return Row{
		PT:        uint8(raw.pt),
		RTX:       uint8(raw.rtx),
		RED:       uint8(raw.red),
		Codec:     Codec(raw.codec),
		Name:      name,
		ClockRate: uint32(raw.clock_rate),
		Channels:  uint8(raw.channels),
		Feedback:  Feedback(raw.feedback),
		Locked:    raw.locked != 0,
		Fmtp:      fmtp,
	}
}

// An itemText is a call that writes a text of a row, or of another item, into room.
type itemText func(C.size_t, *C.char, C.size_t, *C.size_t) C.zax_status

// of is what the call writes of an item.
func (call itemText) of(item int) (string, error) {
	said, err := textOf(func(room *C.char, size C.size_t, needed *C.size_t) C.zax_status {
		return call(C.size_t(item), room, size, needed)
	})
	return string(said), err
}

// itemsOf is the items that a call writes, each made of what it is and of the texts that other calls write of it.
func itemsOf[R, T any](call func(*R, C.size_t, *C.size_t) C.zax_status, made func(*R, []string) T, texts ...itemText) ([]T, error) {
	raw, err := filled(128, call)
	if err != nil {
		return nil, err
	}
	items, said := make([]T, len(raw)), make([]string, len(texts))
	for i := range raw {
		for j, text := range texts {
			if said[j], err = text.of(i); err != nil {
				return nil, err
			}
		}
		items[i] = made(&raw[i], said)
	}
	return items, nil
}

// rowsOf is the rows that a call writes, with the names of their codecs and their formats, which two others say.
func rowsOf(call func(*C.zax_row, C.size_t, *C.size_t) C.zax_status, codec, fmtp itemText) ([]Row, error) {
	return itemsOf(call, func(raw *C.zax_row, said []string) Row { return rowOf(raw, said[0], said[1]) }, codec, fmtp)
}

package zaxmonth

// #include <zaxmonth.h>
import "C"

import (
	"runtime"
	"sync"
	"unsafe"
)

// A kind is what handles of one type have in common: how one is freed, and the places that wait for the next one.
type kind[P comparable] struct {
	free    func(P)
	waiting sync.Pool
}

// A place is where a handle of the library's lies. Its finalizer frees what nobody has closed. To set a finalizer takes as long as to read a
// short text, so a place whose handle is closed waits for the next one.
type place[P comparable] struct {
	mutex   sync.Mutex
	kind    *kind[P]
	pointer P      // nil while it waits
	turn    uint64 // how many handles have been closed here
}

func (p *place[P]) free() {
	var freed P
	if p.pointer != freed {
		p.kind.free(p.pointer)
		p.pointer = freed
	}
}

// A handle is one of the library's, over which one call at a time runs. It is closed where its turn at the place is over, and where it has
// no place. A Session, a Config and an Exchange have one each; a copy has the same one.
type handle[P comparable] struct {
	place *place[P]
	turn  uint64
}

func (k *kind[P]) handle(pointer P) handle[P] {
	at, waited := k.waiting.Get().(*place[P])
	if !waited {
		at = &place[P]{kind: k}
		runtime.SetFinalizer(at, (*place[P]).free)
	}
	at.pointer = pointer
	return handle[P]{at, at.turn}
}

func (h handle[P]) close() {
	if h.place == nil {
		return
	}
	h.place.mutex.Lock()
	isOpen := h.turn == h.place.turn
	if isOpen {
		h.place.free()
		h.place.turn++
	}
	h.place.mutex.Unlock()
	if isOpen {
		h.place.kind.waiting.Put(h.place)
	}
}

// use runs calls of the library over the handle.
func (h handle[P]) use(calls func(P) error) error {
	if h.place == nil {
		return ErrClosed
	}
	h.place.mutex.Lock()
	defer h.place.mutex.Unlock()
	if h.turn != h.place.turn {
		return ErrClosed
	}
	err := calls(h.place.pointer)
	runtime.KeepAlive(h.place) // (else it could be freed while the last call runs)
	return err
}

// give runs a call that takes the handle where it succeeds: the handle is closed then.
func (h handle[P]) give(call func(P) error) error {
	return h.use(func(it P) error {
		if err := call(it); err != nil {
			return err
		}
		var taken P
		h.place.pointer = taken
		h.place.turn++
		return nil
	})
}

// text is what a call writes over the handle.
func (h handle[P]) text(call func(P, *C.char, C.size_t, *C.size_t) C.zax_status) (text []byte, err error) {
	err = h.use(func(it P) error {
		text, err = textOf(func(room *C.char, size C.size_t, needed *C.size_t) C.zax_status {
			return call(it, room, size, needed)
		})
		return err
	})
	return text, err
}

// filled is what a call writes, in room for so many items or for as many as it asks for.
func filled[T any](size C.size_t, call func(room *T, size C.size_t, needed *C.size_t) C.zax_status) ([]T, error) {
	for {
		room := make([]T, size+1)
		var needed C.size_t
		status := call(&room[0], size, &needed)
		if status == C.ZAX_OK {
			return room[:needed:needed], nil
		}
		if status != C.ZAX_E_ROOM {
			return nil, errorOf(status, nil)
		}
		size = needed
	}
}

func textOf(call func(*C.char, C.size_t, *C.size_t) C.zax_status) ([]byte, error) {
	return filled(1024, func(room *byte, size C.size_t, needed *C.size_t) C.zax_status {
		return call((*C.char)(unsafe.Pointer(room)), size, needed)
	})
}

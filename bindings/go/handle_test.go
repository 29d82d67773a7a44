package zaxmonth

import (
	"errors"
	"os"
	"runtime"
	"strconv"
	"strings"
	"sync"
	"testing"
	"time"
)

const goroutines = 100

// atOnce runs the work in so many goroutines, which all begin at one time.
func atOnce(work func(number int)) {
	var begin, end sync.WaitGroup
	begin.Add(1)
	for i := 0; i < goroutines; i++ {
		end.Add(1)
		go func(number int) {
			defer end.Done()
			begin.Wait()
			work(number)
		}(i)
	}
	begin.Done()
	end.Wait()
}

func callsOf(session *Session) map[string]error {
	found := map[string]error{}
	_, found["MarshalText"] = session.MarshalText()
	_, found["WriteTo"] = session.WriteTo(&strings.Builder{})
	_, found["JSON"] = session.JSON()
	_, found["Mid"] = session.Mid(0)
	_, found["Msid"] = session.Msid(0)
	_, found["Extensions"] = session.Extensions(0)
	_, found["Rids"] = session.Rids(0)
	_, found["Layers"] = session.Layers(0)
	_, found["Sources"] = session.Sources(0)
	_, found["SourceGroups"] = session.SourceGroups(0)
	_, found["Section"] = session.Section(0)
	_, found["IsWritable"] = session.IsWritable(0)
	_, found["ICEUfrag"] = session.ICEUfrag()
	_, found["ICEPwd"] = session.ICEPwd()
	_, found["Fingerprint"] = session.Fingerprint()
	_, found["Setup"] = session.Setup()
	_, found["Candidates"] = session.Candidates()
	_, found["Rows"] = session.Rows(0)
	return found
}

func TestClosed(t *testing.T) {
	session, rows := read(t, offer(t)), config(t)
	copied := *session
	is(t, []error{session.Close(), session.Close(), copied.Close(), rows.Close(), rows.Close()}, make([]error, 5))
	for _, closed := range []*Session{session, &copied, {}} {
		for name, err := range callsOf(closed) {
			if err != ErrClosed {
				t.Errorf("%s answers %v", name, err)
			}
		}
		is(t, closed.Sections(), 0)
		is(t, closed.Close(), nil)
	}
	for _, closed := range []*Config{rows, {}} {
		_, ofRows := closed.Rows()
		_, ofRounds := closed.Negotiate(offer(t))
		is(t, []error{ofRows, ofRounds, closed.Answer(read(t, offer(t)), 0)}, []error{ErrClosed, ErrClosed, ErrClosed})
		is(t, closed.Close(), nil)
	}
	is(t, config(t).Answer(session, 0), ErrClosed)
}

// What is closed stays so, whatever has its place by then.
func TestClosedBeforeAnother(t *testing.T) {
	for i := 0; i < 100; i++ {
		first, rows := read(t, offer(t)), config(t)
		wanted, given := printed(t, read(t, ownText(t))), config(t)
		exchange := must[*Exchange](t)(NewExchange(ownSide(t), given))
		is(t, []error{first.Close(), rows.Close()}, make([]error, 2))
		second, others := read(t, ownText(t)), config(t)
		_, ofText := first.MarshalText()
		_, ofRows := rows.Rows()
		_, ofGiven := given.Rows()
		is(t, []error{ofText, ofRows, ofGiven, first.Close(), rows.Close(), given.Close()}, []error{ErrClosed, ErrClosed, ErrClosed, nil, nil, nil})
		is(t, printed(t, second), wanted)
		is(t, len(must[[]Row](t)(others.Rows())), len(must[[]Row](t)(exchange.Rows())))
		is(t, []error{second.Close(), others.Close(), exchange.Close()}, make([]error, 3))
	}
}

func TestOneSessionInManyGoroutines(t *testing.T) {
	session := read(t, offer(t))
	wanted, rows := printed(t, session), must[[]Row](t)(session.Rows(0))
	atOnce(func(int) {
		for i := 0; i < 20; i++ {
			text, ofText := session.MarshalText()
			found, ofRows := session.Rows(0)
			is(t, []any{string(text), found, ofText, ofRows}, []any{wanted, rows, nil, nil})
		}
	})
}

func TestAnswersThatCross(t *testing.T) {
	configs, owns, from := []*Config{}, []*Session{}, offer(t)
	for i := 0; i < 4; i++ {
		configs, owns = append(configs, config(t)), append(owns, read(t, ownText(t)))
		must[[]Outcome](t)(configs[i].Negotiate(offer(t)))
	}
	atOnce(func(number int) {
		for i := 0; i < 20; i++ {
			is(t, configs[number%4].Answer(owns[(number+i)%4], 0), nil)
			outcomes, err := configs[i%4].Negotiate(from)
			is(t, []any{outcomes, err}, []any{[]Outcome{{Accepted, NoType}}, nil})
		}
	})
	is(t, printed(t, owns[0]), printed(t, owns[3]))
}

func TestOneGoroutineCloses(t *testing.T) {
	for i := 0; i < 10; i++ {
		session := read(t, offer(t))
		wanted := printed(t, session)
		atOnce(func(number int) {
			if number == 50 {
				is(t, session.Close(), nil)
				return
			}
			text, err := session.MarshalText()
			if !errors.Is(err, ErrClosed) {
				is(t, string(text), wanted)
			}
		})
	}
}

// ownMemory is the memory of its own that the process has, in kB.
func ownMemory(t *testing.T) int {
	status := must[[]byte](t)(os.ReadFile("/proc/self/status"))
	_, behind, _ := strings.Cut(string(status), "RssAnon:")
	return must[int](t)(strconv.Atoi(strings.Fields(behind)[0]))
}

// collect frees what nobody has any longer. Finalizers run behind the collector, one after the other, so a last one tells that those before it
// have run; what they let go is freed the next time.
func collect() {
	for i := 0; i < 3; i++ {
		done := make(chan struct{})
		runtime.SetFinalizer(&[64]byte{}, func(*[64]byte) { close(done) })
		runtime.GC()
		select {
		case <-done:
		case <-time.After(time.Second):
		}
	}
}

// grows is how much more memory the process has behind so many runs than behind a fifth of them.
func grows(t *testing.T, times int, run func()) int {
	before := 0
	for i := 0; i < times; i++ {
		run()
		if i%100 == 0 {
			collect()
		}
		if i == times/5 {
			before = ownMemory(t)
		}
	}
	collect()
	return ownMemory(t) - before
}

func TestNothingIsLeftBehind(t *testing.T) {
	from := ownText(t)
	cycle := func(closes bool) func() {
		return func() {
			session, rows := read(t, from), config(t)
			must[[]Outcome](t)(rows.Negotiate(from))
			is(t, rows.Answer(session, 0), nil)
			is(t, len(callsOf(session)), 18)
			if closes {
				session.Close()
				rows.Close()
			}
		}
	}
	for _, closes := range []bool{true, false} {
		if more := grows(t, 5000, cycle(closes)); more > 8192 { // (some of which the race detector takes)
			t.Errorf("%d kB more, where closing is %v", more, closes)
		}
	}
}

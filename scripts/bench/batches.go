package main

import (
	"errors"
	"fmt"
	"os"
	"strconv"
	"syscall"
)

const batch = 10e6 // nanoseconds that a batch takes at least

// now is the processor time of the process in nanoseconds, that of the garbage collector included.
func now() float64 {
	var used syscall.Rusage
	if err := syscall.Getrusage(syscall.RUSAGE_SELF, &used); err != nil {
		panic(err)
	}
	return float64(used.Utime.Nano() + used.Stime.Nano())
}

func taken(call func([]byte) error, text []byte, times int) float64 {
	begin := now()
	for i := 0; i < times; i++ {
		_ = call(text)
	}
	return now() - begin
}

func least(call func([]byte) error, text []byte, batches int) float64 {
	times := 1
	for taken(call, text, times) < batch {
		times *= 2
	}
	best := taken(call, text, times)
	for i := 1; i < batches; i++ {
		if all := taken(call, text, times); all < best {
			best = all
		}
	}
	return best / float64(times)
}

// show prints what a call takes on each text, as from_c.c does; the words of the program are BATCHES FILE..
func show(name string, call func([]byte) error) error {
	if len(os.Args) < 3 {
		return errors.New("usage: BATCHES FILE..")
	}
	batches, err := strconv.Atoi(os.Args[1])
	if err != nil {
		return err
	}
	for _, path := range os.Args[2:] {
		text, err := os.ReadFile(path)
		if err != nil {
			return err
		}
		if call(text) != nil {
			fmt.Printf("%s\t%s\trefused\n", path, name)
		} else {
			fmt.Printf("%s\t%s\t%.1f\n", path, name, least(call, text, batches))
		}
	}
	return nil
}

package zaxmonth_test

import (
	"fmt"
	"log"
	"os"

	"zaxmonth"
)

// Prints the codecs that a browser offers.
func ExampleRead() {
	text, err := os.ReadFile("../../examples/chromium-audio-offer.sdp")
	if err != nil {
		log.Fatal(err)
	}
	offer, err := zaxmonth.Read(text)
	if err != nil {
		log.Fatal(err)
	}
	defer offer.Close()
	rows, err := offer.Rows(0)
	if err != nil {
		log.Fatal(err)
	}
	for _, row := range rows[:3] {
		fmt.Println(row.PT, row.Name, row.ClockRate)
	}
	// Output:
	// 111 opus 48000
	// 9 G722 16000
	// 0 PCMU 8000
}

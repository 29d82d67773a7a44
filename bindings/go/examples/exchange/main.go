// Command exchange answers an offer, as the side that a file describes:   exchange OFFER OWN
package main

import (
	"errors"
	"fmt"
	"os"
	"strconv"
	"strings"

	"zaxmonth"
)

// sideOf is what this side says of itself, by lines of a word and its value (examples/own-side.txt).
func sideOf(text string) (own zaxmonth.OwnSide, err error) {
	own = zaxmonth.OwnSide{Channels: &zaxmonth.DataChannels{Port: 5000, MaxMessageSize: 262144}, ReceivesSimulcast: true}
	for _, line := range strings.Split(strings.TrimSuffix(text, "\n"), "\n") {
		word, value, _ := strings.Cut(line, " ")
		switch word {
		case "session-id":
			own.SessionID, err = strconv.ParseUint(value, 10, 64)
		case "ufrag":
			own.ICEUfrag = value
		case "pwd":
			own.ICEPwd = value
		case "fingerprint":
			own.Fingerprint = value
		case "stream":
			own.StreamID = value
		case "candidate":
			own.Candidates = append(own.Candidates, value)
		case "extension":
			own.Extensions = append(own.Extensions, value)
		default:
			err = fmt.Errorf("no side says %s", word)
		}
		if err != nil {
			return own, err
		}
	}
	return own, nil
}

// answer answers an offer by a new exchange.
func answer(offer []byte, own zaxmonth.OwnSide) (*zaxmonth.Description, error) {
	config, err := zaxmonth.NewConfig()
	if err != nil {
		return nil, err
	}
	defer config.Close()
	exchange, err := zaxmonth.NewExchange(own, config)
	if err != nil {
		return nil, err
	}
	defer exchange.Close()
	return exchange.AcceptOffer(offer)
}

func run(offerPath, ownPath string) error {
	offer, err := os.ReadFile(offerPath)
	if err != nil {
		return err
	}
	text, err := os.ReadFile(ownPath)
	if err != nil {
		return err
	}
	own, err := sideOf(string(text))
	if err != nil {
		return err
	}
	said, err := answer(offer, own)
	if err != nil {
		return err
	}
	defer said.Close()
	_, err = said.WriteTo(os.Stdout)
	return err
}

func main() {
	if len(os.Args) != 3 {
		fmt.Fprintln(os.Stderr, "usage: exchange OFFER OWN")
		os.Exit(2)
	}
	if err := run(os.Args[1], os.Args[2]); err != nil {
		var refused *zaxmonth.Error
		if errors.As(err, &refused) {
			fmt.Fprintln(os.Stderr, refused.Message)
		} else {
			fmt.Fprintln(os.Stderr, err)
		}
		os.Exit(1)
	}
}

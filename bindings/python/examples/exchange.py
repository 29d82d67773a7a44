"""Answers an offer, as the side that a file describes:   python3 exchange.py OFFER OWN"""
import sys
from pathlib import Path

from zaxmonth import Configuration, Error, Exchange, OwnSide


def side_of(text):
    """What this side says of itself, by lines of a word and its value (examples/own-side.txt)."""
    lines = [line.partition(" ") for line in text.splitlines()]
    said = {word: [value for it, _, value in lines if it == word] for word, _, _ in lines}
    creds = said["ufrag"][0], said["pwd"][0], said["fingerprint"][0]
    return OwnSide(*creds, int(said["session-id"][0]), said["stream"][0], said["extension"], said["candidate"])


def main(words):
    if len(words) != 2:
        print("usage: exchange.py OFFER OWN", file=sys.stderr)
        return 2
    offer, own = (Path(word).read_bytes() for word in words)
    try:
        with Exchange(side_of(own.decode()), Configuration.defaults()) as exchange:
            print(exchange.accept_offer(offer), end="")
    except Error as error:
        print(error, file=sys.stderr)
        return 1
    return 0


sys.exit(main(sys.argv[1:]))

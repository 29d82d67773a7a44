"""Negotiates an offer with the default codecs, and prints one's own description with what is agreed:   python3 answer.py OFFER OWN"""
import sys
from pathlib import Path

from zaxmonth import Configuration, Error, NothingAgreed, SessionDescription


def answered(offer, own):
    """One's own description with what is agreed in each of its sections."""
    with Configuration.defaults() as config, SessionDescription.read(own) as answer:
        for number, outcome in enumerate(config.negotiate(offer), 1):
            if not outcome.accepted:
                print(f"round {number} refused: {outcome}", file=sys.stderr)
        for section in range(answer.sections):
            try:
                config.answer(answer, section)
            except NothingAgreed as error:
                print(f"mid {answer.mid(section)}: {error}", file=sys.stderr)
        return answer.print()


def main(words):
    if len(words) != 2:
        print("usage: answer.py OFFER OWN", file=sys.stderr)
        return 2
    try:
        print(answered(*(Path(word).read_bytes() for word in words)), end="")
    except Error as error:
        print(error, file=sys.stderr)
        return 1
    return 0


sys.exit(main(sys.argv[1:]))

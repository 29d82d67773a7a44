"""Prints the rows of an offer:   python3 rows.py FILE"""
import sys
from pathlib import Path

from zaxmonth import Error, SessionDescription


def show(offer):
    if offer.rest_line:
        print(f"reading ended at line {offer.rest_line}", file=sys.stderr)
    for section in range(offer.sections):
        mid = offer.mid(section)
        for row in offer.rows(section):
            lead = ", " if row.fmtp else ""
            print(f"mid {mid}: payload type {row.pt}, {row.name} at {row.clock_rate} Hz{lead}{row.fmtp}")


def main(words):
    if len(words) != 1:
        print("usage: rows.py FILE", file=sys.stderr)
        return 2
    try:
        with SessionDescription.read(Path(words[0]).read_bytes()) as offer:
            show(offer)
    except Error as error:
        print(error, file=sys.stderr)
        return 1
    return 0


sys.exit(main(sys.argv[1:]))

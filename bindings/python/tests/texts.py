"""Writes what each text of a folder is by the package, as the files of data/ have it:   texts.py DATA OUT

Beside NAME.sdp stand there NAME.text, NAME.rows and NAME.negotiate: a line 'status N', and what sdpshow writes."""
import sys
from pathlib import Path

from zaxmonth import Configuration, Error, SessionDescription


def columns(row):
    types = (row.pt, row.rtx, row.red)
    codec = f"{row.name}/{row.clock_rate}" + (f"/{row.channels}" if row.channels else "")
    return " ".join(["-" if it is None else str(it) for it in types] + [codec, row.fmtp or "-"])


def printed(text):
    return SessionDescription.read(text).print()


def rows(text):
    read = SessionDescription.read(text)
    return "".join(f"{read.mid(at) or '-'} {columns(row)}\n" for at in range(read.sections) for row in read.rows(at))


def negotiated(text):
    config = Configuration.defaults()
    rounds = [f"round {n} {it if it.accepted else f'refused: {it}'}\n" for n, it in enumerate(config.negotiate(text), 1)]
    return "".join(rounds + [f"{'locked' if row.locked else 'open'} {columns(row)}\n" for row in config.rows()])


def answer(call, text):
    try:
        return f"status 0\n{call(text)}"
    except Error as error:
        return f"status 1\n{error.message}\n"


def main(data, out):
    for path in sorted(Path(data).glob("*.sdp")):
        for word, call in (("text", printed), ("rows", rows), ("negotiate", negotiated)):
            Path(out, f"{path.stem}.{word}").write_bytes(answer(call, path.read_bytes()).encode())


main(*sys.argv[1:])

"""What the C library has to answer to offers: what browsers took of sdpexchange, and what it answers to each text of data/, with its
messages as a zax_error has them."""
import re
import subprocess

from answering import OWN
from proved import TOP

DATA = TOP / "data"
LONGEST = 239  # bytes of a message in a zax_error
UNREAD = re.compile(r"(\d+): this line fits nowhere, so what follows it isn't known; mend it or take it out: (.*)", re.S)


def cut(message):
    """The message as a zax_error has it: so many bytes, cut behind a whole letter, and none behind a zero."""
    return message.partition("\0")[0].encode()[:LONGEST].decode("utf-8", "ignore")


def message_of(file, said):
    """What the library says where sdpexchange says this of a file."""
    told = said.removeprefix(f"sdpexchange: {file}:").removesuffix("\n")
    if unread := UNREAD.fullmatch(told):
        return cut(f"line {unread[1]} of the text fits nowhere: {unread[2]}")
    return cut("text is not UTF-8" if told.startswith(" cannot be read: ") else told.removeprefix(" "))


def asked(program, file):
    """What comes of an offer by sdpexchange: the status, and what is written on both streams."""
    done = subprocess.run([program, *OWN, file], stdin=subprocess.DEVNULL, capture_output=True, timeout=60)
    said = done.stderr.decode()
    return done.returncode, done.stdout, f"{message_of(file, said)}\n".encode() if said else b""


def taken():
    """The first offer of each connection of data/answers/, and its answer, which a browser took."""
    for offer in sorted((DATA / "answers").glob("*-offer.sdp")):
        if not re.search(r"-[2-9]-offer", offer.name):
            yield offer, (0, offer.with_name(offer.name.replace("-offer", "-answer")).read_bytes(), b"")


def wanted(program):
    """Each offer, and what has to come of it; of the texts of data/ by this program, where there is one."""
    found = list(taken())
    return found + [(text, asked(program, text)) for text in sorted(DATA.glob("*.sdp"))] if program else found

"""Texts that a stranger may send to stop a server: their keys have one hash, by the toolchain's `FoldHasher`, whose seed is fixed.

A text of more than 16 bytes is hashed 16 bytes at a time: the first eight are crossed with the hash so far, the others with a constant; the two
are multiplied, and both halves of the product are crossed. Where the first eight equal the hash so far, the product is 0, whatever the
others are. So a beginning of 16 bytes is looked for, after which the hash is eight bytes that may stand in a key: followed by these,
all keys of 32 bytes have one hash."""
import functools
import random
import string
import subprocess
import tempfile
from pathlib import Path

from proved import TOP

SEED, CONSTANT, HALF = 0x243F6A8885A308D3, 0x9E3779B97F4A7C15, 2**64 - 1
KEY = 32  # bytes
MOST_NUMBERS = 100_000  # of two megabytes; to find them takes seconds
# A key of a format has no capital, which would be read as its small letter; a foundation has letters, digits and two more.
OF_KEYS = string.ascii_lowercase + string.digits + "!#$%&'()*+-./:<>?@[]^_`{|}~"
OF_FOUNDATIONS = string.ascii_letters + string.digits + "+/"
HEADER = "v=0\r\no=- 1 1 IN IP4 127.0.0.1\r\ns=-\r\nt=0 0\r\n"
SECTION = "m=video 9 UDP/TLS/RTP/SAVPF 96\r\na=mid:0\r\na=sendrecv\r\na=rtpmap:96 VP8/90000\r\n"
NAMES = "opus PCMU PCMA G722 CN AMR-WB H264 H265 H266 VP8 VP9 AV1 telephone-event rtx red x".split()


def folded(one, other):
    product = one * other
    return (product & HALF) ^ (product >> 64)


@functools.cache
def beginning(letters):
    """24 of these letters after which the hash has 0."""
    drawn, allowed = random.Random(1), letters.encode()
    while True:
        first = bytes(drawn.choices(allowed, k=16))
        halves = [int.from_bytes(it, "little") for it in (first[:8], first[8:])]
        after = folded(halves[0] ^ (SEED + KEY), halves[1] ^ CONSTANT).to_bytes(8, "little")
        if all(it in allowed for it in after):
            return (first + after).decode()


def keys(letters, count):
    """So many keys of 32 letters each that have one hash."""
    begin = beginning(letters)
    for number in range(count):
        yield begin + f"{number:08x}"


def of_keys(size):
    """One fmtp line, whose pairs are merged by their keys since one of them is `tier-flag`."""
    head = f"{HEADER}{SECTION}a=fmtp:96 tier-flag=0"
    pairs = "".join(f";{it}=1" for it in keys(OF_KEYS, (size - len(head)) // (KEY + 3)))
    return f"{head}{pairs}\r\n"


def of_candidates(size):
    """Candidates that differ by their foundations."""
    line = "a=candidate:{} 1 udp 1 192.0.2.1 1 typ host\r\n"
    count = (size - len(HEADER + SECTION)) // (len(line) - 2 + KEY)
    return HEADER + SECTION + "".join(line.format(it) for it in keys(OF_FOUNDATIONS, count))


@functools.cache
def numbers():
    """Numbers of 32 bits that stand near each other in a table (scripts/bench/near_numbers.c)."""
    with tempfile.TemporaryDirectory() as room:
        program = Path(room, "near_numbers")
        subprocess.run(["cc", "-O2", TOP / "scripts" / "bench" / "near_numbers.c", "-o", program], check=True)
        return subprocess.run([program, str(MOST_NUMBERS)], check=True, capture_output=True, text=True).stdout.split()


def of_sources(size):
    """Sources, each of which is said of once."""
    count = (size - len(HEADER + SECTION)) // len("a=ssrc:4000000000 x:y\r\n")
    return HEADER + SECTION + "".join(f"a=ssrc:{it} x:y\r\n" for it in numbers()[:count])


def of_formats(size):
    """127 types that the m-line doesn't list, each mapped to 16 codecs, and fmtp lines of one of them after that."""
    types = [it for it in range(128) if it != 96]
    mapped = "".join(f"a=rtpmap:{pt} {name}/90000\r\n" for pt in types for name in NAMES)
    line = "a=fmtp:1 x\r\n"
    return HEADER + SECTION + mapped + line * ((size - len(HEADER + SECTION + mapped)) // len(line))


# By name, how many bytes, and a text by their number.
TEXTS = {
    "bytes of pairs whose keys are chosen": (2_000_000, of_keys),
    "bytes of candidates whose foundations are chosen": (2_000_000, of_candidates),
    "bytes of sources whose numbers are chosen": (2_000_000, of_sources),
    "bytes of fmtp lines, beside 127 types of 16 codecs each": (4_000_000, of_formats),
}

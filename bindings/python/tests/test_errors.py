"""Each exception, as far as the library gives cause for it, and the library that is loaded."""
import pickle
import shutil
import subprocess
import tempfile
import unittest
from pathlib import Path

import zaxmonth
from zaxmonth import (
    ArgumentError,
    Configuration,
    Error,
    NoChannels,
    NoNameLeft,
    NoRows,
    NothingAgreed,
    OutOfMemory,
    OwnSideError,
    ParseError,
    RoomError,
    SectionError,
    SessionDescription,
    StateError,
    Status,
    UnfitSection,
    UnprintableText,
    UnreadLine,
    Utf8Error,
)
from zaxmonth._errors import check
from zaxmonth._library import RawError

from . import DATA, OFFER, OWN, in_another_process

# Reads a text for which the memory that is left doesn't suffice.
WANTS_MEMORY = """
import resource
from pathlib import Path
import zaxmonth
text = Path("scripts/c_tests/short.sdp").read_bytes() + b"a=title:what is kept\\r\\n" * 400_000
pages = int(Path("/proc/self/statm").read_text().split()[0])
limit = pages * resource.getpagesize() + (4 << 20)
resource.setrlimit(resource.RLIMIT_AS, (limit, limit))
try:
    zaxmonth.SessionDescription.read(text)
except zaxmonth.OutOfMemory as error:
    print(error.status, error.message.endswith("out of memory"), isinstance(error, MemoryError))
"""


class Exceptions(unittest.TestCase):
    def refused(self, kind, call, *given):
        with self.assertRaises(kind) as raised:
            call(*given)
        return raised.exception

    def test_a_text_that_is_no_description(self):
        for text in ("", "x", b"\x00", "v=0\r\n\0x", "\r\n" + OFFER):
            with self.subTest(text=text[:5]):
                error = self.refused(ParseError, SessionDescription.read, text)
                self.assertTrue(error.message)
                self.assertEqual((error.status, error.line, str(error)), (Status.PARSE, None, error.message))

    def test_the_message_is_that_of_the_library(self):
        path = DATA / "chromium-munged-truncated-offer.sdp"
        error = self.refused(ParseError, SessionDescription.read, path.read_bytes())
        self.assertEqual(error.message, "SDP parse: Missing a=rtp_map:103 for mid: 1")
        self.assertIsInstance(error, ValueError)

    def test_bytes_that_are_no_utf8(self):
        for text in (b"\xff", b"v=0\xc3", b"\xed\xa0\x80", OFFER.encode() + b"a=x:\xc0\x80\r\n", OFFER.encode("utf-16")):
            error = self.refused(Utf8Error, SessionDescription.read, text)
            self.assertEqual((error.status, error.message), (Status.UTF8, "text is not UTF-8"))

    def test_memory_is_refused(self):
        done = in_another_process(WANTS_MEMORY)
        self.assertEqual((done.stdout, done.returncode), ("Status.MEMORY True True\n", 0), done.stderr)

    def test_a_section_and_what_is_agreed(self):
        read = SessionDescription.read(OWN)
        self.assertIsInstance(self.refused(SectionError, read.mid, 1), IndexError)
        error = self.refused(NothingAgreed, Configuration.defaults().answer, read, 0)
        self.assertEqual(error.message, "nothing is agreed that could be printed there")

    def test_each_status_has_its_exception(self):
        of_exchanges = (StateError, UnreadLine, UnfitSection, UnprintableText, NoRows, NoChannels, NoNameLeft, OwnSideError)
        kinds = (ParseError, Utf8Error, OutOfMemory, RoomError, SectionError, NothingAgreed, ArgumentError, *of_exchanges)
        self.assertEqual(len(kinds) + 1, len(Status))
        self.assertIsNone(check(0))
        for number, kind in enumerate(kinds, 1):
            error = self.refused(kind, check, number)
            self.assertEqual((type(error), error.status, error.message), (kind, Status(number), kind.meaning))
        self.assertEqual(str(self.refused(Error, check, 99)), "the call is answered by the unknown status 99")

    def test_a_line_is_told(self):
        error = self.refused(ParseError, check, 1, RawError(1, 7, 0, b"a line"))
        self.assertEqual((error.line, error.message), (7, "a line"))
        again = pickle.loads(pickle.dumps(error))
        self.assertEqual((type(again), again.line, again.message), (ParseError, 7, "a line"))


class Libraries(unittest.TestCase):
    def imported(self, library):
        done = in_another_process("import zaxmonth", ZAXMONTH_LIBRARY=str(library))
        return done.stderr.splitlines()[-1] if done.returncode else ""

    def test_versions(self):
        self.assertEqual((zaxmonth.ABI, zaxmonth.library_version()), (1, zaxmonth.__version__))

    def test_a_file_that_is_not_there(self):
        said = self.imported("/nonexistent/libzaxmonth.so.1")
        self.assertRegex(said, r"^ImportError: libzaxmonth isn't found \(/nonexistent.*\): ZAXMONTH_LIBRARY names its file, ")

    def test_another_library(self):
        said = self.imported("libc.so.6")
        self.assertEqual(said, "ImportError: libc.so.6 has no zax_abi: it isn't the libzaxmonth that this package is written for")

    @unittest.skipUnless(shutil.which("cc"), "there is no C compiler")
    def test_another_abi(self):
        with tempfile.TemporaryDirectory() as room:
            made = Path(room, "libzaxmonth.so.3")
            source = b"unsigned zax_abi(void) { return 3; }"
            subprocess.run(["cc", "-shared", "-fPIC", "-x", "c", "-", "-o", made], input=source, check=True)
            self.assertEqual(self.imported(made), f"ImportError: {made} has ABI 3, and this package is written for ABI 1")

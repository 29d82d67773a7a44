"""What descriptions say of their sections and of their transport. What is expected is worked out by hand from the texts, by docs/SECTIONS.md."""
import unittest

from zaxmonth import ClosedError, Direction, MediaKind, Protocol, Section, SectionError, SessionDescription, Setup

from . import EXAMPLES, OFFER, TOP

CHANNELS = (EXAMPLES / "chromium-data-channel-offer.sdp").read_bytes()
STREAMS = (TOP / "scripts" / "c_tests" / "streams.sdp").read_bytes()


class Sections(unittest.TestCase):
    def test_what_a_section_is(self):
        audio = Section(MediaKind.AUDIO, Protocol.RTP, Direction.SENDRECV, Setup.ACTPASS, False)
        self.assertEqual(SessionDescription.read(OFFER).section(0), audio)
        received = Section(MediaKind.AUDIO, Protocol.RTP, Direction.RECVONLY, Setup.NO_SETUP, False)
        self.assertEqual(SessionDescription.read(STREAMS).section(1), received)
        channels = Section(MediaKind.APPLICATION, Protocol.SCTP, Direction.INACTIVE, Setup.ACTPASS, False)
        self.assertEqual(SessionDescription.read(CHANNELS).section(0), channels)
        self.assertIs(SessionDescription.read(OFFER).is_writable(0), True)

    def test_a_section_that_is_not_there(self):
        read = SessionDescription.read(OFFER)
        for call in (read.section, read.is_writable):
            for section in (1, 99, -1, 2**63, 2**64):
                with self.subTest(call=call.__name__, section=section), self.assertRaises(SectionError):
                    call(section)


class Transport(unittest.TestCase):
    def test_what_an_offer_says(self):
        read = SessionDescription.read(OFFER)
        self.assertEqual((read.ice_ufrag(), read.ice_pwd()), ("yf/6", "7g8S/bjynZu683rC6kNE6Y/l"))
        self.assertTrue(read.fingerprint().startswith("sha-256 89:EB:68:"))
        self.assertIs(read.setup(), Setup.ACTPASS)
        self.assertEqual(len(read.candidates()), 4)
        self.assertEqual(read.candidates()[1], "candidate:1435511020 1 udp 2122194687 198.51.100.7 43652 typ host")

    def test_what_is_not_said(self):
        read = SessionDescription.read(STREAMS)
        self.assertEqual((read.ice_ufrag(), read.ice_pwd(), read.fingerprint(), read.candidates()), ("", "", "", []))
        self.assertIs(read.setup(), Setup.NO_SETUP)

    def test_every_call_of_a_closed_description(self):
        read = SessionDescription.read(OFFER)
        read.close()
        for call in (read.ice_ufrag, read.ice_pwd, read.fingerprint, read.setup, read.candidates):
            with self.subTest(call=call.__name__), self.assertRaises(ClosedError):
                call()

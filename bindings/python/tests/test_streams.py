"""What sections say of streams. What is expected is worked out by hand from scripts/c_tests/streams.sdp, by docs/SECTIONS.md."""
import unittest

from zaxmonth import ClosedError, Direction, Extension, Layer, Msid, Rid, SectionError, SessionDescription, Source, SourceGroup

from . import OFFER, TOP

STREAMS = (TOP / "scripts" / "c_tests" / "streams.sdp").read_bytes()


class Streams(unittest.TestCase):
    def setUp(self):
        self.read = SessionDescription.read(STREAMS)
        read = self.read
        self.calls = (read.msid, read.extensions, read.rids, read.layers, read.sources, read.source_groups)

    def test_msid(self):
        self.assertEqual(self.read.msid(0), Msid("stream", "track one"))
        self.assertIsNone(self.read.msid(1))
        self.assertEqual(SessionDescription.read(OFFER).msid(0), Msid("-", "cadf95cb-38b4-4d30-8162-af882e48b3b0"))

    def test_extensions(self):
        uris = {3: "urn:ietf:params:rtp-hdrext:sdes:mid", 14: "urn:ietf:params:rtp-hdrext:sdes:rtp-stream-id", 255: "urn:x"}
        self.assertEqual(self.read.extensions(0), [Extension(*it) for it in uris.items()])
        self.assertEqual(self.read.extensions(1), [])

    def test_rids(self):
        hi, lo = Rid("hi", Direction.SENDONLY, ""), Rid("lo", Direction.SENDONLY, "pt=96,97;max-width=320;max-fps=15")
        self.assertEqual(self.read.rids(0), [hi, lo, Rid("back", Direction.RECVONLY, "max-height=90")])
        self.assertEqual(self.read.rids(1), [])

    def test_layers(self):
        sent = [Layer("hi", Direction.SENDONLY, False), Layer("lo", Direction.SENDONLY, True)]
        self.assertEqual(self.read.layers(0), [*sent, Layer("back", Direction.RECVONLY, False)])
        self.assertEqual(self.read.layers(1), [])

    def test_sources(self):
        described = [Source(11, None, "end point", "stream", "track"), Source(12, None, "other", "", "")]
        self.assertEqual(self.read.sources(0), [*described, Source(4294967295, 11, "", "", "")])
        self.assertEqual(self.read.sources(1), [])

    def test_source_groups(self):
        self.assertEqual(self.read.source_groups(0), [SourceGroup("FID", (11, 4294967295)), SourceGroup("SIM", (11, 12))])
        self.assertEqual(self.read.source_groups(1), [])

    def test_a_section_that_is_not_there(self):
        for call in self.calls:
            for section in (2, 99, -1, 2**63, 2**64):
                with self.subTest(call=call.__name__, section=section), self.assertRaises(SectionError):
                    call(section)

    def test_a_section_is_named_by_a_number(self):
        for call in self.calls:
            with self.subTest(call=call.__name__), self.assertRaises(TypeError):
                call("0")

    def test_every_call_of_a_closed_description(self):
        self.read.close()
        for call in self.calls:
            with self.subTest(call=call.__name__), self.assertRaises(ClosedError):
                call(0)

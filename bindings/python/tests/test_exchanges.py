"""Offers and answers. What is expected stands in data/answers/, or is worked out by hand, by docs/EXCHANGE.md."""
import copy
import unittest

from zaxmonth import (
    ArgumentError,
    ClosedError,
    Codec,
    Configuration,
    DataChannels,
    Direction,
    Error,
    Exchange,
    MediaKind,
    NoChannels,
    OwnSideError,
    ParseError,
    SignalingState,
    StateError,
    UnfitSection,
    UnprintableText,
    UnreadLine,
    Utf8Error,
)

from . import DATA, OFFER, own_side

HEAD = "v=0\r\no=- 1 1 IN IP4 0.0.0.0\r\ns=-\r\nt=0 0\r\n"
SECTION = "m=audio 9 UDP/TLS/RTP/SAVPF 0\r\nc=IN IP4 0.0.0.0\r\na=mid:0\r\na=sendrecv\r\n"


def text(name):
    return (DATA / "answers" / f"{name}.sdp").read_bytes().decode()


def side(**other):
    return Exchange(own_side(**other), Configuration.defaults())


class Answers(unittest.TestCase):
    def test_answers_that_browsers_took(self):
        for name in ("chromium-all", "chromium-simulcast-all", "firefox-all", "firefox-sendonly"):
            with self.subTest(name=name), side() as exchange, exchange.accept_offer(text(f"{name}-offer")) as answer:
                self.assertEqual((str(answer), answer.version), (text(f"{name}-answer"), 1))

    def test_offers_one_behind_the_other(self):
        exchange = side()
        for number in (1, 2, 3):
            answer = exchange.accept_offer(text(f"firefox-reneg-grow-{number}-offer").encode())
            self.assertEqual((answer.print(), answer.version), (text(f"firefox-reneg-grow-{number}-answer"), number))

    def test_credentials_of_a_restart(self):
        exchange = side()
        exchange.accept_offer(text("chromium-restart-1-offer"))
        exchange.restart_ice("ansr1", b"0123456789abcdef012345671")
        answer = str(exchange.accept_offer(text("chromium-restart-2-offer")))
        self.assertIn("a=ice-ufrag:ansr1\r\na=ice-pwd:0123456789abcdef012345671\r\n", answer)
        with self.assertRaises(Utf8Error):
            exchange.restart_ice("ansr", b"\xff")

    def test_an_answer_is_a_description(self):
        exchange = side()
        answer = exchange.accept_offer(OFFER)
        exchange.close()
        self.assertEqual((answer.sections, answer.mid(0), answer.rest_line, repr(answer)), (1, "0", None, "<VersionedDescription>"))
        self.assertEqual((answer.rows(0)[0].pt, answer.rows(0)[0].codec), (111, Codec.OPUS))
        self.assertEqual(answer.json()["media"][0]["setup"], "active")
        self.assertRaises(TypeError, copy.copy, answer)

    def test_rows_are_locked(self):
        exchange = side()
        self.assertEqual([row.locked for row in exchange.rows()], [False] * 13)
        exchange.accept_offer(OFFER)
        locked = [(row.pt, row.codec, row.name, row.fmtp) for row in exchange.rows() if row.locked]
        self.assertEqual(locked, [(111, Codec.OPUS, "opus", "minptime=10;useinbandfec=1")])


class Offers(unittest.TestCase):
    def test_one_side_offers_and_the_other_answers(self):
        here, there = side(), side()
        here.add_media(MediaKind.AUDIO, Direction.SENDONLY)
        here.add_channels()
        offer = here.create_offer()
        self.assertEqual((offer.version, offer.mid(0), offer.mid(1), here.state), (1, "0", "1", SignalingState.HAVE_LOCAL_OFFER))
        self.assertIn("a=sendonly\r\n", str(offer))
        here.accept_answer(str(there.accept_offer(str(offer))))
        self.assertIs(here.state, SignalingState.STABLE)
        self.assertEqual([row.pt for row in here.rows() if row.locked], [row.pt for row in there.rows() if row.locked])

    def test_a_section_is_held_and_resumed(self):
        here, there = side(), side()

        def offered():
            offer = str(here.create_offer())
            here.accept_answer(str(there.accept_offer(offer)))
            return [line for line in offer.splitlines() if line in ("a=sendrecv", "a=sendonly", "a=inactive")]

        here.add_media(MediaKind.AUDIO)
        self.assertEqual(offered(), ["a=sendrecv"])
        here.set_direction("0", Direction.INACTIVE)
        here.set_direction(b"1", Direction.SENDRECV)
        self.assertRaises(ValueError, here.set_direction, "0", 4)
        self.assertRaises(TypeError, here.set_direction, 0, Direction.SENDRECV)
        self.assertRaises(Utf8Error, here.set_direction, b"\xff", Direction.SENDRECV)
        with self.assertRaises(ArgumentError):
            here.set_direction("0123456789abcdef0", Direction.SENDRECV)
        self.assertEqual(offered(), ["a=inactive"])
        here.set_direction("0", Direction.SENDONLY)
        self.assertEqual(offered(), ["a=sendonly"])

    def test_an_offer_is_dropped(self):
        exchange = side()
        exchange.rollback()
        exchange.add_media(MediaKind.VIDEO)
        exchange.create_offer()
        for call in (exchange.create_offer, lambda: exchange.accept_offer(OFFER)):
            self.assertRaises(StateError, call)
        exchange.rollback()
        offer = exchange.create_offer()
        self.assertEqual((offer.version, offer.sections), (2, 1))

    def test_no_data_channels(self):
        exchange = side(channels=None)
        with self.assertRaises(NoChannels) as raised:
            exchange.add_channels()
        self.assertEqual(str(raised.exception), "this side takes no data channels")
        exchange = side(channels=DataChannels(5001, 0))
        exchange.add_channels()
        self.assertIn("a=sctp-port:5001\r\na=max-message-size:0\r\n", str(exchange.create_offer()))

    def test_kinds_and_directions(self):
        exchange = side()
        self.assertRaises(ValueError, exchange.add_media, 2)
        self.assertRaises(ValueError, exchange.add_media, MediaKind.AUDIO, 4)
        exchange.add_media(MediaKind.AUDIO, Direction.INACTIVE)
        self.assertIn("a=inactive\r\n", str(exchange.create_offer()))


class Refusals(unittest.TestCase):
    def refused(self, kind, call, *given):
        with self.assertRaises(kind) as raised:
            call(*given)
        return raised.exception

    def test_offers(self):
        exchange = side()
        error = self.refused(UnreadLine, exchange.accept_offer, OFFER + "what fits nowhere\r\n")
        lines = OFFER.count("\n") + 1
        self.assertEqual((error.line, error.message), (lines, f"line {lines} of the text fits nowhere: what fits nowhere"))
        self.assertIsNone(self.refused(ParseError, exchange.accept_offer, "x").line)
        self.refused(Utf8Error, exchange.accept_offer, b"\xff")
        self.refused(Utf8Error, exchange.accept_offer, "\udcff")
        self.refused(TypeError, exchange.accept_offer, 7)
        error = self.refused(UnfitSection, exchange.accept_offer, HEAD + SECTION + SECTION)
        self.assertEqual(str(error), "section 1 breaks a rule: no two sections have one mid")
        self.assertEqual(exchange.accept_offer(OFFER).version, 1)

    def test_answers(self):
        exchange = side()
        self.refused(StateError, exchange.accept_answer, OFFER)
        exchange.add_media(MediaKind.AUDIO)
        exchange.create_offer()
        self.refused(UnfitSection, exchange.accept_answer, HEAD)
        self.refused(ParseError, exchange.accept_answer, "")
        self.assertIs(exchange.state, SignalingState.HAVE_LOCAL_OFFER)

    def test_a_line_end_in_a_text_of_this_side(self):
        self.refused(UnprintableText, side(stream_id="a\r\nb").accept_offer, OFFER)

    def test_own_sides(self):
        config = Configuration.defaults()
        config.negotiate(OFFER)
        for other, kind, message in (
            ({"fingerprint": "AB"}, OwnSideError, "fingerprint: write the name of the hash"),
            ({"candidates": ["word"]}, OwnSideError, "candidate: write the line of a candidate"),
            ({"ice_ufrag": b"\xff"}, Utf8Error, "text is not UTF-8"),
            ({"extensions": ["\udcff"]}, Utf8Error, "text is not UTF-8"),
            ({"session_id": 2**64}, ValueError, "session_id is a number of 64 bits, not 18446744073709551616"),
            ({"session_id": -1}, ValueError, "session_id is a number of 64 bits, not -1"),
            ({"channels": DataChannels(65536)}, ValueError, "port is a number of 16 bits, not 65536"),
            ({"channels": DataChannels(max_message_size=-1)}, ValueError, "max_message_size is a number"),
            ({"audio": 4}, ValueError, "4 is not a valid Direction"),
            ({"extensions": "urn:x"}, TypeError, "several texts are a list, not one text"),
            ({"ice_pwd": None}, TypeError, "a text is str or bytes, not NoneType"),
        ):
            with self.subTest(other=other):
                error = self.refused(kind, Exchange, own_side(**other), config)
                self.assertEqual(str(error)[: len(message)], message)
        self.assertEqual([row.pt for row in config.rows() if row.locked], [111])
        self.refused(TypeError, Exchange, own_side(), None)


class Ownership(unittest.TestCase):
    def test_the_configuration_is_taken(self):
        config = Configuration.defaults()
        exchange = Exchange(own_side(), config)
        self.assertTrue(config.closed)
        for call in (config.rows, lambda: Exchange(own_side(), config)):
            self.assertRaises(ClosedError, call)
        config.close()
        self.assertEqual(len(exchange.rows()), 13)

    def test_every_call_of_a_closed_exchange(self):
        exchange = side()
        exchange.close()
        exchange.close()
        calls = (
            lambda: exchange.accept_offer(OFFER),
            exchange.create_offer,
            lambda: exchange.accept_answer(OFFER),
            exchange.rollback,
            lambda: exchange.add_media(MediaKind.AUDIO),
            exchange.add_channels,
            lambda: exchange.restart_ice("a", "b"),
            lambda: exchange.set_direction("0", Direction.INACTIVE),
            exchange.rows,
            lambda: exchange.state,
        )
        for call in calls:
            self.assertRaises(ClosedError, call)
        self.assertTrue(issubclass(ClosedError, Error))

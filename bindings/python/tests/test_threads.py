"""Many threads at one handle, and memory."""
import gc
import signal
import unittest
from concurrent.futures import ThreadPoolExecutor
from threading import Barrier

from zaxmonth import ClosedError, Configuration, Error, Exchange, MediaKind, SessionDescription, StateError

from . import OFFER, OWN, own_memory, own_side

THREADS = 100


def at_once(work):
    """What so many threads come to, which all begin at one time."""
    begin = Barrier(THREADS)

    def one(number):
        begin.wait()
        return work(number)

    with ThreadPoolExecutor(THREADS) as pool:
        return list(pool.map(one, range(THREADS)))


class Threads(unittest.TestCase):
    def test_one_description_in_a_hundred_threads(self):
        read = SessionDescription.read(OFFER)
        wanted = (str(read), read.rows(0), read.json(), "0", 1)

        def asks(_number):
            return [(str(read), read.rows(0), read.json(), read.mid(0), read.sections) for _ in range(20)]

        self.assertEqual([found for all_found in at_once(asks) for found in all_found if found != wanted], [])

    def test_one_configuration_in_a_hundred_threads(self):
        config, own = Configuration.defaults(), SessionDescription.read(OWN)
        config.negotiate(OFFER)
        config.answer(own, 0)
        rows, answered = config.rows(), str(own)

        def asks(_number):
            outcomes = config.negotiate(OFFER)
            config.answer(own, 0)
            return [it.accepted for it in outcomes], config.rows(), str(own)

        self.assertEqual([found for found in at_once(asks) if found != ([True], rows, answered)], [])

    def test_answers_that_cross(self):
        configs = [Configuration.defaults() for _ in range(4)]
        owns = [SessionDescription.read(OWN) for _ in range(4)]
        for config in configs:
            config.negotiate(OFFER)

        def asks(number):
            for step in range(20):
                configs[number % 4].answer(owns[(number + step) % 4], 0)
            return str(owns[number % 4])

        self.assertEqual(len(set(at_once(asks))), 1)

    def test_offers_of_one_exchange(self):
        exchange = Exchange(own_side(), Configuration.defaults())
        exchange.add_media(MediaKind.AUDIO)

        def offers(_number):
            made = []
            for _ in range(20):
                try:
                    made.append(exchange.create_offer().version)
                except StateError:
                    exchange.rollback()
            return made

        versions = [it for made in at_once(offers) for it in made]
        self.assertEqual(sorted(versions), list(range(1, len(versions) + 1)))

    def test_a_signal_handler_calls_what_it_interrupts(self):
        read, found = SessionDescription.read(OFFER), []
        wanted = str(read)
        before = signal.signal(signal.SIGALRM, lambda *_: found.append(str(read)))
        signal.setitimer(signal.ITIMER_REAL, 0.001, 0.001)
        try:
            while len(found) < 50:
                self.assertEqual(len(read.rows(0)), 7)
        finally:
            signal.setitimer(signal.ITIMER_REAL, 0)
            signal.signal(signal.SIGALRM, before)
        self.assertEqual(set(found), {wanted})

    def test_one_thread_closes(self):
        for _ in range(5):
            read = SessionDescription.read(OFFER)
            wanted = str(read)

            def asks(number):
                if number == 50:
                    return read.close()
                try:
                    return str(read)
                except ClosedError:
                    return None

            self.assertLessEqual(set(at_once(asks)), {None, wanted})
            self.assertTrue(read.closed)


class Memory(unittest.TestCase):
    def test_nothing_is_left_behind(self):
        def cycle():
            read, config = SessionDescription.read(OWN), Configuration.defaults()
            config.negotiate(OWN)
            config.answer(read, 0)
            self.assertEqual((read.rows(0)[0].pt, read.mid(0), len(read.json()["media"])), (111, "0", 1))
            for refused in (lambda: read.rows(9), lambda: SessionDescription.read("x"), lambda: config.negotiate("x")):
                self.assertRaises(Error, refused)

        for _ in range(500):
            cycle()
        gc.collect()
        before = own_memory()
        for _ in range(2000):
            cycle()
        gc.collect()
        self.assertLess(own_memory() - before, 64)

    def test_exchanges(self):
        def cycle():
            with Exchange(own_side(), Configuration.defaults()) as exchange:
                self.assertEqual(exchange.accept_offer(OFFER).version, 1)
                self.assertRaises(Error, exchange.accept_offer, "x")
                exchange.add_channels()
                exchange.create_offer()
            config = Configuration.defaults()
            self.assertRaises(Error, Exchange, own_side(candidates=["x"]), config)

        for _ in range(200):
            cycle()
        gc.collect()
        before = own_memory()
        for _ in range(1000):
            cycle()
        gc.collect()
        self.assertLess(own_memory() - before, 64)

    def test_reading_alone(self):
        for _ in range(1000):
            SessionDescription.read(OWN)
        before = own_memory()
        for _ in range(20_000):
            SessionDescription.read(OWN)
        self.assertLess(own_memory() - before, 64)

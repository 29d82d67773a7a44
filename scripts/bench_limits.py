"""The limits of reading, rows, rounds and printing: what each example may take beside gst, and what may be held of it.

They are those of Chromium's answer, in microseconds as if gst took so many to read it; of another example they are in proportion to its bytes. In
each turn every call takes what it takes beside gst's reading of the same text: a machine that changes its speed slows both. What counts is the
middle of the turns. A reading keeps its limit by its time or by its instructions, which valgrind counts, where it is installed."""
import re
import shutil
import statistics
import subprocess
from dataclasses import dataclass, field

import bench_driver

OTHER, WHOLE = "gstreamer", "chromium-all-answer"
OF_OTHER = 26.5  # microseconds in which the other library is taken to read the whole example
CALLS = ("read", "rows", "defaults", "rounds", "print")
LIMITS = {"read": 12.0, "rows": 2.4, "rounds": 1.6, "print": 5.5}  # microseconds, of the whole example
INSTRUCTIONS = 100_000  # of its reading
EITHER = ("read", "instructions")  # one of these may be over its limit
COUNTED = (10, 30)  # readings whose instructions are counted: what is done once is taken off
HELD = 2.7  # bytes that a reading may hold for a byte of any text
ALLOCATIONS = 60  # that reading the whole example may make
BATCHES = 1  # of a turn


@dataclass(frozen=True)
class Asked:
    """What is asked of an example: what it takes, how much of it, and how much it may take."""

    what: str
    found: float
    limit: float

    def is_over(self):
        return self.found > self.limit

    def __str__(self):
        digits = 3 if isinstance(self.found, float) else 0
        return f"{self.found:,.{digits}f} of {self.limit:,.{digits}f}"


@dataclass
class Example:
    """A text of so many bytes, the instructions of its reading, where these are counted, and what the driver has said of it, turn by turn."""

    size: int
    instructions: int | None = None
    turns: list = field(default_factory=list)

    def others(self):
        """What the other library took in each turn."""
        return [it[OTHER].nanoseconds for it in self.turns]

    def times(self, call):
        """What a call took in each turn; what goes before rounds is taken off."""
        before = ("rows", "defaults") if call == "rounds" else ()
        return [it[call].nanoseconds - sum(it[earlier].nanoseconds for earlier in before) for it in self.turns]

    def asked(self, whole):
        """All that is asked of it. Its times are told by the other library's of the same text, and that one's by its time of the whole example."""
        part, scale = self.size / whole.size, OF_OTHER * middle_ratio(self.others(), whole.others())
        asked = [Asked(call, scale * middle_ratio(self.times(call), self.others()), limit * part) for call, limit in LIMITS.items()]
        if self.instructions is not None:
            asked.append(Asked("instructions", self.instructions, INSTRUCTIONS * part))
        first = self.turns[0]["read"]
        asked.append(Asked("held", first.held / self.size, HELD))
        # (the last allocation is the driver's own)
        return asked + [Asked("allocations", first.allocations - 1, ALLOCATIONS)] * (self is whole)


def middle_ratio(times, others):
    """The middle of what times take of others, turn by turn."""
    return statistics.median(time / other for time, other in zip(times, others))


def beyond(asked):
    """What is over its limit of all that is asked of an example. A reading is only where both its time and its instructions are."""
    over = [it for it in asked if it.is_over()]
    is_reading_over = all(it.is_over() for it in asked if it.what in EITHER)
    return [it for it in over if is_reading_over or it.what not in EITHER]


def instructions(readings, file):
    """The instructions of a reading; None where valgrind isn't installed."""
    if not shutil.which("valgrind"):
        return None
    few, many = (collected(readings, file, count) for count in COUNTED)
    return round((many - few) / (COUNTED[1] - COUNTED[0]))


def collected(readings, file, count):
    """The instructions of so many readings, and of what is done once."""
    counting = ["valgrind", "--tool=callgrind", "--callgrind-out-file=/dev/null"]
    done = subprocess.run([*counting, readings, str(count), file], stdin=subprocess.DEVNULL, capture_output=True, text=True, check=True)
    return int(re.search(r"Collected : (\d+)", done.stderr)[1])


def timed(driver, readings, files, count):
    """What is asked of the examples, by their files, after so many turns."""
    examples = {it: Example(it.stat().st_size, instructions(readings, it)) for it in files}
    for _ in range(count):
        told, _ = bench_driver.timed(driver, [*CALLS, OTHER], files, BATCHES)
        for file, example in examples.items():
            example.turns.append({it: told[file, it] for it in (*CALLS, OTHER)})
    whole = next(example for file, example in examples.items() if file.stem == WHOLE)
    return {file: example.asked(whole) for file, example in examples.items()}

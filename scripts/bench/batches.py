"""How calls are timed from Python, as from_c.c does from C: the words of the program are BATCHES FILE.."""
import sys
import time
from pathlib import Path

BATCH = 10_000_000  # nanoseconds that a batch takes at least


def taken(call, text, times):
    begin = time.process_time_ns()
    for _ in range(times):
        call(text)
    return time.process_time_ns() - begin


def least(call, text, batches):
    times = 1
    while taken(call, text, times) < BATCH:
        times *= 2
    return min(taken(call, text, times) for _ in range(batches)) / times


def is_read(call, text):
    try:
        call(text)
    except Exception:  # (of whatever kind a library has for it)
        return False
    return True


def show(calls):
    """Prints what each call takes on each text."""
    batches, *paths = sys.argv[1:]
    for path in paths:
        text = Path(path).read_bytes().decode()
        for name, call in calls.items():
            said = f"{least(call, text, int(batches)):.1f}" if is_read(call, text) else "refused"
            print(path, name, said, sep="\t")

"""The driver of the benchmark: how it is built, and what it says of calls over texts.

It is C (scripts/bench/), linked with the static library of crates/bench_calls (static_library.py), and with other libraries that read
descriptions, where their headers are installed."""
import shutil
import subprocess
import sys
from dataclasses import dataclass
from pathlib import Path

import static_library
from proved import TOP
from static_library import run

BUILD = TOP / "build" / "bench"
FLAGS = ["-O2", "-std=c17", "-D_GNU_SOURCE", "-Wall", "-Wextra"]


@dataclass
class Other:
    """Another library: its name, its call and file here, the name that pkg-config knows, and Debian's package."""

    name: str
    call: str
    library: str
    package: str

    def flags(self):
        """How its part is compiled and linked; None where it isn't installed."""
        if not shutil.which("pkg-config"):
            return None
        asked = subprocess.run(["pkg-config", "--cflags", "--libs", self.library], capture_output=True, text=True)
        return asked.stdout.split() if asked.returncode == 0 else None


OTHERS = (
    Other("gst-plugins-base", "gstreamer", "gstreamer-sdp-1.0", "libgstreamer-plugins-base1.0-dev"),
    Other("sofia-sip", "sofia", "sofia-sip-ua", "libsofia-sip-ua-dev"),
)


@dataclass
class Timed:
    """What the driver says of a call over a text: its nanoseconds; and of a first call, with the reading, how many allocations
    it makes, the bytes that are held when the last of them is made, and the most that are held at once."""

    nanoseconds: float
    allocations: int
    held: int
    peak: int


def compiled(name, flags):
    """The path of a C file of scripts/bench/, compiled."""
    to = BUILD / f"{name}.o"
    run(["cc", *FLAGS, *flags, "-c", TOP / "scripts" / "bench" / f"{name}.c", "-o", to])
    return to


def build():
    """Builds the driver; returns its path, and the other libraries that it calls."""
    BUILD.mkdir(parents=True, exist_ok=True)
    print("the static library is built, and proved first where it has changed", file=sys.stderr)
    kit, calls = static_library.kit(), static_library.built("bench_calls", BUILD)
    found = [(it, flags) for it in OTHERS if (flags := it.flags()) is not None]
    parts = [compiled("counted", []), compiled("texts", []), compiled("floor", []), compiled("driver", [f"-DHAS_{it.call.upper()}" for it, _ in found])]
    parts += [compiled(it.call, flags) for it, flags in found]
    to, links = BUILD / "driver", [flag for _, flags in found for flag in flags]
    run(["cc", *parts, calls, kit / "c" / "liblibc_c.a", *links, "-o", to])
    return to, [it for it, _ in found]


def build_readings():
    """Builds the program that reads a text so many times, of which no allocation is counted; returns its path."""
    kit, calls = static_library.kit(), static_library.built("bench_calls", BUILD)
    to = BUILD / "readings"
    run(["cc", compiled("readings", []), calls, kit / "c" / "liblibc_c.a", "-o", to])
    return to


def timed(driver, calls, files, batches):
    """What the driver says, by file and call, None where the text was refused; and nanoseconds of a step of its loop."""
    loop, *lines = run([driver, str(batches), ",".join(calls), *files]).splitlines()
    told = {}
    for line in lines:
        file, call, *numbers = line.split("\t")
        told[Path(file), call] = None if numbers == ["refused"] else Timed(float(numbers[0]), *map(int, numbers[1:]))
    return told, float(loop.split("\t")[1])

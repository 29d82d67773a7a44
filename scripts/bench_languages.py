"""Reading by the C library from C, Go, Python and Rust beside the direct call, and by pion and aiortc: how the programs that time it
(scripts/bench/) are built, what they say, and how long each call may take.

They call the library as ./install puts it into a folder. They take turns at each text, and each starts anew for a turn: so what else the machine
does, and where a process happens to lie in memory, decide little. What a call takes of another is the middle of what it takes in each turn."""
import math
import shutil
import statistics
import subprocess
import sys
from dataclasses import dataclass
from functools import cache
from pathlib import Path
from typing import Callable

import c_library
import static_library
from bench_driver import BUILD, FLAGS, compiled
from proved import TOP
from static_library import run

SOURCES = TOP / "scripts" / "bench"
BINDINGS = TOP / "bindings"
PION = Path("/usr/share/gocode/src/github.com/pion/sdp")  # where Debian has it, for programs that are built without modules
DEBIANS = "/usr/bin/python3"  # the interpreter for which Debian has aiortc
BATCHES = 3  # of a turn


@dataclass(frozen=True)
class Limit:
    """A call may take so many times as long as another."""

    call: str
    times: float
    other: str


# From C and from Rust a tenth is for arguments that are tested, and for the handle, which is an allocation of its own. From Go each call goes to
# the stack of C and back, and malloc takes locks, since the process has threads. JSON is some twice as long as the text. From Python all of it
# is to take less than a reader in Python.
LIMITS = (
    Limit("C", 1.1, "direct"),
    Limit("Rust", 1.1, "direct"),
    Limit("Go", 1.3, "direct"),
    Limit("JSON", 3.0, "C"),
    Limit("Python, JSON", 1.0, "aiortc"),
)


def has_aiortc(python):
    return subprocess.run([python, "-c", "import aiortc"], capture_output=True).returncode == 0


@cache
def interpreter():
    """One that has aiortc, where there is such a one, so that it and this package are timed by the same; and whether it has."""
    there = [it for it in (sys.executable, shutil.which(DEBIANS)) if it]
    return next(((it, True) for it in there if has_aiortc(it)), (sys.executable, False))


@dataclass(frozen=True)
class Installed:
    """What programs are built over: the C library, and the variables by which it is found."""

    static: Path
    env: dict


def installed():
    """Builds the C library, and puts it into a folder."""
    print("the C library is built, and proved first where it has changed", file=sys.stderr)
    made, prefix = c_library.build(), BUILD / "installed"
    shutil.rmtree(prefix, ignore_errors=True)
    c_library.install(made, prefix)
    env = c_library.found(prefix) | {"PYTHONPATH": str(BINDINGS / "python"), "PYTHONDONTWRITEBYTECODE": "1"}
    return Installed(prefix / "lib" / made.static.name, env)


def linked(at, name, *library):
    """The program in C, with the direct call: over the static library, or else by the flags that docs/C.md names."""
    flags = run(["pkg-config", "--cflags", "--libs", "zaxmonth"], env=at.env).split()
    parts, to = [compiled("from_c", flags), compiled("texts", [])], BUILD / name
    direct = [static_library.built("bench_calls", BUILD), static_library.kit() / "c" / "liblibc_c.a"]
    run(["cc", *parts, *direct, *(library or flags), "-o", to])
    return [to]


def in_c(at):
    return linked(at, "from_c")


def in_c_static(at):
    return linked(at, "from_c_static", at.static)


def in_rust(at):
    room = BUILD / "from_rust"
    room.mkdir(parents=True, exist_ok=True)
    package = '[package]\nname = "from_rust"\nversion = "0.0.0"\nedition = "2021"\n'
    program = f'[[bin]]\nname = "from_rust"\npath = "{SOURCES / "from_rust.rs"}"\n'
    needed = f'[dependencies]\nzaxmonth = {{ path = "{BINDINGS / "rust"}" }}\n'
    (room / "Cargo.toml").write_text("\n".join([package, program, needed, "[workspace]\n"]))
    run(["cargo", "build", "--release", "--offline", "--quiet", "--target-dir", room / "target"], room, at.env)
    return [room / "target" / "release" / "from_rust"]


def go_built(at, name, module="", **more):
    """A program in Go, in a folder of its own."""
    room = BUILD / name
    room.mkdir(parents=True, exist_ok=True)
    files = ["batches.go", f"{name}.go"]
    for file in files:
        shutil.copy(SOURCES / file, room)
    if module:
        (room / "go.mod").write_text(f"module {name}\n\ngo 1.19\n\n{module}\n")
    run(["go", "build", "-o", room / name, *files], room, at.env | c_library.of_go(c_library.BUILD / "go") | more)
    return [room / name]


def in_go(at):
    return go_built(at, "from_go", f"require zaxmonth v0.1.0\n\nreplace zaxmonth => {BINDINGS / 'go'}")


def in_python(_at):
    return [interpreter()[0], SOURCES / "from_python.py"]


def of_pion(at):
    return go_built(at, "pion", GO111MODULE="off", GOPATH=str(PION.parents[3]))


def of_aiortc(_at):
    return [interpreter()[0], SOURCES / "of_aiortc.py"]


@dataclass(frozen=True)
class Program:
    """A program: the calls that it times, by what the table calls them; how it is built into a command; and what it needs."""

    calls: dict
    build: Callable
    tools: tuple = ()
    package: str = ""  # of Debian, with what else it needs
    has_package: Callable = lambda: True

    def missing(self):
        """What isn't installed of what it needs."""
        absent = [it for it in self.tools if not shutil.which(it)]
        return absent or ([] if self.has_package() else [self.package])

    def says(self, command, files, env):
        """What it says of files and calls: nanoseconds, without end where the text was refused."""
        for line in run([*command, str(BATCHES), *files], env=env).splitlines():
            file, call, time = line.split("\t")
            if call in self.calls:
                yield (Path(file), self.calls[call]), math.inf if time == "refused" else float(time)


def same(*calls):
    return {it: it for it in calls}


PROGRAMS = (
    Program(same("direct", "C", "JSON"), in_c),
    Program({"C": "static"}, in_c_static),
    Program(same("Rust"), in_rust, ("cargo",)),
    Program(same("Go"), in_go, ("go",)),
    Program(same("Python", "Python, JSON"), in_python),
    Program(same("pion"), of_pion, ("go",), "golang-github-pion-sdp-dev", PION.is_dir),
    Program(same("aiortc"), of_aiortc, (), "python3-aiortc", lambda: interpreter()[1]),
)


@dataclass
class Timing:
    """The programs with their commands, and by file and call what they have said so far, turn by turn."""

    programs: list
    env: dict
    said: dict

    def turns(self, files, count):
        """Lets each program have so many turns at each file."""
        for _ in range(count):
            for file in files:
                for program, command in self.programs:
                    for key, time in program.says(command, [file], self.env):
                        self.said.setdefault(key, []).append(time)

    def least(self, file, call):
        return min(self.said[file, call])

    def calls(self):
        return [it for program, _ in self.programs for it in program.calls.values()]

    def ratio(self, file, limit):
        """What a call takes of what another takes; None where one of both isn't timed, or the other refuses the text."""
        own, other = (self.said.get((file, it), []) for it in (limit.call, limit.other))
        return statistics.median(one / of for one, of in zip(own, other)) if own and other and math.inf not in other else None

    def beyond(self, files):
        """The files and limits that a call passes."""
        asked = [(file, limit, self.ratio(file, limit)) for file in files for limit in LIMITS]
        return [(file, limit, ratio) for file, limit, ratio in asked if ratio is not None and ratio > limit.times]


def timed(files, count):
    """Times all calls by so many turns of each program. Files on which one passes its limit have as many turns again."""
    at = installed()
    timing = Timing([(it, it.build(at)) for it in PROGRAMS if not it.missing()], at.env, {})
    timing.turns(files, count)
    again = {file for file, _, _ in timing.beyond(files)}
    if again:
        timing.turns(sorted(again), count)
    return timing

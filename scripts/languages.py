"""The C library from C and from other languages, through what ./install puts into a folder: the examples print what they have to, the
tests of the bindings pass, each text of data/ is by Python and by Go what is stored, and is answered by each of them as sdpexchange
answers it. What isn't installed of these languages is said, and isn't run."""
import os
import re
import shutil
import subprocess
import sys
from concurrent.futures import ThreadPoolExecutor
from dataclasses import dataclass, field
from pathlib import Path

import c_library
from answering import SIDE
from proved import TOP
from static_library import run

TESTS = TOP / "scripts" / "c_tests"
DATA = TOP / "data"
EXAMPLES = TOP / "examples"
BINDINGS = TOP / "bindings"
OFFER = EXAMPLES / "chromium-audio-offer.sdp"
OWN, STREAMS = TESTS / "short.sdp", TESTS / "streams.sdp"
STRICT = ["-Wall", "-Wextra", "-Werror"]


def missing(*tools):
    """Says which tools aren't installed, where one isn't."""
    absent = [it for it in tools if not shutil.which(it)]
    return f"not run, since {' and '.join(absent)} {'is' if len(absent) == 1 else 'are'}n't installed" if absent else ""


@dataclass
class Tried:
    room: Path  # for what is built
    count: object
    offers: list  # each with what has to come of it (c_answers.py)
    found: dict = field(default_factory=dict)  # the variables by which the library is found

    def prints(self, name, words, wanted):
        """Runs an example, which has to print what stands in such a file."""
        ran = subprocess.run(words, env=self.found, stdin=subprocess.DEVNULL, capture_output=True)
        said, right = ran.stdout + ran.stderr, (TESTS / wanted).read_bytes()
        self.count.is_right(name, "" if said == right else f"it prints\n{said.decode(errors='replace')}and not\n{right.decode()}")

    def passes(self, folder, words, tests):
        """Runs the tests of a binding; `tests` says how many have passed by what they print."""
        how = {"stdin": subprocess.DEVNULL, "stdout": subprocess.PIPE, "stderr": subprocess.STDOUT, "text": True, "errors": "replace"}
        done = subprocess.run(words, cwd=BINDINGS / folder, env=self.found, **how)
        passed = tests(done.stdout)
        self.count.is_right(f"bindings/{folder}", "" if done.returncode == 0 and passed else done.stdout)
        print(f"bindings/{folder}: {passed} tests")

    def texts(self, folder, words):
        """Has a binding write the answers to each text of data/, which have to be those that are stored."""
        out = self.room / f"texts_{folder}"
        shutil.rmtree(out, ignore_errors=True)
        out.mkdir()
        subprocess.run([*words, DATA, out], env=self.found, stdin=subprocess.DEVNULL)
        stored = [path.with_suffix(f".{word}") for path in sorted(DATA.glob("*.sdp")) for word in ("text", "rows", "negotiate")]
        for path in stored:
            is_same = (out / path.name).is_file() and (out / path.name).read_bytes() == path.read_bytes()
            self.count.is_right(f"bindings/{folder}, {path.name}", "" if is_same else "it is another text")
        print(f"bindings/{folder}: {len(stored)} answers are compared")

    def answers(self, name, words):
        """Has an example answer each offer."""
        def fault(offer, wanted):
            ran = subprocess.run([*words, offer, SIDE], env=self.found, stdin=subprocess.DEVNULL, capture_output=True, timeout=60)
            said = ran.returncode, ran.stdout, ran.stderr
            return "" if said == wanted else f"it comes to {said}, and not to {wanted}"

        with ThreadPoolExecutor(len(os.sched_getaffinity(0))) as pool:
            for (offer, _), wrong in zip(self.offers, pool.map(lambda it: fault(*it), self.offers)):
                self.count.is_right(f"{name}, {offer.name}", wrong)
        print(f"{name}: {len(self.offers)} answers are compared")

    def flags(self):
        asked = ["pkg-config", "--cflags", "--libs", "zaxmonth"]
        return subprocess.run(asked, env=self.found, capture_output=True, text=True, check=True).stdout.split()


def in_python(tried):
    at = BINDINGS / "python"
    tried.found = {**tried.found, "PYTHONPATH": str(at), "PYTHONDONTWRITEBYTECODE": "1"}
    tried.prints("bindings/python/examples/rows.py", [sys.executable, at / "examples" / "rows.py", OFFER], "rows.txt")
    tried.prints("bindings/python/examples/answer.py", [sys.executable, at / "examples" / "answer.py", OFFER, OWN], "answered.sdp")
    tried.answers("bindings/python/examples/exchange.py", [sys.executable, at / "examples" / "exchange.py"])
    tried.texts("python", [sys.executable, at / "tests" / "texts.py"])
    tried.passes("python", [sys.executable, "-m", "unittest"], lambda said: sum(map(int, re.findall(r"^Ran (\d+) tests", said, re.M))))


def compiled(tried, compiler, source):
    """An example, compiled by these words."""
    made = tried.room / source.name.replace(".", "_")
    run([*compiler, *STRICT, source, *tried.flags(), "-o", made])
    return made


def in_c(tried):
    tried.prints("rows.c", [compiled(tried, ["cc"], EXAMPLES / "rows.c"), OFFER], "rows.txt")
    tried.answers("exchange.c", [compiled(tried, ["cc"], EXAMPLES / "exchange.c")])


def in_cpp(tried):
    compiler = ["c++", "-std=c++17"]
    tests = compiled(tried, compiler, BINDINGS / "cpp" / "tests.cpp")
    tried.passes("cpp", [tests, OFFER, STREAMS], lambda said: sum(map(int, re.findall(r"^(\d+) passed, 0 failed$", said, re.M))))
    tried.prints("rows.cpp", [compiled(tried, compiler, BINDINGS / "cpp" / "rows.cpp"), OFFER], "rows.txt")
    tried.answers("exchange.cpp", [compiled(tried, compiler, BINDINGS / "cpp" / "exchange.cpp")])


def in_go(tried):
    made = tried.room / "go"
    tried.found = {**tried.found, **c_library.of_go(made)}
    built = subprocess.run(["go", "build", "-o", made, "./..."], cwd=BINDINGS / "go", env=tried.found, capture_output=True, text=True)
    if built.returncode != 0:
        tried.count.is_right("bindings/go", built.stdout + built.stderr)
        return
    tried.prints("bindings/go/examples/rows", [made / "rows", OFFER], "rows.txt")
    tried.prints("bindings/go/examples/answer", [made / "answer", OFFER, OWN], "answered.sdp")
    tried.answers("bindings/go/examples/exchange", [made / "exchange"])
    tried.texts("go", [made / "texts"])
    tried.passes("go", ["go", "test", "-count=1", "-v", "./..."], lambda said: len(re.findall(r"^--- PASS", said, re.M)))


def in_rust(tried):
    asked = ["--offline", "--quiet", "--manifest-path", BINDINGS / "rust" / "Cargo.toml", "--target-dir", tried.room / "rust"]
    tried.passes("rust", ["cargo", "test", *asked], lambda said: sum(map(int, re.findall(r"^test result: ok\. (\d+) passed", said, re.M))))
    tried.prints("rows.rs", ["cargo", "run", *asked, "--example", "rows", OFFER], "rows.txt")
    tried.answers("exchange.rs", [tried.room / "rust" / "debug" / "examples" / "exchange"])  # (which cargo test has built)


# of each language the tools besides Python that it needs
LANGUAGES = (
    ("Python", in_python, ()),
    ("C", in_c, ("pkg-config",)),
    ("C++", in_cpp, ("pkg-config", "c++")),
    ("Go", in_go, ("pkg-config", "go")),
    ("Rust", in_rust, ("pkg-config", "cargo")),
)


def tried(made, room, count, offers):
    """Tries the libraries in each language that is installed, with these offers."""
    prefix = room / "installed"
    shutil.rmtree(prefix, ignore_errors=True)
    c_library.install(made, prefix)
    found = c_library.found(prefix)
    for language, calls, tools in LANGUAGES:
        if why := missing(*tools):
            print(f"{language}: {why}")
        else:
            calls(Tried(room, count, offers, found))

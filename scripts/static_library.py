"""Static libraries of the repository, over what ./test has proved of these very sources: the gate proves them and builds none. That takes one or
two minutes, three where nothing is kept of the crate itself (bases.py). Where ./test hasn't proved these sources, `rt lib` proves the library,
over what the checks of this place have kept."""
import subprocess
import sys
import tempfile
from pathlib import Path

import bases
import proved
from proved import TOP


def run(command, where=TOP, env=None):
    """Runs what has to succeed; what it says is shown where it doesn't."""
    done = subprocess.run(command, cwd=where, env=env, stdin=subprocess.DEVNULL, capture_output=True, text=True)
    if done.returncode != 0:
        print(done.stdout, done.stderr, sep="\n", file=sys.stderr)
        raise SystemExit(f"{' '.join(map(str, command))}: it ends with status {done.returncode}")
    return done.stdout


def kit():
    """The toolchain's folder."""
    return Path(run(["rt", "doc"]).strip()).parent


def over_proved(name, room):
    """The library of a crate, built over the libraries that ./test has proved."""
    made = room / f"lib{name}-{proved.sources(TOP)[:16]}.a"
    if not made.is_file():
        for old in room.glob(f"lib{name}-*.a"):
            old.unlink()
        at = kit()
        rlibs = {it: proved.folder() / "crates" / it / "out" / "rlib" for it in proved.below(name)}
        words = [at / "bin" / "rattle", "build", "--crate-name", name, "src/lib.rt", "--crate-type", "staticlib"]
        for it in ("std", *rlibs):
            words += ["--extern", f"{it}={rlibs.get(it, at / 'rlibs')}/{it}.rlib"]
        words += [word for it in (at / "rlibs", *rlibs.values()) for word in ("-L", f"dependency={it}")]
        words += ["--antt-project", at / "rattle" / "logic" / "antt-project.json", "--logic-built", at / "logic_built"]
        words += ["--toolchain", at / "toolchain", "-o", made]
        with tempfile.TemporaryDirectory(prefix="static-") as kept:
            base = bases.of(name)
            if base:
                bases.lay(base, kept)
            run([*words, "--incremental", kept], TOP / "crates" / name)
    return made


def built(name, room):
    """The static library of a crate of these sources, proved; `room` keeps it where it is built here."""
    room.mkdir(parents=True, exist_ok=True)
    if proved.is_current():
        return over_proved(name, room)
    run(["rt", "lib"], TOP / "crates" / name)
    return TOP / "crates" / name / "out" / f"lib{name}.a"

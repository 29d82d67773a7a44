"""What `rt ci` has checked of each crate, as a base on which the checks of its edits begin.

While rattle proves a crate, it keeps each module that it has checked in a folder of its own, in that for temporary files, and removes them in
the end. They are such as `--incremental` takes, and don't change once they are written; so each gets a second name here while the run
lasts. A base may be incomplete: what is missing, or is of other sources, rattle checks again."""
import contextlib
import os
import re
import shutil
import tempfile
import threading
from pathlib import Path

import proved

RUN = re.compile(r"rattle-logic-built-locked-(\d+)-\d+")
KERNEL = re.compile(rb"^--@ kernel (\S+)$", re.M)
PARTS = (".", "long")  # (the second has those whose names are too long)


def folder(name):
    return proved.folder() / "checked" / name


def of(name):
    """The base of a crate of the copy; None where nothing was kept of it."""
    return folder(name) if any(folder(name).glob("*.oantt")) else None


def crate_of(run):
    """The crate of the copy that the process proves, without its tests; None where it is no such process."""
    with contextlib.suppress(OSError):
        at, words = Path(os.readlink(f"/proc/{run}/cwd")), Path(f"/proc/{run}/cmdline").read_bytes().split(b"\0")
        return at.name if at.parent == proved.folder() / "crates" and b"--test" not in words else None
    return None


def link(modules, to, known=()):
    """Gives the modules of a folder second names in another, but for those that are known; answers all that it has."""
    found = {f"{part}/{name}" for part in PARTS if (modules / part).is_dir() for name in os.listdir(modules / part) if name.endswith(".oantt")}
    for part in PARTS:
        os.makedirs(to / part, exist_ok=True)
    for it in found.difference(known):
        with contextlib.suppress(OSError):
            os.link(modules / it, to / it)
    return found


def keep_all(end):
    known = {}
    while not end.wait(1):
        for it in Path(tempfile.gettempdir()).iterdir():
            run = RUN.fullmatch(it.name)
            name = run and crate_of(run[1])
            with contextlib.suppress(OSError):  # (it ends meanwhile)
                if name and it.stat().st_uid == os.getuid():
                    known[it] = link(it, folder(name), known.get(it, ()))


@contextlib.contextmanager
def kept():
    """Keeps what is checked in the copy as long as the block runs."""
    end = threading.Event()
    keeper = threading.Thread(target=keep_all, args=[end])
    keeper.start()
    try:
        yield
    finally:
        end.set()
        keeper.join()


def kernel(modules):
    """The name under which `--incremental` keeps what this toolchain has checked, by one of the modules in a folder."""
    with open(next(modules.glob("*.oantt")), "rb") as file:
        return KERNEL.search(file.read(4096))[1].decode().replace("/", "_")


def lay(base, to):
    """Has the folder hold the base alone, as `--incremental` looks for it."""
    shutil.rmtree(to, ignore_errors=True)
    link(base, Path(to, kernel(base)))


def without_offers(logic, kept):
    """Leaves a check that keeps what it checks in the folder no place for the files that it would offer; answers its environment.

    Once all is judged, rattle prepares a file of answers for each function that is not proved, an eighth of the time that edits take, and no option
    leaves that out. It does so in a folder beside the kept modules, else in one for temporary files, as it documents nowhere. Where it can make
    neither, it says so, and what it says of the functions is the same; where a later one has a place after all, edits only take longer."""
    os.makedirs(kept, exist_ok=True)
    Path(kept, f"{kernel(logic)}-offers").touch()
    return {**os.environ, "TMPDIR": os.devnull}

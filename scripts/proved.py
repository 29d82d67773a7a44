"""The copy of the repository in which it is proved, and what the proof leaves there: the programs and the libraries.

The copy stands outside the repository, since the gate reads every source below the folder that it judges. It has no
must-fail/: a crate with an edit there is proved a second time, and all edits are tried together by scripts/edits."""
import contextlib
import fcntl
import hashlib
import os
import re
import shutil
import tempfile
import time
from pathlib import Path

TOP = Path(__file__).absolute().parent.parent
PARTS = ("src", "specs", "proofs")
LEFT_OUT = ("out", "must-fail", "edits")


def folder():
    """Where the copy stands: a folder for each user and each place of the repository."""
    key = hashlib.sha256(str(TOP).encode()).hexdigest()[:12]
    return Path(tempfile.gettempdir(), f"sdp-proved-{os.getuid()}-{key}")


def sources(top):
    """One name for all that the gate judges below the folder."""
    files = [top / "crates.txt", top / "HANDLES"]
    for crate in sorted((top / "crates").iterdir()):
        inside = [it for it in crate.rglob("*") if it.is_file() and it.relative_to(crate).parts[0] not in LEFT_OUT]
        files += sorted(inside)
    told = hashlib.sha256()
    for file in files:
        told.update(f"{file.relative_to(top)}\0{file.stat().st_size}\0".encode() + file.read_bytes())
    return told.hexdigest()


@contextlib.contextmanager
def alone():
    """Waits until no other ./test runs in this place of the repository, and keeps others out."""
    with open(f"{folder()}.lock", "w") as lock:
        try:
            fcntl.flock(lock, fcntl.LOCK_EX | fcntl.LOCK_NB)
        except BlockingIOError:
            print("waiting for another ./test here to end", flush=True)
            fcntl.flock(lock, fcntl.LOCK_EX)
        yield


def forget():
    """Removes the copy of an earlier run."""
    shutil.rmtree(folder(), ignore_errors=True)


def copy():
    """Makes the copy anew; returns where it stands."""
    forget()
    to = folder()
    to.mkdir(mode=0o700)
    shutil.copytree(TOP / "crates", to / "crates", ignore=shutil.ignore_patterns(*LEFT_OUT))
    for name in ("crates.txt", "HANDLES"):
        shutil.copyfile(TOP / name, to / name)
    return to


def mark(name):
    """Says in the copy that the crate is proved."""
    (folder() / f"{name}.proved").touch()


def count():
    """How many crates are proved in the copy."""
    return len(list(folder().glob("*.proved")))


def end(is_proved):
    """Says in the copy that the gate has ended, and whether it has passed over these sources."""
    folder().mkdir(mode=0o700, exist_ok=True)
    (folder() / "ended").write_text(sources(folder()) if is_proved else "")


def has_ended():
    return (folder() / "ended").is_file()


def is_current():
    """Whether the gate has passed over these very sources."""
    return has_ended() and (folder() / "ended").read_text() == sources(TOP)


def wait_for(names):
    """Waits until the gate, which runs beside this, has proved the crates, or has ended without that."""
    while not has_ended() and not all((folder() / f"{it}.proved").is_file() for it in names):
        time.sleep(1)


def wait_for_end():
    """Waits until the gate, which runs beside this, has ended; returns whether it has passed over these sources."""
    while not has_ended():
        time.sleep(1)
    return is_current()


def below(name):
    """The libraries of the repository that a crate stands on, lowest first."""
    listed = dict(re.findall(r"^(\w+)[^:\n]*:(.*)", (TOP / "crates.txt").read_text("utf-8"), re.M))
    own = [it for it in listed[name].split() if it in listed]
    return list(dict.fromkeys(low for it in own for low in [*below(it), it]))


def program(name):
    """The path of a proved program, as the gate has built it from these sources."""
    path = folder() / "crates" / name / "out" / name
    if not is_current() or not path.is_file():
        raise SystemExit(f"{name} as it stands here is not proved: run ./test proofs first")
    return path

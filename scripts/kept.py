"""Which edits the prover has refused in earlier runs on this machine. What is kept of an edit holds for these very sources of
its crate and of the libraries below, this toolchain and this way to judge, so it never goes stale: a change to any of them is
another name. As the toolchain's own gate does with proofs, it is taken from a folder that is this user's alone."""
import fcntl
import hashlib
import json
import os
import subprocess
import tempfile
from pathlib import Path

import proved

FOLDER = Path(os.environ.get("XDG_CACHE_HOME") or Path.home() / ".cache", "sdp-edits")
MOST = 8  # tables of one crate, the newest: each is one state of the sources


def toolchain():
    """One name for the toolchain, and for what judges its answers."""
    said = subprocess.run(["rt", "version"], capture_output=True, stdin=subprocess.DEVNULL, check=True).stdout
    judges = [proved.TOP / "scripts" / it for it in ("edits", "edit.py", "groups.py", "copies.py", "verdict.py", "bases.py")]
    return hashlib.sha256(b"\0".join([said, *[it.read_bytes() for it in judges]])).hexdigest()


class Kept:
    """The edits of a crate that were refused, and whether each of them says little."""

    def __init__(self, name, sources, is_anew):
        told = hashlib.sha256(repr((toolchain(), sources)).encode()).hexdigest()
        self.name, self.path = name, FOLDER / f"{name}-{told[:32]}.json"
        self.refused = {} if is_anew else self.read()

    def read(self):
        return json.loads(self.path.read_text()) if self.path.is_file() else {}

    @staticmethod
    def of(path):
        return hashlib.sha256(f"{path.name}\0".encode() + path.read_bytes()).hexdigest()

    def add(self, paths, is_little):
        """Keeps that the prover refused these edits, beside what other runs have kept meanwhile."""
        FOLDER.mkdir(mode=0o700, parents=True, exist_ok=True)
        with open(FOLDER / "lock", "w") as turn, tempfile.NamedTemporaryFile("w", dir=FOLDER, delete=False) as file:
            fcntl.flock(turn, fcntl.LOCK_EX)
            json.dump(self.read() | {self.of(it): is_little for it in paths}, file)
            file.close()
            os.replace(file.name, self.path)
        tables = sorted(FOLDER.glob(f"{self.name}-*.json"), key=lambda it: it.stat().st_mtime)
        for old in tables[:-MOST]:
            old.unlink(missing_ok=True)

"""Tests of the package:   python3 -m unittest      (in bindings/python, with the library as README.md there says)"""
import dataclasses
import os
import subprocess
import sys
from pathlib import Path

from zaxmonth import OwnSide

PACKAGE = Path(__file__).resolve().parent.parent
TOP = PACKAGE.parent.parent
EXAMPLES, DATA = TOP / "examples", TOP / "data"
OFFER = (EXAMPLES / "chromium-audio-offer.sdp").read_bytes().decode()
TWO_SECTIONS = (EXAMPLES / "firefox-audio-video-offer.sdp").read_bytes().decode()
OWN = (TOP / "scripts" / "c_tests" / "short.sdp").read_bytes().decode()


def own_side(**other):
    """What this side said when the browsers of data/answers/ took its answers, with what is said otherwise."""
    lines = [line.partition(" ") for line in (EXAMPLES / "own-side.txt").read_text().splitlines()]
    said = {word: [value for it, _, value in lines if it == word] for word, _, _ in lines}
    creds = said["ufrag"][0], said["pwd"][0], said["fingerprint"][0]
    side = OwnSide(*creds, int(said["session-id"][0]), said["stream"][0], said["extension"], said["candidate"])
    return dataclasses.replace(side, **other)


def in_another_process(code, **environment):
    """Runs code in a process of its own, with such variables besides."""
    variables = {**os.environ, **environment, "PYTHONPATH": str(PACKAGE)}
    return subprocess.run([sys.executable, "-c", code], env=variables, cwd=TOP, capture_output=True, text=True, timeout=120)


def own_memory():
    """The memory of its own that the process has, in kB."""
    lines = Path("/proc/self/status").read_text().splitlines()
    return next(int(line.split()[1]) for line in lines if line.startswith("RssAnon:"))

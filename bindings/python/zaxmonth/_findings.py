"""What is found in a text."""
from __future__ import annotations

import ctypes
import json
from ctypes import byref, c_size_t
from dataclasses import dataclass
from typing import List

from ._errors import Status, check
from ._handles import Text, _bytes_of
from ._library import library


@dataclass(frozen=True)
class Finding:
    """Why a text is refused, or what is lost of it."""

    line: int  # from 1
    column: int  # in characters, from 1
    severity: str  # "error", "warning" or "note"
    code: str  # docs/LINT.md says of each what it means and what to do
    message: str

    def __str__(self) -> str:
        return f"{self.line}:{self.column}: {self.severity}: {self.message} [{self.code}]"


def findings(text: Text) -> List[Finding]:
    """What is found in a text, by its lines, whether it describes a session or not. Raises Utf8Error or OutOfMemory."""
    raw, needed, room = _bytes_of(text), c_size_t(4096), b""
    while True:
        room = ctypes.create_string_buffer(needed.value)
        status = library.zax_findings(raw, len(raw), room, len(room), byref(needed))
        if status != Status.ROOM.value:
            check(status)
            break
    found = json.loads(room.raw[: needed.value])
    return [Finding(it["line"], it["column"], it["severity"], it["code"], it["message"]) for it in found]

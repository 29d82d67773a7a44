"""Why a call was refused: an exception for each status of zaxmonth.h."""
from __future__ import annotations

import enum
from typing import ClassVar, Optional

from ._library import RawError


class Status(enum.Enum):
    """What a call answers, by its number in zaxmonth.h."""

    OK = 0
    PARSE = 1
    UTF8 = 2
    MEMORY = 3
    ROOM = 4
    SECTION = 5
    NOTHING = 6
    ARGUMENT = 7
    STATE = 8
    UNREAD = 9
    FIT = 10
    PRINT = 11
    ROWS = 12
    CHANNELS = 13
    NAME = 14
    OWN = 15


class Error(Exception):
    """A call was refused, and nothing has changed.

    `message` says why in a line of English; `line` is the line of the text at fault, from 1, and None where the library tells none."""

    status: ClassVar[Optional[Status]] = None
    meaning: ClassVar[str] = "the call was refused"

    def __init__(self, message: str = "", line: Optional[int] = None) -> None:
        self.message = message or self.meaning
        self.line = line
        super().__init__(self.message)


class ParseError(Error, ValueError):
    """The text describes no session."""

    status = Status.PARSE
    meaning = "the text describes no session"


class Utf8Error(Error, ValueError):
    """The text isn't UTF-8, or a str has a surrogate by itself."""

    status = Status.UTF8
    meaning = "text is not UTF-8"


class OutOfMemory(Error, MemoryError):
    """Memory was refused."""

    status = Status.MEMORY
    meaning = "out of memory"


class RoomError(Error):
    """Room is too small. The methods of this package give as much as is asked for, so none raises it."""

    status = Status.ROOM
    meaning = "the room is too small"


class SectionError(Error, IndexError):
    """There is no such section."""

    status = Status.SECTION
    meaning = "there is no such section or row"


class NothingAgreed(Error):
    """No row of the section's kind is locked, or rows printed there might not be read again."""

    status = Status.NOTHING
    meaning = "nothing is agreed that could be printed there"


class ArgumentError(Error, ValueError):
    """An argument isn't one that the library takes."""

    status = Status.ARGUMENT
    meaning = "an argument is none that the library takes"


class ClosedError(ArgumentError):
    """The object was closed before the call."""

    meaning = "it is closed"


class StateError(Error):
    """The call is out of turn: an offer of this side is open, or none is."""

    status = Status.STATE
    meaning = "the call is out of turn"


class UnreadLine(Error, ValueError):
    """A line of the text, which `line` numbers, fits nowhere, so that what follows it isn't known."""

    status = Status.UNREAD
    meaning = "a line of the text fits nowhere"


class UnfitSection(Error, ValueError):
    """A section breaks a rule of answers, or of later offers; `message` names both."""

    status = Status.FIT
    meaning = "a section breaks a rule"


class UnprintableText(Error, ValueError):
    """A text of this side would be read as something else."""

    status = Status.PRINT
    meaning = "the description would be read as another one"


class NoRows(Error):
    """No row of the configuration is for media of that kind."""

    status = Status.ROWS
    meaning = "this side has no codec for media of that kind"


class NoChannels(Error):
    """This side takes no data channels."""

    status = Status.CHANNELS
    meaning = "this side takes no data channels"


class NoNameLeft(Error):
    """Sections of the session have had each name that is a number of 32 bits."""

    status = Status.NAME
    meaning = "no name is left for a section"


class OwnSideError(Error, ValueError):
    """What this side says of itself has no fingerprint, or a line that is no candidate."""

    status = Status.OWN
    meaning = "a text of this side is no fingerprint, or no candidate"


_OF_EXCHANGES = (StateError, UnreadLine, UnfitSection, UnprintableText, NoRows, NoChannels, NoNameLeft, OwnSideError)
_OF_ALL = (ParseError, Utf8Error, OutOfMemory, RoomError, SectionError, NothingAgreed, ArgumentError)
_OK = Status.OK.value  # (an enum is asked for its value slowly)
_KINDS = {kind.status.value: kind for kind in (*_OF_ALL, *_OF_EXCHANGES)}


def check(status: int, error: Optional[RawError] = None) -> None:
    """Raises the exception of a status that isn't OK."""
    if status == _OK:
        return
    if status not in _KINDS:
        raise Error(f"the call is answered by the unknown status {status}")
    message = error.message.decode("utf-8", "replace") if error else ""
    raise _KINDS[status](message, (error.line or None) if error else None)

"""Rows and outcomes as values."""
from __future__ import annotations

import enum
from dataclasses import dataclass
from typing import Optional

from ._library import NO_TYPE, RawOutcome, RawRow


class Codec(enum.Enum):
    """A codec by its number in zaxmonth.h; `Row.name` has its name. UNKNOWN is one that isn't known here, or has no number."""

    UNKNOWN = 0
    OPUS = 1
    PCMU = 2
    PCMA = 3
    G722 = 4
    CN = 5
    AMR_WB = 6
    H264 = 7
    H265 = 8
    H266 = 9
    VP8 = 10
    VP9 = 11
    AV1 = 12
    TELEPHONE_EVENT = 13
    RTX = 14
    RED = 15
    NULL = 16

    @classmethod
    def _missing_(cls, value: object) -> Optional[Codec]:
        return cls.UNKNOWN if isinstance(value, int) else None


class Feedback(enum.IntFlag):
    """The kinds of feedback (rtcp-fb) of a row."""

    TRANSPORT_CC = 1
    NACK = 2
    PLI = 4
    FIR = 8
    REMB = 16


class Cause(enum.Enum):
    """Why a round was refused; ACCEPTED where it wasn't."""

    ACCEPTED = 0
    TYPE_TOO_LARGE = 1
    CLAIMED_TWICE = 2
    EXHAUSTED = 3
    MEMORY = 4
    OTHER = -1  # one that isn't known here

    @classmethod
    def _missing_(cls, value: object) -> Optional[Cause]:
        return cls.OTHER if isinstance(value, int) else None


def _type(pt: int) -> Optional[int]:
    return None if pt == NO_TYPE else pt


@dataclass(frozen=True)
class Row:
    """A codec under a payload type."""

    pt: int
    rtx: Optional[int]  # the payload type of retransmissions
    red: Optional[int]  # the payload type of RED
    codec: Codec
    name: str  # the name of the codec, as an rtpmap line has it
    clock_rate: int  # at which the codec samples, in Hz
    channels: Optional[int]  # None: not said
    feedback: Feedback
    locked: bool  # whether the other side has agreed to its types
    fmtp: str  # what its format says, as an fmtp line has it; empty where it says nothing

    @classmethod
    def _of(cls, raw: RawRow, name: str, fmtp: str) -> Row:
        types = (raw.pt, _type(raw.rtx), _type(raw.red))
        codec = (Codec(raw.codec), name, raw.clock_rate, raw.channels or None)
        return cls(*types, *codec, Feedback(raw.feedback), bool(raw.locked), fmtp)


@dataclass(frozen=True)
class Outcome:
    """What a round came to."""

    cause: Cause
    pt: Optional[int]  # the payload type at fault

    @classmethod
    def _of(cls, raw: RawOutcome) -> Outcome:
        return cls(Cause(raw.cause), _type(raw.pt))

    @property
    def accepted(self) -> bool:
        return self.cause is Cause.ACCEPTED

    def __str__(self) -> str:
        return {
            Cause.ACCEPTED: "ok",
            Cause.TYPE_TOO_LARGE: f"payload type {self.pt} is above 127",
            Cause.CLAIMED_TWICE: f"payload type {self.pt} is claimed twice",
            Cause.EXHAUSTED: "payload type ranges exhausted",
            Cause.MEMORY: "out of memory",
            Cause.OTHER: "refused",
        }[self.cause]

"""What a section is, as values."""
from __future__ import annotations

import enum
from dataclasses import dataclass

from ._library import RawSection


class MediaKind(enum.Enum):
    """What a section carries; the first two are kinds of media."""

    AUDIO = 0
    VIDEO = 1
    APPLICATION = 2  # data channels
    OTHER_KIND = 3


class Protocol(enum.Enum):
    """What carries a section."""

    RTP = 0
    SCTP = 1


class Direction(enum.Enum):
    """What a side is ready for in a section."""

    SENDRECV = 0
    SENDONLY = 1
    RECVONLY = 2
    INACTIVE = 3


class Setup(enum.Enum):
    """A role in the DTLS handshake."""

    NO_SETUP = 0  # none is said
    ACTPASS = 1
    ACTIVE = 2
    PASSIVE = 3


@dataclass(frozen=True)
class Section:
    """What a section is."""

    kind: MediaKind
    protocol: Protocol
    direction: Direction  # INACTIVE where it says none
    setup: Setup  # where it says one itself
    disabled: bool  # whether its port is 0

    @classmethod
    def _of(cls, raw: RawSection) -> Section:
        carried = MediaKind(raw.kind), Protocol(raw.protocol)
        return cls(*carried, Direction(raw.direction), Setup(raw.setup), bool(raw.disabled))

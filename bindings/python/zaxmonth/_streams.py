"""What a section says of streams, as values."""
from __future__ import annotations

from dataclasses import dataclass
from typing import Optional, Tuple

from ._library import RawExtension, RawLayer, RawRid, RawSource
from ._sections import Direction


@dataclass(frozen=True)
class Msid:
    """The ids of a stream and of a track in it (RFC 8830, section 2)."""

    stream: str  # "-" for none
    track: str

    @classmethod
    def _of(cls, said: str) -> Optional[Msid]:
        return cls(*said.split(" ", 1)) if said else None


@dataclass(frozen=True)
class Extension:
    """A header extension that a section maps (RFC 8285)."""

    id: int  # its number, by which packets have it
    uri: str

    @classmethod
    def _of(cls, raw: RawExtension, uri: str) -> Extension:
        return cls(raw.id, uri)


@dataclass(frozen=True)
class Rid:
    """A stream that may be restricted (RFC 8851)."""

    name: str
    direction: Direction  # SENDONLY or RECVONLY
    restrictions: str  # "pt=96,97;max-width=320"; empty where it has none

    @classmethod
    def _of(cls, raw: RawRid, name: str, restrictions: str) -> Rid:
        return cls(name, Direction(raw.direction), restrictions)


@dataclass(frozen=True)
class Layer:
    """A layer of simulcast (RFC 8853)."""

    name: str  # that of a rid
    direction: Direction  # SENDONLY or RECVONLY
    paused: bool

    @classmethod
    def _of(cls, raw: RawLayer, name: str) -> Layer:
        return cls(name, Direction(raw.direction), bool(raw.paused))


@dataclass(frozen=True)
class Source:
    """A source of RTP packets (RFC 5576). A text is empty where the section doesn't say it."""

    ssrc: int
    repairs: Optional[int]  # the source whose packets it sends again
    cname: str  # the name of the endpoint that sends it
    stream: str  # the id of its stream
    track: str

    @classmethod
    def _of(cls, raw: RawSource, cname: str, stream: str, track: str) -> Source:
        return cls(raw.ssrc, raw.repairs if raw.is_repair else None, cname, stream, track)


@dataclass(frozen=True)
class SourceGroup:
    """Sources that belong together (RFC 5576, section 4.2)."""

    semantics: str  # what they have in common, as "FID"
    ssrcs: Tuple[int, ...]

"""Session descriptions (SDP) and their payload types, read, negotiated, printed and answered by libzaxmonth, whose calls are proved.

    from zaxmonth import Configuration, Exchange, OwnSide, SessionDescription

    with SessionDescription.read(text) as offer:
        for row in offer.rows(0):
            print(row.pt, row.name, row.fmtp)

    with Exchange(OwnSide(ice_ufrag, ice_pwd, fingerprint), Configuration()) as exchange:
        print(exchange.accept_offer(text))

The library is found by its soname, as the loader finds any; the variable ZAXMONTH_LIBRARY names its file instead."""
from ._errors import (
    ArgumentError,
    ClosedError,
    Error,
    NoChannels,
    NoNameLeft,
    NoRows,
    NothingAgreed,
    OutOfMemory,
    OwnSideError,
    ParseError,
    RoomError,
    SectionError,
    StateError,
    Status,
    UnfitSection,
    UnprintableText,
    UnreadLine,
    Utf8Error,
)
from ._exchange import DataChannels, Exchange, OwnSide, SignalingState, VersionedDescription
from ._findings import Finding, findings
from ._handles import Configuration, SessionDescription
from ._library import ABI, library_version
from ._rows import Cause, Codec, Feedback, Outcome, Row
from ._sections import Direction, MediaKind, Protocol, Section, Setup
from ._streams import Extension, Layer, Msid, Rid, Source, SourceGroup

__version__ = "0.1.0"
__all__ = [
    "ABI",
    "ArgumentError",
    "Cause",
    "ClosedError",
    "Codec",
    "Configuration",
    "DataChannels",
    "Direction",
    "Error",
    "Exchange",
    "Extension",
    "Feedback",
    "Finding",
    "Layer",
    "MediaKind",
    "Msid",
    "NoChannels",
    "NoNameLeft",
    "NoRows",
    "NothingAgreed",
    "Outcome",
    "OutOfMemory",
    "OwnSide",
    "OwnSideError",
    "ParseError",
    "Protocol",
    "Rid",
    "RoomError",
    "Row",
    "Section",
    "SectionError",
    "SessionDescription",
    "Setup",
    "SignalingState",
    "Source",
    "SourceGroup",
    "StateError",
    "Status",
    "UnfitSection",
    "UnprintableText",
    "UnreadLine",
    "Utf8Error",
    "VersionedDescription",
    "findings",
    "library_version",
]

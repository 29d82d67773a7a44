"""Exchanges of offers and answers (RFC 3264, RFC 8829): one side of a session."""
from __future__ import annotations

import enum
from ctypes import Array, byref, c_uint32, c_uint64, c_void_p
from dataclasses import dataclass
from typing import Callable, List, Optional, Sequence, Tuple

from ._errors import check
from ._handles import Configuration, SessionDescription, Text, _bytes_of, _Handle
from ._library import RawError, RawOwn, RawSlice, library
from ._rows import Row
from ._sections import Direction, MediaKind


class SignalingState(enum.Enum):
    """Whether an offer of this side waits for its answer (RFC 8829, section 3.2)."""

    STABLE = 0
    HAVE_LOCAL_OFFER = 1


@dataclass(frozen=True)
class DataChannels:
    """Where data channels are reached."""

    port: int = 5000  # of SCTP
    max_message_size: int = 262144  # in bytes; 0 for any


@dataclass(frozen=True)
class OwnSide:
    """What this side says of itself, the same in each of its descriptions."""

    ice_ufrag: Text
    ice_pwd: Text
    fingerprint: Text  # the hash of its certificate: "sha-256 AB:CD:.."
    session_id: int = 1  # in the o= line
    stream_id: Text = "-"  # of what it sends
    extensions: Sequence[Text] = ()  # the header extensions that it knows: their URIs
    candidates: Sequence[Text] = ()  # where it is reached: lines as browsers trickle them, with or without "a="
    channels: Optional[DataChannels] = DataChannels()  # None: it takes no data channels
    audio: Direction = Direction.SENDRECV  # what it is ready for
    video: Direction = Direction.SENDRECV
    receives_simulcast: bool = True


def _unsigned(number: int, bits: int, what: str) -> int:
    """The number, which ctypes would cut where it doesn't fit."""
    if not 0 <= number < 1 << bits:
        raise ValueError(f"{what} is a number of {bits} bits, not {number}")
    return number


def _slice(text: Text) -> RawSlice:
    raw = _bytes_of(text)
    return RawSlice(raw, len(raw))


def _slices(texts: Sequence[Text]) -> Tuple[Array[RawSlice], int]:
    """The texts as an array, and their count."""
    if isinstance(texts, (str, bytes)):
        raise TypeError("several texts are a list, not one text")
    made = [_slice(text) for text in texts]
    return (RawSlice * len(made))(*made), len(made)


def _raw(own: OwnSide) -> RawOwn:
    """The side as C has it. It keeps the texts for as long as it lives."""
    raw = RawOwn(session_id=_unsigned(own.session_id, 64, "session_id"), receives_simulcast=bool(own.receives_simulcast))
    raw.ice_ufrag, raw.ice_pwd = _slice(own.ice_ufrag), _slice(own.ice_pwd)
    raw.fingerprint, raw.stream_id = _slice(own.fingerprint), _slice(own.stream_id)
    raw.extensions, raw.extension_count = _slices(own.extensions)
    raw.candidates, raw.candidate_count = _slices(own.candidates)
    raw.audio, raw.video = Direction(own.audio).value, Direction(own.video).value
    if own.channels is not None:
        raw.has_channels, raw.sctp_port = 1, _unsigned(own.channels.port, 16, "port")
        raw.max_message_size = _unsigned(own.channels.max_message_size, 64, "max_message_size")
    return raw


class VersionedDescription(SessionDescription):
    """An offer or an answer of this side. It prints with its version in the `o=` line: of two of a session the later has the greater."""

    version: int  # 1 at first

    @classmethod
    def _made(cls, pointer: Optional[int], version: int) -> VersionedDescription:
        made = cls.__new__(cls)
        made._pointer, made._rest, made.version = pointer, (None, None), version
        return made

    def print(self) -> str:
        """The description as SDP, as the other side is to get it; `str` of it is the same."""
        return self._text(library.zax_print_version, self.version)


class Exchange(_Handle):
    """One side of a session: it answers offers, makes its own, and takes answers to them.

    An error changes nothing. Any thread may call it; one call waits for another."""

    _free = staticmethod(library.zax_exchange_free)

    def __init__(self, own: OwnSide, config: Configuration) -> None:
        """It takes the configuration, which is closed then; `rows` tells its rows. Raises OwnSideError, Utf8Error or OutOfMemory, and
        then the configuration is as it was."""
        if not isinstance(config, Configuration):
            raise TypeError(f"a configuration is a Configuration, not {type(config).__name__}")
        raw, made, error = _raw(own), c_void_p(), RawError()
        with config._lock:
            given = config._open()
            config._pointer = None  # (nobody frees it meanwhile, whatever comes of the call)
            status = library.zax_exchange_new(byref(raw), given, byref(made), byref(error))
            if not made.value:
                config._pointer = given
        self._pointer = made.value
        check(status, error)

    def _described(self, call: Callable[..., int], *given: object) -> VersionedDescription:
        made, version, error = c_void_p(), c_uint64(), RawError()
        with self._lock:
            check(call(self._open(), *given, byref(made), byref(version), byref(error)), error)
        return VersionedDescription._made(made.value, version.value)

    def accept_offer(self, offer: Text) -> VersionedDescription:
        """Answers an offer of the other side.

        Raises ParseError, Utf8Error, UnreadLine, UnfitSection, UnprintableText, StateError or OutOfMemory."""
        raw = _bytes_of(offer)
        return self._described(library.zax_accept_offer, raw, len(raw))

    def create_offer(self) -> VersionedDescription:
        """Makes an offer of what was added and what goes on, which waits for its answer then.

        Raises StateError, UnprintableText, NoNameLeft or OutOfMemory."""
        return self._described(library.zax_create_offer)

    def accept_answer(self, answer: Text) -> None:
        """Takes the other side's answer to the offer that waits for it. Raises as accept_offer does."""
        raw, error = _bytes_of(answer), RawError()
        with self._lock:
            check(library.zax_accept_answer(self._open(), raw, len(raw), byref(error)), error)

    def rollback(self) -> None:
        """Drops the offer that waits for its answer; where none does, nothing changes."""
        with self._lock:
            check(library.zax_rollback(self._open()))

    def add_media(self, kind: MediaKind, direction: Direction = Direction.SENDRECV) -> None:
        """Has the next offer add a section of media. Raises NoRows or OutOfMemory."""
        error = RawError()
        with self._lock:
            check(library.zax_add_media(self._open(), MediaKind(kind).value, Direction(direction).value, byref(error)), error)

    def add_channels(self) -> None:
        """Has the next offer add a section of data channels. Raises NoChannels or OutOfMemory."""
        error = RawError()
        with self._lock:
            check(library.zax_add_channels(self._open(), byref(error)), error)

    def restart_ice(self, ufrag: Text, pwd: Text) -> None:
        """Has the next description say these credentials of ICE. Raises Utf8Error or OutOfMemory."""
        with self._lock:
            check(library.zax_restart_ice(self._open(), _slice(ufrag), _slice(pwd)))

    def set_direction(self, mid: Text, direction: Direction) -> None:
        """Has the next description say this direction in the section of a mid, to hold its media and to resume it.

        Raises ArgumentError where the mid has more than 16 bytes, Utf8Error or OutOfMemory."""
        raw, number = _bytes_of(mid), Direction(direction).value
        with self._lock:
            check(library.zax_set_direction(self._open(), raw, len(raw), number))

    def rows(self) -> List[Row]:
        """The rows of its configuration."""
        return self._rows(library.zax_exchange_rows, (library.zax_exchange_row_codec, library.zax_exchange_row_fmtp))

    @property
    def state(self) -> SignalingState:
        found = c_uint32()
        with self._lock:
            check(library.zax_exchange_state(self._open(), byref(found)))
        return SignalingState(found.value)

"""Descriptions and configurations: each owns a handle of the library."""
from __future__ import annotations

import functools
import json
import operator
import sys
import threading
from ctypes import byref, c_char, c_int, c_size_t, c_uint32, c_void_p
from typing import Any, Callable, Dict, List, NoReturn, Optional, SupportsIndex, Tuple, TypeVar, Union

from ._errors import ArgumentError, ClosedError, SectionError, Status, Utf8Error, check
from ._library import JSON, NO_TYPE, RawError, RawOutcome, RawRow, library
from ._library import RawExtension, RawGroupSource, RawLayer, RawRid, RawSection, RawSource
from ._rows import Codec, Outcome, Row
from ._sections import Section, Setup
from ._streams import Extension, Layer, Msid, Rid, Source, SourceGroup

Text = Union[str, bytes, bytearray, memoryview]
_Self = TypeVar("_Self", bound="_Handle")
_Item = TypeVar("_Item")
_Call = Callable[..., int]
_ITEMS, _LETTERS = 128, 1024  # room that suffices as a rule
_JSON = json.JSONDecoder()
_NO_ROOM = Status.ROOM.value  # (an enum is asked for its value slowly)


def _bytes_of(text: Text) -> bytes:
    if isinstance(text, str):
        try:
            return str.encode(text)
        except UnicodeEncodeError as error:
            raise Utf8Error() from error
    if isinstance(text, (bytes, bytearray, memoryview)):
        return bytes(text)
    raise TypeError(f"a text is str or bytes, not {type(text).__name__}")


def _index(number: SupportsIndex) -> int:
    """The number of a section; ctypes would cut one that doesn't fit."""
    found = operator.index(number)
    if not 0 <= found <= sys.maxsize:
        raise SectionError()
    return found


@functools.lru_cache(maxsize=None)
def _room_type(kind: type, size: int) -> Any:
    """An array type of ctypes, made once: sizes are powers of two, so there are few."""
    return kind * size


def _size_above(count: int) -> int:
    return 1 << count.bit_length()


class _Handle:
    """A handle of the library, freed once.

    One call at a time may use a handle, and ctypes lets go of the interpreter's lock during a call, so each method holds the lock of its
    handle. Its holder may take it again: a method asks others, and Python may run a signal handler between two calls."""

    _free: Callable[[int], None]
    _lock: threading.RLock
    _pointer: Optional[int] = None

    def __new__(cls, *_given: object, **_named: object) -> Any:
        made = super().__new__(cls)
        made._lock = threading.RLock()
        return made

    def close(self) -> None:
        """Frees the handle, where it isn't freed yet. Behind it every other call raises ClosedError."""
        with self._lock:
            pointer, self._pointer = self._pointer, None
            if pointer:
                self._free(pointer)

    def __del__(self) -> None:
        if self._pointer:
            self.close()

    @property
    def closed(self) -> bool:
        return self._pointer is None

    def __enter__(self: _Self) -> _Self:
        return self

    def __exit__(self, *_raised: object) -> None:
        self.close()

    def __repr__(self) -> str:
        return f"<{type(self).__name__}{', closed' if self.closed else ''}>"

    def __reduce__(self) -> NoReturn:
        raise TypeError(f"a {type(self).__name__} is neither copied nor pickled: it owns a handle")

    def _open(self) -> int:
        if self._pointer is None:
            raise ClosedError()
        return self._pointer

    def _filled(self, call: Callable[..., int], kind: type, size: int, *places: int) -> Tuple[Any, int]:
        """What a call writes, in room for so many items or as many as it asks for, and their count. The lock is held."""
        needed = c_size_t()
        while True:
            room = _room_type(kind, size)()
            status = call(self._open(), *places, room, size, byref(needed))
            if status != _NO_ROOM:
                check(status)
                return room, needed.value
            size = _size_above(needed.value)

    def _answered(self, call: _Call, place: Any, *places: int) -> Any:
        """The place, in which a call writes its answer."""
        with self._lock:
            check(call(self._open(), *places, byref(place)))
        return place

    def _text(self, call: Callable[..., int], *places: int, letters: int = _LETTERS) -> str:
        with self._lock:
            room, length = self._filled(call, c_char, letters, *places)
        return str(memoryview(room)[:length], "utf-8")

    def _items(self, made: Callable[..., _Item], kind: type, call: _Call, texts: Tuple[_Call, ...], *places: int) -> List[_Item]:
        """The items that a call writes, of each what is made of it and of the texts that other calls write."""
        with self._lock:
            room, count = self._filled(call, kind, _ITEMS, *places)
            return [made(room[i], *(self._text(text, *places, i) for text in texts)) for i in range(count)]

    def _rows(self, call: _Call, texts: Tuple[_Call, ...], *places: int) -> List[Row]:
        """The rows that a call writes, with the texts of each that others write: the name of its codec, its format."""
        return self._items(Row._of, RawRow, call, texts, *places)


def _in_range(number: int, most: int) -> int:
    if not 0 <= number <= most:
        raise ArgumentError(f"{number} isn't one of 0 to {most}")
    return number


class SessionDescription(_Handle):
    """A description that was read of a text. Any thread may call it; one call waits for another."""

    _free = staticmethod(library.zax_session_free)
    _letters = _LETTERS

    def __init__(self, text: Text) -> None:
        raw, made, error = _bytes_of(text), c_void_p(), RawError()
        check(library.zax_read(raw, len(raw), byref(made), byref(error)), error)
        self._pointer = made.value
        self._letters = _size_above(3 * len(raw))  # (JSON is some twice as long as the text)
        self._rest = (error.line, error.offset) if error.line else (None, None)

    @classmethod
    def read(cls, text: Text) -> SessionDescription:
        """Reads the description that a text, UTF-8 where it is bytes, begins with. Raises ParseError, Utf8Error or OutOfMemory."""
        return cls(text)

    @property
    def rest_line(self) -> Optional[int]:
        """The line, from 1, at which reading ended; None where all was read."""
        return self._rest[0]

    @property
    def rest_offset(self) -> Optional[int]:
        """The same in bytes of UTF-8, from 0."""
        return self._rest[1]

    def print(self) -> str:
        """The description as SDP, with CR and LF at the end of each line; `str` of it is the same."""
        return self._text(library.zax_print, letters=self._letters)

    def __str__(self) -> str:
        return self.print()

    @property
    def sections(self) -> int:
        """How many sections there are; a section is named by its number, from 0."""
        with self._lock:
            return library.zax_sections(self._open())

    def section(self, section: SupportsIndex) -> Section:
        """What a section is. Raises SectionError."""
        return Section._of(self._answered(library.zax_section_info, RawSection(), _index(section)))

    def is_writable(self, section: SupportsIndex) -> bool:
        """Whether `Configuration.answer` may write into a section. Raises SectionError or OutOfMemory."""
        return bool(self._answered(library.zax_is_writable, c_int(), _index(section)).value)

    def ice_ufrag(self) -> str:
        """The user fragment of ICE of the session, else of the first section that says fragment and password; empty where none does."""
        return self._text(library.zax_ice_ufrag)

    def ice_pwd(self) -> str:
        """The password that belongs to `ice_ufrag`."""
        return self._text(library.zax_ice_pwd)

    def fingerprint(self) -> str:
        """The fingerprint of the session, else of the first section that has one, as `sha-256 AB:CD`; empty where none has."""
        return self._text(library.zax_fingerprint)

    def setup(self) -> Setup:
        """The role of the session, else of the first section that says one."""
        return Setup(self._answered(library.zax_session_setup, c_uint32()).value)

    def candidates(self) -> List[str]:
        """The candidates, each once, without `a=`."""
        with self._lock:
            count = self._answered(library.zax_candidates, c_size_t()).value
            return [self._text(library.zax_candidate, i) for i in range(count)]

    def mid(self, section: SupportsIndex) -> str:
        """The mid of a section; empty where it has none. Raises SectionError."""
        return self._text(library.zax_section_mid, _index(section))

    def msid(self, section: SupportsIndex) -> Optional[Msid]:
        """What the first msid line of a section says; None where it has none. Raises SectionError."""
        return Msid._of(self._text(library.zax_section_msid, _index(section)))

    def extensions(self, section: SupportsIndex) -> List[Extension]:
        """The header extensions of a section, in order. Raises SectionError."""
        calls = library.zax_section_extensions, (library.zax_extension_uri,)
        return self._items(Extension._of, RawExtension, *calls, _index(section))

    def rids(self, section: SupportsIndex) -> List[Rid]:
        """The streams of a section that may be restricted, in order. Raises SectionError."""
        calls = library.zax_section_rids, (library.zax_rid_name, library.zax_rid_restrictions)
        return self._items(Rid._of, RawRid, *calls, _index(section))

    def layers(self, section: SupportsIndex) -> List[Layer]:
        """The layers that a section sends, and then those that it receives, in order. Raises SectionError."""
        calls = library.zax_section_layers, (library.zax_layer_name,)
        return self._items(Layer._of, RawLayer, *calls, _index(section))

    def sources(self, section: SupportsIndex) -> List[Source]:
        """The sources of a section, in order. Raises SectionError."""
        calls = library.zax_section_sources, (library.zax_source_cname, library.zax_source_stream, library.zax_source_track)
        return self._items(Source._of, RawSource, *calls, _index(section))

    def source_groups(self, section: SupportsIndex) -> List[SourceGroup]:
        """The groups of a section's sources, in order. Raises SectionError."""
        at, found = _index(section), {}
        with self._lock:
            for group, ssrc in self._items(lambda it: (it.group, it.ssrc), RawGroupSource, library.zax_section_source_groups, (), at):
                found.setdefault(group, []).append(ssrc)
            return [SourceGroup(self._text(library.zax_group_semantics, at, group), tuple(ssrcs)) for group, ssrcs in found.items()]

    def rows(self, section: SupportsIndex) -> List[Row]:
        """The rows of a section. Raises SectionError."""
        return self._rows(library.zax_rows, (library.zax_row_codec, library.zax_row_fmtp), _index(section))

    def json(self) -> Dict[str, Any]:
        """The description as the library's JSON has it."""
        return _JSON.raw_decode(self._text(getattr(library, JSON), letters=self._letters))[0]  # (no spaces stand around it)


class Configuration(_Handle):
    """The rows of one side, of which some are locked: the default rows at first. Any thread may call it; one call waits for another."""

    _free = staticmethod(library.zax_config_free)

    def __init__(self) -> None:
        self._fill(library.zax_config_defaults)

    def _fill(self, call: Callable[..., int]) -> None:
        made = c_void_p()
        check(call(byref(made)))
        self._pointer = made.value

    @classmethod
    def defaults(cls) -> Configuration:
        """A configuration with the default rows."""
        return cls()

    @classmethod
    def empty(cls) -> Configuration:
        """A configuration without rows."""
        made = cls.__new__(cls)
        made._fill(library.zax_config_empty)
        return made

    def enable(self, codec: Codec, enabled: bool = True, red: bool = False) -> None:
        """Takes all rows of a codec out and, where it is enabled, puts its default rows last.

        They have RED where `red` asks for it and the codec has it. Raises ArgumentError where the codec has no default rows."""
        with self._lock:
            check(library.zax_config_enable(self._open(), codec.value, enabled, red))

    def add(self, pt: int, codec: Codec, clock_rate: int, *, channels: int = 0, rtx: Optional[int] = None, fmtp: Text = "") -> None:
        """Adds a row at the end: with the feedback of its kind, without RED, not locked.

        `clock_rate` is in Hz; 0 channels aren't said; `fmtp` is what an fmtp line says, and what doesn't read there is passed over.
        Raises ArgumentError where the codec has no number, the clock rate is 0 or a number is out of range."""
        types = [_in_range(it, NO_TYPE) for it in (pt, NO_TYPE if rtx is None else rtx)]
        kind, line = (codec.value, _in_range(clock_rate, 2**32 - 1), _in_range(channels, 255)), _bytes_of(fmtp)
        with self._lock:
            check(library.zax_config_add(self._open(), *types, *kind, line, len(line)))

    def negotiate(self, text: Text) -> List[Outcome]:
        """Reads a text, and runs a round for each of its audio and video sections; the outcome of each.

        Raises ParseError or Utf8Error, and then no round has run. A round that is refused changes nothing, and the next one runs."""
        raw, error, needed = _bytes_of(text), RawError(), c_size_t()
        size = _size_above(raw.count(b"m="))  # (each section begins so)
        room = _room_type(RawOutcome, size)()
        with self._lock:
            check(library.zax_negotiate(self._open(), raw, len(raw), room, size, byref(needed), byref(error)), error)
        return [Outcome._of(room[i]) for i in range(needed.value)]

    def rows(self) -> List[Row]:
        """All rows."""
        return self._rows(library.zax_config_rows, (library.zax_config_row_codec, library.zax_config_row_fmtp))

    def answer(self, own: SessionDescription, section: SupportsIndex) -> None:
        """Puts the locked rows of its kind into a section of one's own description. Raises NothingAgreed or SectionError."""
        if not isinstance(own, SessionDescription):
            raise TypeError(f"one's own description is a SessionDescription, not {type(own).__name__}")
        at = _index(section)
        with self._lock, own._lock:  # (the configuration's first, always: so no two answers wait for each other)
            check(library.zax_answer(self._open(), own._open(), at))

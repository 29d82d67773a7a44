"""zaxmonth.h as ctypes has it: the structs, what each call takes and answers, and the library that is loaded."""
from __future__ import annotations

import ctypes
import os
from ctypes import POINTER, Structure, c_char, c_char_p, c_int, c_size_t, c_uint8, c_uint16, c_uint32, c_uint64, c_void_p

ABI = 1  # ZAX_ABI of the header that this package is written for
VARIABLE = "ZAXMONTH_LIBRARY"
SONAME = f"libzaxmonth.so.{ABI}"
NO_TYPE = 255
JSON = "zax_json"  # the call behind SessionDescription.json


class RawRow(Structure):
    _fields_ = [("clock_rate", c_uint32)] + [
        (name, c_uint8) for name in ("pt", "rtx", "red", "channels", "codec", "feedback", "locked", "reserved")
    ]


class RawSection(Structure):
    _fields_ = [(name, c_uint8) for name in ("kind", "protocol", "direction", "setup", "disabled")] + [("reserved", c_uint8 * 3)]


class RawExtension(Structure):
    _fields_ = [("id", c_uint8), ("reserved", c_uint8 * 3)]


class RawRid(Structure):
    _fields_ = [("direction", c_uint8), ("reserved", c_uint8 * 3)]


class RawLayer(Structure):
    _fields_ = [("direction", c_uint8), ("paused", c_uint8), ("reserved", c_uint8 * 2)]


class RawSource(Structure):
    _fields_ = [("ssrc", c_uint32), ("repairs", c_uint32), ("is_repair", c_uint8), ("reserved", c_uint8 * 3)]


class RawGroupSource(Structure):
    _fields_ = [("group", c_size_t), ("ssrc", c_uint32), ("reserved", c_uint32)]


class RawOutcome(Structure):
    _fields_ = [("cause", c_uint8), ("pt", c_uint8)]


class RawError(Structure):
    _fields_ = [("status", c_uint32), ("line", c_uint32), ("offset", c_size_t), ("message", c_char * 240)]


class RawSlice(Structure):
    _fields_ = [("at", c_char_p), ("length", c_size_t)]


class RawOwn(Structure):
    _fields_ = [
        ("session_id", c_uint64),
        *((name, RawSlice) for name in ("ice_ufrag", "ice_pwd", "fingerprint", "stream_id")),
        ("extensions", POINTER(RawSlice)),
        ("extension_count", c_size_t),
        ("candidates", POINTER(RawSlice)),
        ("candidate_count", c_size_t),
        ("max_message_size", c_uint64),
        ("sctp_port", c_uint16),
        *((name, c_uint8) for name in ("has_channels", "audio", "video", "receives_simulcast")),
        ("reserved", c_uint8 * 2),
    ]


_HANDLE, _PLACE, _INDEX = c_void_p, POINTER(c_void_p), c_size_t
_TEXT, _ERROR = (c_char_p, c_size_t), POINTER(RawError)
_ROOM = (c_void_p, c_size_t, POINTER(c_size_t))
# Of each call what it answers and what it takes; a status is a number here.
_CALLS = {
    "zax_version": (c_char_p, ()),
    "zax_abi": (c_uint32, ()),
    "zax_read": (c_uint32, (*_TEXT, _PLACE, _ERROR)),
    "zax_session_free": (None, (_HANDLE,)),
    "zax_print": (c_uint32, (_HANDLE, *_ROOM)),
    "zax_sections": (c_size_t, (_HANDLE,)),
    "zax_section_info": (c_uint32, (_HANDLE, _INDEX, c_void_p)),
    "zax_is_writable": (c_uint32, (_HANDLE, _INDEX, POINTER(c_int))),
    "zax_ice_ufrag": (c_uint32, (_HANDLE, *_ROOM)),
    "zax_ice_pwd": (c_uint32, (_HANDLE, *_ROOM)),
    "zax_fingerprint": (c_uint32, (_HANDLE, *_ROOM)),
    "zax_session_setup": (c_uint32, (_HANDLE, POINTER(c_uint32))),
    "zax_candidates": (c_uint32, (_HANDLE, POINTER(c_size_t))),
    "zax_candidate": (c_uint32, (_HANDLE, _INDEX, *_ROOM)),
    "zax_section_mid": (c_uint32, (_HANDLE, _INDEX, *_ROOM)),
    "zax_section_msid": (c_uint32, (_HANDLE, _INDEX, *_ROOM)),
    "zax_section_extensions": (c_uint32, (_HANDLE, _INDEX, *_ROOM)),
    "zax_extension_uri": (c_uint32, (_HANDLE, _INDEX, _INDEX, *_ROOM)),
    "zax_section_rids": (c_uint32, (_HANDLE, _INDEX, *_ROOM)),
    "zax_rid_name": (c_uint32, (_HANDLE, _INDEX, _INDEX, *_ROOM)),
    "zax_rid_restrictions": (c_uint32, (_HANDLE, _INDEX, _INDEX, *_ROOM)),
    "zax_section_layers": (c_uint32, (_HANDLE, _INDEX, *_ROOM)),
    "zax_layer_name": (c_uint32, (_HANDLE, _INDEX, _INDEX, *_ROOM)),
    "zax_section_sources": (c_uint32, (_HANDLE, _INDEX, *_ROOM)),
    "zax_source_cname": (c_uint32, (_HANDLE, _INDEX, _INDEX, *_ROOM)),
    "zax_source_stream": (c_uint32, (_HANDLE, _INDEX, _INDEX, *_ROOM)),
    "zax_source_track": (c_uint32, (_HANDLE, _INDEX, _INDEX, *_ROOM)),
    "zax_section_source_groups": (c_uint32, (_HANDLE, _INDEX, *_ROOM)),
    "zax_group_semantics": (c_uint32, (_HANDLE, _INDEX, _INDEX, *_ROOM)),
    "zax_rows": (c_uint32, (_HANDLE, _INDEX, *_ROOM)),
    "zax_row_codec": (c_uint32, (_HANDLE, _INDEX, _INDEX, *_ROOM)),
    "zax_row_fmtp": (c_uint32, (_HANDLE, _INDEX, _INDEX, *_ROOM)),
    JSON: (c_uint32, (_HANDLE, *_ROOM)),
    "zax_findings": (c_uint32, (*_TEXT, *_ROOM)),
    "zax_config_defaults": (c_uint32, (_PLACE,)),
    "zax_config_empty": (c_uint32, (_PLACE,)),
    "zax_config_free": (None, (_HANDLE,)),
    "zax_config_enable": (c_uint32, (_HANDLE, c_uint32, c_int, c_int)),
    "zax_config_add": (c_uint32, (_HANDLE, c_uint8, c_uint8, c_uint32, c_uint32, c_uint8, *_TEXT)),
    "zax_negotiate": (c_uint32, (_HANDLE, *_TEXT, *_ROOM, _ERROR)),
    "zax_config_rows": (c_uint32, (_HANDLE, *_ROOM)),
    "zax_config_row_codec": (c_uint32, (_HANDLE, _INDEX, *_ROOM)),
    "zax_config_row_fmtp": (c_uint32, (_HANDLE, _INDEX, *_ROOM)),
    "zax_answer": (c_uint32, (_HANDLE, _HANDLE, _INDEX)),
    "zax_exchange_new": (c_uint32, (POINTER(RawOwn), _HANDLE, _PLACE, _ERROR)),
    "zax_exchange_free": (None, (_HANDLE,)),
    "zax_accept_offer": (c_uint32, (_HANDLE, *_TEXT, _PLACE, POINTER(c_uint64), _ERROR)),
    "zax_create_offer": (c_uint32, (_HANDLE, _PLACE, POINTER(c_uint64), _ERROR)),
    "zax_accept_answer": (c_uint32, (_HANDLE, *_TEXT, _ERROR)),
    "zax_rollback": (c_uint32, (_HANDLE,)),
    "zax_add_media": (c_uint32, (_HANDLE, c_uint32, c_uint32, _ERROR)),
    "zax_add_channels": (c_uint32, (_HANDLE, _ERROR)),
    "zax_restart_ice": (c_uint32, (_HANDLE, RawSlice, RawSlice)),
    "zax_set_direction": (c_uint32, (_HANDLE, *_TEXT, c_uint32)),
    "zax_print_version": (c_uint32, (_HANDLE, c_uint64, *_ROOM)),
    "zax_exchange_rows": (c_uint32, (_HANDLE, *_ROOM)),
    "zax_exchange_row_codec": (c_uint32, (_HANDLE, _INDEX, *_ROOM)),
    "zax_exchange_row_fmtp": (c_uint32, (_HANDLE, _INDEX, *_ROOM)),
    "zax_exchange_state": (c_uint32, (_HANDLE, POINTER(c_uint32))),
}


def _declared(library: ctypes.CDLL, path: str, name: str) -> None:
    try:
        call = getattr(library, name)
    except AttributeError:
        raise ImportError(f"{path} has no {name}: it isn't the libzaxmonth that this package is written for") from None
    call.restype, call.argtypes = _CALLS[name]


def _loaded() -> ctypes.CDLL:
    path = os.environ.get(VARIABLE) or SONAME
    try:
        library = ctypes.CDLL(path)
    except OSError as error:
        raise ImportError(f"libzaxmonth isn't found ({error}): {VARIABLE} names its file, or LD_LIBRARY_PATH its folder") from error
    _declared(library, path, "zax_abi")
    if library.zax_abi() != ABI:
        raise ImportError(f"{path} has ABI {library.zax_abi()}, and this package is written for ABI {ABI}")
    for name in _CALLS:
        _declared(library, path, name)
    return library


library = _loaded()


def library_version() -> str:
    """The version of the library that is loaded."""
    return library.zax_version().decode()

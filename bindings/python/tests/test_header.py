"""Whether the package has what zaxmonth.h declares: numbers, fields of structs, and what each call takes and answers."""
import re
import unittest
from ctypes import POINTER, c_char, c_char_p, c_int, c_size_t, c_uint8, c_uint16, c_uint32, c_uint64, c_void_p

from zaxmonth import ABI, Cause, Codec, Direction, Feedback, MediaKind, Protocol, Setup, SignalingState, Status
from zaxmonth._library import _CALLS, NO_TYPE, RawError, RawOutcome, RawOwn, RawRow, RawSlice
from zaxmonth._library import RawExtension, RawGroupSource, RawLayer, RawRid, RawSection, RawSource

from . import TOP

HEADER = re.sub(r"/\*.*?\*/", "", (TOP / "capi" / "zaxmonth.h").read_text(), flags=re.S)
KINDS = {
    "const char *": c_char_p,
    "char ": c_char,
    "size_t ": c_size_t,
    "uint32_t ": c_uint32,
    "uint64_t ": c_uint64,
    "uint16_t ": c_uint16,
    "uint8_t ": c_uint8,
    "zax_status ": c_uint32,
    "zax_codec ": c_uint32,
    "int ": c_int,
    "zax_kind ": c_uint32,
    "zax_direction ": c_uint32,
    "zax_slice ": RawSlice,
    "const zax_slice *": POINTER(RawSlice),
    "const zax_own *": POINTER(RawOwn),
    "void ": None,
    "size_t *": POINTER(c_size_t),
    "uint32_t *": POINTER(c_uint32),
    "uint64_t *": POINTER(c_uint64),
    "int *": POINTER(c_int),
    "zax_error *": POINTER(RawError),
    "zax_session **": POINTER(c_void_p),
    "zax_config **": POINTER(c_void_p),
    "zax_exchange **": POINTER(c_void_p),
}
HANDLES, ITEMS = ("session", "config", "exchange"), ("row", "outcome", "section", "extension", "rid", "layer", "source", "group_source")
KINDS.update(dict.fromkeys(["char *", *(f"zax_{it} *" for it in HANDLES + ITEMS)], c_void_p))


def numbers(first):
    """The enumerators from such a one on, with their numbers."""
    found, number = {}, -1
    for name, told in re.findall(r"(\w+)(?: = (\d+))?", re.search(rf"\{{\s*({first}\b[^}}]*)\}}", HEADER)[1]):
        number = int(told) if told else number + 1
        found[name] = number
    return found


def fields(struct):
    inside = re.search(rf"typedef struct {struct} \{{(.*?)\}}", HEADER, re.S)[1]
    for kind, name, size in re.findall(r"((?:const )?\w+ \*?)(\w+)(?:\[(\d+)\])?;", inside):
        yield name, KINDS[kind] * int(size) if size else KINDS[kind]


def declared():
    for answer, name, inside in re.findall(r"ZAX_API ((?:const )?\w+ \*?)(zax_\w+)\(([^)]*)\);", HEADER):
        kinds = [re.sub(r"\w+$", "", it.strip()) for it in inside.split(",") if it.strip() != "void"]
        yield name, (KINDS[answer], tuple(KINDS[it] for it in kinds))


class Header(unittest.TestCase):
    def test_numbers(self):
        codecs = {f"ZAX_{it.name}": it.value for it in Codec}
        codecs["ZAX_NULL_CODEC"] = codecs.pop("ZAX_NULL")
        self.assertEqual(codecs, numbers("ZAX_UNKNOWN"))
        self.assertEqual({f"ZAX_E_{it.name}".replace("E_OK", "OK"): it.value for it in Status}, numbers("ZAX_OK"))
        self.assertEqual({f"ZAX_{it.name}": it.value for it in Feedback}, numbers("ZAX_TRANSPORT_CC"))
        causes = {f"ZAX_{it.name}": it.value for it in Cause if it is not Cause.OTHER}
        causes["ZAX_ROUND_MEMORY"] = causes.pop("ZAX_MEMORY")
        self.assertEqual(causes, numbers("ZAX_ACCEPTED"))
        self.assertEqual({f"ZAX_{it.name}": it.value for it in MediaKind}, numbers("ZAX_AUDIO"))
        self.assertEqual({f"ZAX_PROTOCOL_{it.name}": it.value for it in Protocol}, numbers("ZAX_PROTOCOL_RTP"))
        self.assertEqual({f"ZAX_{it.name}": it.value for it in Setup}, numbers("ZAX_NO_SETUP"))
        self.assertEqual({f"ZAX_{it.name}": it.value for it in Direction}, numbers("ZAX_SENDRECV"))
        self.assertEqual({f"ZAX_{it.name}": it.value for it in SignalingState}, numbers("ZAX_STABLE"))
        self.assertEqual({"ZAX_NO_TYPE": NO_TYPE}, numbers("ZAX_NO_TYPE"))
        self.assertIn(f"#define ZAX_ABI {ABI}\n", HEADER)

    def test_structs(self):
        structs = {"zax_row": RawRow, "zax_outcome": RawOutcome, "zax_error": RawError, "zax_slice": RawSlice, "zax_own": RawOwn}
        structs.update({"zax_section": RawSection, "zax_extension": RawExtension, "zax_rid": RawRid, "zax_layer": RawLayer})
        structs.update({"zax_source": RawSource, "zax_group_source": RawGroupSource})
        for struct, raw in structs.items():
            self.assertEqual(list(raw._fields_), list(fields(struct)))

    def test_calls(self):
        calls = dict(declared())
        self.assertEqual(_CALLS, calls)

"""Whether the header of the C library, its shim and the exports of crates/c_calls are of one mind.

Of the exports it makes declarations and structs in C, which the C compiler compares with capi/proved_calls.h and capi/zaxmonth.h: the
number, order and types of parameters and results, the fields of structs with their offsets and sizes, and what each status and codec is
as a number. Names of calls and parameters are compared as text; and of the compiled shim, that it defines each call of the header and
calls each export. Where there is no C compiler, names alone are compared, and that is said."""
import re
import shutil
import subprocess
import tempfile
from dataclasses import dataclass
from pathlib import Path

from proved import TOP

CAPI = TOP / "capi"
CALLS = TOP / "crates" / "c_calls"
PARTS = TOP / "crates" / "c_parts"
SECTION_ITEMS = {
    "Row": "zax_row",
    "SectionExtension": "zax_extension",
    "SectionRid": "zax_rid",
    "SectionLayer": "zax_layer",
    "SectionSource": "zax_source",
    "SourceInGroup": "zax_group_source",
}
ITEMS = {"u8": "uint8_t", "Outcome": "zax_outcome", "&[u8]": "zax_slice", **SECTION_ITEMS}
PLAIN = {"usize": "size_t", "u64": "uint64_t", "u32": "uint32_t", "u16": "uint16_t", "u8": "uint8_t", "bool": "bool"}
HANDLES = {"SessionHandle": "session_handle", "ConfigHandle": "config_handle", "ExchangeHandle": "exchange_handle"}
# Structs of C's layout: the name in C, and the file of c_parts
STRUCTS = {
    "Row": ("zax_row", "row"),
    "Outcome": ("zax_outcome", "row"),
    "Section": ("zax_section", "section"),
    "SectionExtension": ("zax_extension", "extension"),
    "SectionRid": ("zax_rid", "rid"),
    "SectionLayer": ("zax_layer", "layer"),
    "SectionSource": ("zax_source", "source"),
    "SourceInGroup": ("zax_group_source", "source_group"),
    "OwnNumbers": ("struct own_numbers", "side"),
}
# What each status of specs/Told.antt is in the header, each cause of a refused round, and the codecs whose name there isn't their own
STATUSES = {
    "done": "OK",
    "no_session": "E_PARSE",
    "no_utf8": "E_UTF8",
    "no_memory": "E_MEMORY",
    "no_room": "E_ROOM",
    "no_section": "E_SECTION",
    "nothing_agreed": "E_NOTHING",
    "wrong_argument": "E_ARGUMENT",
    "wrong_state": "E_STATE",
    "unread_line": "E_UNREAD",
    "no_fit": "E_FIT",
    "not_printable": "E_PRINT",
    "no_rows": "E_ROWS",
    "no_channels": "E_CHANNELS",
    "no_name": "E_NAME",
    "not_own": "E_OWN",
}
# What each fault of a call of an exchange is in the header
FAULTS = {
    "NotRead": "E_PARSE",
    "Memory": "E_MEMORY",
    "WrongState": "E_STATE",
    "Unread": "E_UNREAD",
    "DoesNotFit": "E_FIT",
    "NotPrintable": "E_PRINT",
    "NoRows": "E_ROWS",
    "NoChannels": "E_CHANNELS",
    "NoName": "E_NAME",
    "NotUtf8": "E_UTF8",
    "NoFingerprint": "E_OWN",
    "NoCandidate": "E_OWN",
}
STATES = {"Stable": "STABLE", "HaveLocalOffer": "HAVE_LOCAL_OFFER"}
CAUSES = {"TypeTooLarge": "TYPE_TOO_LARGE", "ClaimedTwice": "CLAIMED_TWICE", "Exhausted": "EXHAUSTED", "Memory": "ROUND_MEMORY"}
SECTIONS = {("kind", "Unknown"): "OTHER_KIND", ("protocol", "Srtp"): "PROTOCOL_RTP", ("protocol", "Sctp"): "PROTOCOL_SCTP", ("setup", "None"): "NO_SETUP"}
# What each text of a section is in capi/proved_calls.h; those of configurations' rows are the same
TEXTS = {
    "Codec": "ROW_CODEC",
    "Format": "ROW_FORMAT",
    "Msid": "SECTION_MSID",
    "Uri": "EXTENSION_URI",
    "RidName": "RID_NAME",
    "Restrictions": "RID_RESTRICTIONS",
    "Layer": "LAYER_NAME",
    "Cname": "SOURCE_CNAME",
    "Stream": "SOURCE_STREAM",
    "Track": "SOURCE_TRACK",
    "Semantics": "GROUP_SEMANTICS",
}
CODECS = {"Tele": "TELEPHONE_EVENT", "Null": "NULL_CODEC", "AmrWb": "AMR_WB", "other": "UNKNOWN"}


@dataclass
class Export:
    name: str
    parameters: list[tuple[str, str]]  # C's types, and names
    result: str

    def declared(self):
        inside = ", ".join(f"{kind}{'' if kind.endswith('*') else ' '}{name}" for kind, name in self.parameters)
        return f"{self.result} {self.name}({inside or 'void'});"


def crossed(name, kind):
    """The parameters in C of a parameter of an export."""
    if kind == "Global":
        return []
    if slice_ := re.fullmatch(r"&(mut )?\[(\w+|&\[u8\])\]", kind):
        const, more = ("", "cap") if slice_[1] else ("const ", "length")
        return [(f"{const}{ITEMS[slice_[2]]} *", name), ("size_t", f"{name}_{more}")]
    if place := re.fullmatch(r"&mut (\w+)", kind):
        owned = STRUCTS[place[1]][0] if place[1] in STRUCTS else PLAIN.get(place[1])
        return [("struct handle *" if place[1] in HANDLES else f"{owned} *", name)]
    if struct := re.fullmatch(r"&(\w+)", kind):
        return [(f"const {STRUCTS[struct[1]][0]} *", name)]
    return [(PLAIN[kind], name)]


def exports():
    for path in sorted((CALLS / "src").glob("*.rt")):
        for name, inside, result in re.findall(r'^pub extern "C" fn (\w+)\(([^)]*)\)(?: -> (\w+))?', path.read_text("utf-8"), re.M):
            pairs = [it.strip().split(": ", 1) for it in inside.split(",") if it.strip()]
            parameters = [made for it, kind in pairs for made in crossed(it, kind)]
            yield Export(name, parameters, PLAIN[result] if result else "void")


def fields(path, struct):
    """The fields of a struct of C's layout that are in memory: the name of each, its type in C, and how many it is, or 0."""
    text = path.read_text("utf-8")
    inside = re.search(rf"#\[repr\(C\)\]\n(?:#\[.*\]\n)*pub struct {struct} \{{\n(.*?)\n\}}", text, re.S)[1]
    found = re.findall(r"^    (?:pub )?(\w+): (?:\[(\w+); (\d+)\]|([^,]+)),$", inside, re.M)
    kinds = [(name, item or kind, int(count or 0)) for name, item, count, kind in found]
    return [(name, "void *" if kind.startswith("*mut") else PLAIN[kind], count) for name, kind, count in kinds if kind != "Global"]


def declarations(file):
    """The functions that a header declares: of each its name, with the names of its parameters."""
    text = re.sub(r"/\*[\s\S]*?\*/|^#.*$", "", file.read_text(), flags=re.M)
    for name, inside in re.findall(r"\b(zaxp?_\w+)\(([^)]*)\);", text):
        yield name, [re.search(r"\w+$", it.strip())[0] for it in inside.split(",") if it.strip() != "void"]


def asserted(claim):
    return f'_Static_assert({claim}, "{claim}");'


def same_struct(ours, theirs, own):
    """Claims that a struct of the header is this one: it has these fields, at the same places, and nothing besides."""
    members = " ".join(f"{kind}{'' if kind.endswith('*') else ' '}{name}{f'[{count}]' if count else ''};" for name, kind, count in own)
    yield f"struct {ours} {{ {members} }};"
    yield asserted(f"sizeof({theirs}) == sizeof(struct {ours}) && _Alignof({theirs}) == _Alignof(struct {ours})")
    for name, kind, count in own:
        yield asserted(f"offsetof({theirs}, {name}) == offsetof(struct {ours}, {name})")
        yield asserted(f"_Generic((({theirs} *)0)->{name}, {f'{kind} *' if count else kind}: 1, default: 0)")


def numbers():
    """The names of the header with the numbers that the definitions give them."""
    statuses = dict(re.findall(r"^(\w+) = (\d+)$", (CALLS / "specs" / "Told.antt").read_text("utf-8"), re.M))
    yield from ((f"ZAX_{STATUSES[name]}", number) for name, number in statuses.items())
    row = (PARTS / "specs" / "Row.antt").read_text("utf-8")
    for name, number in re.findall(r"^row_codec_number (\w+) = (\d+)$", row, re.M):
        yield f"ZAX_{CODECS.get(name, name.upper())}", number
    section = (PARTS / "specs" / "Section.antt").read_text("utf-8")
    for of, name, number in re.findall(r"^(kind|protocol|direction|setup)_number \(?(?:Some )?(\w+).*= (\d+)$", section, re.M):
        yield f"ZAX_{SECTIONS.get((of, name), name.upper())}", number
    for number, name in re.findall(r"bit (\d+) row\.fb_(\w+)", row):
        yield f"ZAX_{name.upper()}", number
    for name, number in re.findall(r"^c_outcome \(?Err \(?(\w+).*cause = (\d+)", row, re.M):
        yield f"ZAX_{CAUSES[name]}", number
    for file, name in (("SectionTexts", "text_numbered"), ("SectionCalls", "row_text_numbered")):
        found = choices((CALLS / "specs" / f"{file}.antt").read_text("utf-8"), name)
        yield from ((TEXTS[it], number) for number, it in enumerate(found))
    yield from numbers_of_exchanges()


def choices(text, name):
    """What a definition makes of each number from 0 on, which it asks for in order: the last word of it."""
    asked = " ".join(re.search(rf"^{name} n =((?: .*\n| *\n)+)", text, re.M)[1].split())
    tested = re.findall(r"nat_eq n (\d+) then ([\w. ]+?) else", asked)
    if [number for number, _ in tested] != [str(it) for it in range(len(tested))]:
        raise SystemExit(f"{name} asks for other numbers than those from 0 on, in order")
    made = [*(it for _, it in tested), re.search(r"else ([\w. ]+)\)*$", asked)[1]]
    return [re.search(r"\w+$", it)[0] for it in made]


def numbers_of_exchanges():
    fault = (PARTS / "specs" / "Fault.antt").read_text("utf-8")
    for name, number in re.findall(r"^fault_code(?:_of_error)? \(?(\w+).* = (\d+)$", fault, re.M):
        yield f"ZAX_{FAULTS[name]}", number
    side = (PARTS / "specs" / "Side.antt").read_text("utf-8")
    for number, name in re.findall(r"nat_eq n (\d+) then (\w+)", side):
        yield f"ZAX_{name.upper()}", number
    exchanged = (CALLS / "specs" / "ExchangeCalls.antt").read_text("utf-8")
    for name, number in re.findall(r"^exchange_state_number (\w+) = (\d+)$", exchanged, re.M):
        yield f"ZAX_{STATES[name]}", number


def compared(found):
    """A text in C that compiles where header and exports agree."""
    yield from ("#include <stdbool.h>", "#include <stddef.h>", '#include "proved_calls.h"')
    yield from (it.declared() for it in found)
    for struct, (name, file) in STRUCTS.items():
        yield from same_struct(f"rt_{struct}", name, fields(PARTS / "src" / f"{file}.rt", struct))
    for struct, file in HANDLES.items():
        yield from same_struct(f"rt_{file}", "struct handle", fields(PARTS / "src" / f"{file}.rt", struct))
    yield from (asserted(f"{name} == {number}") for name, number in numbers())


def compiles(words, room):
    done = subprocess.run(["cc", "-std=c17", f"-I{CAPI}", *words], cwd=room, capture_output=True, text=True)
    return [] if done.returncode == 0 else [it for it in done.stderr.splitlines() if "error:" in it]


def by_compiler(found):
    with tempfile.TemporaryDirectory() as room:
        Path(room, "compared.c").write_text("\n".join(compared(found)) + "\n")
        yield from compiles(["-c", "compared.c"], room)
        wrong = compiles(["-c", CAPI / "zaxmonth.c", "-fPIC", "-o", "shim.o"], room)
        yield from wrong
        if wrong:
            return
        named = subprocess.run(["nm", "shim.o"], cwd=room, capture_output=True, text=True, check=True).stdout
        defined, called = set(re.findall(r" T (\w+)$", named, re.M)), set(re.findall(r" U (zaxp_\w+)$", named, re.M))
        header = {name for name, _ in declarations(CAPI / "zaxmonth.h")}
        yield from (f"zaxmonth.h declares {it}, and zaxmonth.c doesn't define it" for it in sorted(header - defined))
        yield from (f"zaxmonth.c defines {it}, and zaxmonth.h doesn't declare it" for it in sorted(defined - header))
        yield from (f"zaxmonth.c doesn't call {it.name}" for it in found if it.name not in called)


def faults():
    found = list(exports())
    ours = {it.name: [name for _, name in it.parameters] for it in found}
    theirs = dict(declarations(CAPI / "proved_calls.h"))
    for name in sorted(ours.keys() | theirs.keys()):
        if ours.get(name) != theirs.get(name):
            yield f"{name} has {ours.get(name)} as an export, and {theirs.get(name)} in proved_calls.h"
    if shutil.which("cc"):
        yield from by_compiler(found)
    else:
        print("capi: there is no C compiler, so names alone are compared")

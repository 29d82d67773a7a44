#!/usr/bin/env python3
"""Whether the header of the C library still has all that programs of its ABI were compiled with (docs/C.md, "How the header changes"):

    scripts/c_abi.py            compares the header with capi/abi.txt
    scripts/c_abi.py --write    adds to it what is new in the header; where ZAX_ABI has another number, writes it anew

The file has a line for each call, each struct with its size, each field with its type and offset, and each number of an enum. No line of it may
go. Bytes that are named `reserved` have none, since a later version may give them a meaning; each byte of a struct has a name. Where there is no
C compiler, calls alone are compared."""
import re
import shutil
import subprocess
import sys
import tempfile
from pathlib import Path

from proved import TOP

CAPI = TOP / "capi"
FILE = CAPI / "abi.txt"


def plain(text):
    """A header without comments, on lines that end where a statement does."""
    return re.sub(r"/\*[\s\S]*?\*/|^#.*$", "", text, flags=re.M)


def calls(text):
    return [" ".join(it.split()) for it in re.findall(r"ZAX_API ([^;]*);", text)]


def asked(text):
    """A program that prints structs, fields and numbers."""
    yield from ("#include <stddef.h>", "#include <stdio.h>", '#include "zaxmonth.h"', "int main(void) {")
    for struct, inside in re.findall(r"typedef struct (\w+) \{(.*?)\}", text, re.S):
        yield f'printf("{struct}: %zu bytes\\n", sizeof({struct}));'
        for kind, name, count in re.findall(r"([\w ]+?[ *]+)(\w+)(\[\d+\])?;", inside):
            if name != "reserved":
                yield f'printf("{struct}.{name}: {" ".join(kind.split())}{count} at %zu\\n", offsetof({struct}, {name}));'
    for inside in re.findall(r"enum \w* ?\{(.*?)\}", text, re.S):
        yield from (f'printf("{name} = %d\\n", (int){name});' for name in re.findall(r"\bZAX_\w+", inside))
    yield "return 0; }"


def answered(text):
    if not shutil.which("cc"):
        print("capi/abi.txt: there is no C compiler, so calls alone are compared")
        return []
    with tempfile.TemporaryDirectory() as room:
        Path(room, "asked.c").write_text("\n".join(asked(text)))
        subprocess.run(["cc", "-std=c17", f"-I{CAPI}", "asked.c", "-o", "asked"], cwd=room, check=True, capture_output=True)
        return subprocess.run([f"{room}/asked"], check=True, capture_output=True, text=True).stdout.splitlines()


def unnamed():
    """What the compiler says of bytes without a name: a caller may leave anything in them, so no later version can give them a meaning."""
    if not shutil.which("cc"):
        return []
    words = ["cc", "-std=c17", "-fsyntax-only", "-Wpadded", "-x", "c", CAPI / "zaxmonth.h"]
    said = subprocess.run(words, check=True, capture_output=True, text=True).stderr
    return [it for it in said.splitlines() if "-Wpadded" in it]


def abi_of(text):
    return re.search(r"^#define (ZAX_ABI \d+)$", text, re.M)[1]


def lines():
    """What the header has, and its ABI first."""
    text = (CAPI / "zaxmonth.h").read_text()
    return [abi_of(text), *calls(plain(text)), *answered(plain(text))]


def faults():
    yield from unnamed()
    now, kept = lines(), FILE.read_text().splitlines()
    if now[0].replace("ZAX_ABI ", "ZAXMONTH_") not in (CAPI / "zaxmonth.map").read_text().split():
        yield f"capi/zaxmonth.map has not the version of {now[0]}"
    if kept[0] != now[0]:
        yield f"capi/abi.txt is of {kept[0]}: call scripts/c_abi.py --write"
        return
    looked_for = kept if shutil.which("cc") else [it for it in kept if "(" in it]
    yield from (f"programs of {now[0]} were compiled with this, and the header hasn't it: {it}" for it in looked_for if it not in now)
    yield from (f"capi/abi.txt hasn't this: call scripts/c_abi.py --write: {it}" for it in now if it not in kept)


def write():
    now, kept = lines(), FILE.read_text().splitlines() if FILE.is_file() else [""]
    kept = kept if kept[0] == now[0] else []
    FILE.write_text("".join(f"{it}\n" for it in [*kept, *(it for it in now if it not in kept)]))


def main(words):
    if words == ["--write"]:
        write()
    found = list(faults())
    print("\n".join([*found, f"{int(not found)} passed, {int(bool(found))} failed"]))
    return 1 if found else 0


if __name__ == "__main__":
    sys.exit(main(sys.argv[1:]))

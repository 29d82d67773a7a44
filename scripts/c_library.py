"""The C library: its header, the static and the shared library, and what pkg-config reads of it (docs/C.md); and how it is found, by callers
in other languages, where it is installed."""
import os
import re
import shutil
from dataclasses import dataclass
from pathlib import Path

import static_library
from proved import TOP
from static_library import run

CAPI = TOP / "capi"
BUILD = TOP / "build" / "c"
HEADER = CAPI / "zaxmonth.h"
FLAGS = ["-O2", "-std=c17", "-Wall", "-Wextra", "-Werror", "-fPIC", "-fvisibility=hidden"]
PKG_CONFIG = """prefix={prefix}
libdir=${{prefix}}/lib
includedir=${{prefix}}/include

Name: zaxmonth
Description: session descriptions (SDP) and their payload types
Version: {version}
Libs: -L${{libdir}} -lzaxmonth
Cflags: -I${{includedir}}
"""


def said(word):
    """What the header defines."""
    return re.search(rf'^#define {word} "?([\w.]+)"?$', HEADER.read_text(), re.M)[1]


@dataclass
class Library:
    static: Path
    shared: Path

    def soname(self):
        return self.shared.name


def build(archive=None, flags=()):
    """Builds both libraries over the proved calls, or over such an archive."""
    kit = static_library.kit()
    calls = archive or static_library.built("c_calls", BUILD)
    BUILD.mkdir(parents=True, exist_ok=True)
    shim, whole = BUILD / "zaxmonth.o", BUILD / "whole.o"
    made = Library(BUILD / "libzaxmonth.a", BUILD / f"libzaxmonth.so.{said('ZAX_ABI')}")
    run(["cc", *FLAGS, *flags, "-c", CAPI / "zaxmonth.c", "-o", shim])
    # One object, whose other names are local: a program that links it meets zax_ alone.
    heap = kit / "c" / "liblibc_c.a"
    run(["ld", "-r", "--gc-sections", "--gc-keep-exported", "-o", whole, shim, "--whole-archive", calls, "--no-whole-archive", heap])
    run(["objcopy", "--wildcard", "--keep-global-symbol=zax_*", whole])
    made.static.unlink(missing_ok=True)
    run(["ar", "rcs", made.static, whole])
    linked = ["-Wl,--whole-archive", calls, "-Wl,--no-whole-archive", heap, "-Wl,--gc-sections", "-Wl,-z,defs,-z,relro,-z,now"]
    names = [f"-Wl,-soname,{made.soname()}", f"-Wl,--version-script={CAPI / 'zaxmonth.map'}"]
    run(["cc", "-shared", *flags, "-o", made.shared, shim, *linked, *names])
    return made


def install(made, prefix):
    """Puts header, libraries and zaxmonth.pc below the folder."""
    include, lib = prefix / "include", prefix / "lib"
    for folder in (include, lib / "pkgconfig"):
        folder.mkdir(parents=True, exist_ok=True)
    shutil.copy(HEADER, include)
    shutil.copy(made.static, lib)
    shutil.copy(made.shared, lib)
    link = lib / "libzaxmonth.so"
    link.unlink(missing_ok=True)
    link.symlink_to(made.soname())
    (lib / "pkgconfig" / "zaxmonth.pc").write_text(PKG_CONFIG.format(prefix=prefix, version=said("ZAX_VERSION")))


def found(prefix):
    """The variables by which the library is found below the folder."""
    own = {"PKG_CONFIG_PATH": str(prefix / "lib" / "pkgconfig"), "LD_LIBRARY_PATH": str(prefix / "lib")}
    return {name: text for name, text in os.environ.items() if name != "ZAXMONTH_LIBRARY"} | own


def of_go(room):
    """Those of Go besides: it fetches nothing, and writes nothing outside of the room."""
    room.mkdir(parents=True, exist_ok=True)
    own = {"GOCACHE": str(room / "cache"), "GOPATH": str(room / "path"), "GOPROXY": "off", "GOTOOLCHAIN": "local", "GOWORK": "off"}
    return {"CC": os.environ.get("CC", "cc"), **own, "CGO_ENABLED": "1", "GOFLAGS": "-buildvcs=false"}

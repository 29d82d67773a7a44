#!/usr/bin/env python3
"""Whether a stranger finds a file by its name, which ./test layout asks, too. Each fault is a line, and the last says how many there are.

    scripts/rooms.py names    a file of definitions or laws is named after a module of code of its room
    scripts/rooms.py sizes    no folder of a crate has more than 40 files
    scripts/rooms.py maps     the head of a library's root has a line for each module and each room

The folders of src/ are rooms, and specs/ and proofs/ have the same. `RtpMap.antt` is named after `rtp_map.rt` beside it, or in the singular or
the plural; further words say which definitions or laws these are, as in `RtpMapLaws.antt`. What the modules of a room share may be named after
the room. What a root (`Lib.antt`) or many rooms share has a name of the list, too; a room has a file that lists its own."""
import re
import sys

from proved import TOP

CRATES = TOP / "crates"
SHARED = ("Lib", "Common", "Prelude")
MOST_FILES = 40


def is_named_after(name, modules):
    """Whether the first words of a name are those of a module, in the singular or the plural."""
    words = [it.lower() for it in re.findall(r"[A-Z][^A-Z]*", name)]
    first = {"_".join(words[:count]) for count in range(1, len(words) + 1)}
    return bool((first | {f"{it}s" for it in first} | {it.removesuffix("s") for it in first}) & modules)


def names():
    for crate in sorted(it for it in CRATES.iterdir() if (it / "src").is_dir()):
        rooms = {it.relative_to(crate / "src") for it in (crate / "src").glob("**") if it.is_dir()}
        of_rooms = {it: {file.stem for file in (crate / "src" / it).glob("*.rt")} | {*it.parts} for it in rooms}
        files = [*crate.glob("specs/**/*.antt"), *(file for it in rooms for file in (crate / "proofs" / it).glob("*.antt"))]
        for file in sorted(files):
            room = file.parent.relative_to(crate / file.relative_to(crate).parts[0])
            is_list = file.with_suffix("").is_dir() and room / file.stem in rooms
            if room not in rooms:
                yield f"{file.relative_to(TOP)} stands in no room of the code"
            elif not is_list and file.stem not in SHARED and not is_named_after(file.stem, of_rooms[room]):
                yield f"{file.relative_to(TOP)} is named after no module"


def sizes():
    for folder in sorted(it for it in CRATES.rglob("*") if it.is_dir() and "out" not in it.parts):
        count = sum(1 for it in folder.iterdir() if it.is_file())
        if count > MOST_FILES:
            yield f"{folder.relative_to(TOP)} has {count} files"


def maps():
    for root in sorted(CRATES.glob("*/src/lib.rt")):
        named = re.findall(r"^//! +- `(\w+)`: ", root.read_text("utf-8"), re.M)
        there = [it.stem for it in root.parent.rglob("*.rt") if it != root]
        if len(there) > 1 and sorted(named) != sorted(there):
            yield f"{root.relative_to(TOP)}: its map and its modules differ: {', '.join(sorted(set(named) ^ set(there))) or 'a line is there twice'}"


CHECKS = {"names": names, "sizes": sizes, "maps": maps}

if __name__ == "__main__":
    if len(sys.argv) != 2 or sys.argv[1] not in CHECKS:
        sys.exit(__doc__)
    found = list(CHECKS[sys.argv[1]]())
    print("\n".join([*found, f"{len(found)} faults"]))
    sys.exit(1 if found else 0)

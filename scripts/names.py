#!/usr/bin/env python3
"""Whether each name has one meaning, which ./test layout asks, too. Each fault is a line, and the last says how many there are.

    scripts/names.py

- A definition or a lemma has a name of its own in all crates, whether it is public or not.
- In a crate, so has each free function, type, trait, constant and static of `src/`; types and traits in the four libraries together.

Not counted are methods and cases of enums, which go by their types; fields, constructors and local functions, as those that are private to the
proof of a function; what the toolchain names: goals, proofs of functions (`NAME_spec`) and what stands in `TheSendSync`; and a function that
others call by its module, as `lines::answers`."""
import re
import sys
from collections import defaultdict

from proved import TOP

CRATES = TOP / "crates"
LIBRARIES = ("str0m_values", "str0m_formats", "str0m_sdp", "str0m_signal")
# (public clauses of several types say these, each of its own type, as methods do)
OF_TYPES = {
    "CanBeReadBack": {"FormatParams", "Fingerprint"},
    "defaults": {"H265", "H266"},
    "inverted": {"Direction", "Simulcast"},
    "level_id": {"H265", "H266"},
    "level_ordinal": {"H264", "H265", "H266"},
    "profile_id": {"H265", "H266"},
    "tier_flag": {"H265", "H266"},
}
DEFINED = re.compile(r"(?:(?:abbrev|unfoldable) )?(?:pub )?(?:(record|data|ruleset) )?([^\s(){}.;,@]+)(?: \{[^}]*\})?(?= :|( \(| \{| =))")
NO_NAME = ("use", "mod", "module", "infixl", "infixr", "unfolding", "--")
ITEM = re.compile(r"^(pub(?:\([^)]*\))? )?(?:const |unsafe |extern \"C\" )*(fn|struct|enum|union|trait|type|const|static) (\w+)", re.M)


def items(text):
    """The lines of a file at which definitions and lemmas may begin: those of a block `module` stand deeper."""
    blocks, is_head = [], False  # (of each block round a line where its head stands, and where what is in it)
    for line in text.split("\n"):
        indent = len(line) - len(line.lstrip())
        if not line.strip() or line.lstrip().startswith("--"):
            continue
        if not is_head:
            while blocks and indent <= blocks[-1][0]:
                blocks.pop()
            if blocks and blocks[-1][1] is None:
                blocks[-1][1] = indent
            if indent != (blocks[-1][1] if blocks else 0):
                continue
            is_head = line.lstrip().startswith("module ")
            if is_head:
                blocks.append([indent, None])
            else:
                yield line.strip()
        is_head = is_head and not line.endswith("where")


def is_of_toolchain(name, line, file):
    return line.endswith(f".{name}") or "TheSendSync" in file.parts or (file.stem == "Proof" and name == f"{file.parent.name}_spec")


def is_local(line, file):
    """Whether no other file can import it: it is private to the proof of a function."""
    return file.stem in ("Answers", "Invariants", "Proof") and not re.match(r"(?:abbrev |unfoldable )?pub ", line)


def definitions():
    """The files in which each name is defined, once for each time."""
    found = defaultdict(list)
    for file in sorted([*CRATES.glob("*/specs/**/*.antt"), *CRATES.glob("*/proofs/**/*.antt")]):
        for line in items(file.read_text("utf-8")):
            it = DEFINED.match(line)
            # (what has parameters before the colon is a clause, but of a record or a type)
            if it and it[2] not in NO_NAME and (it[1] or not it[3]) and not is_of_toolchain(it[2], line, file) and not is_local(line, file):
                found[it[2]].append(file.relative_to(CRATES))
    return found


def is_said_by_module(name, file, texts):
    """Whether other files name it by its module alone, and none imports it."""
    others = "\n".join(text for other, text in texts.items() if other != file)
    return f"{file.stem}::{name}(" in others and not re.search(rf"\buse [^;]*\b{file.stem}::(?:\{{[^}}]*\b)?{name}\b", others)


def code(crate):
    """The files of a crate's sources in which each free item is, and whether it is a type."""
    texts = {it: it.read_text("utf-8") for it in sorted((crate / "src").rglob("*.rt"))}
    for file, text in texts.items():
        for it in ITEM.finditer(text):
            if not (it[1] and it[2] == "fn" and is_said_by_module(it[3], file, texts)):
                yield it[3], file.relative_to(CRATES), it[2] in ("struct", "enum", "union", "trait", "type")


def faults():
    for name, files in sorted(definitions().items()):
        if len(files) > 1 and {it.stem for it in files} != OF_TYPES.get(name):
            yield f"{name} is defined in {', '.join(map(str, files))}"
        elif len(files) == 1 and name in OF_TYPES:
            yield f"{name} has one meaning, and needn't be listed"
    types = defaultdict(list)
    for crate in sorted(it for it in CRATES.iterdir() if (it / "src").is_dir()):
        own = defaultdict(list)
        for name, file, is_type in code(crate):
            own[name].append(file)
            if is_type and crate.name in LIBRARIES:
                types[name].append(file)
        for name, files in sorted(own.items()):
            if len(files) > 1:
                yield f"{name} is in {', '.join(map(str, files))}"
    for name, files in sorted(types.items()):
        if len({it.parts[0] for it in files}) > 1:
            yield f"{name} is in {', '.join(map(str, files))}"


if __name__ == "__main__":
    found = list(faults())
    print("\n".join([*found, f"{len(found)} faults"]))
    sys.exit(1 if found else 0)

#!/usr/bin/env python3
"""Whether a type's methods stand in at most three files, which ./test layout asks, too. Each fault is a line, and the last says how many there are.

    scripts/type_files.py

It counts the files of a crate in which a type has `impl` blocks of its own, and those in which it has any. Of these the file that declares a
trait counts for no type: how a trait is kept by several types stands with the trait."""
import re
import sys
from collections import defaultdict

from edit import BLOCK, as_word
from proved import TOP

CRATES = TOP / "crates"
MOST = 3
TRAIT = re.compile(r"^(?:pub(?:\(\w+\))? )?trait (\w+)", re.M)


def blocks(text):
    """Of each `impl` block its trait, where it has one, and its type."""
    for line in text.split("\n"):
        if line.startswith("impl") and (found := BLOCK.match(line)):
            yield found["trait"] and as_word(found["trait"]), as_word(found["type"])


def files_of_types(crate):
    """The files in which each type has blocks of its own, and those in which it has any."""
    own, every = defaultdict(set), defaultdict(set)
    for file in sorted((crate / "src").rglob("*.rt")):
        text = file.read_text("utf-8")
        declared = set(TRAIT.findall(text))
        for trait, kind in blocks(text):
            if trait is None:
                own[kind].add(str(file.relative_to(crate)))
            if trait not in declared:
                every[kind].add(str(file.relative_to(crate)))
    return own, every


def faults():
    for crate in sorted(it for it in CRATES.iterdir() if (it / "src").is_dir()):
        for said, found in zip(("methods", "impl blocks"), files_of_types(crate)):
            for kind, files in sorted(found.items()):
                if len(files) > MOST:
                    yield f"{crate.name}: {kind} has {said} in {len(files)} files, {MOST} at most: {', '.join(sorted(files))}"


if __name__ == "__main__":
    if len(sys.argv) != 1:
        sys.exit(__doc__)
    found = list(faults())
    print("\n".join([*found, f"{len(found)} faults"]))
    sys.exit(1 if found else 0)

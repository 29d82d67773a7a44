#!/usr/bin/env python3
"""Whether blocks of imports are sorted and short, which ./test layout asks, too. Each fault is a line, and the last says how many there are.

    scripts/import_blocks.py --mend   sorts them

A block is lines `use`, `pub use` or `ghost use` of one indent that stand together. It is sorted by the paths of its modules; `use` of code `rt fmt`
sorts. A block has at most 20 lines; what a file passes on (`pub use`) is no import. A list that is parted for its length counts once."""
import re
import sys
from itertools import groupby

from proved import PARTS, TOP

CRATES = TOP / "crates"
MOST = 20
LONG = {  # (of each file that has more, why)
    "c_parts/proofs/PartsSteps.antt": "a proof by hand is made of the logic's own modules",
    "exchange/proofs/offer/OfferRuleLaws.antt": "a law of each section that an offer may have",
    "str0m_formats/proofs/format/FormatLineAgain.antt": "a law over the whole table of keys",
    "str0m_signal/proofs/form/MediaAttributeAgain.antt": "a law of each form of an attribute",
}
USE = re.compile(r"( *)((?:pub(?:\(\w+\))? |ghost )?use) ([\w.:-]+)")


def kind_of(line):
    """The indent and the words that lines of one block begin with; None of another line."""
    found = USE.match(line)
    return found and (found[1], found[2])


def path_of(line):
    return USE.match(line)[3].rstrip(".:")


def lines_of(text):
    """The lines of a source, where an import that takes several lines is one."""
    found = []
    for line in text.split("\n"):
        if found and kind_of(found[-1].split("\n")[0]) and "{" in found[-1] and "}" not in found[-1]:
            found[-1] += f"\n{line}"
        else:
            found.append(line)
    return found


def is_sorted_by_hand(kind, file):
    return kind is not None and (file.suffix == ".antt" or kind[1] == "ghost use")


def files():
    return sorted(it for part in PARTS for it in CRATES.glob(f"*/{part}/**/*") if it.suffix in (".rt", ".antt"))


def faults():
    long = set()
    for file in files():
        for kind, lines in groupby(lines_of(file.read_text("utf-8")), kind_of):
            name, lines = str(file.relative_to(CRATES)), list(lines)
            paths = [path_of(it) for it in lines] if kind else []
            if is_sorted_by_hand(kind, file) and paths != sorted(paths):
                yield f"{name}: its imports aren't sorted: call scripts/import_blocks.py --mend"
            count = len({(path, "{" in line) for path, line in zip(paths, lines)})
            if kind and not kind[1].startswith("pub") and count > MOST:
                long.add(name)
                if name not in LONG:
                    yield f"{name}: a block of imports has {count} lines, {MOST} at most"
    yield from (f"{it} has no long block" for it in sorted(set(LONG) - long))


def mend():
    for file in files():
        text, mended = file.read_text("utf-8"), []
        for kind, lines in groupby(lines_of(text), kind_of):
            mended += sorted(lines, key=path_of) if is_sorted_by_hand(kind, file) else lines
        if "\n".join(mended) != text:
            file.write_text("\n".join(mended), "utf-8")


if __name__ == "__main__":
    if sys.argv[1:] not in ([], ["--mend"]):
        sys.exit(__doc__)
    if sys.argv[1:]:
        mend()
    found = list(faults())
    print("\n".join([*found, f"{len(found)} faults"]))
    sys.exit(1 if found else 0)

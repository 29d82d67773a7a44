"""Whether each label, key and word stands once: its text is a row of one table, and everything else names that row.

A text may stand in one more file, for a definition that can't name the row. Comments don't count, nor does a text within another, as in a
message. Where code and definition share a row, no proof sees a misspelt text; so each stands in a case."""
import re
from collections import defaultdict

from proved import PARTS, TOP

LIBRARIES = ("str0m_values", "str0m_formats", "str0m_sdp", "str0m_signal")
CONSTANT = r'^pub(?:\(crate\))? const \w+: &str = "([^"]+)";$'
TABLES = {  # (of each table the rows' texts)
    "str0m_values/src/candidate_label.rt": CONSTANT,
    "str0m_values/src/direction_label.rt": CONSTANT,
    "str0m_formats/src/codec.rt": r'Codec::\w+ => "([^"]+)"',
    "str0m_formats/src/format/format_key.rt": r'(?:^pub\(crate\) const \w+: &str = |FormatKey::\w+, )"([^"]+)"',
    "str0m_sdp/src/label.rt": CONSTANT,
}
MOST = 2
TEXT = re.compile(r'"((?:[^"\\]|\\.)*)"')


def places():
    """The files of code, definitions and proofs in which each text stands."""
    found = defaultdict(set)
    for file in (it for name in LIBRARIES for part in PARTS for it in (TOP / "crates" / name / part).rglob("*") if it.is_file()):
        code = [it for it in file.read_text("utf-8").split("\n") if not it.lstrip().startswith(("//", "--"))]
        for text in TEXT.findall("\n".join(code)):
            found[text].add(str(file.relative_to(TOP / "crates")))
    return found


def faults():
    """The tables without rows, and the texts that stand in too many files, or in no case."""
    found, cases = places(), "".join(it.read_text("utf-8") for it in (TOP / "cases").glob("*.txt"))
    for table, row in TABLES.items():
        texts = re.findall(row, (TOP / "crates" / table).read_text("utf-8"), re.M)
        if not texts:
            yield f"crates/{table} has no rows"
        for text in texts:
            if len(found[text]) > MOST:
                yield f"{text!r} of crates/{table} stands in {len(found[text])} files: {', '.join(sorted(found[text]))}"
            if text not in cases:
                yield f"{text!r} of crates/{table} stands in no case of cases/"

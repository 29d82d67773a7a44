#!/usr/bin/env python3
"""Whether docs/LINT.md says of each code what the tables of crates/lint say (src/table/), which `sdplint --explain` prints, too.

    scripts/lint_page.py --write   writes the page's lists from it

The page's head is written by hand, down to the line `<!-- codes -->`; what follows is generated. Each row of the tables stands in
cases/lint/ with its code, as well."""
import re
import sys

from proved import TOP

TABLES = TOP / "crates" / "lint" / "src" / "table"
CODES = TOP / "crates" / "lint" / "src" / "code.rt"
PAGE = TOP / "docs" / "LINT.md"
MARK = "<!-- codes -->\n"
HEADS = {  # (of each table the kind, its severity and its head)
    "REFUSALS": ("Refused", "Why a text is refused"),
    "UNFITS": ("Unread", "Why a line fits nowhere"),
    "MISFITS": ("Malformed", "Which part of a known attribute doesn't fit"),
    "UNKNOWNS": ("Unknown", "Why a line is kept unread"),
    "UNSEENS": ("Unseen", "What a line that is read leaves unknown"),
    "CHANGES": ("Changed", "What is lost where a line is printed otherwise"),
    "CONFLICTS": ("Contradiction", "What a line says against others"),
    "FATES": ("Round", "What would come of rounds"),
}
OWN = {"Changed": "Change", "Round": "Fate"}  # (kinds whose severity is that of a case of this enum)
FIELDS = ("name", "title", "remedy", "explanation", "source", "example")
ESCAPE = re.compile(r"\\(.)")


def severities():
    """The severity of each kind, of each change and of what comes of rounds, as code.rt has it."""
    for kinds, severity in re.findall(r"((?:(?:Code|Change|Fate)::\w+(?:\(_\))?(?:\s*\| )?)+)\s*=>\s*(?:\{\s*)?Severity::(\w+)", CODES.read_text("utf-8")):
        for kind in re.findall(r"::(\w+)", kinds):
            yield kind, severity.lower()


def cases_of(enum):
    """The cases of an enum, in the order of their entries."""
    return re.findall(r"^    (\w+),$", re.search(rf"^pub enum {enum} \{{\n(.*?)^\}}", CODES.read_text("utf-8"), re.M | re.S)[1], re.M)


def tables():
    """The entries of each table, as texts by their fields, in the order of the page."""
    texts = "".join(it.read_text("utf-8") for it in sorted(TABLES.glob("*.rt")))
    bodies = dict(re.findall(r"^static (\w+): \[Entry; \d+\] = \[(.*?)^\}?\];", texts, re.M | re.S))
    row = r"Entry \{\s*" + r"\s*".join(rf'{it}: "((?:[^"\\]|\\.)*)",' for it in FIELDS)
    for name in HEADS:
        yield name, [dict(zip(FIELDS, (ESCAPE.sub(r"\1", text) for text in found))) for found in re.findall(row, bodies[name])]


def generated():
    """What follows the page's head."""
    severity = dict(severities())
    for name, rows in tables():
        kind, head = HEADS[name]
        each = [severity[it] for it in cases_of(OWN[kind])] if kind in OWN else [severity[kind]] * len(rows)
        yield f"## {head}: {' and '.join(f'{it}s' for it in dict.fromkeys(each))}\n"
        for row, own in zip(rows, each, strict=True):
            kind = f" ({own})" if len(set(each)) > 1 else ""
            yield f"- `{row['name']}`{kind}: {row['title']}: `{row['example']}`; {row['remedy']}"
        yield ""


def page():
    return "\n".join(generated())


def faults():
    """What differs, and the codes that no case shows."""
    if not PAGE.is_file() or MARK not in PAGE.read_text("utf-8"):
        yield f"docs/LINT.md has no line {MARK.strip()}"
    elif PAGE.read_text("utf-8").split(MARK, 1)[1] != page():
        yield "docs/LINT.md: call scripts/lint_page.py --write"
    cases = "".join(it.read_text("utf-8") for it in (TOP / "cases" / "lint").glob("*.txt"))
    for name, rows in tables():
        yield from (f"no case of cases/lint/ finds {row['name']}" for row in rows if not re.search(rf"^=> \d+:\d+ {row['name']}(?:: .*)?$", cases, re.M))


def main():
    if sys.argv[1:] == ["--write"]:
        head = PAGE.read_text("utf-8").split(MARK, 1)[0]
        PAGE.write_text(head + MARK + page(), "utf-8")
    found = list(faults())
    print("\n".join(found) or "docs/LINT.md says what the table says")
    return 1 if found else 0


if __name__ == "__main__":
    sys.exit(main())

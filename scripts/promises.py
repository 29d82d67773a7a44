"""Whether the mutants that docs/PROOFS.md and docs/EXCHANGE.md name for a promise are there, in the crate that the table or the page says.

A table of docs/PROOFS.md names the crate at the head of its last column. A cell of that column has names of edits, of another crate
after its name and a slash; or it says `those of` a word that stands in another row; or it is a dash. In docs/EXCHANGE.md an item ends
with names in parentheses, after the last `;` there."""
import re

from proved import TOP

PROOFS, EXCHANGE = TOP / "docs" / "PROOFS.md", TOP / "docs" / "EXCHANGE.md"
TABLE = re.compile(r"^.+ \| Mutants of `(\w+)`\n---.*\n((?:.+ \| .+\n)+)", re.M)
NAME = re.compile(r"`([\w/]+)`")
ITEM = re.compile(r"^- (?:.+\n(?:  .+\n)*)", re.M)


def edits(crate):
    return {it.stem for folder in ("edits", "must-fail") for it in (TOP / "crates" / crate / folder).rglob("*.edit")}


def unknown(names, crate):
    """Those of the names that are no edits of the crate, or of the one that they say."""
    for name in names:
        of, _, own = name.rpartition("/")
        if own not in edits(of or crate):
            yield f"no edit {own} in crates/{of or crate}"


def row_faults(cells, crate, rows):
    """What is wrong with a row of a table."""
    mutants = cells[-1]
    of = re.fullmatch(r"those of `(\w+)`", mutants)
    if of:
        if not any(f"`{of[1]}`" in other[-2] and other[-1] != mutants for other in rows):
            yield f"no other row has {of[1]}: {cells[0]}"
    elif mutants != "-":
        names = NAME.findall(mutants)
        yield from unknown(names, crate)
        if not names:
            yield f"no mutant: {cells[0]}"


def proofs_faults():
    text = PROOFS.read_text("utf-8")
    tables = TABLE.findall(text)
    if len(tables) != text.count(" | Mutants of "):
        yield "a table isn't read"
    for crate, body in tables:
        rows = [it.split(" | ") for it in body.splitlines()]
        for cells in rows:
            yield from [f"a row of {len(cells)} cells: {cells[0]}"] if len(cells) != 3 else row_faults(cells, crate, rows)
    every = set().union(*(edits(it.name) for it in (TOP / "crates").iterdir()))
    for said in re.findall(r"Mutants: ([^.]+)\.", text):
        yield from (f"no edit {it}" for it in NAME.findall(said) if it not in every)
    for said in re.findall(r"stand in `mutants/`[^:]*: as ([^.]+)\.", text):
        yield from (f"no mutant {it}" for it in NAME.findall(said) if not (TOP / "mutants" / f"{it}.mutant").is_file())


def exchange_faults():
    for item in ITEM.findall(EXCHANGE.read_text("utf-8")):
        last = re.search(r"\(([^()]*)\)[.;]?\n\Z", item)
        names = [it for it in NAME.findall(last[1].split(";")[-1]) if "_" in it] if last else []
        yield from unknown(names, "exchange")


def faults():
    yield from (f"docs/PROOFS.md: {it}" for it in proofs_faults())
    yield from (f"docs/EXCHANGE.md: {it}" for it in exchange_faults())

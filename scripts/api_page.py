#!/usr/bin/env python3
"""Whether docs/API.md says of each public type and call of the libraries what their sources say: its declaration without clauses, and
the first paragraph of its comment.

    scripts/api_page.py --write    writes the page
    scripts/api_page.py --missing  names what is public and has no comment"""
import sys

import pages
from proved import TOP
from public_items import Library

CRATES = ("str0m_values", "str0m_formats", "str0m_sdp", "str0m_signal", "exchange", "lint")
PAGE = TOP / "docs" / "API.md"
HEAD = """# Every type and call

For whoever looks one up: what is public in the libraries, a crate a chapter, as its sources say it. Made by `scripts/api_page.py --write`. What a call
promises exactly, its clauses, stands at its definition in `crates/NAME/src`. A call whose result may be an `AllocError` or a `Memory` is one that may
need memory.
"""
KINDS = {"field": "Fields", "variant": "Variants", "constant": "Constants", "call": "Calls", "trait": "Traits"}


def line(declared, comment):
    return f"- `{declared}`" + (f": {comment}" if comment else "")


def shown(declared):
    """A declaration, where a private field of a tuple is `_`."""
    head, bracket, parts = declared.partition("(")
    return declared if not bracket or "pub " in parts else f"{head}({', '.join('_' for _ in parts.split(','))})"


def type_lines(item):
    """The chapter of a type or a trait."""
    yield f"### `{item.name}`\n"
    if item.comment:
        yield f"{item.comment}\n"
    yield f"    {shown(item.declared) if item.kind == 'struct' else item.declared}\n"
    for kind, head in KINDS.items():
        own = item.of(kind)
        rest = kind == "trait" and item.traits
        if own or rest:
            yield f"{'Implemented by' if item.kind == 'trait' and kind == 'trait' else head}:\n"
            yield from (line(it.declared, it.comment) for it in own)
            if rest:
                yield f"- {', '.join(f'`{it}`' for it in dict.fromkeys(item.traits))}"
            yield ""


def group_lines(head, comment, found):
    """A chapter of functions or constants."""
    if found:
        yield f"### {head}\n"
        if comment:
            yield f"{comment}\n"
        yield from (line(it.declared, it.comment) for it in found)
        yield ""


def crate_lines(crate, libraries):
    """The chapter of a crate: its types, then its functions, its constants and its public modules."""
    library = libraries[crate]
    yield f"## `{crate}`\n"
    yield f"{library.comment}\n"
    for other, names in library.passed_on.items():
        yield f"It passes on, of `{other}`: {', '.join(f'`{it}`' for it in sorted(names))}.\n"
    own = list(library.own.values())
    for item in own:
        if item.kind in ("struct", "enum", "trait", "type"):
            yield from type_lines(item)
    public = set().union(*(it.own for it in libraries.values()))
    yield from group_lines("Traits of types of other crates", "", [it for of, it in library.others if of in public])
    yield from group_lines(f"Functions of `{crate}`", "", [it for it in own if it.kind == "fn"])
    yield from group_lines(f"Constants of `{crate}`", "", [it for it in own if it.kind in ("const", "static")])
    for module, found in library.modules.items():
        yield from group_lines(f"`{crate}::{module}`", library.comments[module], found)


def page():
    libraries = {it: Library(it) for it in CRATES}
    return "\n".join([HEAD, *(it for crate in CRATES for it in crate_lines(crate, libraries))]).rstrip("\n") + "\n"


def missing():
    """What is public and has no comment."""
    for crate in CRATES:
        library = Library(crate)
        for item in [*library.own.values(), *(it for found in library.modules.values() for it in found)]:
            for it in [item, *item.members]:
                if not it.comment:
                    yield f"{crate}: {item.name}{'' if it is item else '::' + it.name}"


def faults():
    if not PAGE.is_file() or PAGE.read_text("utf-8") != page():
        yield "call scripts/api_page.py --write"
    yield from pages.unnamed(PAGE.read_text("utf-8"), *CRATES)


def main():
    if sys.argv[1:] == ["--missing"]:
        print("\n".join(missing()))
        return 0
    if sys.argv[1:] == ["--write"]:
        PAGE.write_text(page(), "utf-8")
    found = list(faults())
    print("\n".join(found) or "docs/API.md says what the sources say")
    return 1 if found else 0


if __name__ == "__main__":
    sys.exit(main())

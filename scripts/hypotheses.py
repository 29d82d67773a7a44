#!/usr/bin/env python3
"""Whether proofs name what their function's code says, which ./test layout asks, too. Each fault is a line, and the last says how many there are.

    scripts/hypotheses.py

The proofs of a function (`proofs/../FUNCTION/Answers.antt` and the like) name hypotheses and goals after the calls and variables of its code:
`c.in_ok-push_row`, `goal.then-is_new+in_ok-push_row`. Each word of such a name, but those that rattle gives, stands in a source with that
function; behind `clause` stands the name of a clause."""
import re
import sys

from proved import TOP

CRATES = TOP / "crates"
PROOFS = ("Answers", "Invariants", "Ends", "Proof")
NAMED = re.compile(r"\b(?:[cw]|goal)\.([A-Za-z_]\w*(?:[-+]\w+)*)")
IMPORTED = re.compile(r"^use [\w.+]+\.Goals\.\{(.*)\}")
CLAUSE = re.compile(r"\b(?:ensures|requires)\*? (\w+) \{")
# (of steps, operators and calls that code doesn't spell out)
GIVEN = re.compile(
    r"args|branch|clause|decreases|else|end|i|if|in|in_default|in_err|in_ok|init|invariant|invariant_of|is|item|iterator|loop|match|not|preserved"
    r"|requires|returns|smaller|test|then|via|Continue|None|Some|deref|deref_mut|from_residual|index|index_mut|into_iter|next|overflow_\w+|range\w*"
    r"|utf8|writes|(?:start|end)_boundary|(?:eq|ne|le|lt|ge|gt|len)?\d*"
)


def sources(crate):
    """The sources in which each function of a crate stands."""
    found = {}
    for file in sorted((crate / "src").rglob("*.rt")):
        text = file.read_text("utf-8")
        for name in set(re.findall(r"\bfn (\w+)", text)):
            found.setdefault(name, []).append(text)
    return found


def names_of(line):
    """The hypotheses and goals that a line of a proof names."""
    if line.lstrip().startswith("--"):
        return []
    imported = IMPORTED.match(line)
    return imported[1].split(", ") if imported else NAMED.findall(line)


def clauses():
    """The names of clauses, with that which rattle gives to what a `fmt` writes, and those of std on where a text may be cut."""
    return {"writes", "start_boundary", "end_boundary"}.union(*[CLAUSE.findall(it.read_text("utf-8")) for it in CRATES.glob("*/src/**/*.rt")])


def faults():
    named = clauses()
    for crate in sorted(it for it in CRATES.iterdir() if (it / "proofs").is_dir()):
        code = sources(crate)
        for file in sorted(it for it in (crate / "proofs").rglob("*.antt") if it.stem in PROOFS and it.parent.name in code):
            words = set(re.findall(r"\w+", "\n".join(code[file.parent.name])))
            for number, line in enumerate(file.read_text("utf-8").split("\n"), 1):
                for name in names_of(line):
                    for word in re.split("[-+]", name):
                        if word not in words and not GIVEN.fullmatch(word):
                            yield f"{file.relative_to(CRATES)}:{number}: {name}: no {word} stands in the code of {file.parent.name}"
                    for word in re.findall(r"clause-(\w+)", name):
                        if word not in named:
                            yield f"{file.relative_to(CRATES)}:{number}: {name}: no clause is {word}"


if __name__ == "__main__":
    found = list(faults())
    print("\n".join([*found, f"{len(found)} faults"]))
    sys.exit(1 if found else 0)

#!/usr/bin/env python3
"""Whether no line of a proof has more than 140 characters.

    scripts/long_lines.py --mend   breaks those that have, and lays the files out by `rt fmt`

A line may break at any blank, since what goes on is indented deeper; lists of imports are parted. It breaks where a reader looks for it:
outside of brackets before outside of inner ones, before an arrow, after `;` and `in`, before another operator, then between arguments."""
import re
import subprocess
import sys

from proved import TOP

CRATES = TOP / "crates"
MOST = 140
LEAST = 30  # of the first part of a line, without its blanks
OPERATORS = ("→", "×", "≡", "↔", "∙", "$", "++", "≤", "<", "∘", "&&", "||", "+", ">>=", "∷", "≢")
TOKEN = re.compile(r'"(?:[^"\\]|\\.)*"|[^\s"]+')
USE = re.compile(r"((?:pub )?use [\w.-]+\.\{)(.*)\}")


def depths(line):
    """How many brackets are open at each character; those of texts don't count."""
    code = re.sub(r'"(?:[^"\\]|\\.)*"', lambda it: "_" * len(it[0]), line)
    found, depth = [], 0
    for letter in code:
        depth -= letter in ")]}"
        found.append(depth)
        depth += letter in "([{"
    return found


def rank(line, depth, before, token):
    """How badly a line breaks before a token: a reader looks for 0 first."""
    if before == "in" or before.endswith(";") or token == "→":
        return 0
    if before == "=":
        return 0 if depth == 0 and line.lstrip().startswith("let ") else 3
    if before.endswith(",") or token in OPERATORS:
        return 1
    if before in OPERATORS or before in ("let", ":"):
        return 5
    return 6 if token in (":", "=") else 2


def places(line):
    """Where a line may break: each place with its cost. The names of a `λ` stay together."""
    at, tokens, in_names = depths(line), list(TOKEN.finditer(line)), False
    for before, it in zip([None, *tokens], tokens):
        if before and not in_names:
            yield it.start(), 2 * at[it.start() - 1] + rank(line, at[it.start() - 1], before[0], it[0])
        opens = it[0].lstrip("([{").startswith("λ")
        in_names = (in_names or opens) and not it[0].endswith(".")


def parted(line):
    """A line of a proof as several; the later ones stand deeper, but that a further operand of a chain stands under the ones before."""
    indent = len(line) - len(line.lstrip())
    is_operand, found = line.split()[0] in OPERATORS, []
    while len(line) > MOST:
        own = len(line) - len(line.lstrip())
        fitting = [(cost + (at < own + 2 * LEAST), -at) for at, cost in places(line) if own + LEAST <= at <= MOST + 1]
        if not fitting:
            break
        at = -min(fitting)[1]
        is_under = is_operand and depths(line)[at - 1] == 0 and line[at:].split()[0] in OPERATORS
        found.append(line[:at].rstrip())
        line = " " * (indent if is_under else indent + 4) + line[at:]
    return [*found, line]


def joined(begin, items, separator, end=""):
    """The items in as many lines as they need, each with the same beginning and end."""
    found = [begin]
    for item in items:
        if len(found[-1]) + len(item) + len(end) > MOST and found[-1] != begin:
            found[-1] = found[-1].removesuffix(separator) + end
            found.append(begin)
        found[-1] += item + separator
    return [*found[:-1], found[-1].removesuffix(separator) + end]


def mended(line):
    if len(line) <= MOST or re.search(r"\S.* -- |\bdo\b", line):
        return [line]
    if use := USE.fullmatch(line):
        return joined(use[1], re.split(r",\s*", use[2]), ", ", "}")
    if line.lstrip().startswith("--"):
        mark = line[: line.index("--") + 3]
        return joined(mark, line[len(mark) :].split(" "), " ")
    return parted(line)


def proofs():
    return sorted(CRATES.glob("*/proofs/**/*.antt"))


def faults():
    for file in proofs():
        for number, line in enumerate(file.read_text("utf-8").split("\n"), 1):
            if len(line) > MOST:
                yield f"{file.relative_to(TOP)}:{number} has {len(line)} characters: call scripts/long_lines.py --mend"


def mend():
    for file in proofs():
        text = file.read_text("utf-8")
        file.write_text("\n".join(part for line in text.split("\n") for part in mended(line)), "utf-8")
    for crate in sorted({it.relative_to(CRATES).parts[0] for it in proofs()}):
        subprocess.run(["rt", "fmt"], cwd=CRATES / crate, stdin=subprocess.DEVNULL, capture_output=True, check=True)


if __name__ == "__main__":
    for _ in range(3) if sys.argv[1:] == ["--mend"] else ():  # (`rt fmt` may move a part to the right)
        mend()
    found = list(faults())
    print("\n".join([*found, f"{len(found)} faults"]))
    sys.exit(1 if found else 0)

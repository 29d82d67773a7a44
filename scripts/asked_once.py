"""Whether the first refusal of memory is the answer: std's `collect` and `extend` ask again for less, so no source calls them."""
import re

from proved import TOP

ASKS_AGAIN = re.compile(r"\.(collect|extend)(?:::<[^()]*>)?\(")


def faults():
    """The files that call one of them."""
    for file in sorted(TOP.glob("crates/*/src/**/*.rt")):
        for found in ASKS_AGAIN.finditer(file.read_text("utf-8")):
            yield f"{file.relative_to(TOP)}: {found[1]} asks again where memory is refused: push each item, with ?"


if __name__ == "__main__":
    for it in faults():
        print(it)

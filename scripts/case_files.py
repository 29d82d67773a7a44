"""The cases of cases/*.txt: lines `WORD TEXT`, each with its answer under it."""
from dataclasses import dataclass

import proved


@dataclass
class Case:
    place: str  # the file and the line, to be named where it fails
    line: str
    answer: list[str]

    def given(self):
        """The line that the program reads."""
        return f"{self.line}\n".encode()

    def wanted(self):
        """What the program has to write."""
        return "".join(f"{line}\n" for line in (self.line, *self.answer)).encode()


def read_cases():
    """The cases of all files in order, and what is wrong with the files."""
    cases, faults = [], []
    for path in sorted((proved.TOP / "cases").glob("*.txt")):
        for number, line in enumerate(path.read_text("utf-8").rstrip("\n").split("\n"), 1):
            place = f"cases/{path.name}:{number}"
            if line.startswith(("=>", "   ")):
                if line.startswith("=>") == bool(not cases or cases[-1].answer):
                    faults.append(f"{place}: an answer that stands under no case")
                else:
                    cases[-1].answer.append(line)
            elif line.strip() and not line.startswith("#"):
                cases.append(Case(place, line, []))
    faults += [f"{it.place}: {it.line}: it has no answer" for it in cases if not it.answer]
    return cases, faults

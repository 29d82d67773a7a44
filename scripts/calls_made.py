"""Whether a case or a test makes each public call that may need memory: a body that always returns "out of memory" is proved, too.

Such a call is a public function of the libraries whose result may be an error that stands for refused memory. Calls are looked for in the
code that a case (by its first word, in cases/*.txt), a test, or `sdpexchange` comes to, by way of `exchange` too. Code makes a call where it
has `NAME(` for a function, `TYPE::NAME` for one that takes no value, `.NAME(` for a method; where several types have a method of this name,
a parameter is a value of the type, as `value: &TYPE`. Comments and texts are no code.

A case comes to the functions `answers` of the files that have its word, without the arms of `match word` that other words take, and from there
to each function whose name is called."""
import re
from dataclasses import dataclass

from case_files import read_cases
from proved import TOP

CASES, TESTS = ("format_cases", "cases"), ("tests",)
COMMON = ("clone", "push")  # methods that values of std have, too
BLOCK = re.compile(r"^(?:impl(?:<[^{]*?>)? (?:(?P<trait>\w+)[^{]*? for )?(?P<type>\w+)[^{]*)\{$", re.MULTILINE)
FUNCTION = re.compile(r"^ *(?P<public>pub )?(?P<inner>pub\(\w+\) )?(?:const )?fn (?P<name>\w+)(?:<.*?>)?\(", re.MULTILINE)
NO_CODE = re.compile(r"""//.*|'(?:[^'\\\n]|\\.)'|(?P<text>"(?:[^"\\]|\\.)*")""")
INFALLIBLE = "ghost is_infallible = { λ _. Unit"  # of a copy that needs no memory
PRIVATE = re.compile(r"^(?:pub\(\w+\) )?trait (\w+)", re.MULTILINE)
WANT = re.compile(r"impl From<AllocError> for (\w+)")
ARM = re.compile(r'(?:"[\w-]+"\s*(?:\|\s*)?)+(?:if [^=]*)?=> ')
ASKED = re.compile(r"\bmatch (?:word|asked) \{")
WORD = re.compile(r'"([\w-]+)"')
CALLED = re.compile(r"\b(\w+)(?:::<[^()]*>)?\(")


@dataclass(frozen=True)
class Function:
    """A function: its file, the type whose block it stands in, if any, and what it says."""

    file: str
    owner: str | None
    name: str
    parameters: str
    result: str
    body: str
    is_public: bool
    is_open: bool  # to other files of its crate, at least
    is_test: bool

    def is_made_by(self, caller, body, is_shared):
        """Whether the caller makes this call in the body, which is what is left of its own."""
        if self.owner is None:
            return re.search(rf"\b{self.name}\(", body)
        if not re.match(r"&?(?:'\w+ )?(?:mut )?self\b", self.parameters):
            return re.search(rf"\b{self.owner}::{self.name}\b", body)
        if not is_shared:
            return re.search(rf"\.{self.name}(?:::<.*?>)?\(", body)
        values = re.findall(rf"\b(\w+): &(?:'\w+ )?(?:mut )?{self.owner}\b", caller.parameters)
        return any(re.search(rf"\b{it}\.{self.name}\(", body) for it in values)


def code_of(file):
    """A file's code without comments, and with no text but words."""
    kept = lambda found: found[0] if found["text"] and WORD.fullmatch(found[0]) else "0"
    return NO_CODE.sub(kept, file.read_text())


def closing(code, at):
    """Where the bracket that opens here is closed."""
    depth = 0
    for i in range(at, len(code)):
        depth += (code[i] in "({[") - (code[i] in ")}]")
        if not depth:
            return i
    raise ValueError(f"nothing closes {code[at : at + 60]}")


def functions_of(file, private):
    """The functions of a file, without those of private traits."""
    code = code_of(file)
    blocks = [(it.start(), closing(code, it.end() - 1), it) for it in BLOCK.finditer(code)]
    for found in FUNCTION.finditer(code):
        end = closing(code, found.end() - 1)
        begin = re.compile(r"\{$|;$", re.MULTILINE).search(code, end)
        while code[begin.start()] == "{" and re.match(r" *(?:ensures|requires)\b", code[code.rindex("\n", 0, begin.start()) + 1 :]):
            begin = re.compile(r"\{$|;$", re.MULTILINE).search(code, closing(code, begin.start()))
        body = code[begin.start() : closing(code, begin.start()) + 1] if code[begin.start()] == "{" else ""
        block = next((it for first, last, it in blocks if first < found.start() < last), None)
        is_left_out = block and (block["trait"] in private or INFALLIBLE in code[block.start() : found.start()])
        if body and not is_left_out:
            is_test = code[: found.start()].rstrip().endswith("#[test]")
            result = re.match(r"(?:\s*-> ([^\n{]+))?", code[end + 1 :])[1] or ""
            is_public = bool(found["public"] or (block and block["trait"]))
            owner = block and block["type"]
            is_open = is_public or bool(found["inner"])
            yield Function(str(file), owner, found["name"], code[found.end() : end].strip(), result, body, is_public, is_open, is_test)


def functions(*crates):
    files = [it for crate in crates for it in sorted(TOP.glob(f"crates/{crate}/src/**/*.rt"))]
    private = {name for it in files for name in PRIVATE.findall(it.read_text())}
    return [it for file in files for it in functions_of(file, private)]


def end_of_arm(body, begin):
    """Where the arm ends whose code begins here."""
    if body[begin] == "{":
        return closing(body, begin) + 1
    depth = 0
    for i in range(begin, len(body)):
        depth += (body[i] in "({[") - (body[i] in ")}]")
        if depth < 0 or (depth == 0 and body[i] == ","):
            return i
    return len(body)


def left_for(word, body):
    """A body without the arms of `match word` and `match asked` that other words go."""
    for found in reversed(list(ASKED.finditer(body))):
        last = closing(body, found.end() - 1)
        arms, kept = body[found.end() : last], ""
        while arm := ARM.search(arms):
            end = end_of_arm(arms, arm.end())
            kept += arms[: arm.start()] + (arms[arm.end() : end] if word in WORD.findall(arm[0]) else "")
            arms = arms[end:]
        body = body[: found.end()] + kept + arms + body[last:]
    return body


def called_by(caller, body, by_name):
    """The functions that the names in the body may stand for: those of the file, else those that others open."""
    for name in set(CALLED.findall(body)) - {"answers"}:
        found = by_name.get(name, [])
        yield from [it for it in found if it.file == caller.file] or [it for it in found if it.is_open]


def reached(begun, all_of, word):
    """The functions that those come to, each with what is left of its body for the word."""
    by_name, seen, open_ = {}, {}, list(begun)
    for it in all_of:
        by_name.setdefault(it.name, []).append(it)
    while open_:
        it = open_.pop()
        if it not in seen:
            seen[it] = left_for(word, it.body) if word else it.body
            open_ += called_by(it, seen[it], by_name)
    return seen


def runs():
    """What each word of the cases, and the tests, come to."""
    of_cases, of_tests, of_program = functions(*CASES), functions(*TESTS), functions("sdpexchange", "exchange")
    yield reached([it for it in of_program if it.name == "main" and not it.owner], of_program, None)
    yield reached([it for it in of_tests if it.is_test], of_tests, None)
    for word in sorted({it.line.partition(" ")[0] for it in read_cases()[0]}):
        files = {it.file for it in of_cases if f'"{word}"' in it.body}
        yield reached([it for it in of_cases if it.name == "answers" and it.file in files], of_cases, word)


def faults():
    """The public calls that may need memory and that nothing makes."""
    own = [it for it in functions("str0m_*", "exchange") if it.is_public]
    wants = {"AllocError", *(it for crate in ("str0m_*", "exchange") for file in TOP.glob(f"crates/{crate}/src/**/*.rt") for it in WANT.findall(file.read_text()))}
    names, made_by = [it.name for it in own], list(runs())
    for call in own:
        if call.result.startswith("Result<") and wants & set(re.findall(r"\w+", call.result)):
            is_shared = call.name in COMMON or names.count(call.name) > 1
            if not any(call.is_made_by(it, body, is_shared) for run in made_by for it, body in run.items()):
                yield f"{f'{call.owner}::' if call.owner else ''}{call.name} may need memory, and no case and no test makes it"


if __name__ == "__main__":
    for it in faults():
        print(it)

"""Whether scripts/README.md has a row for each script, and each row a script; and whether it says what runs it: the parts of ./test, and
the programs at the top of the repository, that come to it by their commands, by imports and by the names of files."""
import re
from importlib.machinery import SourceFileLoader
from importlib.util import module_from_spec, spec_from_loader

from proved import TOP

FOLDER = TOP / "scripts"
PAGE = FOLDER / "README.md"
PROGRAMS = ("run", "lint", "bench", "install")
IMPORT = re.compile(r"(?:^ *|; )(?:from|import) (\w+)", re.M)
NAMED = re.compile(r'\bscripts/([\w.]+)|"scripts" / "([\w.]+)"|with_name\("([\w.]+)"\)')
ROW = re.compile(r"^`([^`]+)` \| .+ \| (.+)$", re.M)


def scripts():
    """The scripts, each with its text; a folder is one, with those of its files."""
    for it in sorted(FOLDER.iterdir()):
        if it.name not in (PAGE.name, "__pycache__"):
            files = sorted(it.iterdir()) if it.is_dir() else [it]
            yield it.name, "\n".join(file.read_text("utf-8", "replace") for file in files if file.is_file())


def reached(text, texts):
    """The scripts that a text comes to: those that it names, and what these come to."""
    found, more = set(), [text]
    while more:
        its = more.pop()
        named = {f"{it}.py" for it in IMPORT.findall(its)} | {it for found in NAMED.findall(its) for it in found}
        for name in named & set(texts) - found:
            found.add(name)
            more.append(without_comment(texts[name]))
    return found


def without_comment(text):
    """A script without what it says at its head."""
    return re.sub(r'\A(?:#!.*\n)?"""(?:.|\n)*?"""', "", text)


def runners(texts):
    """What runs each script: parts of ./test, `all parts`, or programs."""
    loader = SourceFileLoader("gate", str(TOP / "test"))
    gate = module_from_spec(spec_from_loader("gate", loader))
    loader.exec_module(gate)
    parts = {part.name: "\n".join(" ".join(it) for it in part.commands) for step in gate.STEPS for row in step for part in row}
    programs = {f"`./{it}`": without_comment((TOP / it).read_text("utf-8")) for it in PROGRAMS}
    come = {runner: reached(text, texts) for runner, text in (parts | programs).items()}
    for name in texts:
        own = [it for it in parts if name in come[it]]
        yield name, ["all parts"] * (len(own) == len(parts)) + own * (len(own) < len(parts)) + [it for it in programs if name in come[it]]


def faults():
    texts, said = dict(scripts()), dict(ROW.findall(PAGE.read_text("utf-8")))
    yield from (f"scripts/{it} has no row" for it in sorted(set(texts) - set(said)))
    yield from (f"there is no scripts/{it}" for it in sorted(set(said) - set(texts)))
    for name, by in runners(texts):
        wanted = ", ".join(by) or "by hand"
        if name in said and said[name] != wanted:
            yield f"scripts/{name}: its row says {said[name]}, and it is {wanted}"

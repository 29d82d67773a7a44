"""Whether each name that is imported of the repository's definitions, proofs and types is there and is public; whether definitions and proofs
use what they import; and whether each root of them lists its modules.

`rattle` says so too, but of a proof only once all below it is proved, and of an unused name not at all. Modules that rattle writes are judged
by their source: those of types and constants (`declared`, `TheLaws`, ..), of functions (`Given`, `Goals`, ..) and of contracts."""
import re
from functools import lru_cache
from pathlib import Path

from proved import TOP

USE = re.compile(r"^( *)(pub )?(?:ghost )?use Rattle\.(\w+)\.(specs|proofs)(?:\.([\w.-]+?))?(?:\.\{([^}]*)\}| as (\S+?))?;?$", re.M)
IN_CODE = re.compile(r"\b(\w+)::(specs|proofs)::([\w:-]+)")
CONSTRUCTOR = re.compile(r"^  ([^\s:(]+) :", re.M)
WRITTEN = {"Given", "Goals", "Answers", "Invariants", "Ends", "Entry", "Statement", "Code"}  # (of a function, by rattle)
OF_TYPES = {"TheLaws", "TheSendSync"}  # (of a type, by rattle)


def crates():
    return TOP / "crates"


@lru_cache(None)
def text_of(file):
    return file.read_text("utf-8") if file.is_file() else None


def without_comments(text):
    return "\n".join(it for it in text.split("\n") if not it.lstrip().startswith(("//", "--")))


def listed(names):
    """The names of a list of imports, each with the name that it gets: `a as b` is a pair of two."""
    pairs = [re.split(r"\s+as\s+", it.strip()) for it in names.split(",") if it.strip()]
    return [(it[0], it[-1]) for it in pairs]


@lru_cache(None)
def exports(file):
    """The public names of a file of definitions or proofs, with what it passes on."""
    text = without_comments(text_of(file))
    found = {name for is_public, name in re.findall(r"^\s*(?:abbrev |unfoldable )?(pub )(?:record |data |ruleset )?([^\s{(:]+)", text, re.M)}
    for block in re.split(r"\n(?=\S)", text):
        if re.match(r"pub data\b", block):
            found.update(CONSTRUCTOR.findall(block))
    for use in re.finditer(r"^pub use [\w.-]+?(?:\.\{([^}]*)\}| as (\S+)|\.([^.\s{}]+))$", text, re.M):
        found.update([own for _, own in listed(use[1])] if use[1] is not None else [use[2] or use[3]])
    return found


@lru_cache(None)
def passed_on(crate):
    """What a crate's root passes on of its modules."""
    return set(re.findall(r"\w+", " ".join(re.findall(r"^pub use ([^;]+);", text_of(crates() / crate / "src/lib.rt") or "", re.M))))


@lru_cache(None)
def functions(crate):
    return set(re.findall(r"\bfn (\w+)", "".join(text_of(it) for it in (crates() / crate / "src").rglob("*.rt"))))


@lru_cache(None)
def public_modules(crate):
    return set(re.findall(r"^pub mod (\w+);", text_of(crates() / crate / "src/lib.rt") or "", re.M))


@lru_cache(None)
def private_modules(crate):
    return set(re.findall(r"^mod (\w+);", text_of(crates() / crate / "src/lib.rt") or "", re.M))


def source_of(crate, words):
    """The file of code whose module the first of the words name, and the words after it."""
    for count in range(len(words), 0, -1):
        file = crates() / crate / "src" / Path(*words[:count]).with_suffix(".rt")
        if file.is_file():
            return file, words[count:]
    return None, words


def fault_of_declared(crate, words, names, is_foreign):
    """What is wrong with an import of a type, of its cases or of constants; None where nothing is."""
    file, rest = source_of(crate, words)
    if file is None or not rest:
        return f"no file of code {'.'.join(words)}"
    text, module = text_of(file), words[0]
    if rest[0] == "TheConstants":
        missing = [name for name, _ in names if not re.search(rf"\b(?:const|static) {name}:", text)]
        hidden = [name for name, _ in names if is_foreign and module not in public_modules(crate) and name not in passed_on(crate)]
        return f"no constant {', '.join(missing)}" if missing else f"{', '.join(hidden)} isn't public" if hidden else None
    kind = re.search(rf"^(pub )?(?:pub\(\w+\) )?(?:struct|enum|trait|type|union) {rest[0]}\b", text, re.M)
    if not kind:
        return f"no type {rest[0]} in {file.name}"
    if is_foreign and not kind[1]:
        return f"{rest[0]} isn't public"
    if rest[1:2] == ["TheVariants"]:
        missing = [name for name, _ in names if not re.search(rf"^ {{4}}{re.escape(name)}\b", text, re.M)]
        return f"{rest[0]} has no case {', '.join(missing)}" if missing else None
    return None


def fault_of(own, crate, part, words, names):
    """What is wrong with an import of these names from a module; None where nothing is."""
    if words[:1] == ["declared"]:
        return fault_of_declared(crate, words[1:], names, own != crate)
    if words[:1] == ["contracts"]:
        file, _ = source_of(crate, words[1:])
        return None if file else f"no file of code {'.'.join(words[1:])}"
    file = (crates() / crate / part).joinpath(*(words or ["Lib"])).with_suffix(".antt")
    if words and text_of(file) is None and words[-1] in WRITTEN:
        return None if functions(crate).intersection(words[1:-1]) else f"no function {'.'.join(words[:-1])}"
    if words and text_of(file) is None and words[-1] in OF_TYPES:
        return fault_of_declared(crate, words[:-1], [], own != crate)
    if own != crate and part == "proofs" and words and words[0] in private_modules(crate):
        return f"{words[0]} is private: proofs/Lib.antt passes on what other crates name of its laws"
    if text_of(file) is None and not names and len(words) > 1:  # (a name alone, without braces)
        file, names = file.parent.with_suffix(".antt"), [(words[-1], words[-1])]
    if text_of(file) is None:
        return f"no file {part}/{'/'.join(words)}.antt"
    missing = [name for name, _ in names if name not in exports(file)]
    return f"{', '.join(missing)} {'is' if len(missing) == 1 else 'are'} not public in {file.relative_to(crates())}" if missing else None


def is_used(name, text):
    """Whether the text has the name, which may be an operator whose places are marked; a block of `do` has `>>=`."""
    if name == "◌>>=◌" and re.search(r"\bdo$", text, re.M):
        return True
    parts = [it for it in name.split("◌") if it]
    return all(re.search(rf"(?<![\w-]){re.escape(it)}(?![\w-])" if it[0].isalnum() else re.escape(it), text) for it in parts)


def faults_of_uses(file, crate, text):
    """What is wrong with the `use` lines of a file."""
    body = USE.sub("", text)
    for use in USE.finditer(text):
        _, is_public, of, part, path, names, alias = use.groups()
        pairs, words = listed(names or ""), path.split(".") if path else []
        fault = fault_of(crate, of, part, words, pairs) if (crates() / of).is_dir() else None
        if fault:
            yield f"{'.'.join([of, part, *words])}: {fault}"
        own = [it for _, it in pairs] if names is not None else [alias or words[-1]]
        idle = [] if is_public or file.suffix == ".rt" else [it for it in own if not is_used(it, body)]
        if idle:
            yield f"imports {', '.join(idle)} of {'.'.join([of, part, *words])}, and doesn't use it"


def faults_of_paths(crate, text):
    """What is wrong with the definitions and lemmas that code names by their paths."""
    for of, part, path in IN_CODE.findall(text):
        *module, name = path.split("::")
        of = crate if of == "crate" else of
        fault = fault_of(crate, of, part, module, [(name, name)]) if (crates() / of).is_dir() else None
        if fault:
            yield f"{of}::{part}::{path}: {fault}"


def faults_of(file):
    """What is wrong with what a file names of others."""
    crate, text = file.relative_to(crates()).parts[0], without_comments(text_of(file))
    found = [*faults_of_uses(file, crate, text), *(faults_of_paths(crate, text) if file.suffix == ".rt" else ())]
    return [f"{file.relative_to(crates())}: {it}" for it in found]


def unlisted(lib):
    """The modules that a root or a room lists and has not, or has and doesn't list."""
    listed_here = set(re.findall(r"^pub mod (\w+)$", text_of(lib), re.M))
    folder = lib.parent if lib.stem == "Lib" else lib.with_suffix("")
    # (of laws `rattle` finds the rooms by the modules of code)
    there = {it.stem for it in folder.glob("*.antt") if it.stem[0].isupper() or "specs" in it.parts} - {"Lib"}
    for name in sorted(listed_here ^ there):
        yield f"{lib.relative_to(crates())}: {name} is {'listed, and not there' if name in listed_here else 'there, and not listed'}"


def faults():
    for lib in sorted(it for it in crates().glob("*/*/*.antt") if it.stem == "Lib" or it.stem[0].islower()):
        yield from unlisted(lib)
    for file in sorted(it for part in ("src", "specs", "proofs") for it in crates().glob(f"*/{part}/**/*") if it.suffix in (".rt", ".antt")):
        yield from faults_of(file)

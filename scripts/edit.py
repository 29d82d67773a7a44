"""What an edit changes, and the functions that it turns: edits as scripts/edits tries them."""
import os
import re

import proved

CRATES = proved.TOP / "crates"
FUNCTION = re.compile(r"(?P<indent>\s*)(?:pub(?:\([^)]*\))? )?(?:const |extern \"C\" )?fn (?P<name>\w+)")
TABLE = re.compile(r"^ *(?:pub(?:\([^)]*\))? )?(?:const|static) (?P<name>\w+):.*?;$", re.M | re.S)
LIST = re.compile(r"(?:pub mod \w+\n)+")
NAMED = re.compile(r"\bRattle\.(\w+)\.(?:specs|proofs)\.[\w.]+|\bcrate(?:::\w+)+")
BLOCK = re.compile(r"(?:impl(?:<(?P<own>.*?)>)? (?:(?P<trait>.+?) for )?(?P<type>.+?)|.*\btrait (?P<decl>\w+).*?)(?: where .*)?\{")


def texts_of(folder):
    files = [it for part in proved.PARTS for it in sorted((folder / part).rglob("*")) if it.is_file()]
    return {str(it.relative_to(folder)): it.read_text("utf-8") for it in files}


def module_of(path):
    return re.sub(r"(^|::)(lib|main|mod)$", "", "::".join(os.path.splitext(path)[0].split("/")[1:]))


def as_word(text):
    """A type as it stands in a function's name: RefStr for &'a str, ArrayBool128 for [bool; 128], Vec for Vec<T>."""
    text = re.sub(r"<.*|'\w+ ?|\w+::", "", text).replace("&", "Ref ").replace("[", "Array ")
    return "".join(it[0].upper() + it[1:] for it in re.findall(r"\w+", text))


def function_at(path, text, offset, homes):
    """The name, as a check prints it, of the function whose body stands at the offset, or None."""
    name, module, is_body, is_behind = None, module_of(path), False, False
    for line in reversed(text[: text.index("\n", offset)].split("\n")):
        found, block = FUNCTION.match(line), BLOCK.match(line)
        is_behind = is_behind or line == "    }"  # (where a method ends)
        is_body = is_body or re.search(r"^\s*(\).*)?\{$|\bfn .*\{$", line)
        if found and name is None:
            name = found["name"]
            if is_behind and found["indent"]:
                return None
            if not is_body or not found["indent"]:
                return f"{module}::{name}".removeprefix("::") if is_body else None
        elif block and name is not None:
            of_trait, _, given = (block["trait"] or "").partition("<")
            own = {it.partition(":")[0].strip() for it in (block["own"] or "").split(",")}
            given = "" if given.removesuffix(">") in own else given  # (a name that stands for any type is none of its own)
            kind = block["decl"] or as_word(block["type"])
            module = module if of_trait else homes.get(kind, module)  # (a method is named by the module of its type)
            return f"{module}::{kind}{as_word(of_trait)}{as_word(given.removesuffix('>'))}::{name}".removeprefix("::")
        elif line == "}":
            return None
    return None


def changed(texts, changes):
    """The texts after the changes, where each text that one replaces stands once."""
    texts = dict(texts)
    for path, old, new in changes:
        count = texts.get(path, "").count(old)
        if count != 1:
            raise ValueError(f"its text stands in {path} {count} times, and not once: {old.strip()}")
        texts[path] = texts[path].replace(old, new)
    return texts


def readers_of(path, table, texts, homes):
    """The functions in whose bodies the table stands, or None where it may count elsewhere too, as in a clause."""
    word, found = re.compile(rf"\b{table['name']}\b"), set()
    early = {name for text in texts.values() for name in re.findall(r"\bconst fn (\w+)", text)}
    for file, text in texts.items():
        own = table.span() if file == path else (0, 0)
        for it in word.finditer(text):
            if not own[0] <= it.start() < own[1]:
                found.add(function_at(file, text, it.start(), homes) if file.startswith("src/") else None)
    # (by a const function another table can be made of this one)
    return None if None in found or early & {it.rpartition("::")[2] for it in found} else found


def file_named(word, texts):
    """The file of the crate that a path of code, of a definition or of a proof leads into; None where it leads into none."""
    parts = re.split(r"::|\.", word)
    parts = parts[1:] if parts[0] == "crate" else parts[2:]
    modules = parts[1:] if parts[0] in ("specs", "proofs") else parts
    modules = modules[1:] if modules[0] in ("declared", "contracts") else modules
    tried = ["/".join(parts[:count]) + ".antt" for count in range(len(parts), 1, -1)]
    # (what is declared in a source, and the goals of its functions, have no file of their own; a room has one that lists its modules)
    tried += ["/".join(["src", *modules[:count]]) + ".rt" for count in range(len(modules), 0, -1)]
    return next((it for it in tried if it in texts and not LIST.fullmatch(texts[it])), None)


def source_of(path, texts):
    """The source whose functions a file of proofs/ is about: the folders after the modules are those of a function; None of a file of lemmas."""
    folders = path.split("/")[1:-1]
    tried = ["/".join(["src", *folders[:count]]) + ".rt" for count in range(len(folders) - 1, 0, -1)]
    return next((it for it in tried if it in texts), None) if path.startswith("proofs/") else None


def cone_of(path, texts, crate):
    """The files that name the file, by whatever other files: no function of another can fall by what it changes.

    A source also rests on what proofs/ holds of its functions."""
    names = {}
    for file, text in texts.items():
        words = [it[0] for it in NAMED.finditer(text) if it[1] in (None, crate)]
        names[file] = {file_named(it, texts) for it in words}
    for file in texts:
        if source_of(file, texts):
            names[source_of(file, texts)].add(file)
    cone, more = set(), {path}
    while more:
        cone |= more
        # (a name that leads to no file may be any that the root passes on)
        more = {file for file, named in names.items() if None in named or named & cone} - cone
    return cone


def functions_of(path, text, homes):
    """The functions whose bodies stand in a source."""
    starts = re.finditer(r"^\s*(?:\).*)?\{$|\bfn .*\{$", text, re.M) if path.startswith("src/") else []
    return {function_at(path, text, it.end() - 1, homes) for it in starts} - {None}


class Edit:
    """What it changes (file, old text, new text), the functions that it turns or names, the clause by which it falls, if it names one, and whether
    it turns more than bodies.

    The functions that can fall by it are its reach: no others than these where it turns bodies; those that read a table, where
    it turns one that stands in bodies alone; else those of all files that name its own, by whatever other files."""

    def __init__(self, path, texts, homes):
        self.name, self.changes, self.functions = str(path.relative_to(CRATES)), [], set()
        self.source, self.added = self, {}  # (copies.py: the edit that is made in a copy, and what that adds to each file)
        said, turned, readers = {}, set(), []
        for line in path.read_text("utf-8").split("\n"):
            word, _, said[word] = line.partition(":")
            if word == "falls":
                self.functions.add(said[word].strip())
            elif word == "new":
                file, old, new = said["file"].strip(), said["old"].removeprefix(" "), said["new"].removeprefix(" ")
                before, texts = texts, changed(texts, [(file, old, new)])
                at = before[file].index(old)
                turned.add(function_at(file, before[file], at, homes))
                table = next((it for it in TABLE.finditer(before[file]) if it.start() <= at and at + len(old) <= it.end()), None)
                readers.append(table and readers_of(file, table, before, homes))
                self.changes.append((file, old, new))
        self.clause = said.get("clause", "").strip()
        self.is_wide = None in turned or bool(self.functions)
        self.functions = self.functions or turned - {None}
        self.reach = self.functions
        if self.is_wide:
            is_table = turned == {None} and None not in readers and self.functions <= set().union(*readers)
            self.reach = set().union(*readers) if is_table else self.reached(path, texts, homes)
        if not self.functions:
            raise ValueError("it turns no body: name the function that must fall by a line 'falls: MODULE::FUNCTION'")

    def reached(self, path, texts, homes):
        """The functions of the files that name those which it changes."""
        cones = [cone_of(file, texts, path.relative_to(CRATES).parts[0]) for file, _, _ in self.changes]
        return self.functions.union(*[functions_of(it, texts[it], homes) for it in set().union(*cones)])

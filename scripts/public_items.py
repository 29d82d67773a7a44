"""What is public in a library: the types, traits, functions and constants that its root passes on, with their comments and signatures.

It goes by the lines of a source, which stand as `rt fmt` lays them out: an item begins at the margin and a member of it four blanks
further in; comments and attributes stand before what they are of, and a block ends with a `}` where it began."""
import re
from dataclasses import dataclass, field
from functools import lru_cache

from calls_made import closing
from proved import TOP

MODULES = re.compile(r"^pub mod (\w+);", re.M)
PASSED_ON = re.compile(r"^pub use ((?:\w+::)+)(\w+|\{.*?\});", re.M | re.S)
ITEM = re.compile(r"(pub (?:const )?)(struct|enum|trait|type|fn|const|static) (\w+)")
IMPL = re.compile(r"impl(?:<.*?>)? (?:(?P<trait>[\w:]+(?:<.*>)?) for )?(?P<type>.+?) \{")
FUNCTION = re.compile(r"(?:pub )?(?:const )?fn (\w+)")
VARIANT = re.compile(r"[A-Z]\w*")
RESULT = re.compile(r"\s*(->.*?)?(?=;$| \{$|\n *(?:\{|(?:ensures|requires|ghost)\b))", re.S | re.M)
DERIVED = re.compile(r"#\[derive(?:_where)?\((.*)\)\]")
SILENT = {"Model", "Drop"}  # (what a contract sees of a value, and what becomes of it in the end)
PRIVATE_TRAIT = re.compile(r"^(?:pub\(\w+\) )?trait (\w+)", re.M)


@dataclass
class Member:
    """A field, a variant, a function or a constant, as it is declared, and the first paragraph of its comment."""

    kind: str
    name: str
    declared: str
    comment: str


@dataclass
class Item:
    kind: str
    name: str
    declared: str
    comment: str
    traits: list[str] = field(default_factory=list)  # (those without a comment of their own)
    members: list[Member] = field(default_factory=list)

    def of(self, kind):
        return [it for it in self.members if it.kind == kind]


def one_line(text):
    """A declaration on one line."""
    return re.sub(r",? ([)\]])", r"\1", re.sub(r"([(\[]) ", r"\1", " ".join(text.split()))).replace(", }", " }")


def paragraph(comment):
    """The first paragraph of a comment, of its lines."""
    lines = [it.strip().removeprefix("///").strip() for it in comment]
    return " ".join(lines[: lines.index("")] if "" in lines else lines)


def head(text):
    """The first paragraph of a source's own comment."""
    return paragraph([it.replace("//!", "///", 1) for it in re.findall(r"^//!.*", text, re.M)])


def signature(text):
    """A function's head without its contract, of the text that begins with it."""
    end = closing(text, text.index("(")) + 1
    return one_line(re.sub(r"^pub ", "", text[:end]) + " " + (RESULT.match(text[end:])[1] or ""))


def declared(text, mark):
    """What stands before the mark that ends a declaration."""
    return one_line(re.sub(r"^pub ", "", text[: re.search(mark, text).start()]))


def blocks(lines, indent):
    """Each line of a block that begins with so many blanks, and something after them, with its comment, its attributes and its text to the end."""
    comment, attributes = [], []
    for at, line in enumerate(lines):
        own = line[len(indent) :] if line.startswith(indent) else ""
        if own.startswith("///"):
            comment.append(own)
        elif own.startswith("#["):
            attributes.append(own)
        elif own and own[0] not in " })":
            yield own, comment, attributes, "\n".join([own, *lines[at + 1 :]])
            comment, attributes = [], []
        elif not own:
            comment, attributes = [], []


def inside(text):
    """The lines of a block, of the text that begins with its head."""
    lines = text.split("\n")
    return lines[1 : next((i for i, it in enumerate(lines) if it.startswith("}")), 1)] if lines[0].endswith("{") else []


def members(lines, kind):
    """The public members of a block: of an enum its variants, of a trait its functions, else what is marked so."""
    for line, comment, _, text in blocks(lines, "    "):
        said = paragraph(comment)
        if kind == "enum":
            if VARIANT.match(line):
                end = closing(text, found.end() - 1) + 1 if (found := re.match(r"\w+ ?[({]", text)) else line.index(",")
                yield Member("variant", VARIANT.match(line)[0], one_line(re.sub(r"^ *(///|#\[).*\n", "", text[:end], flags=re.M)), said)
        elif (found := FUNCTION.match(line)) and (line.startswith("pub ") or kind == "trait"):
            yield Member("call", found[1], signature(text), said)
        elif found := re.match(r"pub const (\w+):", line):
            yield Member("constant", found[1], declared(text, r" = "), said)
        elif found := re.match(r"pub (\w+):", line):
            yield Member("field", found[1], declared(text, r",$|,\n"), said)


def items(text):
    """The public items of a source, and what it adds to types: type, trait, comment and members of each `impl` block."""
    found, added = {}, []
    for line, comment, attributes, rest in blocks(text.split("\n"), ""):
        if its := IMPL.match(line):
            added.append((re.match(r"\w*", its["type"])[0] or its["type"], its["trait"], paragraph(comment), list(members(inside(rest), "impl"))))
        elif its := ITEM.match(line):
            kind, name = its[2], its[3]
            head = signature(rest) if kind == "fn" else declared(rest, r" = |;$|;\n" if kind in ("const", "static") else r" \{$| \{\n|;$|;\n")
            derived = [it.strip() for one in attributes if (named := DERIVED.match(one)) for it in named[1].split(",")]
            traits = [it for it in derived if it not in SILENT]
            found[name] = Item(kind, name, head, paragraph(comment), traits, list(members(inside(rest), kind)))
    return found, added


@lru_cache(None)
def hidden_traits():
    return SILENT.union(*(PRIVATE_TRAIT.findall(it.read_text("utf-8")) for it in TOP.glob("crates/*/src/**/*.rt")))


class Library:
    """A library: its own public items by name, the modules that are public, what it passes on of others, and the traits that it gives to
    types which aren't its own or aren't public."""

    def __init__(self, crate):
        source = TOP / "crates" / crate / "src"
        read = {it.stem: items(it.read_text("utf-8")) for it in sorted(source.rglob("*.rt"))}
        root = (source / "lib.rt").read_text("utf-8")
        self.comment = head(root)
        self.modules = {name: list(read[name][0].values()) for name in MODULES.findall(root)}
        self.comments = {name: head((source / f"{name}.rt").read_text("utf-8")) for name in self.modules}
        self.own, self.passed_on, self.others = {}, {}, []
        for path, names in PASSED_ON.findall(root):
            module = path.split("::")[-2]
            for name in re.findall(r"\w+", names):
                if module in read:
                    self.own[name] = read[module][0][name]
                else:
                    self.passed_on.setdefault(module, set()).add(name)
        for module, (_, added) in sorted(read.items(), key=lambda it: it[0] != "lib"):
            for of, trait, said, own in added:
                self.add(of, trait, said, own)

    def add(self, of, trait, said, own):
        """What an `impl` block adds to a type, or tells of a trait."""
        own_trait = re.match(r"[\w:]*", trait or "")[0].split("::")[-1]
        if own_trait in self.own:
            self.own[own_trait].traits.append(of)
        if trait is None and of in self.own:
            self.own[of].members += own
        if trait is None or own_trait in hidden_traits():
            return
        shown = trait if "<" in trait else own_trait
        if of not in self.own:
            self.others.append((of, Member("trait", own_trait, f"{shown} for {of}", said)))
        elif said:
            self.own[of].members.append(Member("trait", own_trait, shown, said))
        else:
            self.own[of].traits.append(shown)

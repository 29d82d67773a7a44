"""What the pages say of the code: whether the code that README.md shows is that of `crates/uses`, that of CALLING.md there or in
`crates/tests`, and that of docs/EXCHANGE.md in `crates/sdpexchange`; whether `str0m_signal` passes on all but what CALLING.md says; whether
README.md is short, and all pages together are; and whether each link of a page leads to a file and a heading that are there.

Words are what white space parts. All pages are every tracked `*.md` but docs/API.md, the generated reference.

A block of code stands in one of those files word for word, but for contracts and comments. One that has `use` lines is to compile as it
stands: so its items stand in one file, each of them, and what they use of what that file imports or has is imported or stands in the
block."""
import re
import subprocess

from proved import TOP

BLOCK = re.compile(r"^```rust\n(.*?)^```$", re.MULTILINE | re.DOTALL)
CLAUSE = re.compile(r"(ghost|requires|ensures)\b")
PUBLIC = re.compile(r"^ *pub (?:const )?(?:fn|struct|enum|trait|const) (\w+)", re.MULTILINE)
EXPORTED = re.compile(r"^pub use (?:\w+::)+(\w+|\{.*?\});", re.MULTILINE | re.DOTALL)
ITEM = re.compile(r"(?:pub(?:\(crate\))? )?(?:const )?(?:fn|struct|enum|const|trait) (\w+)")
LOWER, TOPMOST = ("str0m_values", "str0m_formats", "str0m_sdp"), "str0m_signal"
CODE = {"README.md": ("uses",), "CALLING.md": ("uses", "tests"), "docs/EXCHANGE.md": ("sdpexchange",)}  # of each page, where its code stands
PAGES = tuple(CODE)
MOST_WORDS, MOST_WORDS_OF_ALL = 900, 24_000  # of README.md, and of all pages but the reference
REFERENCE = TOP / "docs" / "API.md"
LINK = re.compile(r"\]\(([^)#\s]*)(?:#([^)\s]*))?\)")
HEADING = re.compile(r"^#+ (.*)$", re.M)


def kept(text):
    """The lines of code without contracts and comments."""
    braces = 0
    for line in text.splitlines():
        line = line.strip()
        if braces or CLAUSE.match(line):
            braces += line.count("{") - line.count("}")
        elif not line.startswith("//"):
            yield line


def plain(text):
    """Code on one line, without contracts and comments."""
    return " ".join(" ".join(kept(text)).split())


def items(text):
    """The items of code, each on one line: `use` lines and all else that stands at its top."""
    found, braces = [""], 0
    for line in kept(text):
        found[-1] = f"{found[-1]} {line}".strip()
        braces += line.count("{") - line.count("}")
        if not braces and found[-1].endswith((";", "}")):
            found.append("")
    return [it for it in found if it]


def imported(all_items):
    """The paths that `use` lines name."""
    for item in all_items:
        found = re.fullmatch(r"use ((?:\w+::)*)(\w+|\{.*\});", item)
        if found:
            yield from (found[1] + name for name in re.findall(r"\w+", found[2]))


def missing(block, file):
    """What a block with `use` lines has that the file hasn't, or needs of it and hasn't itself."""
    own, theirs = items(block), items(file)
    code = [it for it in own if not it.startswith("use ")]
    used = {name for it in code for name in re.findall(r"\w+", it)}
    yield from (it for it in code if it not in theirs)
    yield from set(imported(own)) - set(imported(theirs))
    yield from (it for it in set(imported(theirs)) - set(imported(own)) if it.split("::")[-1] in used)
    defined = [{name for it in all_items if (found := ITEM.match(it)) for name in [found[1]]} for all_items in (own, theirs)]
    yield from (defined[1] - defined[0]) & used


def code_of(*crates):
    folders = [it for name in crates for it in sorted((TOP / "crates").glob(name))]
    return {file: file.read_text() for crate in folders for file in sorted((crate / "src").rglob("*.rt"))}


def block_faults(block, files):
    """What is wrong with a block of code."""
    first = block.strip().splitlines()[0]
    if not re.search(r"^use ", block, re.MULTILINE):
        if not any(plain(block) in plain(it) for it in files):
            yield f"not code that is tested: {first}"
    else:
        least = min((sorted(missing(block, it)) for it in files), key=len)
        yield from (f"this block doesn't stand in one file that is tested, or needs more of it: {it[:80]}" for it in least)


def exported(crate):
    """The names that a library passes on at its root."""
    code = (TOP / "crates" / crate / "src" / "lib.rt").read_text()
    return {name for names in EXPORTED.findall(code) for name in re.findall(r"\w+", names)}


def unnamed(text, *crates):
    """What is public in the crates, and not named in the text."""
    named = set(re.findall(r"\w+", text))
    for file, code in code_of(*crates).items():
        for name in PUBLIC.findall(code) if file.name != "label.rt" else []:  # (labels are named together)
            if name not in named:
                yield f"doesn't name {name} of {file.relative_to(TOP)}"


def calling_faults(text):
    """What CALLING.md doesn't except of what str0m_signal passes on, and which it doesn't pass on."""
    excepted = re.search(rf"^`{TOPMOST}` passes on .*?\n\n", text + "\n", re.M | re.S)
    names = set(re.findall(r"\w+", excepted[0])) if excepted else set()
    for name in sorted(set().union(*map(exported, LOWER)) - exported(TOPMOST) - names):
        yield f"{TOPMOST} doesn't pass on {name}"


def anchors(text):
    """What links call the headings of a page."""
    plain_code = re.sub(r"^```.*?^```", "", text, flags=re.M | re.S)
    return {re.sub(r"[^\w -]", "", re.sub(r"\[([^]]*)\]\([^)]*\)", r"\1", it)).strip().lower().replace(" ", "-") for it in HEADING.findall(plain_code)}


def link_faults(page):
    """The links of a page that lead nowhere."""
    for path, anchor in LINK.findall(page.read_text("utf-8")):
        to = (page.parent / path).resolve() if path else page
        if "://" in path:
            continue
        if not to.exists():
            yield f"{page.relative_to(TOP)}: there is no {path}"
        elif anchor and anchor not in anchors(to.read_text("utf-8")):
            yield f"{page.relative_to(TOP)}: {path or 'this page'} has no heading #{anchor}"


def tracked():
    """Every page that git knows and that is there."""
    told = subprocess.run(["git", "ls-files", "-z", "*.md"], cwd=TOP, capture_output=True, text=True)
    return [page for it in told.stdout.split("\0") if it for page in [TOP / it] if page.is_file()]


def common_faults():
    """What is wrong with the pages together."""
    all_pages = tracked()
    words = sum(len(it.read_text("utf-8").split()) for it in all_pages if it != REFERENCE)
    if words > MOST_WORDS_OF_ALL:
        yield f"{words} words, {MOST_WORDS_OF_ALL} at most"
    if not all_pages:
        yield "git ls-files tells of no page"
    for page in all_pages:
        yield from link_faults(page)


def faults(page):
    """What is wrong with a page."""
    text, files = (TOP / page).read_text(), list(code_of(*CODE[page]).values())
    for block in BLOCK.findall(text):
        yield from block_faults(block, files)
    words = len(text.split())
    if page == "README.md" and words > MOST_WORDS:
        yield f"{words} words, {MOST_WORDS} at most"
    if page == "CALLING.md":
        yield from calling_faults(text)

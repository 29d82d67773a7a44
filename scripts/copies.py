"""Copies of functions: an edit of a function is made in a copy of it, so that one check tries all its edits and its callers stay as they are.

A copy has the function's contract and a name of its own, and nothing calls it. It stands after the last line of its file, a method in a block
with the head and the `ghost use` lines of its own; what proofs/ holds of the function is copied for it. So the same is owed of it as of the
function, where that is edited. Without a copy are a method of a trait, since its block is the only one of its trait and type; what calls itself;
and what has a proof file for one of its closures.

An edit may say by which clause it falls, as 'clause: refused': then its copy owes that clause alone, so nothing else is proved or searched for.
What falls short of one clause falls short of the contract."""
import copy
import re

from edit import BLOCK, FUNCTION

# A clause of a contract by its first line, and where each answer of a file begins.
CLAUSE = re.compile(r"\s*(?P<kind>requires|ensures|ghost)\b\*? ?(?P<label>\w*)")
ANSWER = re.compile(r"^(?=pub \S+ : )", re.M)


def lines_of(text, offset):
    """Where the function whose body stands at the offset begins, with its attributes, where its own line stands, and where it ends."""
    lines, at = text.split("\n"), text.count("\n", 0, offset)
    named = next(i for i in range(at, -1, -1) if FUNCTION.match(lines[i]))
    begin = named
    while begin and re.search(r"[^;{}]$", lines[begin - 1]) and not lines[begin - 1].strip().startswith("//"):
        begin -= 1
    end = next(i for i in range(at, len(lines)) if lines[i] == f"{FUNCTION.match(lines[named])['indent']}}}")
    return begin, named, end


def block_round(lines, at):
    """The head of the block in which the line stands, with its `ghost use` lines; None where it is a trait's."""
    head = next((i for i in range(at, -1, -1) if BLOCK.match(lines[i]) and lines[i].startswith("impl")), None)
    if head is None or "}" in lines[head:at] or BLOCK.match(lines[head])["trait"]:
        return None
    return [lines[head], *[it for it in lines[head:at] if it.startswith("    ghost use ")]]


def owing(lines, clause):
    """The lines of a function with the clause alone for its `ensures`: without its label, so that the goal is the clause itself."""
    head, kept, is_owed, count = lines.index(lines[-1].replace("}", "{")), [lines[0]], True, 0
    for line in lines[1:head]:
        found = CLAUSE.match(line)
        if found:
            is_it = found["kind"] == "ensures" and found["label"] == clause
            is_owed, count = is_it or found["kind"] != "ensures", count + is_it
            line = line.replace(f"ensures {clause} ", "ensures ", 1) if is_it else line
        kept += [line] * is_owed
    if count != 1:
        raise ValueError(f"its function has no clause {clause}")
    return kept + lines[head:]


def answers_owed(text, clause):
    """Of a file of answers those that are still asked where the clause alone is owed."""
    head, *answers = ANSWER.split(text)
    own = [it for it in answers if it.startswith("pub returns")]
    if not all("-clause-" in it.split(" : ")[0] for it in own):
        raise ValueError("its function's answers are not given by clauses")
    kept = [it for it in answers if it not in own or it.split(" : ")[0].endswith(f"-clause-{clause}")]
    return head + "".join(kept).replace(f"-clause-{clause}", "")


def copied_text(text, offset, name, edited, clause=None):
    """The function whose body stands at the offset, under another name and edited, in a block of its own; None where it has no copy.

    It owes the clause alone, where one is named."""
    lines = text.split("\n")
    begin, named, end = lines_of(text, offset)
    found = FUNCTION.match(lines[named])
    block = block_round(lines, begin) if found["indent"] else []
    if block is None or re.search(rf"\b{found['name']}\(", "\n".join(lines[named + 1 : end])):
        return None
    own = [lines[named].replace(f"fn {found['name']}", f"fn {name}", 1), *lines[named + 1 : end + 1]]
    own = owing(own, clause) if clause else own
    item = edited("\n".join([*lines[begin:named], *own]))
    return "\n".join(["", *block, item, *["}"] * bool(block), ""])


def copy_of(edit, texts, number):
    """The edit as it is made in a copy of its function; None where that has no copy."""
    paths, function = {path for path, _, _ in edit.changes}, next(iter(edit.functions))
    if edit.is_wide or len(edit.functions) > 1 or len(paths) > 1:
        return None
    path, home, is_own = paths.pop(), function.split("::"), f"proofs/{function.replace('::', '/')}/"
    name, of_closures = f"{home[-1]}_copy{number}", tuple(f"proofs/{'/'.join(home[:count])}/fn/" for count in range(1, len(home)))
    if any(it.startswith(of_closures) and home[-1] in it.split("/") for it in texts):
        return None

    def edited(item):
        for _, old, new in edit.changes:
            if item.count(old) != 1:
                raise ValueError(f"its text stands in {function} {item.count(old)} times, and not once: {old.strip()}")
            item = item.replace(old, new)
        return item

    text = copied_text(texts[path], texts[path].index(edit.changes[0][1]), name, edited, edit.clause)
    if text is None:
        return None
    made = copy.copy(edit)
    made.source, made.changes, made.added = edit, [], {path: text}
    made.functions = made.reach = {"::".join([*home[:-1], name])}
    was, now = f".proofs.{'.'.join(home)}.", f".proofs.{'.'.join([*home[:-1], name])}."
    for it in (it for it in texts if it.startswith(is_own)):
        proof = answers_owed(texts[it], edit.clause) if edit.clause and it.endswith("/Answers.antt") else texts[it]
        made.added[f"proofs/{'/'.join([*home[:-1], name])}/{it.removeprefix(is_own)}"] = proof.replace(was, now)
    return made


def has_copy(edit, texts):
    """Whether the edit is made in a copy of its function."""
    return copy_of(edit, texts, 0) is not None

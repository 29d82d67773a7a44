"""What a check under `--only` says of the functions that were asked for."""
import re

UNREAD = re.compile(r"is not in scope|has no field|is no name|operand is missing|expected the end|cannot continue")
LACKS = re.compile(r"has no field|is not in scope|has no `|was not admitted")
WAITS = re.compile(r"(?:: |; )(?:it calls|it passes|a call of|could not tell)")


def judge(crate, said, names):
    """The fault, the functions not proved by themselves, with whether they only lack a name, and those that wait."""
    lines = said.rstrip("\n").split("\n")
    errors = [it for it in lines if re.match(r"(\./)?(src|specs)/\S+: error: ", it)]
    unread = [it for it in errors if ": error: `" not in it or UNREAD.search(re.sub(r"`[^`]*`", "", it))]
    if unread or not lines[-1].startswith("only="):
        why = [*unread, *[it for it in lines if re.search(r"\berror[:\[]", it)], lines[-1]][0][:200]
        return f"it doesn't compile, or the prover cannot read it: {why}", {}, {}
    fallen, waits = {}, {}
    for at, line in enumerate(lines):
        found = re.match(rf"fn {crate}::(\S+): (?!proved|assumed)(.*)", line)
        closure = re.sub(r"(^|::)fn::", r"\1", found[1]) if found else ""  # a closure of m::T::f is m::fn::T::f::any
        owner = next((it for it in names if closure.startswith(f"{it}::")), found and found[1])
        own = re.findall(rf"^(?:\./)?proofs/{re.escape(found[1].replace('::', '/'))}/\S+: error: .*", said, re.M) if found else []
        is_named = "`search` did not prove" in line or (owner in names and not all(map(LACKS.search, own)))
        if found and WAITS.search(line) and ("could not tell" in line or not is_named):
            waits[owner] = line[:200]
        elif found:
            is_open = found[2] != "not proved" or lines[at - 1].startswith("note: src/") or not own
            fallen[owner] = fallen.get(owner, True) and not is_open and all(map(LACKS.search, own))
    return None, fallen, waits

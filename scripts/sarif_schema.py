"""The schema of SARIF 2.1.0, made of Debian's types of Go for it: no package holds the schema itself. The types have the names of all members,
their types, which of them have to be there, and the words of enumerations. The rest (least numbers, patterns, lists without repetition)
scripts/lint asks of what sdplint writes."""
import re
from pathlib import Path

PACKAGE = "golang-github-haya14busa-go-sarif-dev"
TYPES = Path("/usr/share/gocode/src/github.com/haya14busa/go-sarif/sarif/sarif.go")
PLAIN = {"string": {"type": "string"}, "int64": {"type": "integer"}, "float64": {"type": "number"}, "bool": {"type": "boolean"}}
OPEN = "PropertyBag"  # (may have any other members: section 3.8)


def schema_of(kind):
    """What a type of Go stands for."""
    if kind.startswith("[]"):
        return {"type": "array", "items": schema_of(kind[2:])}
    if kind.startswith("map[string]"):
        return {"type": "object", "additionalProperties": schema_of(kind.removeprefix("map[string]"))}
    name = kind.removeprefix("*")
    return PLAIN.get(name) or {"$ref": f"#/definitions/{name}"}


def definitions(source):
    for name, body in re.findall(r"^type (\w+) struct \{\n(.*?)^\}", source, re.M | re.S):
        members = re.findall(r'^\t\w+ +(\S+) +`json:"([^",]+)(,omitempty)?"`', body, re.M)
        yield name, {
            "type": "object",
            "properties": {member: schema_of(kind) for kind, member, _ in members},
            "required": [member for _, member, may_lack in members if not may_lack],
            "additionalProperties": name == OPEN,
        }
    for name, body in re.findall(r"^type (\w+) string\nconst \(\n(.*?)^\)", source, re.M | re.S):
        yield name, {"enum": re.findall(r'= "([^"]*)"', body)}


def schema():
    """The whole schema; None where the package isn't there."""
    if not TYPES.is_file():
        return None
    return {"$ref": "#/definitions/Sarif", "definitions": dict(definitions(TYPES.read_text("utf-8")))}

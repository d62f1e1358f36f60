"""Rattle source files as text: functions, the impls and traits in which they stand, items without bodies, definitions."""

import dataclasses
import re

HEAD = re.compile(r"( *)(pub )?(?:const |unsafe |extern \"C\" )*(fn|struct|enum|trait|type) (\w+)")
IMPORT = re.compile(r"^ *(?:ghost )?use Rattle\.(\w+)\.specs\.([\w.]+)\.\{([^}]*)\}", re.M)
DEFINED = re.compile(r"( *)(?:abbrev )?pub (?:record |data )?([\w<≡≤]+)\b(?! use)")
FUNCTION = re.compile(r"( *)(?:pub(?:\([a-z]+\))? )?(?:final |const |unsafe |extern \"C\" )*fn (\w+)")
IMPL = re.compile(r"(?:pub(?:\([a-z]+\))? )?(?:unsafe )?(?:impl|trait)\b")


@dataclasses.dataclass(frozen=True)
class Function:
    """A function of a file of src/, with its first line, which may be an attribute's, its last line
    and the type that it is of."""

    file: str
    name: str
    owner: str
    first: int
    last: int

    def __str__(self):
        return f"{self.name} of {self.owner}" if self.owner else self.name


def heading(lines):
    """Returns what an impl is of, as `Ord for Directed`, from its first lines."""
    text = " ".join(lines).partition("{")[0].partition(" where ")[0]
    depth, bare = 0, ""
    for before, letter in zip(" " + text, text):
        depth += (letter == "<") - (letter == ">" and before != "-")
        bare += letter if depth == 0 and letter != ">" else ""
    bare = re.split(r":\s", bare)[0]
    return " ".join(word for word in bare.split() if word not in ("pub", "unsafe", "impl", "trait"))


def last_line(lines, number, indent):
    """Returns the last line of a function that begins on the line of this number; in a trait it may have no body."""
    has_body, depth = False, 0
    for at, line in enumerate(lines[number - 1 :], number):
        is_head = at == number or line.startswith(indent + ")")
        depth += line.count("{") - line.count("}")
        has_body = has_body or line == indent + "{" or is_head and line.endswith("{")
        is_end = line.startswith((indent + "}", indent + "{ "))
        if is_end or not has_body and not depth and line.endswith(";"):
            return at
    return number


def functions(path, text):
    """Returns the functions of a file, each with the impl or trait in which it stands."""
    lines, owner, found = text.split("\n"), "", []
    for number, line in enumerate(lines, 1):
        if IMPL.match(line):
            owner = heading(lines[number - 1 : number + 11])
        elif line.startswith("}"):
            owner = ""
        head = FUNCTION.match(line)
        if head:
            last = last_line(lines, number, head[1])
            first = number
            while first > 1 and lines[first - 2].lstrip().startswith("#["):
                first -= 1
            found.append(Function(path, head[2], owner if head[1] else "", first, last))
    return found


def imported(text):
    """Returns the crate and the file of each definition that a file imports, by its name."""
    found = {}
    for crate, path, names in IMPORT.findall(text):
        for name in names.split(","):
            found[name.strip()] = (crate, path.replace(".", "/"))
    return found


def text_from(lines, at, indent):
    """Returns the lines of an item up to its body, a type's with its public fields."""
    taken, is_type = [], re.match(r" *pub (struct|enum|type)", lines[at])
    for line in lines[at:]:
        if is_type and is_type[1] == "struct" and re.match(r" +(pub\(|//[^/]|[a-z_]+:|ghost )", line):
            continue
        if line in (indent + "{", indent + "{}"):
            break
        taken.append(line[len(indent) :])
        is_whole = "".join(taken).count("{") == "".join(taken).count("}")
        if line.startswith(indent + "}") or line.endswith(";") and is_whole:
            break
        if not is_type and line.endswith("{") and not re.search(r"\b(requires|ensures)\b", line):
            taken[-1] = taken[-1].removesuffix("{").rstrip()
            break
    return "\n".join(taken).replace("{\n}", "{ .. }")


def ghosts_of(lines, at):
    """Returns the ghost items of the trait or impl that begins on a line, each with its doc comment, as a body."""
    begin = next(it for it in range(at, len(lines)) if lines[it].endswith("{")) + 1
    end = next(it for it in range(at, len(lines)) if lines[it] == "}")
    items = "\n".join(lines[begin:end]).split("\n\n")
    ghosts = [it for it in items if re.search(r"^    ghost (?!use\b)", it, re.M)]
    return " {\n" + "\n\n".join(ghosts) + "\n}" if ghosts else ""


def comment_before(lines, at):
    """Returns the doc comment above an item, and its attributes left out."""
    taken = []
    while at > 0 and lines[at - 1].lstrip().startswith(("///", "#[")):
        at -= 1
        taken.insert(0, lines[at].strip())
    return [re.sub(r"^/// ?", "", line) for line in taken if line.startswith("///")]


def definitions_of(crate):
    """Returns the definitions of a crate by their files and names: comment and text of each."""
    found, common = {}, crate.folder / "specs/Common.antt"
    passed_on = imported(common.read_text().replace("pub use", "use")) if common.exists() else {}
    for path in sorted((crate.folder / "specs").rglob("*.antt")):
        file = str(path.relative_to(crate.folder / "specs").with_suffix(""))
        for block in re.split(r"\n\s*\n", path.read_text()):
            lines = block.split("\n")
            at = next((it for it, line in enumerate(lines) if DEFINED.match(line)), None)
            if at is not None and not re.match(r" *(pub )?(use|mod)\b", lines[at]):
                head = DEFINED.match(lines[at])
                comment = [it.strip()[2:].strip() for it in lines[:at] if it.strip().startswith("--")]
                text = "\n".join(it[len(head[1]) :] for it in lines[at:])
                imports = imported(path.read_text())
                common_names = {it for it, place in imports.items() if place[1] == "Common"}
                imports |= {it: passed_on[it] for it in common_names & passed_on.keys()}
                found[file, head[2]] = comment, text, imports
    return found

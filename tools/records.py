"""What the record of a mutant rests on, as a sum.

A wrong body is refused at a goal of its function. Which goals a function has, and which of them are true, follows from

- the function's body, clauses and proof folder, and what the edit writes in its place;
- the contracts of the calls that either body may make. A method may be that of each type or trait of which the function can have a value,
  under this name;
- the types and traits that these name: fields, invariants, ghost members and laws, and the ghost members of the impls of these types;
- the definitions of specs/ that all these cite, and that these cite in turn.

No other body counts: a call is known by its contract. Nor does a lemma, which makes no false goal true, nor comments, layout, or where an item stands.
"""

import collections
import functools
import hashlib
import re

from tools.repository import listed
from tools.source import functions, heading, text_from

ITEM = re.compile(r"(?:pub(?:\([a-z]+\))? )?(?:unsafe |final |const |extern \"C\" )*(struct|enum|trait|impl|type|const|static|fn|use|mod)\b[!<]?\s*(\w*)")
CODE_USE = re.compile(r"^ *(?:pub(?:\([a-z]+\))? )?use (\w+)((?:::\w+)*)(?:::\{([^}]*)\})?(?: as (\w+))?;", re.M)
SPEC_USE = re.compile(r"^ *(?:ghost |pub )*use Rattle\.(\w+)\.specs\.((?:\w+\.)*\w+)(?:\.\{([^}]*)\}| as \w+)?", re.M)
MODULE = re.compile(r"^ *module\b.*?\bwhere *$", re.M | re.S)
# A definition. What has none of these words is abstract: a lemma, or known by lemmas alone.
DEFINED = re.compile(r" *(?:pub )?(?:unfoldable|abbrev|record|data) (?:pub )?([^\s:(){}]+)")
# The trait of containers.
CONTAINER = "Storage"
# The methods that a piece of code calls without their names.
OPERATORS = {
    " == ": "eq", " != ": "eq ne", " < ": "lt partial_cmp", " <= ": "le partial_cmp", " > ": "gt partial_cmp", " >= ": "ge partial_cmp",
    " + ": "add", " - ": "sub", " * ": "mul", " & ": "bitand", " | ": "bitor", " ^ ": "bitxor", "-= ": "sub_assign", "+= ": "add_assign",
    "|= ": "bitor_assign", "&= ": "bitand_assign", "^= ": "bitxor_assign", "for ": "into_iter next", "[": "index index_mut", "!": "not fmt",
    "{}": "fmt", "*": "deref deref_mut",
}  # fmt: skip
# The traits that calls of std rest on, by words of a piece of code.
TRAITS = {
    "Ord PartialOrd": "sort max min clamp binary_search cmp partial_cmp BTreeMap BTreeSet BinaryHeap is_sorted",
    "Eq PartialEq": "contains dedup starts_with ends_with position HashMap HashSet BTreeMap BTreeSet assert_eq",
    "Hash": "HashMap HashSet hash",
    "Clone": "clone cloned to_vec extend_from_slice resize vec fill",
    "From": "into try_into",
    "Iterator IntoIterator DoubleEndedIterator": "for collect extend from_iter sum rev",
    "FromIterator Extend": "collect extend from_iter",
    "Default": "default unwrap_or_default take",
    "FromStr": "parse",
}


class Part:
    """A text on which a record may rest: its tokens, the words in it, and the definitions that it cites."""

    def __init__(self, name, text, cites=(), naming=None):
        self.tokens, self.cites, self.is_alias = f"{name}\n{tokens_of(text)}", frozenset(cites), naming is not None
        self.words = frozenset(re.findall(r"\w+", self.tokens if naming is None else naming))


class Method:
    """The contract of a function, and the trait and the words of the type that it is of."""

    def __init__(self, crate, function, is_of_trait, generic, part):
        trait, _, self_type = function.owner.rpartition(" for ")
        self.crate, self.file, self.owner, self.part = crate, function.file, function.owner, part
        self.is_free = not function.owner
        self.trait = self_type if is_of_trait else base_of(trait)
        self.of = frozenset() if is_of_trait else frozenset(re.findall(r"\w+", self_type)) - generic


def base_of(path):
    return path.split("::")[-1]


def attributed(lines, at):
    """Returns where an item begins, by the index of a line: with its attributes."""
    while at and lines[at - 1].startswith("#["):
        at -= 1
    return at


def without_members(text):
    """Returns a trait without its ghost members, and these."""
    head, *parts = re.split(r"^    (?=ghost (?!use)|type |const )", text, flags=re.M)
    return head + "".join(it for it in parts if not it.startswith("ghost")), [it for it in parts if it.startswith("ghost")]


def seen_above(text):
    """Returns a struct as crates above know it, without private fields, which no contract names. What std derives of them may tell of them."""
    if {*re.findall(r"\w+", " ".join(re.findall(r"#\[derive\(([^)]*)\)\]", text)))} - {"Drop", "Debug"}:
        return text
    return re.sub(r"^    (?!pub |//|#)\S.*\n(?:     +.*\n)*", "", text, flags=re.M)


def members_of(trait, members):
    """Gives with each ghost member of a trait the members of which a text has to speak to rest on it: itself, where it is a value.
    A law, which no other member and no method names, says something of those values that it names."""
    said = collections.Counter(re.findall(r"\w+", tokens_of(trait)))
    names = {it: re.match(r"ghost (\w+)", it)[1] for it in members}
    values = {name for it, name in names.items() if said[name] > len(re.findall(rf"\b{name}\b", it))}
    for it, name in names.items():
        yield {name} if name in values else values & {*re.findall(r"\w+", it)}, it


def body_of(lines):
    """Returns the body of a function, of its lines."""
    indent = re.match(r" *", lines[-1])[0]
    opened = (at for at, line in enumerate(lines) if line == indent + "{" or line.endswith("{") and not re.search(r"\b(requires|ensures)\b", line))
    return "\n".join(lines[next(opened, len(lines)) :])


def tokens_of(text):
    """Returns the tokens of a text. Comments and layout do not count."""
    lines = (line.strip() for line in text.split("\n"))
    text = "\n".join(line for line in lines if not re.match(r"//|--|#\[inline|(pub |ghost )*use ", line))
    return re.sub(r"[,;] (?=[)}\]])", "", " ".join(re.findall(r"\w+|[^\w\s]", text)))


def spec_uses(text):
    """Returns the places of each name that a file imports from definitions, and the files that it imports whole."""
    places, whole = collections.defaultdict(set), set()
    for crate, path, names in SPEC_USE.findall(text):
        file = path.replace(".", "/")
        if not names:
            whole.add((crate, file))
        for name in filter(None, names.split(",")):
            name, _, other = name.strip().partition(" as ")
            places[other or name].add((crate, file, name))
    return places, whole


class Sources:
    """The sources of the proved crates of a copy of this repository, read once."""

    def __init__(self, top):
        self.top = top
        named = listed(top / "crates.txt")
        self.named = {name: [it for it in others if it in named] for name, others in named.items()}
        # Of definitions: what a file passes on or imports, by file, and the text of each with its file's imports.
        self.uses, self.texts, self.heads = {}, {}, {}
        # Of code: by name what is no function, by name the functions, and the impls by the words of their types and traits.
        self.items, self.methods, self.impls = (collections.defaultdict(list) for _ in range(3))
        self.types = set()
        # By trait its ghost members, each with those of them that it names.
        self.members = collections.defaultdict(list)
        # By name what it is brought in for, and by file the crate from which each name is.
        self.renamed, self.imports = collections.defaultdict(set), {}
        for name in self.named:
            self.read_specs(name)
        for name in self.named:
            for path in sorted((top / "crates" / name / "src").rglob("*.rt")):
                self.read_code(name, path)
        # What a map or a set stands on by an alias is known by the trait's contracts and laws.
        self.containers = frozenset().union(*(of for own in self.impls.values() for trait, of, _ in own if trait == CONTAINER))

    @functools.cache
    def below(self, name):
        return frozenset({name}.union(*(self.below(it) for it in self.named[name])))

    def read_specs(self, crate):
        folder = self.top / "crates" / crate / "specs"
        for path in sorted(folder.rglob("*.antt")):
            file, text = str(path.relative_to(folder).with_suffix("")), path.read_text()
            self.uses[crate, file] = spec_uses(text)
            self.heads[crate, file] = "\n".join(MODULE.findall(text))
            for block in re.split(r"\n\s*\n", MODULE.sub("", text)):
                lines = [it for it in block.split("\n") if not re.match(r"\s*(--|(pub )?(use|mod) )|\s*$", it)]
                defined = DEFINED.match(lines[0]) if lines else None
                if defined:
                    self.texts[crate, file, defined[1]] = "\n".join(lines)

    def cited(self, text, uses, own):
        """Returns the definitions that a text names: those that its file imports, and those of the file itself."""
        found, (places, whole) = set(), uses
        for word in {*re.findall(r"[^\s(){}\[\],;.:]+", text)}:
            ways = set(places.get(word, ())) | {(*it, word) for it in {*whole, own} - {None}}
            seen = set()
            while ways:
                way = ways.pop()
                seen.add(way)
                found.update([way] if way in self.texts else [])
                ways |= self.uses.get(way[:2], ({}, ()))[0].get(way[2], set()) - seen
        return found

    @functools.cache
    def definition(self, key):
        crate, file, name = key
        text = f"{self.texts[key]}\n{self.heads[crate, file]}"
        uses = self.uses[crate, file]
        # A file imported whole may be the contracts of a type.
        named = f"{text}\n{' '.join(it[1].rpartition('/')[2] for it in sorted(uses[1]))}"
        return Part(name, named, self.cited(text, uses, (crate, file)) - {key})

    def read_code(self, crate, path):
        text, file = path.read_text(), str(path.relative_to(self.top / "crates" / crate))
        lines, uses = text.split("\n"), spec_uses(text)
        self.imports[crate, file] = brought = {}
        for first, inner, names, other in CODE_USE.findall(text):
            for name in names.split(",") if names else [inner.rpartition("::")[2]]:
                name, _, renamed = name.strip().partition(" as ")
                renamed = renamed or other
                brought[renamed or name] = crate if first in ("crate", "self", "super") else first
                if renamed:
                    self.renamed[renamed].add(name)
        part = lambda name, text: Part(name, text, self.cited(text, uses, None))
        spans = functions(file, text)
        starts = [at for at, line in enumerate(lines) if ITEM.match(line)]
        begins = [attributed(lines, at) for at in starts]
        for start, at, end in zip(starts, begins, [*begins[1:], len(lines)]):
            kind, name = ITEM.match(lines[start]).groups()
            if kind in ("use", "mod", "fn"):
                continue
            generic = {*re.findall(r"[<,] *(\w+)(?=[:,>])", lines[start])}
            inside = [it for it in spans if at < it.first <= end]
            left_out = {number for it in inside for number in range(it.first, it.last + 1)}
            kept = "\n".join(line for number, line in enumerate(lines[at:end], at + 1) if number not in left_out)
            if kind == "trait":
                kept, members = without_members(kept)
                self.members[name] += [(crate, needed, part(name, it)) for needed, it in members_of("\n".join(lines[at:end]), members)]
            if kind != "impl":
                # An alias stands for its type; to the crates above what that is made of, as a map's container, is known by contracts.
                afar = Part(name, kept, (), kept.partition("=")[2].partition("<")[0]) if kind == "type" else None
                afar = part(name, seen_above(kept)) if kind == "struct" else afar
                self.items[name].append((crate, part(name, kept), afar))
                if kind in ("struct", "enum", "trait"):
                    self.types.add(name)
            owner = heading(lines[start : start + 12])
            trait, _, self_type = owner.rpartition(" for ")
            if kind == "impl" and trait:
                words = {*re.findall(r"\w+", self_type)} - generic
                self.impls[crate].append((base_of(trait), words, part(owner, kept)))
            opened = next((it for it in range(start, end) if "{" in lines[it]), start)
            head = "\n".join(lines[start : opened + 1])
            for it in inside:
                self.add_function(crate, it, lines, head, kind == "trait", generic, uses)
        for it in spans:
            if not it.owner:
                self.add_function(crate, it, lines, "", False, frozenset(), uses)

    def add_function(self, crate, function, lines, head, is_of_trait, generic, uses):
        at = next(it for it in range(function.first - 1, function.last) if re.search(r"\bfn ", lines[it]))
        indent = lines[at][: len(lines[at]) - len(lines[at].lstrip())]
        text = f"{head}\n{text_from(lines, at, indent)}"
        part = Part(str(function), text, self.cited(text, uses, None))
        self.methods[function.name].append(Method(crate, function, is_of_trait, generic, part))

    def called(self, crate, function, result, text):
        """Returns the contracts that a text calls whatever the types are, and those that it does where the function can
        have a value of the type, or of a type with the trait."""
        visible, imports = self.below(crate), self.imports[crate, function.file]
        owner, methods = function.owner.rpartition(" for ")[2], collections.defaultdict(set)
        for before, name in re.findall(r"(?:(\w+)\s*::|\.|>\s*::)\s*(\w+)", text):
            methods[name].add(owner if before == "Self" else before)
        for name in (name for sign, names in OPERATORS.items() if sign in text for name in names.split()):
            methods[name].add("")
        words = {*re.findall(r"\w+", text)}
        words |= {it for word in words for it in self.renamed.get(word, ())}
        called = {*re.findall(r"(\w+)\s*(?:::\s*<|\()", text), *methods}
        free, waiting = [], []
        for word in words & self.methods.keys():
            same = [it for it in self.methods[word] if it.crate in visible and it.is_free]
            own = [it for it in same if (it.crate, it.file) == (crate, function.file)]
            if word in called or word in imports or own:
                free += [it for it in same if it.crate == imports.get(word)] or own or same
        for name in methods.keys() & self.methods.keys():
            same = [it for it in self.methods[name] if it.crate in visible and not it.is_free]
            named = [it for it in same if it.trait in methods[name] or it.of & methods[name]]
            waiting += named if named and methods[name] <= self.types else same
        # A `?` converts to the error that the function returns.
        errors = {*re.findall(r"\w+", result)} if "?" in text else set()
        waiting += [it for it in self.methods["from"] if it.crate in visible and it.of & errors]
        return free, waiting

    def proofs_of(self, crate, function):
        """Returns the files of a function's proof; of all functions of this name where it cannot tell."""
        trait, _, owner = function.owner.rpartition(" for ")
        folder = "".join(re.sub(r"\W", "", base_of(it)) for it in (owner, trait)).lower()
        module = function.file.removeprefix("src/").removesuffix(".rt")
        wanted = [it for it in (*([] if module in ("lib", "main") else module.split("/")), folder) if it]
        folders = [(path, parts) for path, parts in self.proofs(crate) if path.name in (function.name, f"+{function.name}")]
        exact = [(path, parts) for path, parts in folders if parts == [it.lower() for it in wanted]]
        return sorted(file for path, _ in exact or folders for file in path.glob("*.antt"))

    @functools.cache
    def proofs(self, crate):
        """Returns the folders of proofs of a crate, each with the names of those in which it stands."""
        top = self.top / "crates" / crate / "proofs"
        folders = sorted({path.parent for path in top.rglob("*.antt")} - {top})
        return [(it, [part.lower() for part in it.relative_to(top).parts[:-1]]) for it in folders]

    def rests_on(self, crate, function, written):
        """Returns the parts on which a record of the function rests, in whose place an edit writes such texts."""
        visible, file = self.below(crate), (self.top / "crates" / crate / function.file).read_text()
        lines, written = file.split("\n")[function.first - 1 : function.last], "\n".join(written)
        text = "\n".join([*lines, written])
        result = re.split(r"\b(?:requires|ensures)\b|\{", "\n".join(lines).partition("->")[2])[0]
        free, waiting = self.called(crate, function, result, f"{body_of(lines)}\n{written}")
        queue = [Part(str(function), text, self.cited(text, spec_uses(file), None)), Part("", function.owner)]
        trait = base_of(function.owner.rpartition(" for ")[0])
        for it in self.methods.get(function.name, ()):
            is_own = (it.crate, it.file, it.owner) == (crate, function.file, function.owner)
            # A method of an impl has the clauses of its trait.
            if it in free or is_own or trait and it.trait == trait and not it.of and it.crate in visible:
                queue.append(it.part)
        queue += [it.part for it in free]
        for path in self.proofs_of(crate, function):
            said = path.read_text()
            cites = self.cited(said, spec_uses(said), None) if path.stem == "Invariants" else ()
            queue.append(Part(path.stem, said, cites, naming=""))
        code = {*re.findall(r"\w+", f"{body_of(lines)}\n{written}")}
        traits = [names for names, words in TRAITS.items() if code & {*words.split()}]
        queue.append(Part("", "", naming=" ".join(traits)))
        taken, words, cites = {}, set(), set()
        while queue:
            while queue:
                part = queue.pop()
                taken[part.tokens] = part
                queue += [self.definition(it) for it in part.cites - cites]
                cites |= part.cites
                new = part.words - words - (self.containers if part.is_alias else frozenset())
                new |= {it for word in new for it in self.renamed.get(word, ())}
                words |= new
                for there, near, afar in (it for word in new for it in self.items.get(word, ())):
                    if there in visible:
                        queue.append(near if there == crate or not afar else afar)
            met = [it for name in words & self.members.keys() for there, needed, it in self.members[name] if there in visible and needed <= words]
            met += [it.part for it in waiting if (it.of & words if it.of else it.trait in words)]
            for there in visible:
                met += [it for trait, of, it in self.impls[there] if (words & of or not of) and (trait == "Model" or trait in words)]
            queue = [it for it in met if it.tokens not in taken]
        return taken

    def sum_of(self, crate, function, written):
        made = hashlib.sha256("\n".join(sorted(self.rests_on(crate, function, written))).encode())
        return made.hexdigest()[:12]

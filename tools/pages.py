"""The public calls of the library with their doc comments, signatures and clauses, as static HTML.

`index.html` begins as the root does: its doc comment, and the names that it exports, in its order. A type has a page with its calls and its
impls of traits, a module one with its functions, its laws last. `definitions.html` has the definitions by the topics of DESIGN's reading
order; each name in a clause leads there.
"""

import functools
import html
import re

from tools.repository import CRATES, TOP, below, crates
from tools.source import HEAD, IMPL, comment_before, definitions_of, ghosts_of, heading, imported, text_from

ROOT = "btree_range_map"
DECLARED = re.compile(r"(?:(pub) )?(?:unsafe |final |const )*(mod|use|struct|enum|trait|type|fn|const)\b (.*)")
STYLE = """
body { font: 16px/1.5 sans-serif; margin: 2rem auto; max-width: 62rem; padding: 0 1rem; }
pre { background: #f4f4f0; overflow-x: auto; padding: .7rem 1rem; font-size: 13px; }
h2 { border-top: 1px solid #ccc; margin-top: 2rem; padding-top: 1rem; } h3 { margin-top: 2rem; }
.place { color: #666; font-weight: normal; font-size: .9rem; }
input { box-sizing: border-box; font-size: 1.1rem; padding: .4rem; width: 100%; }
li[hidden] { display: none; } ul.calls { list-style: none; padding: 0; } a { color: #0645ad; }
td { padding: .2rem 1rem .2rem 0; vertical-align: top; } td:first-child { white-space: nowrap; }
"""
SEARCH = """
const box = document.querySelector("input"), rows = [...document.querySelectorAll("ul.calls li")];
const search = () => {
  const words = box.value.toLowerCase().split(/\\s+/);
  for (const row of rows) row.hidden = !words.every((it) => row.textContent.toLowerCase().includes(it));
};
box.addEventListener("input", search);
search();
"""


class Module:
    """A module: its crate, the names that lead to it, its file, and what it declares or brings in, in order."""

    def __init__(self, crate, names):
        self.crate, self.names = crate, names
        folder = CRATES / crate / "src"
        path = folder / ("/".join(names) + ".rt" if names else "lib.rt")
        self.file, text = str(path.relative_to(folder)), path.read_text()
        self.comment = [re.sub(r"^//! ?", "", line) for line in text.split("\n") if line.startswith("//!")]
        self.entries = []
        for line in re.sub(r"(?m)^((?:pub )?use [^;]*);", lambda it: " ".join(it[0].split()), text).split("\n"):
            found = DECLARED.match(line)
            if not found:
                continue
            is_public, kind, rest = bool(found[1]), found[2], found[3]
            if kind == "use":
                self.entries += [(is_public, "use", *it) for it in brought(rest.rstrip(";"))]
            else:
                name, alias = re.match(r"\w+", rest)[0], re.match(r"[\w:]*", rest.partition("= ")[2])[0].split("::")
                # An alias under the name of its type stands for that.
                stands_for = alias if kind == "type" and alias[-1] == name else None
                self.entries.append((is_public, "use" if stands_for else kind, name, stands_for))


def brought(use):
    """Gives the name and the path of each item that a `use` brings in."""
    path, _, names = use.partition("::{")
    for name in names.rstrip("}").split(",") if names else [""]:
        name, _, other = name.strip().partition(" as ")
        if names and not name:
            continue
        whole = path if name in ("", "self") else f"{path}::{name}"
        yield other or whole.rpartition("::")[2], whole.split("::")


@functools.cache
def module(crate, names=()):
    return Module(crate, names)


def looked_up(crate, names, path):
    """Returns what a path means in a module: a Module, or the crate, the module's names, the kind and the name of an item."""
    if path[0] == "crate":
        return inside(module(crate), path[1:])
    if path[0] in ("self", "super"):
        return inside(module(crate, names if path[0] == "self" else names[:-1]), path[1:])
    if any(it[2] == path[0] for it in module(crate, names).entries):
        return inside(module(crate, names), path)
    return inside(module(path[0]), path[1:]) if (CRATES / path[0]).is_dir() else None


def inside(place, path):
    """Returns what a path means from a module on."""
    for at, name in enumerate(path):
        entry = next((it for it in place.entries if it[2] == name), None)
        if not entry:
            return None
        _, kind, _, target = entry
        if kind == "use":
            found = looked_up(place.crate, place.names, target)
        elif kind == "mod":
            found = module(place.crate, (*place.names, name))
        else:
            found = place.crate, place.names, kind, name
        if not isinstance(found, Module):
            return found if at + 1 == len(path) else None
        place = found
    return place


def exported(place, path, found):
    """Adds the public items that can be named from a module on, with the paths that lead to each, in order."""
    for is_public, kind, name, _ in place.entries:
        target = inside(place, [name]) if is_public else None
        if isinstance(target, Module):
            found.setdefault(target, []).append((*path, name))
            exported(target, (*path, name), found)
        elif target:
            found.setdefault(target, []).append((*path, name))
    return found


class Call:
    """A function or a type as users see it: where it stands, what it is of, its doc comment and its text without a body."""

    def __init__(self, crate, file, block, owner, kind, name, comment, text, imports):
        self.crate, self.file, self.block, self.owner, self.kind, self.name = crate, file, block, owner, kind, name
        self.comment, self.text, self.imports = comment, text, imports
        self.of = re.match(r"\W*(\w*)", owner.rpartition(" for ")[2].split("::")[-1])[1]
        self.trait = owner.rpartition(" for ")[0]
        self.is_law = kind == "fn" and not owner and "->" not in text.partition("requires")[0].partition("ensures")[0]


def calls_of(crate):
    """Returns the public items of a crate with a doc comment, the methods of its traits and impls, and the impls themselves."""
    found = []
    for path in sorted((CRATES / crate / "src").rglob("*.rt")):
        text = path.read_text()
        lines, owner, block, is_trait, imports = text.split("\n"), "", 0, False, imported(text)
        file = str(path.relative_to(CRATES / crate / "src"))
        for at, line in enumerate(lines):
            if IMPL.match(line):
                owner, block, is_trait = heading(lines[at : at + 12]), at, line.startswith(("trait", "pub trait"))
                if " for " in owner:
                    end = next(it for it in range(at, len(lines)) if lines[it].endswith(("{", "{}")))
                    head = "\n".join(lines[at : end + 1]).removesuffix("{").removesuffix("{}").rstrip()
                    head += ghosts_of(lines, at) if owner.startswith("Model for ") else ""
                    found.append(Call(crate, file, block, owner, "impl", "", comment_before(lines, at), head, imports))
            elif line.startswith("}"):
                owner, is_trait = "", False
            head = HEAD.match(line)
            if not head or "#[test]" in lines[max(0, at - 1)]:
                continue
            of, comment = owner if head[1] else "", comment_before(lines, at)
            if head[2] and comment or head[1] and (is_trait or " for " in owner):
                shown = text_from(lines, at, head[1]) + (ghosts_of(lines, at) if head[3] == "trait" else "")
                found.append(Call(crate, file, block, of, head[3], head[4], comment, shown, imports))
    return found


def trait_of(head):
    """Returns the trait of an impl with what it is applied to, as `From<Range<T>>`, from the impl's head."""
    depth, text = 0, " ".join(head.partition(" {\n")[0].split()).partition("impl")[2]
    for at, letter in enumerate(text):
        depth += (letter == "<") - (letter == ">" and text[at - 1] != "-")
        if depth == 0:
            break
    return text[at + (letter == ">") :].strip().partition(" for ")[0]


def of_type(call, item):
    """Returns whether a call is of the type or trait that is exported."""
    crate, _, _, name = item
    if call.of != name:
        return False
    file = (CRATES / call.crate / "src" / call.file).read_text()
    used = re.search(rf"^use (\w+)[^;]*\b{name}\b[^;]*;", file, re.M)
    declares = any(it.kind in ("struct", "enum", "trait", "type") and it.name == name and not it.owner for it in all_calls(call.crate))
    return call.crate == crate if declares else bool(used) and crate in (used[1], call.crate) or call.crate == crate


@functools.cache
def all_calls(crate):
    return calls_of(crate)


def linked(text, imports, own, known):
    """Returns a text as HTML, in which each name of a known definition leads to it, but for comments."""

    def link(found):
        place = (*imports.get(found[0], own), found[0])
        return f'<a href="definitions.html#{anchor_of(place)}">{found[0]}</a>' if place in known else found[0]

    lines = html.escape(text, quote=False).split("\n")
    is_comment = re.compile(r"\s*(//|--)")
    return "\n".join(it if is_comment.match(it) else re.sub(r"\b[A-Za-z_]\w*", link, it) for it in lines)


def anchor_of(place):
    return "-".join(place).replace("/", "-")


def code(text, page_of=lambda _: ""):
    """Returns a text as HTML: what stands between backticks as code, a name in brackets with a link to its page if it has one."""

    def shown(found):
        name, file = f"<code>{found[2]}</code>", page_of(found[2]) if found[1] else ""
        return f'<a href="{file}">{name}</a>' if file else name

    return re.sub(r"(\[?)`([^`]*)`\]?", shown, html.escape(text, quote=False))


def prose(lines, page_of=lambda _: ""):
    """Returns a doc comment as HTML: paragraphs, lists, and blocks between fences."""
    parts, out = "\n".join(lines).split("```"), []
    for is_code, part in zip([False, True] * len(parts), parts):
        if is_code:
            out.append(f"<pre>{html.escape(part.partition(chr(10))[2].rstrip())}</pre>")
        for paragraph in filter(str.strip, [] if is_code else part.split("\n\n")):
            items = re.split(r"^- ", paragraph.strip("\n"), flags=re.M)
            out.append(f"<p>{code(items[0], page_of)}</p>" if items[0].strip() else "")
            out.append("<ul>" + "".join(f"<li>{code(it, page_of)}</li>" for it in items[1:]) + "</ul>" if items[1:] else "")
    return "\n".join(out)


def first_sentence(comment):
    return code(re.split(r"(?<=[.:]) |\.$|:$", " ".join(comment))[0].rstrip(".:"))


def page(title, body):
    head = f'<meta charset="utf-8"><title>{title}</title><style>{STYLE}</style>'
    back = '<p><a href="index.html">btree_range_map</a>, <a href="definitions.html">definitions</a></p>' if title != ROOT else ""
    return f'<!DOCTYPE html>\n<html lang="en">{head}\n{back}<h1>{title}</h1>\n{body}\n</html>\n'


def written_path(path):
    return "::".join((ROOT, *path))


class Pages:
    """The pages of the root: its items with their paths, the calls of the crates below, and the definitions."""

    def __init__(self):
        every = crates()
        self.names = [name for name in every if name in below(every, ROOT)]
        self.known = {}
        for name in self.names:
            for (file, word), definition in definitions_of(every[name]).items():
                self.known[name, file, word] = definition
        self.calls = [it for name in self.names for it in all_calls(name)]
        self.paths = exported(module(ROOT), (), {})
        self.rows = []

    def file_of(self, target):
        return ".".join(min(self.paths[target], key=len)) + ".html"

    def page_of(self, name):
        """Returns the page of a name that the root exports, or nothing."""
        return next((self.file_of(it) for it, paths in self.paths.items() if (name,) in paths), "")

    def shown(self, call, title, file):
        """Returns a call as HTML, and adds it to the rows of the search."""
        anchor = re.sub(r"\W+", "-", f"{call.owner}-{call.name}").strip("-")
        self.rows.append(f'<li><a href="{file}#{anchor}">{html.escape(title)}</a> {first_sentence(call.comment)}</li>')
        text = linked(call.text, call.imports, ("", ""), self.known)
        return f'<h3 id="{anchor}">{html.escape(title)}</h3>{prose(call.comment)}<pre>{text}</pre>\n'

    def type_page(self, item):
        """Writes the page of a type or trait: its paths, its declaration, its calls, and its impls of traits."""
        crate, _, kind, name = item
        file, own = self.file_of(item), [it for it in self.calls if of_type(it, item)]
        paths = sorted(self.paths[item], key=len)
        aliases = [it for it in all_calls(ROOT) if it.kind == "type" and it.name == name]
        body = "".join(f'<p class="place"><code>{written_path(it)}</code></p>' for it in paths)
        declared = [it for it in all_calls(crate) if it.kind == kind and it.name == name and not it.owner]
        for it in dict.fromkeys([*aliases, *declared]):
            body += f"{prose(it.comment)}<pre>{linked(it.text, it.imports, ('', ''), self.known)}</pre>\n"
        home = next((it.file for it in declared), "")
        for it in sorted(own, key=lambda it: it.file != home):
            if it.kind != "impl" and not it.trait:
                body += self.shown(it, f"{name}::{it.name}", file)
        impls = [it for it in own if it.kind == "impl"]
        body += "<h2>Traits</h2>" if impls else ""
        for it in impls:
            methods = [other for other in own if (other.file, other.block) == (it.file, it.block) and other.kind == "fn"]
            text = "\n".join([it.text, *(re.sub("^", "    ", other.text, flags=re.M) for other in methods)])
            body += f"<h3>{html.escape(trait_of(it.text))}</h3>{prose(it.comment)}<pre>{linked(text, it.imports, ('', ''), self.known)}</pre>\n"
        return file, page(html.escape(name), body)

    def module_page(self, target, items):
        """Writes the page of a module: its names, its functions, and its laws last."""
        file, place = self.file_of(target), min(self.paths[target], key=len)
        body = f'<p class="place"><code>{written_path(place)}</code></p>{prose(target.comment)}{self.table(items)}'
        functions = [self.function(it) for it in items if not isinstance(it, Module) and it[2] == "fn"]
        for it in sorted(filter(None, functions), key=lambda it: it.is_law):
            body += self.shown(it, it.name, file)
        return file, page("::".join(place), body)

    def function(self, item):
        crate, _, kind, name = item
        return next((it for it in all_calls(crate) if (it.kind, it.name, it.owner) == (kind, name, "")), None)

    def table(self, items):
        """Returns the names of a module, each with its first sentence, laws last."""
        rows = []
        for it in items:
            if isinstance(it, Module):
                name, comment, link, is_law = self.paths[it][0][-1], it.comment, self.file_of(it), False
            else:
                call = self.function(it)
                home = next((place for place in self.paths if isinstance(place, Module) and it in self.members(place)), None)
                link = f"{self.file_of(home)}#{it[3]}" if it[2] == "fn" and home else self.file_of(it)
                name, comment, is_law = it[3], call.comment if call else [], bool(call and call.is_law)
            rows.append((is_law, f'<tr><td><a href="{link}">{name}</a></td><td>{first_sentence(comment)}</td></tr>'))
        return "<table>" + "".join(row for _, row in sorted(rows, key=lambda it: it[0])) + "</table>"

    @functools.cache
    def members(self, place):
        """Returns the public items and modules of a module, in its order."""
        found = [inside(place, [name]) for is_public, _, name, _ in place.entries if is_public]
        return [it for it in dict.fromkeys(found) if it]

    def definitions(self):
        """Returns the page of the definitions by topics, and of those in none by crates."""
        left, body, crate = dict(self.known), "", ""
        section = (TOP / "docs" / "DESIGN.md").read_text().partition("## The definitions in reading order")[2].partition("\n## ")[0]
        for topic in re.split(r"\n\d+\. ", section)[1:]:
            topic = " ".join(topic.split())
            body += f"<h2>{code(re.sub(r' ?[(]`[^)]*[)]', '', topic))}</h2>"
            for word in re.findall(r"`([\w/.]+)`", topic):
                crate = word.partition("/")[0] if "/" in word else crate
                for place in [it for it in left if it[2] == word]:
                    body += self.definition(place, left.pop(place))
        for name in self.names:
            own = [it for it in left if it[0] == name]
            body += f"<h2>Further ones of {name}</h2>" if own else ""
            body += "".join(self.definition(it, left[it]) for it in own)
        return page("Definitions", body)

    def definition(self, place, definition):
        comment, text, imports = definition
        shown = linked(text, imports, place[:2], self.known)
        return f'<h3 id="{anchor_of(place)}">{place[2]}</h3>{prose(comment)}<pre>{shown}</pre>\n'


def write(folder):
    """Writes the pages of the crates that the root is made of."""
    pages, written = Pages(), {}
    folder.mkdir(parents=True, exist_ok=True)
    for target in pages.paths:
        if isinstance(target, Module):
            file, text = pages.module_page(target, pages.members(target))
        elif target[2] != "fn":
            file, text = pages.type_page(target)
        else:
            continue
        written[file] = text
    root = module(ROOT)
    body = prose(root.comment, pages.page_of) + pages.table(pages.members(root))
    body += f'<h2>All calls</h2><input placeholder="Search calls"><ul class="calls">{"".join(pages.rows)}</ul><script>{SEARCH}</script>'
    written |= {"index.html": page(ROOT, body), "definitions.html": pages.definitions()}
    for file, text in written.items():
        (folder / file).write_text(text)
    print(f"{folder}/index.html: {len(pages.rows)} calls, {len(pages.known)} definitions")

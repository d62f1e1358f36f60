#!/usr/bin/env python3
"""compare.py LANGUAGE TOKENS [FILE..]: holds the rules that come with `tokens` to another lexer of the language.

TOKENS is the program. LANGUAGE is one of

    c       `clang -cc1 -dump-raw-tokens`; with no file all headers below /usr/include, /usr/lib/gcc and /usr/lib/llvm*,
            but for those of C++
    json    the reader of Python's `json`; with no file all that ends in .json below /usr and the kit, of at most 256 kB
    toml    the reader of Python's `tomllib`; with no file all that ends in .toml below /usr and the home folder
    rust    `rustc`, through a macro that hands it each text; with no file all that ends in .rs there

Each token has to have the same kind, place and text. Prints how many files and tokens were the same, each first difference
of a file, and each file that the other lexer refuses. The status is 1 where there is a difference.
"""

import collections
import concurrent.futures
import datetime
import functools
import json
import os
import pathlib
import re
import shutil
import subprocess
import sys
import tempfile
import tomllib

RULES = pathlib.Path(__file__).resolve().parent.parent / "data"
RUSTC = shutil.which("rustc") or next(pathlib.Path("/root/.rustup").glob("toolchains/stable*/bin/rustc"), "rustc")
MARKS = {"c": "mark_between_files", "rust": "mark_between_files", "toml": "mark_between_files", "json": '"mark between files"'}
# A file of JSON beyond this is left out, and a batch of files is closed before this, for their tokens take many times as much.
LARGEST, BATCH = 256 << 10, 4 << 20
SPLICE = re.compile(rb"(?:\\[ \t]*\r?\n)+")


def cut(tokens, language, paths):
    """Returns the lines of JSON that the program prints of each file. Between two files it is given one with a mark."""
    with tempfile.NamedTemporaryFile("w") as mark:
        mark.write(MARKS[language])
        mark.flush()
        words = [word for path in paths for word in (path, mark.name)]
        ran = subprocess.run([tokens, "--json", RULES / language, *words], capture_output=True)
    if ran.stderr:
        sys.exit(ran.stderr.decode())
    found, so_far = [], []
    for line in map(json.loads, ran.stdout.splitlines()):
        if line["text"] == MARKS[language]:
            found.append(so_far)
            so_far = []
        else:
            so_far.append(line)
    return found


def told(lines, text):
    """Gives the kind, first byte and text of each token."""
    starts = [0] + [it.end() for it in re.finditer(b"\n", text)]
    for line in lines:
        start = byte_at(text, starts, line["line"], line["column"])
        yield line["rule"], start, line["text"].encode()


def byte_at(text, starts, line, column):
    """Returns the byte of a line and a column, each from 1, of a text whose lines start there."""
    # A character has at most four bytes, and one that is cut off is behind the column.
    front = text[starts[line - 1] : starts[line - 1] + 4 * (column - 1)]
    return starts[line - 1] + len(front.decode(errors="ignore")[: column - 1].encode())


def by_clang(path, text):
    """Gives the same by clang, but for comments and blanks. A splice in front of a token is none of it."""
    ran = subprocess.run(["clang", "-cc1", "-dump-raw-tokens", "-std=c2x", "-fno-dollars-in-identifiers", "-x", "c", path], capture_output=True)
    place = rb"\tLoc=<" + re.escape(str(path).encode()) + rb":(\d+):(\d+)>\n"
    starts = [0] + [it.end() for it in re.finditer(b"\r\n|\n|\r", text)]
    found, at = [], 0
    for it in re.finditer(place, ran.stderr):
        kind = ran.stderr[at : it.start()].split(b" ", 1)[0].decode()
        found.append((kind, starts[int(it[1]) - 1] + int(it[2]) - 1))
        at = it.end()
    for (kind, start), (_, end) in zip(found, found[1:] + [("eof", len(text))]):
        if splice := SPLICE.match(text, start):
            start = splice.end()
        piece = text[start:end]
        if kind not in ("comment", "eof") and piece.strip(b" \t\n\r\x0b\x0c\0"):
            yield kind_of(kind, piece), start, piece


def kind_of(kind, piece):
    if kind == "raw_identifier":
        return "word"
    if kind == "numeric_constant":
        return "number"
    if kind.endswith("char_constant"):
        return "character"
    if kind.endswith("string_literal"):
        return "string"
    if kind != "unknown":
        return "punctuator"
    if re.match(rb"/(?:\\[ \t]*\r?\n)*\*", piece):
        return "unended_comment"
    opened = re.match(rb"(?:u8?|U|L)?(['\"])", piece)
    if opened and piece != b"''":
        return "unended_string" if opened[1] == b'"' else "unended_character"
    return "other"


def c_differences(path, text, found):
    ours = [("word" if kind in ("keyword", "identifier") else kind, *more) for kind, *more in found]
    return compared(path, ours, list(by_clang(path, text)))


def compared(path, ours, theirs):
    """Returns how many tokens are the same, and where the first others stand."""
    for number, (one, other) in enumerate(zip(ours, theirs)):
        if one != other:
            return number, [("differs", path, one, other)]
    if len(ours) != len(theirs):
        return min(len(ours), len(theirs)), [("longer", path, ours[len(theirs) :][:1], theirs[len(ours) :][:1])]
    return len(ours), []


def json_differences(path, text, found):
    """Holds each token to what Python's reader takes there, and all of them to the value that it reads."""
    try:
        loaded = json.loads(text)
    except (ValueError, RecursionError):
        return 0, [("refused", path)]
    for number, (kind, start, piece) in enumerate(found):
        if not text.startswith(piece, start) or not json_taken(kind, piece.decode()):
            return number, [("differs", path, kind, start, piece)]
    if json.loads(" ".join(piece.decode() for _, _, piece in found)) != loaded:
        return 0, [("is another value", path)]
    return len(found), []


def json_taken(kind, piece):
    if kind == "string":
        return json.decoder.scanstring(piece, 1)[1] == len(piece)
    if kind == "number":
        return json.scanner.NUMBER_RE.match(piece).end() == len(piece)
    return piece in (["true", "false", "null"] if kind == "literal" else list("[]{}:,"))


def toml_differences(path, text, found):
    """Holds each token to what Python's reader takes as a value of its kind, and all of them to what it reads."""
    try:
        loaded = tomllib.loads(text.decode())
    except tomllib.TOMLDecodeError:
        return 0, [("refused", path)]
    for number, (kind, start, piece) in enumerate(found):
        if kind in TOML_VALUES and not isinstance(tomllib.loads(f"x = {piece.decode()}")["x"], TOML_VALUES[kind]):
            return number, [("differs", path, kind, start, piece)]
        if not text.startswith(piece, start) or kind not in TOML_VALUES and kind not in ("key", "newline", "mark"):
            return number, [("differs", path, kind, start, piece)]
    if not alike(tomllib.loads(" ".join(piece.decode() for _, _, piece in found)), loaded):
        return 0, [("is another value", path)]
    return len(found), []


def alike(one, other):
    return repr(one) == repr(other)


TOML_VALUES = {
    "boolean": bool, "date_time": (datetime.date, datetime.time), "float": float, "integer": int, "string": str
}
LEXED = """
extern crate proc_macro;
use proc_macro::{Delimiter, TokenStream, TokenTree};
fn put(kind: &str, at: proc_macro::Span, text: &str, out: &mut String) {
    out.push_str(&format!("{kind} {} {} {}\\n", at.start().line(), at.start().column(), text.len()));
}
fn walk(trees: TokenStream, out: &mut String) {
    for tree in trees {
        match tree {
            TokenTree::Group(group) => {
                let (open, close) = match group.delimiter() {
                    Delimiter::Parenthesis => ("(", ")"),
                    Delimiter::Brace => ("{", "}"),
                    Delimiter::Bracket => ("[", "]"),
                    Delimiter::None => ("", ""),
                };
                put("punctuation", group.span_open(), open, out);
                walk(group.stream(), out);
                put("punctuation", group.span_close(), close, out);
            }
            TokenTree::Ident(it) => put("word", it.span(), &it.to_string(), out),
            TokenTree::Punct(it) => put("punctuation", it.span(), "+", out),
            TokenTree::Literal(it) => put("literal", it.span(), &it.to_string(), out),
        }
    }
}
#[proc_macro]
pub fn lexed(trees: TokenStream) -> TokenStream {
    let mut out = String::new();
    walk(trees, &mut out);
    std::fs::write(std::env::var("LEXED").unwrap(), out).unwrap();
    TokenStream::new()
}
"""


@functools.cache
def rust_macro():
    """Returns a folder with a macro that writes down what it is given."""
    folder = pathlib.Path(tempfile.mkdtemp())
    (folder / "lexed.rs").write_text(LEXED.replace("\\\\n", "\\n"))
    words = ["--edition", "2024", "--crate-type", "proc-macro", "--out-dir", folder, folder / "lexed.rs"]
    subprocess.run([RUSTC, *words], check=True)
    return folder


def by_rustc(path, text):
    """Gives the kind, first byte and text of each token that the macro is given, or None where rustc refuses the text."""
    with tempfile.TemporaryDirectory() as folder:
        whole = pathlib.Path(folder) / "whole.rs"
        front = b"lexed::lexed! {\n"
        whole.write_bytes(front + text + b"\n}\nfn main() {}\n")
        words = ["--edition", "2024", "--extern", f"lexed={rust_macro() / 'liblexed.so'}", "--emit", "metadata", "--out-dir", folder]
        ran = subprocess.run([RUSTC, *words, whole], capture_output=True, env={**os.environ, "LEXED": f"{folder}/told"})
        if ran.returncode:
            return None
        lines = (pathlib.Path(folder) / "told").read_text().splitlines()
    starts = [0] + [it.end() for it in re.finditer(b"\n", text)]
    found = []
    for kind, line, column, length in map(str.split, lines):
        start = byte_at(text, starts, int(line) - 1, int(column))
        piece = text[start : start + int(length)]
        # A comment of documentation is given as an attribute, whose tokens all stand at the comment.
        if not re.match(rb"//|/\*", piece + text[start + int(length) :][:1]):
            found.append((kind, start, piece))
    return found


def rust_differences(path, text, found):
    if text.startswith(b"#!") and not text.startswith(b"#!["):
        return 0, [("refused", path)]
    theirs = by_rustc(path, text)
    if theirs is None:
        return 0, [("refused", path)]
    return compared(path, list(rust_parts(found)), theirs)


def rust_parts(found):
    """Gives punctuation and lifetimes in the parts that the macro is given."""
    for kind, start, piece in found:
        if kind == "punctuation":
            yield from ((kind, start + it, piece[it : it + 1]) for it in range(len(piece)))
        elif kind == "lifetime":
            # Both parts are said to stand where it does.
            yield "punctuation", start, piece[:1]
            yield "word", start, piece[:-1]
        elif kind in ("keyword", "identifier"):
            yield "word", start, piece
        else:
            yield ("literal" if kind in ("float", "integer", "character", "string") else kind), start, piece


def below(ending, *tops):
    return sorted({it for top in tops for it in pathlib.Path("/").glob(f"{top}/**/*{ending}") if it.is_file()})


def in_batches(paths):
    """Gives the paths in lists of at most 50 files, and beyond one file of so many bytes."""
    batch, size = [], 0
    for path in paths:
        size += path.stat().st_size
        if batch and (len(batch) == 50 or size > BATCH):
            yield batch
            batch, size = [], path.stat().st_size
        batch.append(path)
    if batch:
        yield batch


def results_of(language, tokens, paths):
    """Returns the results of a batch, for a process of its own."""
    return list(batch(language, tokens, paths))


LANGUAGES = {
    "c": (c_differences, lambda: [it for it in below(".h", "usr/include", "usr/lib/gcc", "usr/lib/llvm*") if "/c++/" not in str(it)]),
    "json": (json_differences, lambda: [it for it in below(".json", "usr", "opt/rattle") if it.stat().st_size <= LARGEST]),
    "toml": (toml_differences, lambda: below(".toml", "usr", "root")),
    "rust": (rust_differences, lambda: below(".rs", "usr", "root")),
}


def text_of(path):
    """Returns the bytes of a file, or None where they are no UTF-8."""
    text = path.read_bytes()
    try:
        text.decode()
    except UnicodeDecodeError:
        return None
    return text


def batch(language, tokens, paths):
    """Gives how many tokens of each file are the same, and its differences."""
    texts = [(path, text_of(path)) for path in paths]
    yield from ((0, [("refused", path)]) for path, text in texts if text is None)
    texts = [it for it in texts if it[1] is not None]
    for (path, text), lines in zip(texts, cut(tokens, language, [path for path, _ in texts])):
        yield LANGUAGES[language][0](path, text, list(told(lines, text)))


def main():
    language, tokens, *paths = sys.argv[1:]
    paths = [pathlib.Path(it) for it in paths] or LANGUAGES[language][1]()
    same = whole = 0
    said = collections.Counter()
    with concurrent.futures.ProcessPoolExecutor(4) as pool:
        for results in pool.map(functools.partial(results_of, language, tokens), in_batches(paths)):
            for number, found in results:
                same += number
                whole += not found
                for kind, *more in found:
                    said[kind] += 1
                    print(kind, *more, flush=True)
    print(f"{whole} of {len(paths)} files the same, {same} tokens", *(f"{count} {kind}" for kind, count in said.items()), sep=", ")
    return int(whole + said["refused"] < len(paths))


if __name__ == "__main__":
    sys.exit(main())

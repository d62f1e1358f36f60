"""The examples of pages and doc comments.

A block of a page that is marked `rust` or `antt` has to stand whole in a file of the crates that RUN
names, where it is proved, or of three of tests/, where it is run. The examples in doc comments of the
crates that SHOWN names are made into tests, which are run without a proof: tests/examples.txt has
what stands around each. A block marked `text` is none.
"""

import contextlib
import re
import time

from tools import repository
from tools.repository import CRATES, TOP, Counts, told, tried

RUN = [CRATES / name for name in ("tour", "bookings", "odd_keys", "lexing_patterns", "address_tables")]
RUN += [CRATES / "address_table_commands"]
RUN += [TOP / "tests" / name for name in ("address_tests", "example_tests", "pattern_tests", "table_tests")]
PAGES = ("README.md", "docs/GUIDE.md")
KINDS = (".rt", ".rt.txt", ".antt")
FRAMES = TOP / "tests" / "examples.txt"
SHOWN = ("range_algebra", "range_map", "range_sets", "range_multimaps", "range_commands", "range_json")
SHOWN += ("range_map_json", "range_set_json", "lexing_patterns")
# The crate of the examples, the one whose calls most of them show, and what else they use.
CRATE, CRATE_ABOVE = "examples", "btree_range_map"
USED = "lexing lexing_patterns serde_json"


def stripped(lines):
    return [line.strip() for line in lines if line.strip()]


def page_blocks(page):
    text = (TOP / page).read_text()
    for found in re.finditer(r"^```(?:rust|antt)\n(.*?)^```$", text, re.M | re.S):
        line = text.count("\n", 0, found.start()) + 1
        yield f"{page}:{line}", stripped(found.group(1).split("\n"))


def stands(block, lines):
    return any(lines[at : at + len(block)] == block for at in range(len(lines)))


def compared():
    """Returns how many blocks of pages stand in what is proved or run."""
    began = time.monotonic()
    paths = [path for top in RUN for part in ("src", "specs") for path in (top / part).rglob("*")]
    files = [stripped(path.read_text().split("\n")) for path in paths if path.name.endswith(KINDS)]
    blocks = [it for page in PAGES for it in page_blocks(page)]
    strays = [place for place, block in blocks if not any(stands(block, it) for it in files)]
    said = "".join(f"{place}: nothing that is proved or run has these lines\n" for place in strays)
    counts = Counts(len(blocks) - len(strays), len(strays) if blocks else 1)
    return told("blocks of pages", counts, began, said)


def doc_blocks(path):
    """Gives the examples of a file: the lines between two fences in doc comments, with their place."""
    block, start = None, 0
    for number, line in enumerate(path.read_text().split("\n"), 1):
        comment = re.match(r"\s*//[/!] ?(.*)", line)
        if comment and comment[1].startswith("```"):
            if block and start:
                yield start, block
            start = number if block is None and comment[1] == "```" else 0
            block = [] if block is None else None
        elif comment and block is not None:
            block.append(comment[1])


def frames():
    """Returns what stands before and after the examples that begin with a line, by that line."""
    found, lines = {}, []
    for line in FRAMES.read_text().split("\n"):
        if line.startswith("    ") or not line:
            lines.append(line[4:])
        else:
            lines = found.setdefault(line, [])
    return found


def tests():
    """Returns a test for each example, by its name."""
    around, found = frames(), {}
    for name in SHOWN:
        source = CRATES / name / "src"
        for path in sorted(source.rglob("*.rt")):
            parts = path.relative_to(source).with_suffix("").parts
            for number, block in doc_blocks(path):
                keys = [f"{parts[0]} {block[0]}", f"{name.removeprefix('range_')} {block[0]}", block[0]]
                frame = next((around[key] for key in keys if key in around), [])
                at = frame.index("..") if ".." in frame else len(frame)
                body = [*frame[:at], *block, *frame[at + 1 :], "Ok(())"]
                text = "".join(f"    {line}\n" for line in body if line)
                head = "(rt: HostRuntime) -> Result<(), Fail> {\n    let alloc = rt.alloc();\n"
                test = "_".join([name, *parts, str(number)])
                found[test] = f"#[test]\nfn {test}{head}{text}}}\n"
    return found


def read_by(crate):
    """Returns what the examples are made of beside the sources, where the crate is the one that has them."""
    return FRAMES.read_bytes() if crate.name == CRATE_ABOVE else b""


@contextlib.contextmanager
def workspace():
    """Gives the folder of copies of all crates, with one more of the examples."""
    with repository.workspace(f"{CRATE}: {CRATE_ABOVE} {USED}\n") as room:
        source = room / CRATE / "src"
        source.mkdir(parents=True)
        (source / "lib.rt").write_text("#[cfg(test)]\nmod tests;\n")
        (source / "tests.rt").write_text("\n".join([*frames()["before"], *tests().values()]))
        yield room


def run_in(room):
    """Runs the examples of the doc comments as tests."""
    began, wanted = time.monotonic(), len(tests())
    ended = tried(room / CRATE, "--test")
    said = (ended.out + ended.errors).decode(errors="replace")
    ran = len(re.findall(r"^test \S+ \.\.\. ok$", said, re.M))
    counts = Counts(ran, max(wanted - ran, int(ended.status != 0 or not wanted)))
    return told("examples of doc comments", counts, began, said)

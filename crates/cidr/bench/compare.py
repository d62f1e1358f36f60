"""Times `cidr` beside its peers: compare.py PROGRAM, called by compare.sh.

The lists are all blocks of Debian's tor-geoipdb, each family in order and in no order, as ranges
and as the prefixes of these. `cidr` and `iprange` are given the one and the other, `aggregate`,
`ipaddress` and `netaddr` prefixes, which are all that they read. All have to print the same
prefixes. Then the first halves of all blocks of IPv4 are merged with the second ones, two lists in
order. At last `cidr grep` and `grepcidr` look for five prefixes in a log of a million lines, and have
to find the same. The processor time is the least of some runs; the memory is the greatest resident size.
"""

import ipaddress
import os
import pathlib
import random
import resource
import subprocess
import sys
import tempfile

RUNS = 5
# What takes more seconds of processor time is cut off.
LIMIT = 60
LOG_LINES = 1_000_000
SOUGHT = ["10.0.0.0/8", "172.16.0.0/12", "192.168.0.0/16", "203.0.113.0/24", "2001:db8:1000::/36"]
PATHS = ["/", "/index.html", "/static/app.min.js?v=1.2.3", "/images/logo.png", "/a/longer/path/with-some.segments/in/it.html"]
AGENTS = ["Mozilla/5.0 (X11; Linux x86_64; rv:109.0) Gecko/20100101 Firefox/115.0", "curl/7.88.1", "-"]
TABLES = {4: "/usr/share/tor/geoip", 6: "/usr/share/tor/geoip6"}
COLLAPSE = """
import ipaddress, sys
kind = ipaddress.IPv4Network if sys.argv[1] == "4" else ipaddress.IPv6Network
blocks = [kind(line.strip()) for line in open(sys.argv[2])]
for block in ipaddress.collapse_addresses(blocks):
    print(block)
"""
MERGE = """
import netaddr, sys
for block in netaddr.cidr_merge([line.strip() for line in open(sys.argv[2])]):
    print(block)
"""


def blocks(family):
    """Gives the first and the last address of each block of a family."""
    kind = {4: lambda word: ipaddress.IPv4Address(int(word)), 6: ipaddress.IPv6Address}[family]
    for line in open(TABLES[family]):
        if not line.startswith("#"):
            first, last, _ = line.split(",")
            yield kind(first), kind(last)


def write_lists(folder):
    """Writes the lists of both families: ranges and prefixes, in order and in no order."""
    random.seed(1)
    for family in TABLES:
        ranges = list(blocks(family))
        for order in ("in order", "in no order"):
            with open(folder / f"{family} ranges {order}", "w") as lines:
                lines.writelines(f"{first}-{last}\n" for first, last in ranges)
            with open(folder / f"{family} prefixes {order}", "w") as lines:
                for first, last in ranges:
                    each = ipaddress.summarize_address_range(first, last)
                    lines.writelines(f"{prefix}\n" for prefix in each)
            random.shuffle(ranges)


def write_halves(folder):
    """Writes two lists in order, of the first and of the second halves of all blocks of IPv4."""
    with open(folder / "first halves", "w") as one, open(folder / "second halves", "w") as other:
        for first, last in blocks(4):
            middle = first + (int(last) - int(first)) // 2
            one.write(f"{first}-{middle}\n")
            if middle < last:
                other.write(f"{middle + 1}-{last}\n")


def caller(chance):
    """Returns an address that a line of a log begins with."""
    if chance.random() < 0.9:
        return ".".join(str(chance.randrange(256)) for _ in range(4))
    return f"2001:db8:{chance.randrange(65536):x}::{chance.randrange(65536):x}"


def write_log(folder):
    """Writes a log of a server, and the prefixes that are looked for in it."""
    chance = random.Random(1)
    (folder / "sought").write_text("".join(f"{it}\n" for it in SOUGHT))
    with open(folder / "log", "w") as log:
        for _ in range(LOG_LINES):
            time = ":".join(f"{chance.randrange(60):02}" for _ in range(2))
            asked = f'"GET {chance.choice(PATHS)} HTTP/1.1" 200 {chance.randrange(100000)}'
            log.write(f'{caller(chance)} - - [01/Jan/2024:10:{time} +0000] {asked} "-" "{chance.choice(AGENTS)}"\n')


def limited():
    resource.setrlimit(resource.RLIMIT_CPU, (LIMIT, LIMIT))


def spent(words, given, runs):
    """Runs a command some times: its least processor time, its greatest size in KB, and what it prints.

    Returns None where it fails or is cut off."""
    seconds, sizes = [], []
    for _ in range(runs):
        with open(given) as lines:
            timed = ["/usr/bin/time", "-f", "%U %S %M", *words]
            ran = subprocess.run(timed, stdin=lines, capture_output=True, text=True, preexec_fn=limited)
        if ran.returncode:
            return None
        user, system, size = ran.stderr.split()[-3:]
        seconds.append(float(user) + float(system))
        sizes.append(int(size))
    return min(seconds), max(sizes), ran.stdout


def prefixes_of(text):
    return [str(ipaddress.ip_network(line.strip())) for line in text.splitlines()]


def peers(family, given):
    """Gives each program's name, how it is called on a list, and how often it is run."""
    yield "cidr, of ranges", [program, "merge", given("ranges")], RUNS
    if family == 4:
        yield "iprange, of ranges", ["iprange", given("ranges")], RUNS
    yield "cidr, of prefixes", [program, "merge", given("prefixes")], RUNS
    if family == 4:
        yield "iprange, of prefixes", ["iprange", given("prefixes")], RUNS
        yield "aggregate, of prefixes", ["aggregate", "-q"], 1
    collapse = ["/usr/bin/python3", "-c", COLLAPSE, str(family), given("prefixes")]
    yield "ipaddress.collapse_addresses, of prefixes", collapse, 1
    yield "netaddr.cidr_merge, of prefixes", ["/usr/bin/python3", "-c", MERGE, str(family), given("prefixes")], 1


def compare(head, calls, given, read=prefixes_of):
    """Prints what each call takes, and where it does not print the prefixes or lines that the first one does."""
    wanted = None
    for name, words, runs in calls:
        measured = spent(words, given, runs)
        if not measured:
            print(f"{head}: {name}: failed, or took more than {LIMIT} s of processor time", flush=True)
            continue
        seconds, size, found = *measured[:2], read(measured[2])
        wanted = wanted or found
        same = "" if found == wanted else f", {len(found)} found and not {len(wanted)}"
        print(f"{head}: {name}: {seconds:.2f} s, {size / 1024:.1f} MB{same}", flush=True)


def compare_list(folder, family, order):
    given = lambda kind: str(folder / f"{family} {kind} {order}")
    compare(f"IPv{family} {order}", peers(family, given), given("prefixes"))


def compare_halves(folder):
    halves = [str(folder / "first halves"), str(folder / "second halves")]
    calls = [("cidr, of ranges", [program, "merge", *halves], RUNS), ("iprange, of ranges", ["iprange", *halves], RUNS)]
    compare("IPv4, two lists in order", calls, os.devnull)


def compare_logs(folder):
    sought, log = str(folder / "sought"), str(folder / "log")
    calls = [("cidr grep", [program, "grep", sought, log], RUNS), ("grepcidr", ["grepcidr", "-f", sought, log], RUNS)]
    compare(f"a log of {LOG_LINES:,} lines", calls, os.devnull, str.splitlines)


def main():
    with tempfile.TemporaryDirectory() as room:
        folder = pathlib.Path(room)
        child = os.fork()  # so that this process stays small
        if not child:
            write_lists(folder)
            write_halves(folder)
            write_log(folder)
            os._exit(0)
        os.waitpid(child, 0)
        for family in TABLES:
            for order in ("in order", "in no order"):
                compare_list(folder, family, order)
        compare_halves(folder)
        compare_logs(folder)


program = str(pathlib.Path(sys.argv[1]).resolve())
main()

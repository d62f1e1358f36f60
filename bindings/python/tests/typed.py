"""What a type checker says of the package: `mypy --strict` finds a fault in just the lines that end so."""

import datetime
import ipaddress
import uuid
from typing import Dict, Iterator, List, Optional, Tuple, Union

from btree_range_map import UNBOUND, Lexer, Range, RangeMap, RangeSet, Rule, Token, Unbound

ports = RangeMap([(slice(0, 1024), "system"), (80, "web"), (Range(5, 9), "a"), (range(3), "b")])
owner: Optional[str] = ports.get(80)
some: str = ports[80]
either: Union[str, int] = ports.get(80, 7)
some = ports.get(80)  # error
ports["a"]  # error
ports["a"] = "web"  # error
ports[80] = 5  # error
ports[5:9] = "web"
ports[Range(5, 9)] = "web"
ports[Range("a", "z")] = "web"  # error
for keys, value in ports.items():
    first: int = keys.first
    text: str = value
    span: range = keys.to_range()
    number: int = sum(key for key in keys)
counts: RangeMap[int, int] = RangeMap(keys="i64")
counts.update(slice(0, 9), lambda count: count + 1, 0)
counts.update({3: 5})
merged: RangeMap[int, str] = counts.merge_with(ports, lambda one, two: UNBOUND if isinstance(two, Unbound) else two)
letters = RangeMap([("a", 1)], keys="char")
letter: Range[str] = next(letters.keys())
letters[5]  # error
days: RangeMap[datetime.date, str] = RangeMap(keys="date")
days[datetime.date(2000, 1, 1)] = "first"
days[5] = "first"  # error
sites = RangeMap([(ipaddress.IPv6Address("::1"), "this")], keys="ipv6")
sites[ipaddress.IPv6Network("2001:db8::/32")] = "documents"
sites[ipaddress.IPv4Address("127.0.0.1")] = "this"  # error
known: RangeSet[uuid.UUID] = RangeSet([uuid.UUID(int=5)], keys="uuid")
known.add(5)  # error
held = RangeSet([slice(0, 5), 7])
held |= {9}
held.add("a")  # error
union: RangeSet[int] = held | RangeSet([1])
parts: Iterator[Tuple[Range[int], str]] = ports.pieces(slice(0, 9))
with_free: Iterator[Tuple[Range[int], Optional[str]]] = ports.pieces(slice(0, 9), None)
found: List[Optional[str]] = ports.get_many([1, 2])
given: Dict[int, str] = {1: "a"}
both: RangeMap[int, str] = ports | given
last: Tuple[Range[int], str] = ports.popitem()
lexer = Lexer([("word", "[a-z]+"), Rule("space", " ", skip=True)], states=100)
for token in lexer.tokens("a b"):
    name: str = token.name
    column: int = token.column
token = "a"  # error
pieces: List[Token] = list(lexer.tokens(b"a b"))
lexer.tokens(5)  # error
Lexer([("word", 5)])  # error

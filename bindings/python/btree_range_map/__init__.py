"""Maps and sets whose keys are gathered into ranges, and lexers, over a library that is proved in Rattle.

    >>> from btree_range_map import Range, RangeMap, RangeSet
    >>> ports = RangeMap()
    >>> ports[0:1024] = "system"
    >>> ports[80] = "web"
    >>> ports[80], ports.get(443), ports.get(8080)
    ('web', 'system', None)
    >>> ports
    RangeMap({0:80: 'system', 80: 'web', 81:1024: 'system'})
    >>> [(keys.start, keys.stop, owner) for keys, owner in ports.items()]
    [(0, 80, 'system'), (80, 81, 'web'), (81, 1024, 'system')]
    >>> free = RangeSet([slice(0, 100)]) - RangeSet([10, slice(20, 30)])
    >>> free
    RangeSet({0:10, 11:20, 30:100})

A key is a whole number from 0 to 2**64 - 1, or of another kind that `keys` names: "u8" to "u128", "i8" to "i128", "char" for
characters, "date", "datetime" and "utc" for times without and with a time zone, "ipv4", "ipv6", "uuid", or "float". A slice `a:b` is a range
with its start and without its end, either of which may be left out; `Range` says any other, and a key alone is the range of
that key. What is given back are `Range`s. A `Lexer` cuts texts into tokens by rules.
"""

from ._collection import Connected, NotLoaded
from ._lexer import BadRule, Lexer, LexerTooLarge, NoToken, Rule, Token
from ._map import UNBOUND, RangeMap, Unbound
from ._ranges import Bounds, Range
from ._set import RangeSet

__all__ = ["UNBOUND", "BadRule", "Bounds", "Connected", "Lexer", "LexerTooLarge", "NoToken", "NotLoaded", "Range"]
__all__ += ["RangeMap", "RangeSet", "Rule", "Token", "Unbound"]
__version__ = "0.6.0"

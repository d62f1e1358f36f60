"""Ranges of keys, as they are stored and as callers give them."""

from __future__ import annotations

import ipaddress
import operator
from typing import Any, Generic, Iterator, NamedTuple, TypeVar

from . import _library as _c
from ._keys import INTEGERS, KEYS, Keys, kind_of

K = TypeVar("K")


class Bounds(NamedTuple):
    """How a range is written: its ends, `None` where there is none, and whether it holds them."""

    start: Any
    end: Any
    holds_start: bool
    holds_end: bool


class Range(Generic[K]):
    """The keys from `start` up to `stop`, which it does not hold, as slices and `range` are.

    >>> keys = Range(3, 7)
    >>> keys.first, keys.last, len(keys), list(keys), 7 in keys
    (3, 6, 4, [3, 4, 5, 6], False)
    >>> Range("a", "e", holds_stop=True)
    Range('a', 'f')

    A range that a map or a set gives has both ends, whichever way its bounds are stored, which `bounds` tells. There `stop`
    is the key after the last; it is `None` alone where there is no such key, as after the greatest character. In one
    that a caller makes an end that is `None` is that of all keys.
    """

    __slots__ = ("_start", "_stop", "_stored", "_keys")
    _start: Any
    _stop: Any
    _stored: Any
    _keys: Keys

    def __init__(
        self, start: K | None = None, stop: K | None = None, holds_start: bool = True, holds_stop: bool = False
    ) -> None:
        self._stored = Bounds(start, stop, holds_start and start is not None, holds_stop and stop is not None)
        self._keys = kind = _kind_of_ends(start, stop)
        self._start, self._stop = start, stop
        if start is not None:
            number = kind.number(start) + (not holds_start)
            # where there is no such key the range is empty, as is one from the last key up to it
            self._start = kind.key(number if kind.is_plain or number <= kind.greatest else number - 1)
            if not kind.is_plain and number > kind.greatest:
                self._stop = self._start
                return
        if stop is not None:
            self._stop = kind.stop(kind.number(stop) + bool(holds_stop))

    @property
    def start(self) -> K | Any:
        """The first key, if there is any."""
        return self._start

    @property
    def stop(self) -> K | Any:
        """The key after the last one."""
        return self._stop

    @property
    def bounds(self) -> Bounds:
        """The ends as they are stored, or as they were given."""
        stored = self._stored
        if isinstance(stored, Bounds):
            return stored
        first, last = self._numbers()
        key = self._keys.key
        holds_start, holds_end = not stored & 3, not stored & 12
        return Bounds(
            None if stored & _c.START_UNBOUNDED else key(first - (not holds_start)),
            None if stored & _c.END_UNBOUNDED else key(last + (not holds_end)),
            holds_start,
            holds_end,
        )

    def _numbers(self) -> tuple[int, int]:
        """The numbers of the first and the last key; `ValueError` where an end is that of all keys."""
        kind = self._keys
        is_open = self._stop is None and (kind.is_plain or isinstance(self._stored, Bounds) and self._stored.end is None)
        if self._start is None or is_open:
            raise ValueError(f"{self!r} has no {'start' if self._start is None else 'stop'}")
        last = kind.greatest if self._stop is None else kind.number(self._stop) - 1
        return kind.number(self._start), last

    def _ends(self) -> tuple[int, int]:
        """The same of a range that has keys; `ValueError` where it has none."""
        first, last = self._numbers()
        if first > last:
            raise ValueError(f"{self!r} has no keys")
        return first, last

    @property
    def first(self) -> K:
        """The first key; `ValueError` where there is none."""
        key: K = self._keys.key(self._ends()[0])
        return key

    @property
    def last(self) -> K:
        """The last key; `ValueError` where there is none."""
        key: K = self._keys.key(self._ends()[1])
        return key

    @property
    def size(self) -> int:
        """How many keys there are."""
        first, last = self._numbers()
        return max(0, last - first + 1)

    def __len__(self) -> int:
        """How many keys there are; `OverflowError` where `len` can give no number so large: see `size`."""
        return self.size

    def __bool__(self) -> bool:
        return self._start is None or self._stop is None or self.size > 0

    def _numbered(self) -> range:
        first, last = self._numbers()
        return range(first, last + 1)

    def to_range(self) -> range:
        """The range of the same whole numbers; `TypeError` where keys are of another type."""
        if not self._keys.is_plain:
            raise TypeError(f"keys are of the kind {self._keys.name}, and no whole numbers")
        return self._numbered()

    def __iter__(self) -> Iterator[K]:
        return map(self._keys.key, self._numbered())

    def __reversed__(self) -> Iterator[K]:
        return map(self._keys.key, reversed(self._numbered()))

    def __contains__(self, key: object) -> bool:
        kind = self._keys
        if self._start is None and self._stop is None:
            return True
        try:
            number = kind.number(key)
        except (TypeError, OverflowError):
            return False
        is_after = self._start is None or number >= kind.number(self._start)
        return is_after and (self._stop is None or number < kind.number(self._stop))

    def __eq__(self, other: object) -> bool:
        """Whether both have the same start and the same stop, however they are stored."""
        if not isinstance(other, Range):
            return NotImplemented
        return bool(self._start == other._start and self._stop == other._stop)

    def __hash__(self) -> int:
        return hash((self._start, self._stop))

    def __repr__(self) -> str:
        return f"Range({self._start!r}, {self._stop!r})"

    def __reduce__(self) -> Any:
        return Range, tuple(self.bounds)


def _kind_of_ends(start: Any, stop: Any) -> Keys:
    """The kind of the keys of a range with these ends, of which either may be `None`."""
    kinds = {kind_of(end) for end in (start, stop) if end is not None}
    if len(kinds) == 2 and kinds == {INTEGERS, KEYS["float"]}:
        return KEYS["float"]
    if len(kinds) == 2:
        raise TypeError(f"a range from {start!r} to {stop!r}")
    return kinds.pop() if kinds else INTEGERS


def made(start: Any, stop: Any, flags: int, kind: Keys = INTEGERS) -> Range[Any]:
    """A stored range, from its first key up to the one after its last, and the flags of its bounds."""
    range_of: Range[Any] = _new(Range)
    range_of._start, range_of._stop, range_of._stored, range_of._keys = start, stop, flags, kind
    return range_of


_new = object.__new__


def bounds_of(keys: Any) -> Bounds:
    """What a slice, a `range`, a `Range`, a network or a key alone says."""
    if isinstance(keys, Range):
        return keys.bounds
    if isinstance(keys, (slice, range)):
        if keys.step not in (None, 1) or isinstance(keys, slice) and keys.step is not None:
            raise ValueError("a range has no step")
        return Bounds(keys.start, keys.stop, keys.start is not None, False)
    if isinstance(keys, (ipaddress.IPv4Network, ipaddress.IPv6Network)):
        return Bounds(keys.network_address, keys.broadcast_address, True, True)
    if keys is None:
        raise TypeError("None is no key and no range")
    return Bounds(keys, keys, True, True)


def written(keys: Range[Any]) -> str:
    """A range as a slice says it, or as its one key."""
    start, stop, stored = keys._start, keys._stop, keys._stored
    if isinstance(stored, Bounds):
        return repr(keys)
    if keys.size == 1:
        return repr(start)
    start_text = "" if stored & _c.START_UNBOUNDED else repr(start)
    return f"{start_text}:{'' if stored & _c.END_UNBOUNDED or stop is None else repr(stop)}"

"""Sets of keys."""

from __future__ import annotations

import datetime
import ipaddress
import uuid
from typing import AbstractSet, Any, Iterable, Iterator, Literal, TypeVar, Union, overload

from . import _library as _c
from ._collection import Collection, Keyed, NotLoaded, check
from ._keys import IntegerKind, TimeKind, kind_named
from ._library import library as _calls
from ._ranges import Range, written

K = TypeVar("K")
S = TypeVar("S", bound="RangeSet[Any]")

#: a set of keys of one kind, as operators take it
Others = Union["RangeSet[K]", AbstractSet[K]]


class RangeSet(Collection[K]):
    """A set of keys, kept as ranges that neither meet nor touch.

    >>> free = RangeSet([slice(0, 10), 12])
    >>> 5 in free, 12 in free, len(free), free.key_count()
    (True, True, 2, 11)
    >>> free - {5}
    RangeSet({0:5, 6:10, 12})
    """

    __slots__ = ()

    @overload
    def __init__(self: RangeSet[int], ranges: Iterable[Keyed[int]] = ..., *, keys: IntegerKind = ...) -> None: ...
    @overload
    def __init__(self: RangeSet[str], ranges: Iterable[Keyed[str]] = ..., *, keys: Literal["char"]) -> None: ...
    @overload
    def __init__(self: RangeSet[datetime.date], ranges: Iterable[Keyed[datetime.date]] = ..., *, keys: Literal["date"]) -> None: ...
    @overload
    def __init__(
        self: RangeSet[datetime.datetime], ranges: Iterable[Keyed[datetime.datetime]] = ..., *, keys: TimeKind
    ) -> None: ...
    @overload
    def __init__(
        self: RangeSet[ipaddress.IPv4Address], ranges: Iterable[Keyed[ipaddress.IPv4Address]] = ..., *, keys: Literal["ipv4"]
    ) -> None: ...
    @overload
    def __init__(
        self: RangeSet[ipaddress.IPv6Address], ranges: Iterable[Keyed[ipaddress.IPv6Address]] = ..., *, keys: Literal["ipv6"]
    ) -> None: ...
    @overload
    def __init__(self: RangeSet[uuid.UUID], ranges: Iterable[Keyed[uuid.UUID]] = ..., *, keys: Literal["uuid"]) -> None: ...
    @overload
    def __init__(self: RangeSet[float], ranges: Iterable[Keyed[float]] = ..., *, keys: Literal["float"]) -> None: ...
    @overload
    def __init__(self: RangeSet[Any], ranges: Iterable[Any] = ..., *, keys: str) -> None: ...

    def __init__(self, ranges: Iterable[Any] = (), *, keys: str = "u64") -> None:
        self._start(keys)
        self.update(ranges)

    def _start(self, keys: str) -> None:
        kind = kind_named(keys)
        self._open(_c.SETS[kind.is_wide, kind.is_signed], kind)

    def _one(self, name: str, *words: Any) -> Range[K] | None:
        with self._lock:
            entry = self._entry(name, *words)
            return None if entry is None else self._range(*entry)

    def update(self, ranges: Iterable[Keyed[K]]) -> None:
        """Adds each key of each range."""
        self._in_batches(list(ranges) if isinstance(ranges, RangeSet) else ranges)

    def _insert_batch(self, items: list[Any]) -> None:
        packed, size = bytearray(), 0
        try:
            for keys in items:
                packed += self._packed(keys)
                size += 1
        finally:
            with self._lock:
                self._insert_packed(packed, size)

    def add(self, keys: Keyed[K]) -> None:
        """Adds each key of the range."""
        self._call("insert", self._packed(keys))

    def try_insert(self, keys: Keyed[K]) -> bool:
        """Adds the keys of the range where none of them is in the set, and tells whether it did."""
        return self._call("try_insert", self._packed(keys))

    def discard(self, keys: Keyed[K]) -> None:
        """Takes each key of the range away, whether or not one is there."""
        self._call("remove", self._packed(keys))

    def remove(self, key: K) -> None:
        """Takes one key away; raises `KeyError` where it is not there."""
        with self._lock:
            if key not in self:
                raise KeyError(key)
            self.discard(key)

    def add_many(self, starts: Any, stops: Any) -> None:
        """Adds the keys from each start up to the stop beside it, of two buffers of whole numbers."""
        size, packed = self._spans_packed(starts, stops)
        with self._lock:
            self._insert_packed(packed, size)

    def discard_many(self, starts: Any, stops: Any) -> None:
        """Takes away the keys from each start up to the stop beside it, of two buffers of whole numbers. Goes over the set."""
        taken = self._emptied()
        taken.add_many(starts, stops)
        self -= taken

    def pop(self) -> K:
        """Takes the first key out; `KeyError` where there is none."""
        with self._lock:
            found = self.first()
            if found is None:
                raise KeyError("pop from an empty set of ranges")
            self.discard(found.first)
            return found.first

    def range_of(self, key: K) -> Range[K] | None:
        """The stored range that holds the key, `None` where none does."""
        return self._one("get", self._number(key))

    def first(self) -> Range[K] | None:
        """The first stored range, `None` where there is none."""
        return self._one("first")

    def last(self) -> Range[K] | None:
        """The last stored range, `None` where there is none."""
        return self._one("last")

    def next(self, key: K) -> Range[K] | None:
        """The first stored range that ends at the key or after it, `None` where there is none."""
        return self._one("next", self._number(key))

    def previous(self, key: K) -> Range[K] | None:
        """The last stored range that starts at the key or before it, `None` where there is none."""
        return self._one("previous", self._number(key))

    def pop_first(self) -> Range[K] | None:
        """Takes the first stored range out."""
        return self._one("pop_first")

    def pop_last(self) -> Range[K] | None:
        """Takes the last stored range out."""
        return self._one("pop_last")

    def overlapping(self, keys: Keyed[K]) -> Iterator[Range[K]]:
        """The stored ranges that hold a key of the range, whole, ascending."""
        for read, _ in self._within(self._kind.overlapping, self._kind.form, self._raw(keys)):
            yield from self._ranges_read(read)

    def shrink_to_fit(self) -> None:
        """Gives back memory that is not needed. Copies the set."""
        made = self.copy()
        with self._lock:
            self._handle, made._handle = made._handle, self._handle

    def copy(self: S) -> S:
        """A set of the same keys."""
        with self._lock:
            made = self._opened()
            check(_calls.brm_raw_clone(self._handle, made._handle))
            return made

    def __deepcopy__(self: S, memo: dict[int, Any]) -> S:
        made = self.copy()
        memo[id(self)] = made
        made._copy_attributes(memo)
        return made

    def _items(self) -> list[Any]:
        return list(self)

    def _emptied(self) -> RangeSet[K]:
        """A set of such keys without one."""
        return RangeSet(keys=self._keys.name)

    def _alike(self, other: Any) -> Any:
        """The other as a set of such keys, `None` where it is none; `TypeError` where it is one of others."""
        if isinstance(other, (set, frozenset)):
            return RangeSet(other, keys=self._keys.name)
        if not isinstance(other, RangeSet):
            return None
        if other._keys is not self._keys:
            raise TypeError(f"a set of {self._keys.name} keys and one of {other._keys.name} keys")
        return other.copy() if other is self else other

    def _with(self, other: Any, name: str) -> Any:
        second = self._alike(other)
        if second is None:
            return NotImplemented
        made = self._opened()
        with self._locked_with(second):
            check(getattr(self._kind, name)(self._handle, second._handle, made._handle))
        return made

    def _become(self: S, made: Any) -> S:
        if made is not NotImplemented:
            with self._lock:
                self._check_open()
                self._handle, made._handle = made._handle, self._handle
            return self
        return NotImplemented

    def __or__(self: S, other: Others[K]) -> S:
        """A set of the keys that are in either set."""
        return self._with(other, "union")  # type: ignore[no-any-return]

    def __and__(self: S, other: Others[K]) -> S:
        """A set of the keys that are in both sets."""
        return self._with(other, "intersection")  # type: ignore[no-any-return]

    def __sub__(self: S, other: Others[K]) -> S:
        """A set of the keys of this set that are not in the other."""
        return self._with(other, "difference")  # type: ignore[no-any-return]

    def __xor__(self: S, other: Others[K]) -> S:
        """A set of the keys that are in just one of the sets."""
        return self._with(other, "symmetric_difference")  # type: ignore[no-any-return]

    __ror__, __rand__, __rxor__ = __or__, __and__, __xor__

    def __rsub__(self, other: Any) -> Any:
        first = self._alike(other)
        return NotImplemented if first is None else first - self

    def __ior__(self: S, other: Others[K]) -> S:
        return self._become(self | other)

    def __iand__(self: S, other: Others[K]) -> S:
        return self._become(self & other)

    def __isub__(self: S, other: Others[K]) -> S:
        return self._become(self - other)

    def __ixor__(self: S, other: Others[K]) -> S:
        return self._become(self ^ other)

    def __invert__(self) -> RangeSet[K]:
        """A set of just the keys that this one does not hold."""
        return self.complement()

    def complement(self) -> RangeSet[K]:
        """A set of just the keys that this one does not hold."""
        return RangeSet(self.gaps(), keys=self._keys.name)

    def _asks(self, other: Any, name: str) -> Any:
        second = self._alike(other)
        if second is None:
            return NotImplemented
        with self._locked_with(second):
            return check(getattr(self._kind, name)(self._handle, second._handle))

    def __le__(self, other: Others[K]) -> bool:
        """Whether each key of this set is in the other."""
        return self._asks(other, "is_subset")  # type: ignore[no-any-return]

    def __ge__(self, other: Others[K]) -> bool:
        """Whether each key of the other set is in this one."""
        second = self._alike(other)
        if second is None:
            return NotImplemented
        return bool(second <= self)

    def __lt__(self, other: Others[K]) -> bool:
        second = self._alike(other)
        if second is None:
            return NotImplemented
        return bool(self <= second and self != second)

    def __gt__(self, other: Others[K]) -> bool:
        second = self._alike(other)
        if second is None:
            return NotImplemented
        return bool(self >= second and self != second)

    def isdisjoint(self, other: Iterable[Any]) -> bool:
        """Whether no key is in both: of this set, and of another or of any ranges and keys."""
        if not isinstance(other, RangeSet):
            other = RangeSet(other, keys=self._keys.name)
        return bool(self._asks(other, "is_disjoint"))

    def __eq__(self, other: object) -> bool:
        """Whether both have the same keys."""
        if self is other:
            self._check_open()
            return True
        if isinstance(other, (set, frozenset)):
            return self.key_count() == len(other) and all(key in self for key in other)
        if not isinstance(other, RangeSet):
            return NotImplemented
        with self._locked_with(other):
            self._check_open()
            other._check_open()
            return self._keys is other._keys and check(_calls.brm_raw_equal(self._handle, other._handle))

    def __repr__(self) -> str:
        return self._shown(", ".join(map(written, self)) if self._handle.is_open else None)

    def to_json(self) -> str:
        """What is stored as JSON text."""
        text = self._text()
        if self._keys.is_native and not self._keys.is_wide:
            return text.decode()
        return self._dumped([self._json_of_bounds(bounds) for bounds in self._parsed(text)])

    def load_json(self, text: str | bytes) -> None:
        """Becomes what the JSON text is read as; raises `NotLoaded` where it is none, and changes nothing then."""
        data = self._parsed(text)
        if not isinstance(data, list):
            raise NotLoaded("the JSON is no list of ranges")
        items = [self._bounds_of_json(bounds, place) for place, bounds in enumerate(data)]
        with self._lock:
            self._become(self._loaded(items, list))

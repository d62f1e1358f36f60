"""Maps of keys to values."""

from __future__ import annotations

import array
import copy as _copy
import ctypes
import datetime
import ipaddress
import json
import operator
import reprlib
import uuid
from typing import Any, Callable, Generic, Iterable, Iterator, Literal, Mapping, Tuple, TypeVar, Union, overload

from . import _library as _c
from ._collection import Collection, Keyed, NotLoaded, check
from ._keys import IntegerKind, TimeKind, kind_named
from ._library import library as _calls
from ._prefixes import bits_of, longest, network_of, prefix_of, shortest
from ._ranges import Range, written
from ._set import RangeSet
from ._values import Values

K = TypeVar("K")
V = TypeVar("V")
W = TypeVar("W")
D = TypeVar("D")
M = TypeVar("M", bound="RangeMap[Any, Any]")


class Unbound:
    """What a key is bound to that is not bound, as `update` and `merge_with` give it to their function and take it from it."""

    def __repr__(self) -> str:
        return "UNBOUND"

    def __bool__(self) -> bool:
        return False

    def __reduce__(self) -> str:
        return "UNBOUND"


UNBOUND = Unbound()

_MISSING: Any = object()

#: ranges with values: of a map, of a dict, or in pairs
Items = Union["RangeMap[K, V]", Mapping[K, V], Mapping[Range[K], V], Mapping[range, V], Iterable[Tuple[Any, V]]]


class RangeMap(Collection[K], Generic[K, V]):
    """A map of keys to values, kept as ranges: ranges that touch and have equal values are one.

    The values may be any objects. Of equal ones that have a hash one is kept; one without a hash equals itself alone. A
    value is let go as soon as no range has it.
    """

    __slots__ = ("_values",)
    _values: Values

    @overload
    def __init__(self: RangeMap[int, V], items: Items[int, V] = ..., *, keys: IntegerKind = ...) -> None: ...
    @overload
    def __init__(self: RangeMap[str, V], items: Items[str, V] = ..., *, keys: Literal["char"]) -> None: ...
    @overload
    def __init__(
        self: RangeMap[datetime.date, V], items: Items[datetime.date, V] = ..., *, keys: Literal["date"]
    ) -> None: ...
    @overload
    def __init__(
        self: RangeMap[datetime.datetime, V], items: Items[datetime.datetime, V] = ..., *, keys: TimeKind
    ) -> None: ...
    @overload
    def __init__(
        self: RangeMap[ipaddress.IPv4Address, V], items: Items[ipaddress.IPv4Address, V] = ..., *, keys: Literal["ipv4"]
    ) -> None: ...
    @overload
    def __init__(
        self: RangeMap[ipaddress.IPv6Address, V], items: Items[ipaddress.IPv6Address, V] = ..., *, keys: Literal["ipv6"]
    ) -> None: ...
    @overload
    def __init__(self: RangeMap[uuid.UUID, V], items: Items[uuid.UUID, V] = ..., *, keys: Literal["uuid"]) -> None: ...
    @overload
    def __init__(self: RangeMap[float, V], items: Items[float, V] = ..., *, keys: Literal["float"]) -> None: ...
    @overload
    def __init__(self: RangeMap[Any, V], items: Items[Any, V] = ..., *, keys: str) -> None: ...

    def __init__(self, items: Any = (), *, keys: str = "u64") -> None:
        self._start(keys)
        self.update(items)

    def _start(self, keys: str) -> None:
        kind = kind_named(keys)
        self._open(_c.MAPS[kind.is_wide, kind.is_signed], kind)
        self._values = Values()

    def _emptied(self) -> RangeMap[K, Any]:
        """A map of such keys that binds none."""
        return RangeMap(keys=self._keys.name)

    # changes, each of which lets go of the values that no range has any more

    def _values_of(self, numbers: Iterable[int]) -> list[Any]:
        return list(map(self._values.table.__getitem__, numbers))

    def _met(self, first: int, last: int) -> list[tuple[int, ...]]:
        """The stored ranges that hold a key from the first to the last."""
        kind, form, count = self._kind, self._kind.form, self._count
        # nearly all changes meet few ranges, which one search finds
        check(kind.read(self._handle, first, self._found, _c.MET, count))
        if not count.value:
            return []
        met = list(form.iter_unpack(memoryview(self._found)[: form.size * count.value]))
        while met and self._first_and_last(*met[-1][:3])[0] > last:
            met.pop()
        if len(met) == _c.MET and self._first_and_last(*met[-1][:3])[1] < last:
            start_flag = 0 if met[-1][2] & _c.END_EXCLUDED else _c.START_EXCLUDED
            for read, _ in self._within(kind.overlapping, form, (met[-1][1], last, start_flag)):
                met.extend(zip(*read))
        return met

    def _let_go(self, met: list[tuple[int, ...]], first: int, last: int, number: int, gone: list[Any]) -> None:
        """Lets go of what the ranges had that a change met, from the first to the last key. What is left of one on either
        side goes on having its number, unless that is the one that the keys have now."""
        if not met:
            return
        hold = self._values.hold
        start, end, flags, before = met[0]
        if before != number and self._first_and_last(start, end, flags)[0] < first:
            hold(before)
        start, end, flags, after = met[-1]
        if after != number and self._first_and_last(start, end, flags)[1] > last:
            hold(after)
        for entry in met:
            self._values.release(entry[3], gone)

    def _numbered(self, value: Any) -> tuple[Values, int]:
        """A number of the value, which is held, in the table that the map has then: comparing values may run any code."""
        values = self._values
        number = values.number(value)
        if values is not self._values:
            raise RuntimeError("the map was made anew while a value was compared")
        return values, number

    def _insert(self, call: str, keys: Any, value: V) -> bool:
        raw, gone = self._raw(keys), []  # type: tuple[int, int, int], list[Any]
        first, last = self._first_and_last(*raw)
        with self._lock:
            self._check_open()
            return first > last or self._bind(call, raw, (first, last), self._numbered(value)[1], gone)

    def _bind(self, call: str, raw: tuple[int, int, int], ends: tuple[int, int], number: int, gone: list[Any]) -> bool:
        """Binds a range that is not empty, from its first to its last key, to a number that is held for it."""
        first, last = ends
        keys, kind = self._keys, self._kind
        try:
            met = self._met(first - (first > keys.least), last + (last < keys.greatest))
            is_done = check(getattr(kind, call)(self._handle, kind.range_form.pack(*raw), number))
        except BaseException:
            self._values.release(number, gone)
            raise
        if is_done:
            self._let_go(met, first, last, number, gone)
        else:
            self._values.release(number, gone)
        return is_done

    def _insert_batch(self, items: list[Any]) -> None:
        bound: list[tuple[tuple[int, int, int], tuple[int, int], Any]] = []
        try:
            for keys, value in items:
                raw = self._raw(keys)
                ends = self._first_and_last(*raw)
                if ends[0] <= ends[1]:
                    bound.append((raw, ends, value))
        finally:
            self._bind_many(bound)

    def _bind_many(self, bound: list[tuple[tuple[int, int, int], tuple[int, int], Any]]) -> None:
        gone: list[Any] = []
        with self._lock:
            self._check_open()
            numbers: list[int] = []
            try:
                for _, _, value in bound:
                    numbers.append(self._numbered(value)[1])
            finally:
                self._bind_numbered(bound[: len(numbers)], numbers, gone)

    def _bind_numbered(
        self, bound: list[tuple[tuple[int, int, int], tuple[int, int], Any]], numbers: list[int], gone: list[Any]
    ) -> None:
        """Binds ranges that are not empty to numbers that are held for them: at once, where few others lie between."""
        if not bound:
            return
        keys, stored = self._keys, _calls.brm_count(self._handle)
        first, last = min(ends[0] for _, ends, _ in bound), max(ends[1] for _, ends, _ in bound)
        span = (first - (first > keys.least), last + (last < keys.greatest))
        before = None
        if stored <= 16 * len(bound) or bound[0][1] <= bound[-1][1]:
            before = self._numbers_within(span, 16 * len(bound))
        if before is None:
            for (raw, ends, _), number in zip(bound, numbers):
                self._bind("insert", raw, ends, number, gone)
            return
        pack = self._kind.form.pack
        packed = b"".join([pack(*raw, number) for (raw, _, _), number in zip(bound, numbers)])
        self._bind_packed(packed, numbers, span, before, gone)

    def _bind_packed(
        self, packed: bytes, numbers: list[int], span: tuple[int, int], before: list[int], gone: list[Any]
    ) -> None:
        """Binds ranges in a span of keys, beside stored ones that have the numbers `before`, to numbers that are held."""
        try:
            self._insert_packed(packed, len(packed) // self._kind.form.size)
        finally:
            if self._handle.is_open:
                self._values.change(before + numbers, self._numbers_within(span) or [], gone)

    def _numbers_within(self, span: tuple[int, int] | None = None, most: int | None = None) -> list[int] | None:
        """The numbers of the stored ranges that hold a key of a span, or of all; `None` where they are too many."""
        kind, numbers = self._kind, []  # type: _c.Kind, list[int]
        first, last = span or (self._keys.least, self._keys.greatest)
        buffer, count = ctypes.create_string_buffer(kind.form.size * _c.BATCH), ctypes.c_size_t(0)
        flags = 0
        while True:
            raw = kind.range_form.pack(first, last, flags)
            check(kind.overlapping(self._handle, raw, buffer, _c.BATCH, count))
            words = array.array("Q", memoryview(buffer)[: kind.form.size * count.value].tobytes())
            numbers.extend(words[kind.width - 1 :: kind.width])
            if most is not None and len(numbers) > most:
                return None
            if count.value < _c.BATCH:
                return numbers
            _, end, past, _ = kind.form.unpack_from(buffer, kind.form.size * (_c.BATCH - 1))
            if past & _c.END_UNBOUNDED:
                return numbers
            first, flags = end, 0 if past & _c.END_EXCLUDED else _c.START_EXCLUDED

    def __setitem__(self, keys: Keyed[K], value: V) -> None:
        self._insert("insert", keys, value)

    def __delitem__(self, keys: Keyed[K]) -> None:
        """Binds no key of the range, whether or not one is bound."""
        raw, gone = self._raw(keys), []  # type: tuple[int, int, int], list[Any]
        with self._lock:
            first, last = self._first_and_last(*raw)
            met = self._met(first, last) if first <= last else []
            check(self._kind.remove(self._handle, self._kind.range_form.pack(*raw)))
            self._let_go(met, first, last, 0, gone)

    @overload
    def update(self, items: Items[K, V] = ..., /) -> None: ...
    @overload
    def update(self, keys: Keyed[K], change: Callable[[V | Unbound], V | Unbound], /) -> None: ...
    @overload
    def update(self, keys: Keyed[K], change: Callable[[V], V | Unbound], default: V, /) -> None: ...

    def update(self, items: Any = (), change: Any = None, default: Any = UNBOUND, /) -> None:
        """Binds each range to its value, in order: of a map, of a dict, or of pairs.

        With a function, binds the keys of each part of one range to what that makes of their value, or of the default where
        they are free; `UNBOUND` leaves them free. Nothing has changed where the function raises.

        >>> asked = RangeMap()
        >>> for keys in (slice(0, 100), slice(50, 200)):
        ...     asked.update(keys, lambda count: count + 1, 0)
        >>> asked
        RangeMap({0:50: 1, 50:100: 2, 100:200: 1})
        """
        if change is None:
            pairs = items.items() if hasattr(items, "items") else items
            self._in_batches(list(pairs) if isinstance(items, RangeMap) else pairs)
            return
        with self._lock:
            changed = [(piece, change(value)) for piece, value in list(self.pieces(items, default))]
            for piece, value in changed:
                if value is UNBOUND:
                    del self[piece]
            self._in_batches([(piece, value) for piece, value in changed if value is not UNBOUND])

    def insert_disconnected(self, keys: Keyed[K], value: V) -> None:
        """Binds the keys of a range that neither meets nor touches a stored one; else raises `Connected`."""
        self._insert("insert_disconnected", keys, value)

    def try_insert(self, keys: Keyed[K], value: V) -> bool:
        """Binds the keys of the range where none of them is bound, and tells whether it did."""
        return self._insert("try_insert", keys, value)

    def insert_many(self, starts: Any, stops: Any, values: Iterable[V]) -> None:
        """Binds the keys from each start up to the stop beside it, of two buffers of whole numbers, to the value beside them."""
        size, words = self._spans_packed(starts, stops)
        bound = list(values)
        if len(bound) != size:
            raise ValueError(f"{size} ranges and {len(bound)} values")
        gone: list[Any] = []
        with self._lock:
            self._check_open()
            numbers: list[int] = []
            try:
                for value in bound:
                    numbers.append(self._numbered(value)[1])
            except BaseException:
                self._values.change(numbers, [], gone)
                raise
            words[self._kind.width - 1 :: self._kind.width] = array.array("Q", numbers)
            every = (self._keys.least, self._keys.greatest)
            self._bind_packed(words.tobytes(), numbers, every, self._numbers_within() or [], gone)

    def remove_many(self, starts: Any, stops: Any) -> None:
        """Unbinds the keys from each start up to the stop beside it, of two buffers of whole numbers. Goes over the map."""
        taken: RangeSet[Any] = RangeSet(keys=self._keys.name)
        taken.add_many(starts, stops)
        with self._lock:
            made = self._made_by(_calls.brm_raw_without, taken)
            self._swap(made)

    def _swap(self, made: RangeMap[Any, Any]) -> None:
        self._check_open()
        self._handle, made._handle = made._handle, self._handle
        self._values, made._values = made._values, self._values

    def append(self, other: RangeMap[K, V]) -> None:
        """Moves all bindings of the other map into this one, where they replace those of the same keys.

        After an error the other is as it was.
        """
        moved: Any = other
        if not isinstance(moved, RangeMap):
            raise TypeError("what is moved into a map of ranges is another")
        if moved is not self:
            with self._locked_with(moved):
                self.update(other)
                other.clear()

    def clear(self) -> None:
        """Takes all ranges and values away."""
        gone: list[Any] = []
        with self._lock:
            numbers = self._numbers_within() or []
            super().clear()
            self._values.change(numbers, [], gone)

    def shrink_to_fit(self) -> None:
        """Gives back memory that is not needed. Copies the map."""
        with self._lock:
            self._swap(self.copy())
            self._values.shrink()

    # what is read

    def _one(self, name: str, *words: Any) -> tuple[Range[K], V] | None:
        with self._lock:
            entry = self._entry(name, *words)
            return None if entry is None else (self._range(*entry[:3]), self._values.table[entry[3]])

    def _taken(self, name: str) -> tuple[Range[K], V] | None:
        with self._lock:
            found = self._one(name)
            if found is not None:
                self._values.release(self._kind.form.unpack_from(self._found)[3], [])
            return found

    def items(self) -> Iterator[tuple[Range[K], V]]:
        """The stored ranges with their values, ascending."""
        for read, values in self._batches():
            yield from zip(self._ranges_read(read), values)

    def keys(self) -> Iterator[Range[K]]:
        """The stored ranges, ascending."""
        return self.ranges()

    def values(self) -> Iterator[V]:
        """The values of the stored ranges, ascending by range."""
        for _, values in self._batches():
            yield from values

    def entry(self, key: K) -> tuple[Range[K], V] | None:
        """The stored range that holds the key, with its value; `None` where the key is not bound."""
        return self._one("get", self._number(key))

    def __getitem__(self, key: K) -> V:
        if isinstance(key, (slice, Range)):
            raise TypeError("a range may be bound to several values: see pieces() and overlapping()")
        found: V = self._get(key)
        if found is _MISSING:
            raise KeyError(key)
        return found

    def _get(self, key: Any) -> Any:
        try:
            number = self._number(key)
        except OverflowError:
            self._check_open()
            return _MISSING
        found = self._found
        with self._lock:
            if not check(self._kind.get(self._handle, number, found)):
                return _MISSING
            return self._values.table[self._kind.form.unpack_from(found)[3]]

    @overload
    def get(self, key: K) -> V | None: ...
    @overload
    def get(self, key: K, default: D) -> V | D: ...

    def get(self, key: K, default: Any = None) -> Any:
        """The value that the key is bound to, or the default."""
        found = self._get(key)
        return default if found is _MISSING else found

    @overload
    def get_many(self, keys: Iterable[K]) -> list[V | None]: ...
    @overload
    def get_many(self, keys: Iterable[K], default: D) -> list[V | D]: ...

    def get_many(self, keys: Any, default: Any = None) -> list[Any]:
        """The values that the keys are bound to, in their order, with the default for those that are not bound.

        A buffer of whole numbers, as an `array` or one of numpy, is looked up with no step for each key.
        """
        if self._kind.is_wide:
            wanted = list(keys)
            with self._lock:
                self._check_open()
                return [self.get(key, default) for key in wanted]
        outside: set[int] = set()
        numbers = self._buffer(keys)
        if numbers is None:
            numbers = array.array(self._kind.key_code)
            for key in keys:
                try:
                    numbers.append(self._number(key))
                except OverflowError:
                    outside.add(len(numbers))
                    numbers.append(self._keys.least)
        shown: list[Any] = []
        words = array.array("Q", bytes(_c.BINDING_SIZE * min(len(numbers), _c.LOOKED_UP)))
        # an empty one has no memory to write to
        found = (ctypes.c_char * (8 * len(words))).from_buffer(words) if words else b""
        with self._lock:
            self._check_open()
            # the number of no value is 0
            table = self._values.table
            table[0] = default
            try:
                for at in range(0, len(numbers), _c.LOOKED_UP):
                    looked = numbers[at : at + _c.LOOKED_UP]
                    size = len(looked)
                    check(self._kind.get_many(self._handle, looked.tobytes(), size, found, size))
                    shown.extend(map(table.__getitem__, words[: 2 * size : 2]))
            finally:
                table[0] = None
        for place in outside:
            shown[place] = default
        return shown

    @overload
    def pop(self, key: K) -> V: ...
    @overload
    def pop(self, key: K, default: D) -> V | D: ...

    def pop(self, key: K, default: Any = _MISSING) -> Any:
        """Unbinds one key, and returns its value."""
        with self._lock:
            found = self._get(key)
            if found is _MISSING:
                if default is _MISSING:
                    raise KeyError(key)
                return default
            del self[key]
            return found

    def popitem(self) -> tuple[Range[K], V]:
        """Takes the last stored range out; `KeyError` where there is none."""
        found = self.pop_last()
        if found is None:
            raise KeyError("popitem of an empty map of ranges")
        return found

    @overload
    def setdefault(self: RangeMap[K, W | None], key: K) -> W | None: ...
    @overload
    def setdefault(self, key: K, default: V) -> V: ...

    def setdefault(self, key: Any, default: Any = None) -> Any:
        """The value of the key, which is bound to the default where it is not bound."""
        with self._lock:
            found = self._get(key)
            if found is _MISSING:
                self[key] = found = default
            return found

    def first(self) -> tuple[Range[K], V] | None:
        """The first stored range with its value, `None` where there is none."""
        return self._one("first")

    def last(self) -> tuple[Range[K], V] | None:
        """The last stored range with its value, `None` where there is none."""
        return self._one("last")

    def next(self, key: K) -> tuple[Range[K], V] | None:
        """The first stored range that ends at the key or after it, with its value; `None` where there is none."""
        return self._one("next", self._number(key))

    def previous(self, key: K) -> tuple[Range[K], V] | None:
        """The last stored range that starts at the key or before it, with its value; `None` where there is none."""
        return self._one("previous", self._number(key))

    def pop_first(self) -> tuple[Range[K], V] | None:
        """Takes the first stored range out."""
        return self._taken("pop_first")

    def pop_last(self) -> tuple[Range[K], V] | None:
        """Takes the last stored range out."""
        return self._taken("pop_last")

    def overlapping(self, keys: Keyed[K]) -> Iterator[tuple[Range[K], V]]:
        """The stored ranges that hold a key of the range, whole, with their values, ascending."""
        for read, values in self._within(self._kind.overlapping, self._kind.form, self._raw(keys)):
            yield from zip(self._ranges_read(read), values)

    @overload
    def pieces(self, keys: Keyed[K]) -> Iterator[tuple[Range[K], V]]: ...
    @overload
    def pieces(self, keys: Keyed[K], default: D) -> Iterator[tuple[Range[K], V | D]]: ...

    def pieces(self, keys: Any, default: Any = _MISSING) -> Iterator[tuple[Range[K], Any]]:
        """The parts of the range that are bound, each with its value, ascending.

        With a default, the free parts between them too, each as wide as it goes, with that.
        """
        raw = self._raw(keys)
        for read, values in self._within(self._kind.pieces, self._kind.piece_form, raw):
            for start, end, flags, number, value in zip(*read, values):
                if number or default is not _MISSING:
                    yield self._between(*self._first_and_last(start, end, flags)), value if number else default

    # maps made of maps

    def split_off(self: M, key: Any) -> M:
        """Keeps what lies before the key, and returns a map of the rest."""
        number, gone = self._number(key), []  # type: int, list[Any]
        with self._lock:
            rest = self._opened()
            check(self._kind.create(rest._handle))
            met = self._met(number, number)
            check(self._kind.split_off(self._handle, number, rest._handle))
            rest._values = self._values.copied()
            moved = rest._numbers_within() or []
            # a range that holds the key goes on in both
            kept = [it[3] for it in met if self._first_and_last(*it[:3])[0] < number]
            self._values.change(moved, kept, gone)
            rest._values.count_anew(moved, gone)
            return rest

    def copy(self: M) -> M:
        """A map with the same ranges and the same values."""
        with self._lock:
            made = self._opened()
            check(_calls.brm_raw_clone(self._handle, made._handle))
            made._values = self._values.copied()
            return made

    def __deepcopy__(self: M, memo: dict[int, Any]) -> M:
        items = list(self.items())
        made = self._opened()
        made._start(self._keys.name)
        memo[id(self)] = made
        made._copy_attributes(memo)
        made.update((keys, _copy.deepcopy(value, memo)) for keys, value in items)
        return made

    def _items(self) -> list[Any]:
        return list(self.items())

    def __eq__(self, other: object) -> bool:
        """Whether both bind each key alike."""
        if not isinstance(other, RangeMap):
            return NotImplemented
        if len(self) != len(other):
            return False
        if self is other:
            return True
        return self._keys is other._keys and all(map(operator.eq, self._bindings(), other._bindings()))

    def _bindings(self) -> Iterator[tuple[tuple[int, int], V]]:
        """The numbers of the first and the last key of each stored range, with its value, ascending."""
        for read, values in self._batches():
            yield from zip(map(self._first_and_last, *read[:3]), values)

    @reprlib.recursive_repr()
    def __repr__(self) -> str:
        is_open = self._handle.is_open
        return self._shown(", ".join(f"{written(keys)}: {value!r}" for keys, value in self.items()) if is_open else None)

    def __or__(self: M, other: Any) -> M:
        """A map that binds each key as the other, a map or a dict, does, or else as this one does."""
        if not isinstance(other, (RangeMap, Mapping)):
            return NotImplemented
        made = self.copy()
        made.update(other)
        return made

    def __ror__(self, other: Any) -> RangeMap[K, Any]:
        if not isinstance(other, Mapping):
            return NotImplemented
        made = self._emptied()
        made.update(other)
        made.update(self)
        return made

    def __ior__(self: M, other: Any) -> M:
        self.update(other)
        return self

    def __and__(self: M, other: RangeSet[Any]) -> M:
        """A map of the bindings of keys that the set has."""
        return self.restrict(other) if isinstance(other, RangeSet) else NotImplemented

    def __sub__(self: M, other: RangeSet[Any]) -> M:
        """A map of the bindings of keys that the set has not."""
        return self.without(other) if isinstance(other, RangeSet) else NotImplemented

    def restrict(self: M, keys: RangeMap[Any, Any] | RangeSet[Any]) -> M:
        """A map of the bindings of keys that the other map binds, or that the set has."""
        return self._made_by(_calls.brm_raw_restrict, keys)

    def without(self: M, keys: RangeMap[Any, Any] | RangeSet[Any]) -> M:
        """A map of the bindings of keys that the other map does not bind, or that the set has not."""
        return self._made_by(_calls.brm_raw_without, keys)

    def _made_by(self: M, call: Any, keys: Any) -> M:
        if not isinstance(keys, Collection):
            raise TypeError("keys are those of a map of ranges, or of a set")
        # the call takes no map twice, and no keys of another kind
        if keys is self or keys._keys is not self._keys:
            keys = RangeSet(keys, keys=self._keys.name)
        with self._locked_with(keys):
            made = self._opened()
            check(call(self._handle, keys._handle, made._handle))
            made._values = self._values.copied()
            made._values.count_anew(made._numbers_within() or [], [])
            return made

    def merge_with(
        self, other: RangeMap[K, W], merge: Callable[[V | Unbound, W | Unbound], D | Unbound]
    ) -> RangeMap[K, D]:
        """A map that binds each key as the function says of what this map and the other bind it to, `UNBOUND` where one
        does not. Where it returns `UNBOUND` the key is not bound; it is not asked of a key that neither binds.

        >>> here, there = RangeMap([(slice(0, 5), 1)]), RangeMap([(slice(3, 8), 2)])
        >>> here.merge_with(there, lambda one, two: (one or 0) + (two or 0))
        RangeMap({0:3: 1, 3:5: 3, 5:8: 2})
        """
        second: Any = other
        if not isinstance(second, RangeMap) or second._keys is not self._keys:
            raise TypeError(f"a map of {self._keys.name} keys is merged with another one")
        with self._locked_with(second):
            pieces = list(_together(list(self._bindings()), list(second._bindings())))
        made = self._emptied()
        merged = ((self._between(first, last), merge(one, two)) for first, last, one, two in pieces)
        made.update([(keys, value) for keys, value in merged if value is not UNBOUND])
        return made

    def shortest(self) -> list[tuple[Any, V]]:
        """The shortest table of prefixes with values that the map is, ascending: the longest prefix that holds a key has its
        value, and none holds a key that is not bound. No such table is shorter.
        Both are proved of the call in C; that a map is copied is tested.

        A prefix of "ipv4" and "ipv6" keys is a network, one of "u8" to "u128" keys the first key and how many bits are the
        same; other keys have none. It needs memory for a copy of the ranges.

        >>> from ipaddress import IPv4Network
        >>> hops = RangeMap({IPv4Network("10.0.0.0/8"): "north", IPv4Network("10.1.0.0/16"): "south"}, keys="ipv4")
        >>> hops.shortest()
        [(IPv4Network('10.0.0.0/8'), 'north'), (IPv4Network('10.1.0.0/16'), 'south')]
        """
        bits = bits_of(self._keys)
        with self._lock:
            self._check_open()
            entries = [entry for read, _ in self._batches() for entry in zip(*read)]
            ranges = [(*self._first_and_last(*entry[:3]), entry[3]) for entry in entries]
            table, found = self._values.table, shortest(bits, ranges)
            return [(network_of(self._keys, first, length), table[number]) for first, length, number in found]

    @staticmethod
    def from_prefixes(prefixes: Iterable[tuple[Any, V]], *, keys: str) -> RangeMap[Any, V]:
        """The map of prefixes with values in any order: each key is bound to the value of the longest prefix that holds it, of
        equal prefixes the last. A prefix is what `shortest` gives; its first key may be any of its keys.

        >>> RangeMap.from_prefixes([((6, 7), "long"), ((0, 4), "short")], keys="u8")
        RangeMap({0:6: 'short', 6:8: 'long', 8:16: 'short'}, keys='u8')
        """
        made: RangeMap[Any, V] = RangeMap(keys=keys)
        bits, given = bits_of(made._keys), list(prefixes)
        numbered = [(*prefix_of(made._keys, network), number) for number, (network, _) in enumerate(given)]
        made.update([(made._between(first, last), given[number][1]) for first, last, number in longest(bits, numbered)])
        return made

    def to_json(self) -> str:
        """What is stored as JSON text. The values are what `json` writes of them."""
        with self._lock:
            data = json.loads(self._text())
            table = self._values.table
            data["items"] = [[self._json_of_bounds(bounds), table[number]] for bounds, number in data["items"]]
        return self._dumped(data)

    def load_json(self, text: str | bytes) -> None:
        """Becomes what the JSON text is read as; raises `NotLoaded` where it is none, and changes nothing then.

        The ranges are read by the library: a map with two that meet is refused. The values are what `json` reads.
        """
        data = self._parsed(text)
        items = data.get("items") if isinstance(data, dict) else data
        if not isinstance(items, list):
            raise NotLoaded("the JSON is no such map")
        values, read = Values(), []
        for place, item in enumerate(items):
            if not isinstance(item, list) or len(item) != 2:
                raise NotLoaded("no pair of a range and a value", place)
            read.append([self._bounds_of_json(item[0], place), values.number(item[1])])
        with self._lock:
            made = self._loaded(read, lambda items: {**data, "items": items} if isinstance(data, dict) else items)
            made._values = values
            values.count_anew(made._numbers_within() or [], [])
            self._swap(made)


def _together(ones: list[Any], others: list[Any]) -> Iterator[tuple[int, int, Any, Any]]:
    """The parts of all keys that one of two lists binds, as wide as they go, with what each binds them to."""
    cuts = sorted({end for (first, last), _ in (*ones, *others) for end in (first, last + 1)})
    for first, stop, one, two in zip(cuts, cuts[1:], _at(cuts, ones), _at(cuts, others)):
        if one is not UNBOUND or two is not UNBOUND:
            yield first, stop - 1, one, two


def _at(cuts: list[int], bound: list[Any]) -> Iterator[Any]:
    """What a list binds the keys from each cut on to."""
    items = iter(bound)
    item = next(items, None)
    for cut in cuts:
        while item is not None and item[0][1] < cut:
            item = next(items, None)
        yield item[1] if item is not None and item[0][0] <= cut else UNBOUND

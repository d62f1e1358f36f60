"""What maps and sets share."""

from __future__ import annotations

import array
import contextlib
import copy as _copy
import ctypes
import ipaddress
import itertools
import json
import operator
import os
import threading
import weakref
from typing import Any, Callable, Generic, Iterable, Iterator, NamedTuple, TypeVar, Union

from . import _library as _c
from ._keys import INTEGERS, Keys
from ._library import library as _calls
from ._ranges import Range, bounds_of, made

K = TypeVar("K")
C = TypeVar("C", bound="Collection[Any]")

#: what says a range: a slice, a `range`, a `Range`, a network of addresses or a key alone
Keyed = Union[K, slice, range, Range[K], ipaddress.IPv4Network, ipaddress.IPv6Network]

_UNBOUNDED = _c.START_UNBOUNDED | _c.END_UNBOUNDED

#: by the flags of a range, what its first key lies past its start, and what its stop lies past its end
_PAST_START = [flags & _c.START_EXCLUDED for flags in range(16)]
_PAST_END = [int(not flags & _c.END_EXCLUDED) for flags in range(16)]

#: whose locks are taken while a process forks, so that the child may use what it inherits
_FORKED: list[Any] = []
_FORKING = threading.Lock()
_ALL: weakref.WeakValueDictionary[int, Collection[Any]] = weakref.WeakValueDictionary()


class Connected(ValueError):
    """The range meets or touches a stored one."""


class NotLoaded(ValueError):
    """The text is no JSON, or the JSON is no such map or set.

    `element` is the place of the first element at fault, `None` where it is no element's, and `number` that of the fault
    in the library: 8 of a text that is no JSON, 9 of JSON that is no such map or set.
    """

    def __init__(self, fault: str, element: int | None = None, number: int = _c.NOT_READ) -> None:
        place = "" if element is None else f"element {element}: "
        super().__init__(f"{place}{fault} (fault {number})")
        self.element, self.number = element, number


def check(status: int) -> bool:
    """Whether the answer is yes. Raises what the other statuses say."""
    if status == _c.DONE:
        return True
    if status in (_c.NONE, _c.OCCUPIED):
        return False
    if status == _c.NO_MEMORY:
        raise MemoryError("no memory")
    if status == _c.CONNECTED:
        raise Connected("the range meets or touches a stored one")
    if status in (_c.NOT_JSON, _c.NOT_READ):
        raise NotLoaded("the text is no JSON" if status == _c.NOT_JSON else "the JSON is no such map or set", number=status)
    raise RuntimeError("the collection is closed")


class Read(NamedTuple):
    """Stored ranges as the library wrote them: starts, ends, flags and, of a map, the numbers of values."""

    starts: tuple[int, ...]
    ends: tuple[int, ...]
    flags: tuple[int, ...]
    numbers: tuple[int, ...] = ()


class Collection(Generic[K]):
    """A handle that is destroyed once, and the calls on it.

    A lock is held through each method, which may be more than one call; through each batch alone of one that goes over
    many ranges. Two locks at once are taken by `_locked_with`, in one order, as a fork takes all.
    """

    __slots__ = ("_lock", "_handle", "_kind", "_keys", "_found", "_count", "__dict__", "__weakref__")
    _handle: _c.Handle
    _kind: _c.Kind
    _keys: Keys

    def _open(self, kind: _c.Kind, keys: Keys) -> None:
        # a second time the lock stays, which others may hold
        if not hasattr(self, "_lock"):
            self._lock = threading.RLock()
        with self._lock:
            self.close()
            self._kind, self._keys = kind, keys
            self._found, self._count = ctypes.create_string_buffer(kind.form.size * _c.MET), ctypes.c_size_t(0)
            self._handle = _c.Handle()
            check(kind.create(self._handle))
            _ALL[id(self)] = self

    def _opened(self: C) -> C:
        """A collection of the same class and kind, closed, with the attributes that others have given this one."""
        made = type(self).__new__(type(self))
        made._kind, made._keys = self._kind, self._keys
        made._lock, made._handle = threading.RLock(), _c.Handle()
        made._found, made._count = ctypes.create_string_buffer(self._kind.form.size * _c.MET), ctypes.c_size_t(0)
        made.__dict__.update(self.__dict__)
        for name in _slots_of(type(self)):
            if hasattr(self, name):
                setattr(made, name, getattr(self, name))
        _ALL[id(made)] = made
        return made

    # keys and ranges

    def _number(self, key: Any) -> int:
        return self._keys.number(key)

    def _raw(self, keys: Any) -> tuple[int, int, int]:
        """What says a range as the library reads it: two numbers and flags."""
        if type(keys) is slice and type(keys.start) is int and type(keys.stop) is int and keys.step is None:
            # nearly all are such
            kind, low, high = self._keys, keys.start, keys.stop
            if kind.is_plain and kind.least <= low <= kind.greatest and kind.least <= high <= kind.greatest:
                return low, high, _c.END_EXCLUDED
        start, end, holds_start, holds_end = bounds_of(keys)
        flags = (0 if holds_start else _c.START_EXCLUDED) | (0 if holds_end else _c.END_EXCLUDED)
        kind = self._keys
        low = high = 0
        if start is not None:
            low = kind.number(start)
        elif kind.is_native:
            flags |= _c.START_UNBOUNDED
        else:
            low, flags = kind.least, flags & ~_c.START_EXCLUDED
        if end is not None and (holds_end or not kind.is_plain or end != kind.greatest + 1):
            high = kind.number(end)
        elif kind.is_native:
            flags |= _c.END_UNBOUNDED
        else:
            high, flags = kind.greatest, flags & ~_c.END_EXCLUDED
        return low, high, flags

    def _packed(self, keys: Any) -> bytes:
        return self._kind.range_form.pack(*self._raw(keys))

    def _first_and_last(self, start: int, end: int, flags: int) -> tuple[int, int]:
        """The numbers of the first and the last key of a range; the first is past the last where there is none."""
        if flags == _c.END_EXCLUDED:
            return start, end - 1
        first = self._keys.least if flags & _c.START_UNBOUNDED else start + (flags & _c.START_EXCLUDED)
        last = self._keys.greatest if flags & _c.END_UNBOUNDED else end - (flags & _c.END_EXCLUDED > 0)
        return first, last

    def _range(self, start: int, end: int, flags: int) -> Range[K]:
        first, last = self._first_and_last(start, end, flags)
        return self._between(first, last, flags)

    def _between(self, first: int, last: int, flags: int = 0) -> Range[K]:
        keys = self._keys
        return made(keys.key(first), keys.stop(last + 1), flags, _of_range(keys))

    def _ranges_read(self, read: Read) -> Iterator[Range[K]]:
        starts, ends, flags = read[:3]
        if not flags or not self._keys.is_plain or (flags[0] | flags[-1]) & _UNBOUNDED:
            return map(self._range, starts, ends, flags)
        if flags.count(_c.END_EXCLUDED) == len(flags):
            return map(made, starts, ends, flags)
        firsts = map(int.__add__, starts, map(_PAST_START.__getitem__, flags))
        return map(made, firsts, map(int.__add__, ends, map(_PAST_END.__getitem__, flags)), flags)

    # calls

    def _call(self, name: str, *words: Any) -> bool:
        with self._lock:
            return check(getattr(self._kind, name)(self._handle, *words))

    @contextlib.contextmanager
    def _locked_with(self, other: Collection[Any]) -> Iterator[None]:
        """Holds the locks of both, always in the same order."""
        first, second = sorted((self, other), key=id)
        with first._lock, second._lock:
            yield

    def _check_open(self) -> None:
        if not self._handle.is_open:
            check(_c.CLOSED)

    def _entry(self, name: str, *words: Any) -> tuple[int, ...] | None:
        """What the call writes of a stored range, `None` where there is none."""
        if not check(getattr(self._kind, name)(self._handle, *words, self._found)):
            return None
        return self._kind.form.unpack_from(self._found)

    def _unpacked(self, buffer: Any, count: int, form: Any) -> Read:
        """So many stored ranges of a buffer."""
        if form is self._kind.form and count == _c.BATCH and self._kind.whole_form is not None:
            words, width = self._kind.whole_form.unpack(buffer), self._kind.width
            return Read(*(words[at::width] for at in range(width)))
        return Read(*zip(*form.iter_unpack(memoryview(buffer)[: form.size * count]))) if count else Read((), (), ())

    def _batches(self, backward: bool = False) -> Iterator[tuple[Read, list[Any]]]:
        """What is stored, ascending or descending, a batch at a time, with the values of a map as they are then."""
        least, greatest = self._keys.least, self._keys.greatest
        key, read = (greatest, self._kind.read_back) if backward else (least, self._kind.read)
        buffer, count = ctypes.create_string_buffer(self._kind.form.size * _c.BATCH), ctypes.c_size_t(0)
        while least <= key <= greatest:
            with self._lock:
                check(read(self._handle, key, buffer, _c.BATCH, count))
                found = self._unpacked(buffer, count.value, self._kind.form)
                values = self._values_of(found.numbers)
            yield found, values
            if count.value < _c.BATCH or found.flags[-1] & (_c.START_UNBOUNDED if backward else _c.END_UNBOUNDED):
                return
            start, end, flags = found.starts[-1], found.ends[-1], found.flags[-1]
            key = start - (not flags & _c.START_EXCLUDED) if backward else end + (not flags & _c.END_EXCLUDED)

    def _values_of(self, numbers: Iterable[int]) -> list[Any]:
        return []

    def _within(self, call: Any, form: Any, raw: tuple[int, int, int]) -> Iterator[tuple[Read, list[Any]]]:
        """What the call finds in the range, as the form reads it, ascending: in batches as those above."""
        count = ctypes.c_size_t(0)
        buffer = ctypes.create_string_buffer(form.size * _c.BATCH)
        while True:
            with self._lock:
                check(call(self._handle, self._kind.range_form.pack(*raw), buffer, _c.BATCH, count))
                found = self._unpacked(buffer, count.value, form)
                values = self._values_of(found.numbers)
            yield found, values
            if count.value < _c.BATCH or found.flags[-1] & _c.END_UNBOUNDED:
                return
            # the part of the range past the last that was found
            start_flag = 0 if found.flags[-1] & _c.END_EXCLUDED else _c.START_EXCLUDED
            raw = (found.ends[-1], raw[1], raw[2] & (_c.END_EXCLUDED | _c.END_UNBOUNDED) | start_flag)

    def _in_batches(self, items: Iterable[Any]) -> None:
        """Inserts the items many at a time; where one of them cannot be read or is none, those before it."""
        self._check_open()
        batch: list[Any] = []
        size = _c.BATCH
        try:
            for item in items:
                batch.append(item)
                if len(batch) == size:
                    full, batch = batch, []
                    self._insert_batch(full)
                    size = min(max(_c.BATCH, len(self)), _c.LARGEST)
        finally:
            if batch:
                self._insert_batch(batch)

    def _insert_batch(self, items: list[Any]) -> None:
        raise NotImplementedError

    def _insert_packed(self, packed: Any, size: int) -> None:
        check(self._kind.insert_many(self._handle, bytes(packed), size, ctypes.c_size_t(0)))

    # methods

    @property
    def keys_kind(self) -> str:
        """The kind of keys: "u64", "char" and so on."""
        return self._keys.name

    def __contains__(self, key: object) -> bool:
        try:
            number = self._number(key)
        except (TypeError, OverflowError):
            self._check_open()
            return False
        return self._call("contains", number)

    def __len__(self) -> int:
        """How many ranges are stored."""
        with self._lock:
            self._check_open()
            return int(_calls.brm_count(self._handle))

    def __bool__(self) -> bool:
        return len(self) > 0

    def key_count(self) -> int:
        """How many keys there are. Goes over all stored ranges."""
        if self._kind.is_wide:
            ends = (map(self._first_and_last, *read[:3]) for read, _ in self._batches())
            return sum(last - first + 1 for first, last in itertools.chain.from_iterable(ends))
        length = _c.Length()
        self._call("len", length)
        return int((length.high << 64) + length.low)

    def intersects(self, keys: Keyed[K]) -> bool:
        """Whether there is some key of the range."""
        return self._call("intersects", self._packed(keys))

    def ranges(self) -> Iterator[Range[K]]:
        """The stored ranges, ascending."""
        for read, _ in self._batches():
            yield from self._ranges_read(read)

    def __iter__(self) -> Iterator[Range[K]]:
        """The stored ranges, ascending: ranges and not keys."""
        return self.ranges()

    def __reversed__(self) -> Iterator[Range[K]]:
        """The stored ranges, descending."""
        for read, _ in self._batches(backward=True):
            yield from self._ranges_read(read)

    def gaps(self, keys: Keyed[K] = slice(None)) -> Iterator[Range[K]]:
        """The parts of the range, or of all keys, of which no key is there, ascending."""
        raw = self._raw(keys)
        first, last = self._first_and_last(*raw)
        for read, _ in self._within(self._kind.gaps, self._kind.range_form, raw):
            for start, end in map(self._first_and_last, *read[:3]):
                yield self._between(max(first, start), min(last, end))

    def clear(self) -> None:
        """Takes all ranges away."""
        self._call_any(_calls.brm_clear)

    def _call_any(self, call: Callable[..., int], *words: Any) -> None:
        with self._lock:
            check(call(self._handle, *words))

    def _text(self) -> bytes:
        size = ctypes.c_size_t(0)
        with self._lock:
            text = ctypes.create_string_buffer(1)
            while True:
                status = _calls.brm_save(self._handle, text, size.value, size)
                if status != _c.NO_ROOM:
                    check(status)
                    return text.raw[: size.value]
                text = ctypes.create_string_buffer(size.value + 1)

    @staticmethod
    def _parsed(text: str | bytes) -> Any:
        if not isinstance(text, (str, bytes, bytearray)):
            raise TypeError(f"JSON is text, not {type(text).__name__}")
        try:
            return json.loads(text)
        except (ValueError, RecursionError) as error:
            raise NotLoaded(f"the text is no JSON: {error}", number=_c.NOT_JSON) from None

    def _bounds_of_json(self, bounds: Any, place: int) -> list[Any]:
        """The bounds of a range in JSON, with the numbers of the keys in their place."""
        kind = self._keys
        try:
            sides: list[Any] = []
            for side, number in zip(bounds, (kind.least, kind.greatest)):
                if side != "Unbounded":
                    sides.append({name: kind.to_text(kind.number(kind.of_json(key))) for name, key in side.items()})
                else:
                    sides.append(side if kind.is_native else {"Included": kind.to_text(number)})
            if len(bounds) != 2:
                raise ValueError("a range has two bounds")
            return sides
        except (AttributeError, TypeError, ValueError, OverflowError) as error:
            raise NotLoaded(f"no range of {self._keys.name} keys: {error}", place) from None

    def _json_of_bounds(self, bounds: Any) -> list[Any]:
        """The other way round, of the library's own text."""
        to_json, key, of_text = self._keys.to_json, self._keys.key, self._keys.of_text
        return [
            side if side == "Unbounded" else {name: to_json(key(of_text(number))) for name, number in side.items()}
            for side in bounds
        ]

    def _loaded(self: C, items: list[Any], wrapped: Callable[[list[Any]], Any]) -> C:
        """A collection of the same kind that holds these items of the library's JSON; the first at fault is found by halves."""
        self._check_open()
        made = self._opened()
        check(self._kind.create(made._handle))

        def fault(count: int) -> int:
            raw = json.dumps(wrapped(items[:count])).encode()
            return int(_calls.brm_load(made._handle, raw, len(raw)))

        status = fault(len(items))
        if status != _c.NOT_READ:
            check(status)
            return made
        if fault(0) != _c.DONE:
            raise NotLoaded("the JSON is no such map or set")
        low, high = 0, len(items) - 1
        while low < high:
            middle = (low + high) // 2
            low, high = (middle + 1, high) if fault(middle + 1) == _c.DONE else (low, middle)
        raise NotLoaded("no range, or one that does not lie after those before it", low)

    def close(self) -> None:
        """Frees the memory. Each later call but this one raises `RuntimeError`."""
        if getattr(self, "_handle", None) is not None:
            with self._lock:
                _calls.brm_raw_destroy(self._handle)

    def __enter__(self: C) -> C:
        return self

    def __exit__(self, *error: object) -> None:
        self.close()

    def __del__(self) -> None:
        if _calls is not None:
            self.close()

    def __copy__(self: C) -> C:
        return self.copy()

    def copy(self: C) -> C:
        raise NotImplementedError

    def _attributes(self) -> dict[str, Any]:
        """What others have given this one: a subclass, or who holds it."""
        slots = {name: getattr(self, name) for name in _slots_of(type(self)) if hasattr(self, name)}
        return {**self.__dict__, **slots}

    def _copy_attributes(self, memo: dict[int, Any]) -> None:
        for name, value in self._attributes().items():
            setattr(self, name, _copy.deepcopy(value, memo))

    def _shown(self, ranges: str | None) -> str:
        """What `repr` says, of the ranges or of a collection that is closed."""
        kind = "" if self._keys.name == "u64" else f", keys={self._keys.name!r}"
        return f"{type(self).__name__}({{{ranges}}}{kind})" if ranges is not None else f"<closed {type(self).__name__}>"

    @staticmethod
    def _dumped(data: Any) -> str:
        return json.dumps(data, separators=(",", ":"))

    def _buffer(self, numbers: Any) -> Any:
        """The numbers of a buffer as an array of the library's; `None` where it is no buffer of whole numbers of one kind."""
        if isinstance(numbers, (bytes, bytearray, str)) or not self._keys.is_plain or self._kind.is_wide:
            return None
        try:
            view = memoryview(numbers)
        except TypeError:
            return None
        code = self._kind.key_code
        if view.ndim != 1 or view.format.lstrip("@=<") not in tuple("bBhHiIlLqQ"):
            return None
        alike = "lq" if self._keys.is_signed else "LQ"
        if view.itemsize == 8 and view.format.lstrip("@=<") in tuple(alike):
            return numbers if isinstance(numbers, array.array) else array.array(code, view.tobytes())
        try:
            return array.array(code, view.tolist())
        except OverflowError:
            return None

    def _spans_packed(self, starts: Any, stops: Any) -> tuple[int, Any]:
        """How many ranges there are, from each start up to the stop beside it, and how they lie in memory, as words."""
        kind, code = self._keys, self._kind.key_code
        if self._kind.is_wide:
            return self._wide_spans_packed(list(starts), list(stops))
        firsts, lasts = self._buffer(starts), self._buffer(stops)
        is_read = firsts is not None and lasts is not None
        if not is_read:
            number = operator.index if kind.is_plain else kind.number
            firsts, lasts = array.array(code, map(number, starts)), list(map(number, stops))
        size = len(firsts)
        if len(lasts) != size:
            raise ValueError(f"{size} starts and {len(lasts)} stops")
        flags = array.array("Q", [_c.END_EXCLUDED]) * size
        # numbers of a buffer are keys of a kind that the library has, and those of other objects have been looked at
        if size and kind.is_plain and not (is_read and kind.is_native):
            if max(lasts) == kind.greatest + 1:
                flags = array.array("Q", [_c.END_EXCLUDED if it <= kind.greatest else 0 for it in lasts])
                lasts = [min(it, kind.greatest) for it in lasts]
            for number in (min(firsts), min(lasts), max(firsts), max(lasts)):
                kind.number(number)
        width = self._kind.width
        words = array.array("Q", bytes(8 * width * size))
        words[0::width] = array.array("Q", firsts.tobytes())
        words[1::width] = array.array("Q", array.array(code, lasts).tobytes())
        words[2::width] = flags
        return size, words

    def _wide_spans_packed(self, starts: list[Any], stops: list[Any]) -> tuple[int, Any]:
        """The same of keys of 128 bits."""
        if len(stops) != len(starts):
            raise ValueError(f"{len(starts)} starts and {len(stops)} stops")
        pack, number, ends = self._kind.form.pack, self._keys.number, map(self._end_and_flags, stops)
        rest = [0] * (self._kind.width - self._kind.flags_at - 1)
        packed = b"".join([pack(number(start), *end, *rest) for start, end in zip(starts, ends)])
        return len(starts), array.array("Q", packed)

    def _end_and_flags(self, stop: Any) -> tuple[int, int]:
        """How a range ends that goes up to the key, or to the number past the last key, which is none."""
        kind = self._keys
        if kind.is_plain and stop == kind.greatest + 1:
            return kind.greatest, 0
        return kind.number(stop), _c.END_EXCLUDED

    def __reduce__(self) -> Any:
        return _opened_anew, (type(self), self._keys.name), (self._items(), self._attributes())

    def _items(self) -> list[Any]:
        raise NotImplementedError

    def _start(self, keys: str) -> None:
        raise NotImplementedError

    def __setstate__(self, state: tuple[list[Any], dict[str, Any]]) -> None:
        items, attributes = state
        for name, value in attributes.items():
            setattr(self, name, value)
        self._in_batches(items)

    __hash__ = None  # type: ignore[assignment]


def _of_range(keys: Keys) -> Keys:
    return INTEGERS if keys.is_plain else keys


def _slots_of(of_class: type) -> list[str]:
    """The slots of the classes that are made of maps and sets."""
    own = of_class.__mro__[: [it.__module__ for it in of_class.__mro__].index(__name__)]
    slots = (it.__dict__.get("__slots__", ()) for it in own if it.__module__.partition(".")[0] != __package__)
    return [name for names in slots for name in ([names] if isinstance(names, str) else names)]


def _opened_anew(of_class: type[C], keys: str) -> C:
    """An empty collection of a class, whatever its `__init__` asks for."""
    made = of_class.__new__(of_class)
    made._start(keys)
    return made


def _take_locks() -> None:
    _FORKING.acquire()
    _FORKED.extend(sorted(_ALL.values(), key=id))
    for held in _FORKED:
        held._lock.acquire()


def _give_locks() -> None:
    while _FORKED:
        _FORKED.pop()._lock.release()
    _FORKING.release()


if hasattr(os, "register_at_fork"):
    os.register_at_fork(before=_take_locks, after_in_parent=_give_locks, after_in_child=_give_locks)


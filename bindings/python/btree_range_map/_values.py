"""The values of a map by numbers, each kept as long as some stored range has its number."""

from __future__ import annotations

from typing import Any, Iterable

#: How often a value is compared anew where comparing it has changed the map.
TURNS = 8


class Values:
    """Values by numbers from 1 on, and how many stored ranges have each. Equal ones that have a hash have one number.

    Only `number` runs code of the values: it finds one that is in the table when it returns.
    """

    def __init__(self) -> None:
        #: the values by their numbers; the first place is that of no value
        self.table: list[Any] = [None]
        self.ranges = [0]
        self._free: list[int] = []
        #: the numbers of the values with a hash: one, or those that share it; the hash of each, `None` of one without
        self._of_hash: dict[int, int | list[int]] = {}
        self._hashes: list[int | None] = [None]
        #: the numbers of objects without a hash, by their identity
        self._of_id: dict[int, int] = {}
        #: how often a number was given or freed
        self._changes = 0

    def __len__(self) -> int:
        """How many values are kept."""
        return len(self.table) - 1 - len(self._free)

    def number(self, value: Any) -> int:
        """The number of the value, which is held for one range more."""
        try:
            of_hash: int | None = hash(value)
        except TypeError:
            of_hash = None
        known = self._of_id.get(id(value), 0) if of_hash is None else self._known(of_hash, value)
        number = known or self._given(of_hash, value)
        self.ranges[number] += 1
        return number

    def _known(self, of_hash: int, value: Any) -> int:
        """The number of an equal value, 0 where there is none."""
        for _ in range(TURNS):
            numbers = self._of_hash.get(of_hash)
            if numbers is None:
                return 0
            changes = self._changes
            for number in (numbers,) if type(numbers) is int else tuple(numbers):  # type: ignore[arg-type]
                known = self.table[number]
                is_same = known is value or bool(known == value)
                if self._changes != changes:
                    break
                if is_same:
                    return number
            else:
                return 0
        return 0

    def _given(self, of_hash: int | None, value: Any) -> int:
        self._changes += 1
        if self._free:
            number = self._free.pop()
            self.table[number], self._hashes[number] = value, of_hash
        else:
            number = len(self.table)
            self.table.append(value)
            self._hashes.append(of_hash)
            self.ranges.append(0)
        if of_hash is None:
            self._of_id[id(value)] = number
            return number
        others = self._of_hash.setdefault(of_hash, number)
        if isinstance(others, list):
            others.append(number)
        elif others != number:
            self._of_hash[of_hash] = [others, number]
        return number

    def hold(self, number: int) -> None:
        """One range more has the number."""
        self.ranges[number] += 1

    def release(self, number: int, gone: list[Any]) -> None:
        """One range has the number no more. A value that is of none then goes to the list, whose end may run its code."""
        self.ranges[number] -= 1
        if not self.ranges[number]:
            self._drop(number, gone)

    def _drop(self, number: int, gone: list[Any]) -> None:
        self._changes += 1
        value, of_hash = self.table[number], self._hashes[number]
        if of_hash is None:
            del self._of_id[id(value)]
        else:
            others = self._of_hash[of_hash]
            if isinstance(others, list) and len(others) > 1:
                others.remove(number)
            else:
                del self._of_hash[of_hash]
        gone.append(value)
        self.table[number] = None
        self._free.append(number)
        if len(self._free) == len(self.table) - 1:
            # none is kept
            del self.table[1:], self.ranges[1:], self._hashes[1:]
            self._free.clear()

    def change(self, before: list[int], after: list[int], gone: list[Any]) -> None:
        """Of some stored ranges with these numbers others were made, with those."""
        if before == after:
            return
        for number in after:
            self.ranges[number] += 1
        for number in before:
            self.release(number, gone)

    def count_anew(self, numbers: Iterable[int], gone: list[Any]) -> None:
        """These are the numbers of the stored ranges, as of a map that was made of another."""
        free = set(self._free)
        self.ranges = [0] * len(self.table)
        for number in numbers:
            self.ranges[number] += 1
        for number in [it for it in range(1, len(self.table)) if not self.ranges[it] and it not in free]:
            self._drop(number, gone)

    def shrink(self) -> None:
        """Gives back memory of free places behind all that are not."""
        free = set(self._free)
        while len(self.table) - 1 in free:
            free.remove(len(self.table) - 1)
            del self.table[-1], self.ranges[-1], self._hashes[-1]
        self._free = sorted(free, reverse=True)

    def copied(self) -> Values:
        made = Values()
        made.table, made.ranges, made._hashes = self.table[:], self.ranges[:], self._hashes[:]
        made._free, made._of_id = self._free[:], self._of_id.copy()
        made._of_hash = {it: numbers if isinstance(numbers, int) else numbers[:] for it, numbers in self._of_hash.items()}
        return made

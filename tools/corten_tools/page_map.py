"""The page map as far as the programs here need it: which pages are mapped, and how many frames and tables are in use.

It counts frames, swap slots and page tables and does not number them. A page table is added where its span stops being
alike: all pages unmapped, or all without a frame and going on from one another. A change of a range can do that only at
the two ends of the range. `unmap` removes the tables whose span lies in its range.
"""

from collections import Counter, defaultdict, namedtuple

from .ranges import Ranges

PAGE = 4096
SPACES = 64

# `kind` is anon, file, frame or swapped. A page that came from a file has the index `base` plus its number; else `file`
# and `base` are None.
Cell = namedtuple("Cell", "kind perm file base")
NUMBERED = ("frame", "swapped")


def pages_of(length):
    return (length + PAGE - 1) // PAGE


def within(numbers, low, high):
    """Those of a set's or a map's numbers that lie in `low..high`, at the cost of the smaller of the two."""
    if high - low < len(numbers):
        return [number for number in range(low, high) if number in numbers]
    return [number for number in numbers if low <= number < high]


def fresh(perm, file=None, base=None):
    return Cell("anon" if file is None else "file", perm, file, base)


def are_alike(cells):
    """Whether one entry can stand for all pages, where equal cells go on from one another."""
    return len(set(cells)) <= 1 and not any(cell is not None and cell.kind in NUMBERED for cell in cells)


class Space:
    """One address space."""

    def __init__(self, ranges):
        self.ranges = ranges
        self.frames = {}
        self.slots = {}
        self.tables = defaultdict(set)  # the prefixes of each level below the root


class PageMap:
    """All present spaces. `make` makes the ranges of a space, so that a caller may watch them."""

    def __init__(self, make=Ranges, levels=4):
        self.make = make
        self.levels = levels
        self.spaces = {}
        self.frame_owners = Counter()
        self.slot_owners = Counter()
        self.last_number = 0
        self.spawn()

    def frames_used(self):
        return len(self.frame_owners)

    def slots_used(self):
        return len(self.slot_owners)

    def tables_linked(self):
        return sum(1 + sum(map(len, space.tables.values())) for space in self.spaces.values())

    def least_absent(self):
        """The number of the next space, or None where all are present."""
        return next((number for number in range(SPACES) if number not in self.spaces), None)

    def _absent(self):
        number = self.least_absent()
        if number is None:
            raise KeyError("no space is absent")
        return number

    def spawn(self):
        number = self._absent()
        self.spaces[number] = Space(self.make())
        return number

    def fork(self, number):
        old = self.spaces[number]
        child = self._absent()
        new = self.spaces[child] = Space(old.ranges.copy())
        new.frames = dict(old.frames)
        new.slots = dict(old.slots)
        self.frame_owners.update(new.frames.values())
        self.slot_owners.update(new.slots.values())
        new.tables = self.tables_of_fork(number)
        return child

    def exit(self, number):
        space = self.spaces.pop(number)
        for page in list(space.frames) + list(space.slots):
            self._drop_number(space, page)

    def _drop_number(self, space, page):
        for owners, numbers in ((self.frame_owners, space.frames), (self.slot_owners, space.slots)):
            number = numbers.pop(page, None)
            if number is not None:
                owners[number] -= 1
                if owners[number] == 0:
                    del owners[number]

    def _drop_numbers(self, space, first, end):
        for numbers in (space.frames, space.slots):
            for page in within(numbers, first, end):
                self._drop_number(space, page)

    def _give_number(self, owners, numbers, page):
        self.last_number += 1
        owners[self.last_number] = 1
        numbers[page] = self.last_number

    def map(self, number, first, end, cell):
        space = self.spaces[number]
        self._add(space, self.lacking(number, first, end, lambda _: cell))
        self._drop_numbers(space, first, end)
        space.ranges.put(first, end, cell)

    def unmap(self, number, first, end, tables=True):
        space = self.spaces[number]
        self._add(space, self.lacking(number, first, end, lambda _: None))
        self._drop_numbers(space, first, end)
        space.ranges.put(first, end, None)
        if tables:
            for level in range(1, self.levels):
                span = self._span(level)
                space.tables[level] -= set(within(space.tables[level], -(-first // span), end // span))

    def protect(self, number, first, end, perm):
        space = self.spaces[number]
        self._add(space, self.lacking(number, first, end, lambda cell: cell and cell._replace(perm=perm)))
        for start, stop, cell in space.ranges.parts(first, end):
            if cell is not None:
                space.ranges.put(start, stop, cell._replace(perm=perm))

    def give_back(self, number, first, end):
        """The pages of a range are what they came from again. They need no table, and keep those that are there."""
        space = self.spaces[number]
        self._drop_numbers(space, first, end)
        for start, stop, cell in space.ranges.parts(first, end):
            if cell is not None:
                space.ranges.put(start, stop, fresh(cell.perm, cell.file, cell.base))

    def wants_frame(self, number, page, write):
        space = self.spaces[number]
        frame = space.frames.get(page)
        return frame is None or (write and self.frame_owners[frame] > 1)

    def access(self, number, first, end, write):
        space = self.spaces[number]
        for page in range(first, end):
            self._add(space, self.lacking(number, page, page + 1, lambda cell: cell and cell._replace(kind="frame")))
            if self.wants_frame(number, page, write):
                self._drop_number(space, page)
                self._give_number(self.frame_owners, space.frames, page)
            cell = space.ranges.value(page)
            if cell is not None and cell.kind != "frame":
                space.ranges.put(page, page + 1, cell._replace(kind="frame"))

    def swap_out(self, number, first, end):
        space = self.spaces[number]
        sole = [page for page in within(space.frames, first, end) if self.frame_owners[space.frames[page]] == 1]
        self._move(space, sole, self.slot_owners, space.slots, "swapped")

    def swap_in(self, number, first, end):
        space = self.spaces[number]
        self._move(space, within(space.slots, first, end), self.frame_owners, space.frames, "frame")

    def _move(self, space, pages, owners, numbers, kind):
        for page in sorted(pages):
            self._drop_number(space, page)
            self._give_number(owners, numbers, page)
            cell = space.ranges.value(page)
            space.ranges.put(page, page + 1, cell._replace(kind=kind))

    def shift(self, number, first, end, by):
        """Moves what stands in a range, numbers included, to the range `by` pages further."""
        space = self.spaces[number]
        parts = space.ranges.parts(first, end)
        taken = [{page + by: numbers.pop(page) for page in within(numbers, first, end)}
                 for numbers in (space.frames, space.slots)]
        space.ranges.put(first, end, None)
        for start, stop, cell in parts:
            if cell is not None:
                base = None if cell.base is None else cell.base - by
                space.ranges.put(start + by, stop + by, cell._replace(base=base))
        space.frames.update(taken[0])
        space.slots.update(taken[1])

    def settle(self, number, first, end):
        """Adds the tables that a range needs as it stands, after pages of several kinds have come into it."""
        space = self.spaces[number]
        for start, stop, _ in space.ranges.parts(first, end):
            self._add(space, self.lacking(number, start, stop, lambda cell: cell))

    @staticmethod
    def _span(level):
        return 1 << (9 * level)

    def _above(self, first, end, numbered):
        """The tables below the root above the ends of a range, or above all its pages, which have numbers."""
        for level in range(1, self.levels):
            low, high = first // self._span(level), (end - 1) // self._span(level)
            for prefix in range(low, high + 1) if numbered else sorted({low, high}):
                yield level, prefix

    def lacking(self, number, first, end, change):
        """The missing tables below the root, by level and prefix, that are needed once each cell of a range has changed."""
        space = self.spaces[number]
        parts = [(start, stop, change(cell)) for start, stop, cell in space.ranges.parts(first, end)]
        numbered = any(cell is not None and cell.kind in NUMBERED for _, _, cell in parts)
        return [(level, prefix) for level, prefix in self._above(first, end, numbered)
                if prefix not in space.tables[level] and not self._is_alike(space, level, prefix, parts)]

    def _is_alike(self, space, level, prefix, changed):
        low, high = prefix * self._span(level), (prefix + 1) * self._span(level)
        first, end = changed[0][0], changed[-1][1]
        cells = [cell for start, stop, cell in changed if start < high and low < stop]
        for start, stop in ((low, min(first, high)), (max(end, low), high)):
            if start < stop:
                cells += [cell for _, _, cell in space.ranges.parts(start, stop)]
        return are_alike(cells)

    def cut_tables(self, number, first, end):
        """Adds the tables below the root that a range meets and whose spans it has only in part, as a transaction does."""
        self._add(self.spaces[number], [
            (level, prefix) for level, prefix in self._above(first, end, False)
            if prefix * self._span(level) < first or end < (prefix + 1) * self._span(level)])

    @staticmethod
    def _add(space, places):
        for level, prefix in places:
            space.tables[level].add(prefix)

    def tables_of_fork(self, number):
        """The tables below the root that a copy of the space gets: those with a mapped page."""
        space = self.spaces[number]
        tables = defaultdict(set)
        for level, prefixes in space.tables.items():
            span = self._span(level)
            tables[level] = {prefix for prefix in prefixes
                             if any(cell is not None for _, _, cell in space.ranges.parts(prefix * span, (prefix + 1) * span))}
        return tables

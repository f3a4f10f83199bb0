"""Disjoint ranges of pages, each with a value."""

from bisect import bisect_right


class Ranges:
    """Ranges `first..end` in ascending order. Neighbours with equal values are one range."""

    def __init__(self):
        self.starts = []
        self.ends = []
        self.values = []

    def __iter__(self):
        return iter(list(zip(self.starts, self.ends, self.values)))

    def copy(self):
        other = type(self)()
        other.starts = list(self.starts)
        other.ends = list(self.ends)
        other.values = list(self.values)
        return other

    def _meeting(self, first, end):
        """The places of the ranges that share a page with `first..end`."""
        low = bisect_right(self.starts, first) - 1
        if low < 0 or self.ends[low] <= first:
            low += 1
        high = low
        while high < len(self.starts) and self.starts[high] < end:
            high += 1
        return low, high

    def value(self, page):
        """The value at a page, or None."""
        low, high = self._meeting(page, page + 1)
        return self.values[low] if low < high else None

    def parts(self, first, end):
        """What stands in `first..end`, gaps as parts of value None, in ascending order."""
        parts, at = [], first
        low, high = self._meeting(first, end)
        for place in range(low, high):
            start, stop = max(self.starts[place], first), min(self.ends[place], end)
            if at < start:
                parts.append((at, start, None))
            parts.append((start, stop, self.values[place]))
            at = stop
        if at < end:
            parts.append((at, end, None))
        return parts

    def put(self, first, end, value):
        """Gives `first..end` this value in place of what stands there; None takes it out."""
        low, high = self._meeting(first, end)
        new = []
        if low < high and self.starts[low] < first:
            new.append((self.starts[low], first, self.values[low]))
        if value is not None:
            new.append((first, end, value))
        if low < high and end < self.ends[high - 1]:
            new.append((end, self.ends[high - 1], self.values[high - 1]))
        low, high, new = self._joined(low, high, new)
        self.starts[low:high] = [start for start, _, _ in new]
        self.ends[low:high] = [stop for _, stop, _ in new]
        self.values[low:high] = [kept for _, _, kept in new]

    def _joined(self, low, high, new):
        """The same change with the neighbours on both sides, where equal values meet."""
        if low > 0:
            low -= 1
            new = [(self.starts[low], self.ends[low], self.values[low])] + new
        if high < len(self.starts):
            new = new + [(self.starts[high], self.ends[high], self.values[high])]
            high += 1
        joined = []
        for start, stop, value in new:
            if joined and joined[-1][1] == start and joined[-1][2] == value:
                joined[-1] = (joined[-1][0], stop, value)
            else:
                joined.append((start, stop, value))
        return low, high, joined

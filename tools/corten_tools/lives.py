"""What a history did to its spaces over time: which ranges were mapped from which call to which."""

from collections import namedtuple

from .command_line import Fault, shown_path
from .history import Replay, is_done, space_of
from .page_map import PAGE
from .ranges import Ranges

# Of more calls the time is counted in so many steps: what is shorter would be less than half a pixel wide.
MOST_STEPS = 4000

Timed = namedtuple("Timed", "cell since")
# Pages that were mapped alike from a call (`since`) up to another one (`until`).
Piece = namedtuple("Piece", "first end cell since until")
# A call that was refused, the life of the space that it names (or None) and the page at which it was refused (or None).
Refusal = namedtuple("Refusal", "place entry life page")


class Life(Ranges):
    """The ranges of a space between the call that makes it and the call by which it ends."""

    def __init__(self, film):
        super().__init__()
        self.film = film
        self.number = None
        self.born = film.now
        self.until = None
        self.pieces = []
        film.lives.append(self)

    def copy(self):
        other = Life(self.film)
        for first, end, cell in self:
            other.put(first, end, cell)
        return other

    def __iter__(self):
        return iter([(first, end, timed.cell) for first, end, timed in super().__iter__()])

    def value(self, page):
        timed = super().value(page)
        return timed and timed.cell

    def parts(self, first, end):
        return [(start, stop, timed and timed.cell) for start, stop, timed in super().parts(first, end)]

    def put(self, first, end, cell):
        for start, stop, timed in super().parts(first, end):
            if timed and timed.cell == cell:
                continue
            if timed and timed.since < self.film.now:
                self.pieces.append(Piece(start, stop, timed.cell, timed.since, self.film.now))
            super().put(start, stop, cell and Timed(cell, self.film.now))

    def close(self):
        """Nothing is mapped any more. A life that ends in the step in which it began lasts that step."""
        for first, end, _ in self:
            self.put(first, end, None)
        self.until = self.film.now


class Film:
    """All lives of a history's spaces, its refusals, and what was in use after each call."""

    def __init__(self, history, path):
        self.now = 0
        self.lives = []
        self.refusals = []
        self.frames = []
        self.tables = []
        self.slots = []
        self.calls = len(history.entries)
        self.step = -(-self.calls // MOST_STEPS) or 1
        self.replay = Replay(history, lambda: Life(self))
        self.name_lives()
        for place, entry in enumerate(history.entries):
            try:
                self.show(place, entry)
            except (KeyError, AttributeError, IndexError, ValueError):
                raise Fault(f"{shown_path(path)}:{entry.line}: expected a reply that fits the calls before it, as "
                            f"'cortenmm check' does, found '{entry.reply[:60]}'") from None
        if not history.entries:
            self.count()
        self.now = max(1, self.calls)
        for space in self.replay.map.spaces.values():
            space.ranges.close()

    def name_lives(self):
        for number, space in self.replay.map.spaces.items():
            space.ranges.number = number

    def show(self, place, entry):
        self.now = place - place % self.step
        if not is_done(entry):
            space = self.replay.map.spaces.get(space_of(entry))
            self.refusals.append(Refusal(place, entry, space and space.ranges, refused_page(entry)))
        elif entry.call.startswith("exit "):
            self.replay.map.spaces[space_of(entry)].ranges.close()
        self.replay.apply(entry)
        if entry.call.startswith(("fork", "spawn")):
            self.name_lives()
        self.count()

    def count(self):
        self.frames.append(self.replay.map.frames_used())
        self.tables.append(self.replay.map.tables_linked())
        self.slots.append(self.replay.map.slots_used())


def refused_page(entry):
    """The page that the reply names, or else the one that the call names."""
    words = entry.reply.split(" ") + entry.call.split(" ")
    address = next((word for word in words if word.startswith("0x")), None)
    return address and int(address, 16) // PAGE

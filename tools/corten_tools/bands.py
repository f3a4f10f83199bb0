"""Where the pages of a space stand in the picture: mapped ranges below each other, long gaps folded."""

from bisect import bisect_right
from math import log2, sqrt

from .page_map import PAGE

FOLDED_FROM = 64
FOLD = 12
# The height of a band: the more the longer its life, as a share of all calls.
EMPTY, LEAST, SHORT = 18, 44, 72


def natural_height(pages):
    return 8 + 4 * log2(pages)


def size_of(pages):
    """A length in words: the greatest unit of which there is at least one."""
    amount, units = pages * 4, ["KiB", "MiB", "GiB", "TiB"]
    while amount >= 1024 and len(units) > 1:
        amount, units = amount / 1024, units[1:]
    return f"{amount:.0f} {units[0]}" if amount >= 10 or amount == int(amount) else f"{amount:.1f} {units[0]}"


class Band:
    """The rows of one life: (first page, end, height, kind), kind `mapped`, `gap` or `fold`, lowest addresses first."""

    def __init__(self, life, share, most):
        self.rows = rows_of(life.pieces)
        natural = sum(row[2] for row in self.rows)
        short = min(SHORT, most)
        self.height = min(short + (most - short) * sqrt(share), max(LEAST, natural)) if self.rows else EMPTY
        scale = self.height / natural if natural else 1
        self.firsts = [row[0] for row in self.rows]
        self.tops, below = [], 0
        for first, end, height, _ in self.rows:
            below += height * scale
            self.tops.append(below)
        self.scale = scale

    def above(self, page):
        """How far above the band's bottom a page begins."""
        place = bisect_right(self.firsts, page) - 1
        if place < 0:
            return 0
        first, end, height, _ = self.rows[place]
        share = min(1, (page - first) / (end - first))
        return self.tops[place] - height * self.scale * (1 - share)

    def runs(self):
        """Where stretches of mapped pages begin."""
        kinds = ["fold"] + [row[3] for row in self.rows]
        return [row[0] for before, row in zip(kinds, self.rows) if row[3] == "mapped" and before != "mapped"]

    def folds(self):
        """The folded gaps: (bottom, top, length in words), as distances from the band's bottom."""
        return [(self.above(row[0]), self.tops[place], size_of(row[1] - row[0]))
                for place, row in enumerate(self.rows) if row[3] == "fold"]


def rows_of(pieces):
    """Each edge of a piece begins a row; between mapped rows stand gaps."""
    edges = sorted({edge for piece in pieces for edge in (piece.first, piece.end)})
    covered = {}
    change = {}
    for piece in pieces:
        change[piece.first] = change.get(piece.first, 0) + 1
        change[piece.end] = change.get(piece.end, 0) - 1
    depth = 0
    for edge in edges:
        depth += change[edge]
        covered[edge] = depth > 0
    rows = []
    for first, end in zip(edges, edges[1:]):
        pages = end - first
        if covered[first]:
            rows.append((first, end, natural_height(pages), "mapped"))
        elif pages < FOLDED_FROM:
            rows.append((first, end, natural_height(pages), "gap"))
        else:
            rows.append((first, end, FOLD, "fold"))
    return rows


def address(page):
    return f"{page * PAGE:#x}"

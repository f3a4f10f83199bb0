"""Draws a history: its spaces over the answered calls, and below them what was in use."""

from collections import defaultdict

from . import svg
from .bands import Band, address, size_of

LEFT, WIDTH, RIGHT = 100, 900, 100
CURVE = 56
# Below this height the edges would hide what they enclose; nothing is drawn smaller than so that it is seen.
THIN, LEAST = 2.5, 0.5
# The greatest height of a band: less where many stand below each other.
ALL_BANDS, LOWEST, HIGHEST = 2400, 64, 420
MOST_TITLES = 2500
MOST_CALL_TITLES = 1000
KIND_NAMES = {"anon": "anonymous", "file": "file", "frame": "with a frame", "swapped": "swapped"}
SMALL, BOLD, TITLE = 'class="s"', 'class="b"', 'class="t"'
STYLE = ("text{font:11px DejaVu Sans,Verdana,sans-serif;fill:#222}"
         ".s{font-size:9px;fill:#555}.b{font-weight:bold}.t{font-size:15px;font-weight:bold}")


class Picture:
    """Collects the SVG from top to bottom; `y` is where the next part begins."""

    def __init__(self, history, film, name):
        self.history = history
        self.film = film
        self.name = name
        self.parts = []
        self.y = 0
        self.columns = max(1, film.calls)
        self.refused = defaultdict(list)
        for refusal in film.refusals:
            self.refused[id(refusal.life)].append(refusal)
        self.used = sorted({(piece.cell.kind, piece.cell.perm) for life in film.lives for piece in life.pieces})

    def x(self, place):
        return LEFT + WIDTH * place / self.columns

    def add(self, part):
        self.parts.append(part)

    def text(self):
        self.head()
        titles = sum(len(life.pieces) for life in self.film.lives) <= MOST_TITLES
        lanes = lanes_of(self)
        most = min(HIGHEST, max(LOWEST, ALL_BANDS / len(lanes)))
        for lane in lanes:
            self.lane(lane, titles, most)
        self.homeless()
        self.curves()
        self.axis()
        width, height = LEFT + WIDTH + RIGHT, self.y
        patterns = "".join(svg.pattern(kind, perm) for kind, perm in self.used)
        return "\n".join([
            f'<svg xmlns="http://www.w3.org/2000/svg" width="{width}" height="{svg.number(height)}" '
            f'viewBox="0 0 {width} {svg.number(height)}" role="img" aria-label="{svg.escape(self.name)}">',
            f"<style>{STYLE}</style><defs>{patterns}</defs>",
            svg.rect(0, 0, width, height, 'fill="#fff"'), *self.parts, "</svg>", ""])

    # The title and what colours and patterns mean.

    def head(self):
        film = self.film
        self.add(svg.text(10, 20, self.name, TITLE))
        spaces = f"{len(film.lives)} address spaces" if len(film.lives) > 1 else "one address space"
        told = f"{film.calls} answered calls, {len(film.refusals)} refused, {spaces}"
        self.add(svg.text(10, 36, f"{told}; addresses grow upwards, calls go to the right"))
        self.y = 46
        x = 10
        for kind, perm in self.used:
            if x > LEFT + WIDTH - 60:
                x, self.y = 10, self.y + 18
            self.add(svg.rect(x, self.y, 26, 12, self.look(kind, perm)))
            self.add(svg.text(x + 31, self.y + 10, f"{KIND_NAMES[kind]} {perm}"))
            x += 145
        if film.refusals:
            if x > LEFT + WIDTH - 60:
                x, self.y = 10, self.y + 18
            self.add(self.cross(x + 8, self.y + 6, ""))
            self.add(svg.text(x + 18, self.y + 10, "refused"))
        self.y += 24

    # Spaces, one beside the other where they are not there at the same time.

    def lane(self, lane, titles, most):
        self.y += 16
        bands = [Band(life, (life.until - life.born) / self.columns, most) for life in lane]
        bottom = self.y + max(band.height for band in bands)
        room = 0
        for life, band in zip(lane, bands):
            self.space(life, band, bottom, titles)
            if self.x(life.born) - room >= LEFT - 10:
                self.labels(life, band, bottom)
            room = max(self.x(life.until), name_start(self, life) + name_width(self, life))
        self.fold_sizes(bands[-1], bottom)
        self.y = bottom + 8

    def space(self, life, band, bottom, titles):
        top = bottom - band.height
        self.add(svg.text(name_start(self, life), top - 4, life_name(self, life), BOLD))
        left, right = self.x(life.born), self.x(life.until)
        self.add(svg.rect(left, top, max(right - left, 1), band.height, 'fill="#f2f2f2"'))
        for low, high, _ in band.folds():
            middle = svg.number(bottom - (low + high) / 2)
            line = f"M{svg.number(left)} {middle}H{svg.number(right)}"
            self.add(svg.path(line, 'stroke="#999" stroke-dasharray="2 4"'))
        self.pieces(life, band, bottom, titles)
        self.refusals(life, band, bottom)

    def fold_sizes(self, band, bottom):
        for low, high, size in band.folds():
            if high - low >= 7:
                self.add(svg.text(LEFT + WIDTH + 4, bottom - (low + high) / 2 + 3, f"{size} folded", SMALL))

    def pieces(self, life, band, bottom, titles):
        together = defaultdict(list)
        for piece in sorted(life.pieces, key=lambda piece: (piece.since, piece.first)):
            low, high = band.above(piece.first), band.above(piece.end)
            left, right = self.x(piece.since), self.x(piece.until)
            data = svg.box(left, bottom - high, max(right - left, LEAST), max(high - low, LEAST))
            look = self.look(piece.cell.kind, piece.cell.perm, high - low >= THIN)
            if titles:
                self.add(svg.path(data, look, told_piece(piece)))
            else:
                together[look].append(data)
        for look, data in together.items():
            self.add(svg.path("".join(data), look))

    @staticmethod
    def look(kind, perm, edged=True):
        edge = f' stroke="{svg.INK[kind]}" stroke-width=".3"' if edged else ""
        return f'fill="url(#{svg.pattern_name(kind, perm)})"{edge}'

    def labels(self, life, band, bottom):
        free = bottom + 10
        for page in band.runs():
            y = max(bottom - band.above(page), bottom - band.height + 8)
            if y <= free - 9:
                self.add(svg.text(self.x(life.born) - 5, y, address(page), f'text-anchor="end" {SMALL}'))
                free = y

    def refusals(self, life, band, bottom):
        places = defaultdict(list)
        for refusal in self.refused[id(life)]:
            y = bottom - (band.above(refusal.page) if refusal.page is not None else 0)
            y = round(max(bottom - band.height + 4, min(bottom - 4, y)))
            places[round(self.x(refusal.place + 0.5)), y].append(refusal)
        self.crosses(places)

    def homeless(self):
        """Refused calls whose space is absent, or that name none."""
        places = defaultdict(list)
        for refusal in self.refused[id(None)]:
            places[round(self.x(refusal.place + 0.5)), round(self.y + 24)].append(refusal)
        if places:
            self.add(svg.text(10, self.y + 12, "refused calls of no space that is there", BOLD))
            self.add(svg.rect(LEFT, self.y + 16, WIDTH, 16, 'fill="#f2f2f2"'))
            self.crosses(places)
            self.y += 36

    def crosses(self, places):
        for (x, y), refusals in places.items():
            self.add(self.cross(x, y, told_refusals(refusals)))

    @staticmethod
    def cross(x, y, title):
        return svg.path(f"M{x - 3} {y - 3}l6 6m0 -6l-6 6", 'stroke="#c00" stroke-width="1.6" fill="none"', title)

    # What was in use.

    def curves(self):
        limits = self.history.limits
        self.curve("frames in use", self.film.frames, limits["frames"], svg.INK["frame"])
        self.curve("page tables", self.film.tables, limits["tables"], "#333")
        if any(self.film.slots):
            self.curve("swap slots in use", self.film.slots, limits["swap"], svg.INK["swapped"])

    def curve(self, name, values, limit, colour):
        self.y += 20
        most = max(values, default=0)
        bottom = self.y + CURVE
        self.add(svg.text(10, self.y - 4, name, BOLD))
        self.add(svg.rect(LEFT, self.y, WIDTH, CURVE, 'fill="#f2f2f2"'))
        self.add(svg.text(LEFT - 5, self.y + 8, str(most), f'text-anchor="end" {SMALL}'))
        self.add(svg.text(LEFT - 5, bottom, "0", f'text-anchor="end" {SMALL}'))
        self.add(svg.text(LEFT + WIDTH + 4, self.y + 8, f"of {limit}", SMALL))
        data = f"M{LEFT} {svg.number(bottom)}"
        last = None
        for place in range(0, len(values), self.film.step):
            value = max(values[place:place + self.film.step])
            if value != last:
                data += f"H{svg.number(self.x(place))}V{svg.number(bottom - CURVE * value / max(1, most))}"
                last = value
        data += f"H{LEFT + WIDTH}V{svg.number(bottom)}z"
        self.add(svg.path(data, f'fill="{colour}" fill-opacity=".35" stroke="{colour}"'))
        self.y = bottom + 4

    def axis(self):
        self.y += 12
        step = next(size for power in range(9) for size in (10 ** power, 2 * 10 ** power, 5 * 10 ** power)
                    if self.columns / size <= 20)
        for place in range(0, self.columns + 1, step):
            x = svg.number(self.x(place))
            self.add(svg.path(f"M{x} {svg.number(self.y - 10)}v5", 'stroke="#555"'))
            self.add(svg.text(self.x(place), self.y + 6, str(place), f'text-anchor="middle" {SMALL}'))
        self.add(svg.text(10, self.y + 6, "answered calls"))
        if self.film.calls <= MOST_CALL_TITLES:
            for place, entry in enumerate(self.history.entries):
                told = f"call {place}, line {entry.line}: {entry.thread} {short(entry.call)} = {short(entry.reply)}"
                self.add(svg.rect(self.x(place), self.y - 14, WIDTH / self.columns, 12, 'fill-opacity="0"', told))
        self.y += 18
        self.accounts()

    def accounts(self):
        """The replay counts what is in use; the history's last lines say it too."""
        for name, mine, theirs in differing_accounts(self.history, self.film):
            told = f"{name}: {theirs} at the end by the history's accounts, {mine} by this picture"
            self.add(svg.text(10, self.y + 2, told))
            self.y += 16


def life_name(picture, life):
    shown = f"space {life.number}"
    return shown if life.born == 0 and life.until == picture.columns else f"{shown}, calls {life.born} to {life.until}"


def name_start(picture, life):
    """Where the name of a life begins: above its first call, but for names that would leave the picture."""
    if life.born == 0:
        return 10
    return min(picture.x(life.born), LEFT + WIDTH + RIGHT - name_width(picture, life))


def name_width(picture, life):
    """At least as wide as the name is drawn."""
    return 7 * len(life_name(picture, life))


def lanes_of(picture):
    """The lives in the order of their births, each in the first lane in which nothing stands at its place."""
    lanes, ends = [], []
    for life in picture.film.lives:
        start = name_start(picture, life)
        name_end = start + name_width(picture, life)
        lane = next((at for at, end in enumerate(ends) if end + 12 <= start), None)
        if lane is None:
            lane = len(lanes)
            lanes.append([])
            ends.append(0)
        lanes[lane].append(life)
        ends[lane] = max(name_end, picture.x(life.until))
    return lanes


def told_piece(piece):
    cell = piece.cell
    return (f"{address(piece.first)} to {address(piece.end)}, {size_of(piece.end - piece.first)}, "
            f"{KIND_NAMES[cell.kind]} {cell.perm}, calls {piece.since} to {piece.until}")


def differing_accounts(history, film):
    end = film.replay.map
    frames, swap, tables = history.accounts
    counted = (("frames in use", film.frames[-1], frames[0] - frames[1]),
               ("swap slots in use", film.slots[-1], swap[2]),
               ("page tables", end.tables_linked(), tables[1]))
    return [(name, mine, theirs) for name, mine, theirs in counted if mine != theirs]


def short(words):
    return words if len(words) <= 90 else words[:87] + "..."


def told_refusals(refusals):
    shown = [f"line {refusal.entry.line}: {refusal.entry.thread} {short(refusal.entry.call)} = {refusal.entry.reply}"
             for refusal in refusals[:5]]
    return "\n".join(shown + [f"and {len(refusals) - 5} more"] * (len(refusals) > 5))

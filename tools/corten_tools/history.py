"""Reads history texts, and makes of each answered call what it did to the page map."""

import re
from collections import namedtuple

from .command_line import Fault, read_text, shown_path
from .page_map import PAGE, PageMap, fresh, pages_of

# One answered call: its line in the text, the thread, the words of the call, those of the reply.
Entry = namedtuple("Entry", "line thread call reply")
History = namedtuple("History", "limits files entries accounts")

NUMBER, SPACE, ADDRESS, PERM = r"\d+", r"(?:[0-9]|[1-5][0-9]|6[0-3])", r"0x[0-9a-f]{1,16}", r"[r-][w-][x-]"
MAPPING = rf"{NUMBER} {PERM} (?:zero|file {NUMBER} {NUMBER})"
OP = rf"(?:map (?:at|new) {ADDRESS} {MAPPING}|unmap {ADDRESS} {NUMBER}|protect {ADDRESS} {NUMBER} {PERM})"
CALLS = "|".join((
    rf"map {SPACE} (?:any|at {ADDRESS}|new {ADDRESS}) {MAPPING}",
    rf"(?:unmap|out|in|dontneed) {SPACE} {ADDRESS} {NUMBER}",
    rf"protect {SPACE} {ADDRESS} {NUMBER} {PERM}",
    rf"load {SPACE} {ADDRESS} {NUMBER}", rf"store {SPACE} {ADDRESS} (?:[0-9a-f]{{2}})+",
    rf"fault {SPACE} {ADDRESS} [rw]", "spawn", rf"(?:fork|exit) {SPACE}",
    rf"remap {SPACE} {ADDRESS} {NUMBER} {NUMBER}", rf"txn {SPACE} {ADDRESS} {NUMBER} {OP}(?: ; {OP})*",
))
DONE = ("ok", "at", "bytes", "space", "moved", "done")
REPLIES = "|".join((
    "ok|done|einval|nospace|nospaces|noroom", rf"(?:at|exists|hole|segv|denied|bus) {ADDRESS}",
    r"bytes (?:[0-9a-f]{2})+", rf"(?:space|moved) {NUMBER}", rf"undone {NUMBER} (?:einval|(?:exists|hole) {ADDRESS})",
    rf"notables {NUMBER} {NUMBER} {NUMBER}", rf"(?:noframes|noswap) {NUMBER} {NUMBER}",
))
ENTRY = re.compile(rf"([0-7]) ({CALLS}) = ({REPLIES})")
ACCOUNTS = (r"frames (\d+) free (\d+) mapped (\d+)", r"swap (\d+) free (\d+) used (\d+)",
            r"tables (\d+) linked (\d+) limbo (\d+)")


def expect(path, lines, place, pattern, wanted):
    """The match of a line, or a fault that says what was expected there."""
    line = lines[place] if place < len(lines) else None
    match = re.fullmatch(pattern, line) if line is not None else None
    if match:
        return match
    found = "the end" if line is None else f"'{line if len(line) <= 60 else line[:57] + '...'}'"
    raise Fault(f"{shown_path(path)}:{place + 1}: expected {wanted}, found {found}")


def read_account(path, lines, place, pattern):
    match = expect(path, lines, place, pattern, "'" + pattern.replace(r"(\d+)", "N") + "'")
    return tuple(map(int, match.groups()))


def read_history(path):
    """The history whose text stands there, of version 1 or 2. Its replies are not judged: `cortenmm check` does."""
    lines = read_text(path).split("\n")
    if lines[-1] == "":
        lines.pop()
    expect(path, lines, 0, "corten [12]", "'corten 2', the first line of a history")
    limits = {}
    for place, name in enumerate(("frames", "tables", "swap"), 1):
        limits[name] = int(expect(path, lines, place, rf"{name} (\d+)", f"'{name} N'").group(1))
    place = 4
    limits["levels"] = 5 if place < len(lines) and lines[place] == "levels 5" else 4
    place += limits["levels"] == 5
    files = 0
    while place < len(lines) and lines[place].startswith("file "):
        expect(path, lines, place, r"file (?:-|(?:[0-9a-f]{2})+)", "'file HEX'")
        files, place = files + 1, place + 1
    entries = []
    while place < len(lines) and not lines[place].startswith("frames "):
        match = expect(path, lines, place, ENTRY, "'THREAD CALL = REPLY' or the accounts, 'frames N free N mapped N'")
        entries.append(Entry(place + 1, int(match.group(1)), match.group(2), match.group(3)))
        place += 1
    accounts = [read_account(path, lines, place + at, pattern) for at, pattern in enumerate(ACCOUNTS)]
    if place + 3 < len(lines):
        raise Fault(f"{shown_path(path)}:{place + 4}: expected the end, found '{lines[place + 3][:60]}'")
    return History(limits, files, entries, accounts)


def is_done(entry):
    return entry.reply.split(" ")[0] in DONE


def space_of(entry):
    """The space that a call names, or None."""
    words = entry.call.split(" ")
    return int(words[1]) if len(words) > 1 else None


def range_of(at, length):
    first = int(at, 16) // PAGE
    return first, first + pages_of(int(length))


def touched(at, length):
    """The pages of an access of so many bytes."""
    at = int(at, 16)
    return at // PAGE, (at + length - 1) // PAGE + 1


def cell_of(words, first):
    """The cell of a mapping whose last words are PERM KIND."""
    if words[-1] == "zero":
        return fresh(words[-2])
    return fresh(words[-4], int(words[-2]), int(words[-1]) - first)


class Replay:
    """The page map after the answered calls so far, each of which was done as its reply says."""

    def __init__(self, history, make):
        self.map = PageMap(make, history.limits["levels"])

    def apply(self, entry):
        if is_done(entry):
            words = entry.call.split(" ")
            getattr(self, "do_" + words[0])(words, entry.reply.split(" "))

    def do_map(self, words, reply):
        first, end = range_of(reply[1], words[3] if words[2] == "any" else words[4])
        self.map.map(int(words[1]), first, end, cell_of(words, first))

    def do_unmap(self, words, reply):
        self.map.unmap(int(words[1]), *range_of(words[2], words[3]))

    def do_protect(self, words, reply):
        self.map.protect(int(words[1]), *range_of(words[2], words[3]), words[4])

    def do_load(self, words, reply):
        self.map.access(int(words[1]), *touched(words[2], int(words[3])), write=False)

    def do_store(self, words, reply):
        self.map.access(int(words[1]), *touched(words[2], len(words[3]) // 2), write=True)

    def do_fault(self, words, reply):
        self.map.access(int(words[1]), *touched(words[2], 1), write=words[3] == "w")

    def do_spawn(self, words, reply):
        self.map.spawn()

    def do_fork(self, words, reply):
        self.map.fork(int(words[1]))

    def do_exit(self, words, reply):
        self.map.exit(int(words[1]))

    def do_out(self, words, reply):
        self.map.swap_out(int(words[1]), *range_of(words[2], words[3]))

    def do_in(self, words, reply):
        self.map.swap_in(int(words[1]), *range_of(words[2], words[3]))

    def do_txn(self, words, reply):
        space = int(words[1])
        for operation in " ".join(words[4:]).split(" ; "):
            op = operation.split(" ")
            first, end = range_of(*(op[2:4] if op[0] == "map" else op[1:3]))
            self.map.cut_tables(space, first, end)
            if op[0] == "map":
                self.map.map(space, first, end, cell_of(op, first))
            elif op[0] == "unmap":
                self.map.unmap(space, first, end, tables=False)
            else:
                self.map.protect(space, first, end, op[3])

    def do_dontneed(self, words, reply):
        self.map.give_back(int(words[1]), *range_of(words[2], words[3]))

    def do_remap(self, words, reply):
        space, (first, end), target = int(words[1]), range_of(words[2], words[3]), int(reply[1], 16) // PAGE
        new_end = target + pages_of(int(words[4]))
        last = self.map.spaces[space].ranges.value(end - 1)
        if target != first:
            self.map.shift(space, first, end, target - first)
            self.map.unmap(space, first, end)
            end += target - first
            last = last._replace(base=None if last.base is None else last.base - target + first)
        if end < new_end:
            self.map.map(space, end, new_end, fresh(last.perm, last.file, last.base))
        elif new_end < end:
            self.map.unmap(space, new_end, end)
        self.map.settle(space, target, new_end)

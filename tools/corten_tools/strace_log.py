"""Reads what strace wrote: calls and ends of processes, in the order in which they took effect."""

import re
from bisect import bisect_left
from collections import namedtuple

from .command_line import Fault, read_text, shown_path

# A call that returned. `result` is its number and `error` the name of the error, or None.
Call = namedtuple("Call", "pid name args result error log line")
# A process or thread that is there no more.
End = namedtuple("End", "pid log line")

FORKS = ("clone", "clone3", "fork", "vfork")
WANTED = "expected 'PID CALL(ARGUMENTS) = RESULT' as strace -f writes it"

# A process number, and a time of each of strace's forms.
PREFIX = re.compile(r"(?:\[pid +(\d+)(?:<[^>]*>)?\] +|(\d+)(?:<[^>]*>)? +)?"
                    r"(?:\d\d:\d\d:\d\d(?:\.\d+)? +| *\d+\.\d+ +)?(?=\S)")
RESUMED = re.compile(r"<\.\.\. (\w+) resumed>(.*)", re.S)
OPENED = re.compile(r"(\w+)\((.*)", re.S)
ENDED = re.compile(r"\+\+\+ (?:exited with|killed by) .*\+\+\+$")
SUPERSEDED = re.compile(r"\+\+\+ superseded by execve in pid (\d+) \+\+\+$")
SKIPPED = re.compile(r"--- .* ---$|strace: Process \d+ (?:at|de)tached|\[ Process PID=\d+ runs in .* mode. \]$")
RESULT = re.compile(r"\s*= (-?\d+|0x[0-9a-f]+|\?)(?:<[^>]*>)?(?: (E[A-Z0-9]+))?(?= |$)")
PIECE = re.compile(r'"(?:\\.|[^"\\])*"|<[^<>\s][^<>]*>|/\*.*?\*/|[^"<>/\[\](){},]+|.', re.S)


class Opened(namedtuple("Opened", "name text place line")):
    """A call whose end stands on a later line."""


def split_call(text):
    """The arguments in front of the closing bracket, and what stands behind it, or None."""
    args, depth, now = [], 0, ""
    for piece in PIECE.finditer(text):
        word = piece.group()
        if word == ")" and depth == 0:
            if now.strip() or args:
                args.append(now.strip())
            return args, text[piece.end():]
        if word == "," and depth == 0:
            args.append(now.strip())
            now = ""
            continue
        depth += (word in "([{") - (word in ")]}") if len(word) == 1 else 0
        now += word
    return None


class LogReader:
    """Reads one log. `events` has (place, event) pairs, a place in the order of the effects."""

    def __init__(self, path, order):
        self.path = shown_path(path)
        self.order = order
        self.number = 0
        self.opened = {}
        self.events = []
        self.first_lines = {}
        suffix = re.search(r"\.(\d+)$", path)
        self.own_pid = int(suffix.group(1)) if suffix else -1 - order

    def fault(self, line, wanted):
        shown = line if len(line) <= 60 else line[:57] + "..."
        raise Fault(f"{self.path}:{self.number}: {wanted}, found '{shown}'")

    def read(self, text):
        if not text.strip():
            raise Fault(f"{self.path}:1: {WANTED}, found nothing")
        for self.number, line in enumerate(text.splitlines(), 1):
            if line.strip():
                self.read_line(line)
        return self

    def read_line(self, line):
        prefix = PREFIX.match(line)
        if not prefix:
            self.fault(line, WANTED)
        pid = prefix.group(1) or prefix.group(2)
        pid = int(pid) if pid else self.own_pid
        body = line[prefix.end():].rstrip()
        if SKIPPED.match(body):
            return
        self.first_lines.setdefault(pid, []).append(self.number)
        superseded = SUPERSEDED.match(body)
        if superseded:
            other = int(superseded.group(1))
            if other in self.opened:
                self.opened[pid] = self.opened.pop(other)
            self.add(self.number, End(other, self.path, self.number))
        elif ENDED.match(body):
            self.add(self.number, End(pid, self.path, self.number))
        else:
            self.read_call(pid, body, line)

    def add(self, place, event):
        self.events.append(((self.order, place), event))

    def read_call(self, pid, body, line):
        resumed, opened = RESUMED.match(body), OPENED.match(body)
        if resumed:
            begun = self.opened.pop(pid, None)
            if not begun or begun.name != resumed.group(1):
                self.fault(line, f"expected the end of a call that process {pid} began")
            text = begun.text + resumed.group(2)
        elif opened:
            begun = Opened(opened.group(1), opened.group(2), self.number, self.number)
            text = begun.text
        else:
            self.fault(line, WANTED)
        if text.endswith("<unfinished ...>"):
            self.opened[pid] = begun._replace(text=text[:-len("<unfinished ...>")].rstrip())
        else:
            self.finish(pid, begun, text, line)

    def finish(self, pid, begun, text, line):
        parts = split_call(text)
        result = RESULT.match(parts[1]) if parts else None
        if not result:
            self.fault(line, WANTED)
        value = None if result.group(1) == "?" else int(result.group(1), 0)
        call = Call(pid, begun.name, parts[0], value, result.group(2), self.path, begun.line)
        self.add(self.effect_place(call), call)

    def effect_place(self, call):
        """The end of the call; an unmapping at its beginning, since others get its place once it is free."""
        return call.line if call.name == "munmap" else self.number

    def place_forks(self):
        """A child's lines may stand before the end of the call that made it: then the call is put in front of them."""
        for at, (place, event) in enumerate(self.events):
            if isinstance(event, Call) and event.name in FORKS and event.result:
                lines = self.first_lines.get(event.result, [])
                later = bisect_left(lines, event.line)
                if later < len(lines) and lines[later] < place[1]:
                    self.events[at] = ((self.order, lines[later] - 0.5), event)


def children_of(reader):
    return [event.result for _, event in reader.events if isinstance(event, Call) and event.name in FORKS]


def parents_first(readers):
    """The logs in the order given, but each behind the log of its parent."""
    made_by = {child: reader for reader in readers for child in children_of(reader)}
    ordered = []

    def place(reader, below):
        parent = made_by.get(reader.own_pid)
        if parent and parent is not reader and parent not in below:
            place(parent, below + [reader])
        if reader not in ordered:
            ordered.append(reader)

    for reader in readers:
        place(reader, [])
    return ordered


def read_logs(paths):
    """All events of the logs. Several logs are those that `strace -ff -o NAME` writes, a process each."""
    readers = [LogReader(path, order).read(read_text(path)) for order, path in enumerate(paths)]
    events = []
    for reader in parents_first(readers):
        reader.place_forks()
        events += [event for _, event in sorted(reader.events, key=lambda pair: pair[0])]
    return events

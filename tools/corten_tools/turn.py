"""Turns the calls of a log into calls of a script."""

import re
from collections import Counter, namedtuple

from .files import Shelf
from .page_map import PAGE, SPACES, PageMap, fresh, pages_of
from .ranges import Ranges
from .strace_log import FORKS, Call, End

FRAMES = 4096
TABLES = 1023
SWAP = 4096

# A line of the script. Of a call `expect` is what the kernel replied, of a comment None. A call may be added by this tool,
# also to touch a page.
Item = namedtuple("Item", "text log line expect added touch")

PROTECTIONS = {"PROT_NONE": "", "PROT_READ": "r", "PROT_WRITE": "w", "PROT_EXEC": "x"}
LEFT_OUT_FLAGS = {
    "MAP_SHARED": "a shared mapping", "MAP_SHARED_VALIDATE": "a shared mapping",
    "MAP_GROWSDOWN": "a mapping that grows downwards", "MAP_HUGETLB": "huge pages",
}
# Calls of strace's sets `memory` and `process` with no counterpart here. Of others nothing is said at all.
NO_COUNTERPART = {
    "mbind", "migrate_pages", "mincore", "mlock", "mlock2", "mlockall", "move_pages", "msync", "munlock", "munlockall",
    "pkey_mprotect", "process_madvise", "remap_file_pages", "set_mempolicy", "shmat", "shmdt",
}
REFUSALS_SAID = ("EINVAL", "ENOMEM", "EEXIST", "EPERM")


class Memory:
    """The address space of one or more processes of the log. `number` is its space, None where there was none left."""

    def __init__(self, number):
        self.number = number
        self.users = set()
        self.brk = None
        self.left_out = Ranges()

    def copy(self, number):
        other = Memory(number)
        other.brk = self.brk
        other.left_out = self.left_out.copy()
        return other


class Left(Exception):
    """Why a call of the log can't be said."""


def permissions(word):
    names = word.split("|")
    for name in names:
        if name not in PROTECTIONS:
            raise Left(f"a protection without counterpart ({name})")
    chars = "".join(PROTECTIONS[name] for name in names)
    return "".join(char if char in chars else "-" for char in "rwx")


def number(word):
    return 0 if word == "NULL" else int(word, 0)


class Turner:
    """Goes over the events of a log, in their order, and keeps the page map that they leave."""

    def __init__(self, shelf=None, touch=0):
        self.shelf = shelf or Shelf()
        self.touch = touch
        self.items = []
        self.said = Counter()
        self.silent = Counter()
        self.left = Counter()
        self.reasons = {}
        self.added = {}
        self.passed = Counter()
        self.map = PageMap()
        self.memories = {}
        self.first = True
        self.call = None
        self.pids = set()
        self.several = False

    def turn(self, events):
        self.pids = {event.pid for event in events}
        self.several = len({event.log for event in events}) > 1
        for self.call in events:
            if isinstance(self.call, End):
                self.end_process(self.call.pid)
            else:
                self.turn_call(self.call)
        return self

    def turn_call(self, call):
        if call.pid not in self.memories:
            self.begin_process(call)
        handler = getattr(self, "on_" + ("clone" if call.name in FORKS else call.name), None)
        if call.name in NO_COUNTERPART:
            self.leave("no such call here")
        elif handler is None:
            self.passed[call.name] += 1
        elif call.result is None and not call.name.startswith("exit"):
            self.leave("it did not return")
        else:
            try:
                handler(call, self.memories[call.pid])
            except Left as why:
                self.leave(str(why))
            except (ValueError, IndexError):
                self.leave("arguments that strace spells otherwise")

    # What is written.

    def place_of_call(self):
        """The line of the log; with the log's name where there are several."""
        log = self.call.log.rpartition("/")[2]
        return f"{log}:{self.call.line}" if self.several else str(self.call.line)

    def reason(self, name, why):
        self.reasons.setdefault((name, why), []).append(self.place_of_call())

    def comment(self, text):
        self.say(f"# line {self.place_of_call()}: {text}", None)

    def say(self, text, expect, added=False, touch=False):
        self.items.append(Item(text, self.call.log, self.call.line, expect, added, touch))

    def leave(self, why):
        call = self.call
        shown = f"{call.name}({', '.join(call.args)})"
        self.comment(f"{shown if len(shown) <= 200 else shown[:197] + '...'}: {why}")
        self.left[call.name] += 1
        self.reason(call.name, why)

    def add(self, text, expect, why):
        self.comment(f"added: {why}")
        self.say(text, expect, added=True)
        self.added.setdefault(why, []).append(self.place_of_call())

    # Processes.

    def use(self, pid, memory):
        self.memories[pid] = memory
        memory.users.add(pid)

    def begin_process(self, call):
        """A process that no call of the log made: the first one has space 0."""
        if self.first:
            self.use(call.pid, Memory(0))
            self.comment(f"process {call.pid} has space 0")
        else:
            self.use(call.pid, Memory(None))
            self.new_space(self.memories[call.pid], "no call of the log made it", added=True)
        self.first = False

    def new_space(self, memory, why, added=False):
        lack = self.lack_of_space(0)
        if lack:
            self.comment(f"process {self.call.pid} has no space: {lack}")
            self.reason("process", f"no space for it: {lack}")
            return
        memory.number = self.map.spawn()
        self.comment(f"process {self.call.pid} has space {memory.number}: {why}")
        self.say("spawn", ("space", memory.number), added=added)
        if added:
            self.added.setdefault("a space for a process that no call of the log made", []).append(self.place_of_call())

    def lack_of_space(self, tables):
        """Why there can't be one space more, with so many tables below its root, or None."""
        if self.map.least_absent() is None:
            return f"all {SPACES} are present"
        if self.map.tables_linked() + 1 + tables > TABLES:
            return f"{TABLES} page tables are too few"
        return None

    def drop_user(self, pid):
        """Takes a process out of its memory, whose space ends with the last one."""
        memory = self.memories[pid]
        memory.users.discard(pid)
        if not memory.users and memory.number is not None:
            self.say(f"exit {memory.number}", ("ok",))
            self.map.exit(memory.number)

    def end_process(self, pid):
        if pid in self.memories:
            self.drop_user(pid)
            del self.memories[pid]

    def on_exit(self, call, memory):
        alone = memory.users == {call.pid} and memory.number is not None
        (self.said if alone else self.silent)[call.name] += 1
        self.end_process(call.pid)

    on_exit_group = on_exit

    def on_execve(self, call, memory):
        if call.result != 0:
            self.silent[call.name] += 1
        elif len(self.items) == 1 and memory.number == 0:
            self.comment(f"it executes {call.args[0]}")
            self.silent[call.name] += 1
        else:
            self.drop_user(call.pid)
            new = Memory(None)
            self.use(call.pid, new)
            self.new_space(new, f"it executes {call.args[0]}")
            (self.left if new.number is None else self.said)[call.name] += 1

    on_execveat = on_execve

    def on_clone(self, call, memory):
        child = call.result
        if call.error:
            self.silent[call.name] += 1
        elif call.name == "vfork" or re.search(r"\bCLONE_VM\b", " ".join(call.args)):
            self.silent[call.name] += 1
            if child in self.pids:
                self.use(child, memory)
        elif child not in self.pids:
            raise Left("the child is not in the log, which strace -f writes")
        else:
            self.fork(child, self.there(memory))

    def fork(self, child, memory):
        lack = self.lack_of_space(sum(map(len, self.map.tables_of_fork(memory.number).values())))
        if lack:
            self.use(child, memory.copy(None))
            raise Left(f"no space for the child: {lack}")
        new = memory.copy(self.map.fork(memory.number))
        self.use(child, new)
        self.comment(f"process {child} has space {new.number}")
        self.say(f"fork {memory.number}", ("space", new.number))
        self.said[self.call.name] += 1

    @staticmethod
    def there(memory):
        if memory.number is None:
            raise Left("its process has no space")
        return memory

    # Mappings.

    def on_mmap(self, call, memory):
        self.there(memory)
        address, length, flags = number(call.args[0]), number(call.args[1]), call.args[3].split("|")
        if call.error:
            self.refused_mmap(call, memory, address, length, flags)
            return
        first = call.result // PAGE
        end = first + pages_of(length)
        why = next((f"{LEFT_OUT_FLAGS[flag]} ({flag})" for flag in flags if flag in LEFT_OUT_FLAGS), None)
        if why:
            self.leave_range(memory, first, end)
            raise Left(why)
        try:
            perm = permissions(call.args[2])
        except Left:
            self.leave_range(memory, first, end)
            raise
        kind, cell = self.backing(call, flags, perm, first)
        self.place(memory, "at" if "MAP_FIXED" in flags else "new", first, length, cell, kind)
        self.said[call.name] += 1

    def backing(self, call, flags, perm, first):
        if "MAP_ANONYMOUS" in flags:
            return "zero", fresh(perm)
        file, path = self.shelf.find(call.args[4])
        index = number(call.args[5]) // PAGE
        if file is None:
            self.comment(f"zeros for {path}")
            return "zero", fresh(perm)
        self.comment(path)
        return f"file {file} {index}", fresh(perm, file, index - first)

    def refused_mmap(self, call, memory, address, length, flags):
        if call.error not in REFUSALS_SAID:
            raise Left(f"refused with {call.error}, which no call gives here")
        if any(flag in LEFT_OUT_FLAGS for flag in flags):
            raise Left(f"refused with {call.error}, and no private mapping")
        fixed = "at" if "MAP_FIXED" in flags else "new" if "MAP_FIXED_NOREPLACE" in flags else None
        place = f"{fixed} {address:#x}" if fixed else "any"
        self.say(f"map {memory.number} {place} {length} {permissions(call.args[2])} zero", ("refused", call.error))
        self.said[call.name] += 1

    def place(self, memory, word, first, length, cell, kind):
        """Says a mapping that the kernel granted, and maps it."""
        end = first + pages_of(length)
        fits = self.fits(memory, first, end, lambda _: cell)
        self.say(f"map {memory.number} {word} {first * PAGE:#x} {length} {cell.perm} {kind}", ("at", first * PAGE))
        if fits:
            self.map.map(memory.number, first, end, cell)
            self.touch_pages(memory, first, end)
        memory.left_out.put(first, end, None if fits else True)

    def fits(self, memory, first, end, change):
        """Whether there are page tables enough to change each cell of a range so."""
        lacking = len(self.map.lacking(memory.number, first, end, change))
        if self.map.tables_linked() + lacking <= TABLES:
            return True
        self.comment(f"{TABLES} page tables are too few for the next call, which is refused")
        self.reason("mapping", f"refused here: more than {TABLES} page tables are wanted")
        return False

    def leave_range(self, memory, first, end):
        """A mapping that can't be said: where it took the place of others, these are unmapped."""
        parts = self.map.spaces[memory.number].ranges.parts(first, end)
        if any(cell is not None for _, _, cell in parts):
            self.add(f"unmap {memory.number} {first * PAGE:#x} {(end - first) * PAGE}", ("ok",),
                     "a mapping that is left out took the place of others")
            self.map.unmap(memory.number, first, end)
        memory.left_out.put(first, end, True)

    def on_munmap(self, call, memory):
        self.there(memory)
        address, length = number(call.args[0]), number(call.args[1])
        text = f"unmap {memory.number} {address:#x} {length}"
        if call.error:
            self.refused(call, text)
            return
        first = address // PAGE
        end = first + pages_of(length)
        fits = self.fits(memory, first, end, lambda _: None)
        self.say(text, ("ok",))
        if fits:
            self.map.unmap(memory.number, first, end)
        memory.left_out.put(first, end, None)
        self.said[call.name] += 1

    def refused(self, call, text):
        if call.error not in REFUSALS_SAID:
            raise Left(f"refused with {call.error}, which no call gives here")
        self.say(text, ("refused", call.error))
        self.said[call.name] += 1

    def on_mprotect(self, call, memory):
        self.there(memory)
        address, length = number(call.args[0]), number(call.args[1])
        perm = permissions(call.args[2])
        text = f"protect {memory.number} {address:#x} {length} {perm}"
        if call.error:
            self.refused(call, text)
            return
        first = address // PAGE
        end = first + pages_of(length)
        if first == end:
            raise Left("length 0 changes nothing there and is refused here")
        self.whole(memory, first, end)
        fits = self.fits(memory, first, end, lambda cell: cell and cell._replace(perm=perm))
        self.say(text, ("ok",))
        if fits:
            self.map.protect(memory.number, first, end, perm)
            self.touch_pages(memory, first, end)
        self.said[call.name] += 1

    def map_unlogged(self, memory, first, end):
        """Pages that the kernel found mapped and no call of the log mapped: an execve did, or a call before the log."""
        for start, stop, cell in self.map.spaces[memory.number].ranges.parts(first, end):
            if cell is None:
                length = (stop - start) * PAGE
                fits = self.fits(memory, start, stop, lambda _: fresh("rw-"))
                self.add(f"map {memory.number} new {start * PAGE:#x} {length} rw- zero", ("at", start * PAGE),
                         "pages that no call of the log mapped, as an execve does")
                if fits:
                    self.map.map(memory.number, start, stop, fresh("rw-"))

    def on_brk(self, call, memory):
        self.there(memory)
        old, memory.brk = memory.brk, call.result
        asked = number(call.args[0])
        if asked and asked != call.result:
            raise Left("refused: the break stays where it was")
        if old is None or pages_of(old) == pages_of(call.result):
            self.silent[call.name] += 1
            return
        first, end = pages_of(old), pages_of(call.result)
        if first < end:
            self.place(memory, "new", first, (end - first) * PAGE, fresh("rw-"), "zero")
        else:
            self.say(f"unmap {memory.number} {end * PAGE:#x} {(first - end) * PAGE}", ("ok",))
            if self.fits(memory, end, first, lambda _: None):
                self.map.unmap(memory.number, end, first)
        self.said[call.name] += 1

    # Advice and moves.

    def on_madvise(self, call, memory):
        self.there(memory)
        address, length, advice = number(call.args[0]), number(call.args[1]), call.args[2]
        word = {"MADV_PAGEOUT": "out", "MADV_WILLNEED": "in", "MADV_DONTNEED": "dontneed"}.get(advice)
        if word is None:
            raise Left("advice without counterpart")
        text = f"{word} {memory.number} {address:#x} {length}"
        if call.error:
            self.refused(call, text)
            return
        if length == 0:
            raise Left("length 0 changes nothing there and is refused here")
        first = address // PAGE
        end = first + pages_of(length)
        if word == "dontneed":
            self.whole(memory, first, end)
        self.say(text, ("ok",) if word == "dontneed" else ("moved",))
        change = {"out": self.map.swap_out, "in": self.map.swap_in, "dontneed": self.map.give_back}[word]
        change(memory.number, first, end)
        self.said[call.name] += 1

    def whole(self, memory, first, end):
        """Sees to it that all pages of a range are mapped here, as the kernel found them."""
        if any(value for _, _, value in memory.left_out.parts(first, end)):
            raise Left("a page of it is of a mapping that was left out")
        self.map_unlogged(memory, first, end)

    def on_mremap(self, call, memory):
        """Said where the range stays at its place. Where the kernel moved it, to a place of its own choice, other calls map
        what it leaves mapped, so that later ones find it; its bytes are zeros."""
        self.there(memory)
        if call.error:
            raise Left(f"refused with {call.error}")
        old, new = number(call.args[0]) // PAGE, call.result // PAGE
        old_end, new_end = old + pages_of(number(call.args[1])), new + pages_of(number(call.args[2]))
        if any(value for _, _, value in memory.left_out.parts(old, old_end)):
            memory.left_out.put(old, old_end, None)
            self.leave_range(memory, new, new_end)
            raise Left("a page of it is of a mapping that was left out")
        if new == old and self.is_free(memory, old_end, new_end):
            self.stretch(call, memory, old, old_end, new_end)
            return
        self.leave("moved to a place of the kernel's choice; the next calls leave the same pages mapped, as zeros")
        cell = self.map.spaces[memory.number].ranges.value(old) or fresh("rw-")
        if new == old:
            self.add_unmap(memory, new_end, old_end)
            self.add_map(memory, old_end, new_end, cell.perm)
        else:
            if "MREMAP_DONTUNMAP" not in call.args[3]:
                self.add_unmap(memory, old, old_end)
            self.add_map(memory, new, new_end, cell.perm)

    def is_free(self, memory, first, end):
        """Whether no page of a range is mapped here."""
        ranges = self.map.spaces[memory.number].ranges
        return first >= end or all(cell is None for _, _, cell in ranges.parts(first, end))

    def stretch(self, call, memory, first, end, new_end):
        """Says a range that gets another length at its place."""
        self.whole(memory, first, end)
        last = self.map.spaces[memory.number].ranges.value(end - 1)
        later = fresh(last.perm, last.file, last.base) if end < new_end else None
        low, high = sorted((end, new_end))
        fits = low == high or self.fits(memory, low, high, lambda _: later)
        self.say(f"remap {memory.number} {first * PAGE:#x} {call.args[1]} {call.args[2]}", ("at", first * PAGE))
        if fits and low < high:
            (self.map.unmap if later is None else self.map.map)(memory.number, low, high, *([] if later is None else [later]))
            memory.left_out.put(low, high, None)
        self.said[call.name] += 1

    def add_unmap(self, memory, first, end):
        if first < end:
            text = f"unmap {memory.number} {first * PAGE:#x} {(end - first) * PAGE}"
            self.add(text, ("ok",), "what an mremap leaves")
            self.map.unmap(memory.number, first, end)

    def add_map(self, memory, first, end, perm):
        if first >= end:
            return
        fits = self.fits(memory, first, end, lambda _: fresh(perm))
        text = f"map {memory.number} at {first * PAGE:#x} {(end - first) * PAGE} {perm} zero"
        self.add(text, ("at", first * PAGE), "what an mremap leaves")
        if fits:
            self.map.map(memory.number, first, end, fresh(perm))
        memory.left_out.put(first, end, None if fits else True)

    # Touches.

    def touch_pages(self, memory, first, end):
        """Accesses the first pages of a range that allow it, so that they take frames."""
        for page in range(first, min(end, first + self.touch)):
            cell = self.map.spaces[memory.number].ranges.value(page)
            if cell is None or cell.perm[:2] == "--" or self.is_past_end(cell, page):
                continue
            write = cell.perm[1] == "w"
            wants = self.map.wants_frame(memory.number, page, write)
            if wants and self.map.frames_used() == FRAMES:
                self.comment(f"not touched: {FRAMES} frames are in use")
                self.reason("touch", f"{FRAMES} frames are in use")
                return
            if wants and not self.fits(memory, page, page + 1, lambda cell: cell._replace(kind="frame")):
                return
            if wants:
                self.say(f"fault {memory.number} {page * PAGE:#x} {'w' if write else 'r'}", ("ok",), touch=True)
                self.map.access(memory.number, page, page + 1, write)

    def is_past_end(self, cell, page):
        return cell.kind == "file" and (page + cell.base) * PAGE >= len(self.shelf.bytes[cell.file])

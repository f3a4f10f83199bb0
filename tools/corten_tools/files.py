"""The files that a log's private mappings show: the bytes of the first small ones, zeros for all others."""

import os
import re
import stat

MOST_FILES = 16
MOST_BYTES = 65536


class Shelf:
    """The files of one script, read below `root`."""

    def __init__(self, root="/"):
        self.root = root
        self.paths = []
        self.bytes = []
        self.zeros = {}

    def find(self, descriptor):
        """The number of the file that strace -y shows for a descriptor, or None, and what to call it."""
        shown = re.match(r"-?\d+<(.*)>", descriptor)
        if not shown or not shown.group(1).startswith("/"):
            path = f"descriptor {descriptor}"
            self.zeros.setdefault(path, "its path is not in the log, which strace -y writes")
            return None, path
        path = shown.group(1)
        if path in self.paths:
            return self.paths.index(path), path
        if path not in self.zeros:
            self._add(path)
        return (None if path in self.zeros else len(self.paths) - 1), path

    def _add(self, path):
        content, why = self._read(path)
        if content is None:
            self.zeros[path] = why
        elif len(self.paths) == MOST_FILES:
            self.zeros[path] = f"a script has at most {MOST_FILES} files"
        else:
            self.paths.append(path)
            self.bytes.append(content)

    def _read(self, path):
        place = os.path.join(self.root, path.lstrip("/"))
        try:
            about = os.stat(place)
            if not stat.S_ISREG(about.st_mode):
                return None, "it is no regular file"
            if about.st_size > MOST_BYTES:
                return None, f"its {about.st_size} bytes are more than {MOST_BYTES}"
            with open(place, "rb") as file:
                return file.read(), ""
        except OSError as error:
            return None, f"it can't be read here ({error.strerror})"

    def lines(self):
        return [f"file {content.hex() or '-'}" for content in self.bytes]

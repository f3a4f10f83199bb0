"""Words of the command line, input files and errors, alike in all three programs."""

import os
import sys


class Fault(Exception):
    """Something that the user is told in one line, with its place."""


class Usage(Exception):
    """Words that no usage line has."""


def read_text(path):
    """The whole text of a file, or of standard input for `-`."""
    try:
        if path == "-":
            return sys.stdin.buffer.read().decode("utf-8", "replace")
        with open(path, encoding="utf-8", errors="replace") as file:
            return file.read()
    except OSError as error:
        raise Fault(f"{path}: {error.strerror}") from None


def shown_path(path):
    return "standard input" if path == "-" else path


def take_options(words, names):
    """Splits words into options `--name VALUE` and the rest."""
    options, rest = {}, []
    words = list(words)
    while words:
        word = words.pop(0)
        if word in names:
            if not words:
                raise Usage(f"{word} wants a value")
            options[word] = words.pop(0)
        elif word.startswith("--"):
            raise Usage(f"{word} is no option")
        else:
            rest.append(word)
    return options, rest


def run(main, usage):
    """Runs `main(words)`, and ends with its status: 2 for words, input and output that are wrong."""
    try:
        if sys.argv[1:] in (["--help"], ["-h"]):
            print(usage)
            status = 0
        else:
            status = main(sys.argv[1:])
        sys.stdout.flush()
    except Usage as error:
        print(f"{error}\n{usage}" if str(error) else usage, file=sys.stderr)
        status = 2
    except Fault as error:
        print(error, file=sys.stderr)
        status = 2
    except BrokenPipeError:
        os.dup2(os.open(os.devnull, os.O_WRONLY), 1)
        status = 0
    except OSError as error:
        print(f"the output: {error.strerror}", file=sys.stderr)
        os.dup2(os.open(os.devnull, os.O_WRONLY), 1)
        status = 2
    except KeyboardInterrupt:
        status = 130
    except Exception as error:  # no traceback for a reader who can't mend it
        print(f"this is a fault of the program itself: {error!r}", file=sys.stderr)
        status = 3
    sys.exit(status)

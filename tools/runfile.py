"""The command tools/runfile, which says what it takes."""

import contextlib
import os
import sys

sys.dont_write_bytecode = True

from run_file import Refusal, file_of, run_in
from run_text import Mistake, bytes_of, is_bytes, run_of, text_of


def main(words):
    if words[:1] not in (["write"], ["read"]) or len(words) > 2:
        sys.stderr.write("usage: tools/runfile write [TEXT] or tools/runfile read [FILE]; --help says more\n")
        return 2
    try:
        given = get(words[1:])
        put(file_told(given) if words[0] == "write" else text_of(run_in(given)).encode())
    except Mistake as mistake:
        sys.stderr.write("runfile: %s\n" % mistake)
        return 1
    except Refusal as refusal:
        sys.stderr.write("refused %d at %d: %s\n" % refusal.args)
        return 1
    return 0


def file_told(text):
    text = text.decode("utf-8", "replace")
    return bytes_of(text) if is_bytes(text) else file_of(run_of(text))


def get(names):
    """The bytes of the file that is named, else of standard input."""
    what = names[0] if names else "standard input"
    if not names and os.isatty(0):
        sys.stderr.write("runfile: reads standard input, which is this terminal; --help says more\n")
    with trouble_told(what), open(names[0] if names else 0, "rb", closefd=bool(names)) as file:
        return file.read()


def put(data):
    with trouble_told("standard output"), open(1, "wb", closefd=False) as file:
        file.write(data)


@contextlib.contextmanager
def trouble_told(what):
    """One line, and status 2, where the system refuses."""
    try:
        yield
    except OSError as error:
        sys.stderr.write("runfile: %s: %s\n" % (what, error.strerror))
        sys.exit(2)


if __name__ == "__main__":
    sys.exit(main(sys.argv[1:]))

"""Standard output and standard error of a command, wherever they lead."""

import errno
import io
import os
import sys
from contextlib import suppress
from typing import Optional, TextIO

# What a stream answers that nobody reads: its reader is gone, or it was closed when the command began.
_UNREAD = (errno.EPIPE, errno.EBADF)


def _lost(error: OSError) -> OSError:
    """The error of what is printed."""
    why = "it is closed" if error.errno == errno.EBADF else error.strerror
    return OSError(f"standard output: {why}; what is printed there is cut off")


def open_closed() -> None:
    """Gives each standard stream that is closed a file that refuses all, so that no file that is opened later gets its
    number, and what is printed does not come there."""
    for number, mode in enumerate((os.O_WRONLY, os.O_RDONLY, os.O_RDONLY)):
        try:
            os.fstat(number)
        except OSError:
            os.open(os.devnull, mode)  # it gets the least number that is free
    if sys.stdout is None:
        sys.stdout = open(1, "w", encoding="utf-8", errors="backslashreplace", closefd=False)
    if sys.stderr is None:
        sys.stderr = open(2, "w", encoding="utf-8", errors="backslashreplace", closefd=False)


def let_go(stream: TextIO) -> Optional[OSError]:
    """Writes what a stream still keeps. Where that fails, it goes nowhere, so that it does not fail once more when the
    process ends. The error, where somebody is there to read."""
    try:
        stream.flush()
    except ValueError:  # it is closed
        return None
    except OSError as error:
        with suppress(OSError, ValueError):
            os.dup2(os.open(os.devnull, os.O_WRONLY), stream.fileno())
        return None if error.errno in _UNREAD else _lost(error)
    return None


def print_page(text: bytes) -> None:
    """Prints a text that is all that a command makes. OSError where it is not written as a whole."""
    try:
        sys.stdout.buffer.write(text)
        sys.stdout.flush()
    except OSError as error:
        raise _lost(error) from None


class Printed:
    """Lines on standard output beside the work of a command. Where it takes no more, the others are left out."""

    def __init__(self, stream: Optional[TextIO]) -> None:
        self._stream: TextIO = io.StringIO() if stream is None else stream
        self._error: Optional[OSError] = None

    def __call__(self, text: str) -> None:
        """Prints lines at once. What its encoding does not have is escaped."""
        encoding = self._stream.encoding or "utf-8"
        if self._error is None:
            try:
                self._stream.write(text.encode(encoding, "backslashreplace").decode(encoding))
                self._stream.flush()
            except OSError as error:
                self._error = error

    def test(self) -> None:
        """OSError where lines were lost that somebody was there to read, as on a full disk. A reader that is gone
        wants no more of them."""
        if self._error is not None and self._error.errno not in _UNREAD:
            raise _lost(self._error)

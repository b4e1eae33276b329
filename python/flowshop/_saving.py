"""Files that are written: each is there as a whole or not at all."""

import errno
import fcntl
import os
import secrets
import stat
import threading
from contextlib import suppress
from typing import Optional, Union

# It is held while a file is replaced.
_WRITING = threading.Lock()
# A new file, and none that somebody put there before, nor what a link leads to.
_NEW = os.O_WRONLY | os.O_CREAT | os.O_EXCL | os.O_NOFOLLOW | os.O_CLOEXEC
_MOST_LINKS = 40


def names_folder(name: str) -> bool:
    """Whether a name is that of a folder, whatever stands there."""
    return os.path.basename(name) in ("", os.curdir, os.pardir)


def stream_of(path: str) -> Optional[int]:
    """A stream of this process that is open for writing, and whose file a path names; None where there is none, or
    where the system does not list what is open."""
    try:
        named, numbers = os.stat(path), os.listdir("/proc/self/fd")
    except OSError:
        return None
    for number in map(int, numbers):
        try:
            is_written = fcntl.fcntl(number, fcntl.F_GETFL) & os.O_ACCMODE != os.O_RDONLY
            if is_written and os.path.samestat(named, os.fstat(number)):
                return number
        except OSError:  # it is open no more, as the list itself
            continue
    return None


def _taker(path: str, is_behind: bool) -> Optional[int]:
    """A descriptor of what takes bytes where it is: the file of a stream that is open for writing, a device or a pipe.
    None of all else. Such a file takes them behind what is there, or in its place where it was opened here."""
    number = stream_of(path)
    if number is not None and (is_behind or number in (1, 2)):
        return os.dup(number)  # a copy goes on at one place
    target_of(path)  # PermissionError where a link of another user leads to such a file or to a device
    if number is not None:
        return os.open(f"/proc/self/fd/{number}", os.O_WRONLY | os.O_TRUNC | os.O_NOCTTY | os.O_CLOEXEC)
    try:
        if stat.S_ISREG(os.stat(path).st_mode):
            return None
    except FileNotFoundError:
        return None
    taken = os.open(path, os.O_WRONLY | os.O_NOCTTY | os.O_CLOEXEC)
    if stat.S_ISREG(os.fstat(taken).st_mode):
        os.close(taken)
        raise FileExistsError(errno.EEXIST, "another file has come here meanwhile", path)
    return taken


def target_of(path: str) -> str:
    """The file that a path names, also where links lead to it. PermissionError where one of these is of another user:
    in a folder that others can write to it may lead to any file."""
    begun = path
    for _ in range(_MOST_LINKS):
        try:
            found = os.lstat(path)
        except FileNotFoundError:
            return path
        if not stat.S_ISLNK(found.st_mode):
            return path
        if found.st_uid not in (0, os.geteuid()):
            raise PermissionError(errno.EACCES, "this is a link of another user, which is not followed", begun)
        path = os.path.join(os.path.dirname(path), os.readlink(path))
    raise OSError(errno.ELOOP, os.strerror(errno.ELOOP), begun)


def _take_after(number: int, path: str) -> None:
    """Gives a new file the owner and the mode of the one that it replaces, as far as that can be done. PermissionError
    where that one may not be written."""
    try:
        old = os.stat(path)
    except FileNotFoundError:
        return
    if not os.access(path, os.W_OK):
        raise PermissionError(errno.EACCES, os.strerror(errno.EACCES), path)
    with suppress(PermissionError):
        os.fchown(number, old.st_uid, old.st_gid)
    with suppress(PermissionError):
        os.fchmod(number, old.st_mode & 0o777)


def _replace(path: str, text: bytes) -> None:
    """Writes a file of a random name beside a file, and puts it in the place of that."""
    new = os.path.join(os.path.dirname(path), f".flowshop.{secrets.token_hex(8)}.new")
    number = os.open(new, _NEW, 0o666)
    try:
        with open(number, "wb") as file:
            _take_after(number, path)
            file.write(text)
            file.flush()
            os.fsync(number)
        os.replace(new, path)
    finally:
        with suppress(FileNotFoundError):
            os.unlink(new)


def save(path: Union[str, "os.PathLike[str]"], text: bytes, is_behind: bool = False) -> None:
    """Writes a file that is there as a whole or not at all. A link of the user stays, and the file that it names is
    written. A device, a pipe and the file of a stream that is open for writing stay too, and take the bytes where they
    are; such a file in the place of what is there, or behind it, as a command asks for. OSError with the name that was
    given."""
    name = os.fsdecode(path)
    try:
        if names_folder(name):
            raise IsADirectoryError(errno.EISDIR, os.strerror(errno.EISDIR))
        taken = _taker(name, is_behind)
        if taken is not None:
            with open(taken, "wb") as stream:
                stream.write(text)
            return
        with _WRITING:
            _replace(target_of(name), text)
    except OSError as error:
        raise OSError(error.errno, error.strerror, name) from None


def end_writing(seconds: float) -> None:
    """Waits for a file that another thread replaces, so many seconds at most, and lets none be replaced after it."""
    _WRITING.acquire(timeout=seconds)

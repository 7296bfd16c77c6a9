"""Files that a user names: read once and held in memory; written whole or not at all."""
import contextlib
import hashlib
import os
import secrets
import stat
import sys
from typing import NamedTuple, Optional

from desk.ends import broken, reason, signals_wait

# One byte more than any book, ranks, record or answer that is taken has. What lies behind changes no reply.
MOST = 65537


class Named(NamedTuple):
    """A file as it was read: its name, its first bytes, and which file it is."""

    name: str
    data: bytes
    seen: os.stat_result

    @property
    def sum(self):
        return hashlib.sha256(self.data).hexdigest()

    @property
    def is_plain(self):
        """Whether there is a file to be read again, and not a pipe or a device."""
        return self.name != "-" and stat.S_ISREG(self.seen.st_mode)


def shown(name):
    return "standard input" if name == "-" else name


def _open(name):
    try:
        at = os.dup(0) if name == "-" else os.open(name, os.O_RDONLY | os.O_CLOEXEC | os.O_NOCTTY)
    except FileNotFoundError:
        raise broken(f"there is no file {name}") from None
    except (OSError, ValueError) as error:
        raise broken(f"{shown(name)} cannot be read: {reason(error) if isinstance(error, OSError) else error}") from None
    seen = os.fstat(at)
    if stat.S_ISDIR(seen.st_mode):
        os.close(at)
        raise broken(f"{shown(name)} is a folder")
    return at, seen


def read(name, most=MOST, take=None):
    """The first bytes of a file, `-` being standard input. With `take`, as many pieces as that wants."""
    at, seen = _open(name)
    data = bytearray()
    try:
        while len(data) < most:
            piece = os.read(at, min(65536, most - len(data)))
            data += piece
            if not piece or (take and not take(piece)):
                break
    except OSError as error:
        raise broken(f"{shown(name)} cannot be read: {reason(error)}") from None
    finally:
        os.close(at)
    return Named(name, bytes(data), seen)


def read_left_behind(path, most=MOST):
    """What a program left at this path in a folder of its own, or nothing: it may be no plain file."""
    try:
        at = os.open(path, os.O_RDONLY | os.O_CLOEXEC | os.O_NOCTTY | os.O_NOFOLLOW | os.O_NONBLOCK)
    except OSError:
        return b""
    try:
        return os.read(at, most) if stat.S_ISREG(os.fstat(at).st_mode) else b""
    except OSError:
        return b""
    finally:
        os.close(at)


# ---- writing

KINDS = ((stat.S_ISDIR, "a folder"), (stat.S_ISLNK, "a link"), (stat.S_ISFIFO, "a pipe"), (stat.S_ISSOCK, "a socket"),
         (stat.S_ISCHR, "a device"), (stat.S_ISBLK, "a device"))


def may_become(name, inputs, option):
    """Stops unless a file of this name can be written: nothing stands there, or a plain file that is none of the inputs."""
    try:
        there = os.lstat(name)
    except FileNotFoundError:
        folder = os.path.dirname(name) or "."
        if not os.path.isdir(folder):
            raise broken(f"there is no folder {folder}; {option} names another place") from None
        return
    except (OSError, ValueError) as error:
        raise broken(f"{name} cannot be written: {error}; {option} names another place") from None
    for is_kind, kind in KINDS:
        if is_kind(there.st_mode):
            raise broken(f"{name} is {kind}, and is left as it is; {option} names another place")
    for each in inputs:
        if os.path.samestat(there, each.seen):
            raise broken(f"{name} is the file {shown(each.name)} that is to be read; {option} names another place")


def _write_all(at, data):
    left = memoryview(data)
    while left:
        left = left[os.write(at, left):]


def put(name, data, option):
    """Writes a file: beside it under a name that nobody can foresee, and then renamed."""
    folder, beside = os.path.dirname(name) or ".", f".{secrets.token_hex(16)}.part"
    at = within = None
    try:
        within = os.open(folder, os.O_RDONLY | os.O_DIRECTORY | os.O_CLOEXEC)
        try:
            with signals_wait():
                at = os.open(beside, os.O_WRONLY | os.O_CREAT | os.O_EXCL | os.O_NOFOLLOW | os.O_CLOEXEC, 0o666, dir_fd=within)
            _write_all(at, data)
            os.fsync(at)
            os.rename(beside, os.path.basename(name), src_dir_fd=within, dst_dir_fd=within)
        except BaseException:
            with signals_wait(), contextlib.suppress(FileNotFoundError):
                os.unlink(beside, dir_fd=within)
            raise
        os.fsync(within)
    except OSError as error:
        raise broken(f"{name} cannot be written: {reason(error)}; {option} names another place") from None
    finally:
        for each in (at, within):
            if each is not None:
                os.close(each)


def remove(name):
    try:
        os.unlink(name)
    except OSError:
        pass


def set_aside(name) -> Optional[str]:
    """Renames a file to NAME.stale; that name, or None where it cannot be done."""
    try:
        os.rename(name, name + ".stale")
    except OSError:
        return None
    return name + ".stale"


# ---- standard output and error

def keep_standard_streams():
    """A stream that the caller closed is held by /dev/null, opened the wrong way round, so that no file of ours gets its number and
    using it is an error."""
    for number, way in ((0, os.O_WRONLY), (1, os.O_RDONLY), (2, os.O_WRONLY)):
        try:
            os.fstat(number)
        except OSError:
            os.open(os.devnull, way)


def print_out(data):
    """Stops where standard output does not take all of it."""
    try:
        os.set_blocking(1, True)
        _write_all(1, data)
    except OSError as error:
        raise broken(f"standard output cannot be written: {reason(error)}") from None


def print_error(line):
    """A sentence on standard error; where that cannot be written there is nobody to be told."""
    try:
        _write_all(2, line.encode(sys.getfilesystemencoding(), "surrogateescape") + b"\n")
    except OSError:
        pass

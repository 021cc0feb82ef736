"""Bytes in and out, for the package and every command: what is read has a bound, and what is written is there whole or not at all.

A name is a path, or '-' for standard input and output. What goes wrong is an OSError with the name, as the system says it, or Bad where
there is more to read than there may be."""
import errno
import os
import secrets
import stat
import sys
import tempfile
from contextlib import contextmanager, suppress

from . import _electra_file
from ._errors import Bad
from ._layout import LONGEST_FILE, SETTINGS_AT, VERSIONS, numbers

LONGEST_TEXT = 2**30  # bytes of a record's or a state's JSON: mainnet's has less
PIECE = 2**20
printed = lambda: None  # a command's is called before a file is moved into place: what it prints is printed by then, or nothing has happened


# Reading


def read(name, most=LONGEST_TEXT):
    """All bytes of a file; Bad where there are more than so many."""
    return bytes(_within(name, _begun(name, lambda head: most), most))


def read_text(name, most=LONGEST_TEXT):
    """The text of a file in UTF-8; Bad where it is none, or has more than so many bytes."""
    data = _within(name, _begun(name, lambda head: len(head) if 0 in head else most), most)
    try:
        return data.decode("utf-8")
    except UnicodeDecodeError as error:
        raise Bad(f"{_shown(name)}: byte {error.start} is not of UTF-8") from None


def read_record(name):
    """The bytes of a record file as far as they matter: of one that is longer than its header says, one byte more."""
    return bytes(_begun(name, _record_length))


def read_electra_record(name):
    """The bytes of a record file with Electra's part behind it as far as they matter: of one that is longer than they say, one byte more."""
    return bytes(_begun(name, lambda head: _record_length(head) + _electra_file.HEAD - 1, _electra_file.named_length))


def read_record_or_text(name):
    """The bytes of a record file as far as they matter, or all of a text that begins with {; and whether it is a text."""
    begins = lambda data: data.lstrip()[:1]
    data = _begun(name, lambda head: LONGEST_TEXT if begins(head) in (b"{", b"") and 0 not in head else _record_length(head))
    is_text = begins(data) == b"{"
    return bytes(_within(name, data, LONGEST_TEXT) if is_text else data), is_text


def _begun(name, *bounds):
    """The bytes of a file, and of one that is longer one more than the first bound says of the first 80, the next of what was then read."""
    with _opened(name) as (file, shown):
        data = bytearray(_some(file, SETTINGS_AT, shown))
        for bound_of in bounds:
            bound = bound_of(data)
            while len(data) <= bound:
                piece = _some(file, min(PIECE, bound + 1 - len(data)), shown)
                if not piece:
                    break
                data += piece
    return data


def _within(name, data, most):
    if len(data) > most:
        raise Bad(f"{_shown(name)}: it has more than {most} bytes, and no more are read")
    return data


def _record_length(head):
    """A header of another version, and one that names too long a file, are refused whatever follows."""
    if len(head) < SETTINGS_AT or numbers(head, 0, 1)[0] not in VERSIONS:
        return SETTINGS_AT
    return max(SETTINGS_AT, min(numbers(head, 8, 1)[0], LONGEST_FILE))


@contextmanager
def source(name, most=LONGEST_TEXT):
    """A file of at most so many bytes, at its beginning, that can be read again: what is no plain file is kept in one."""
    with _opened(name) as (file, shown):
        if stat.S_ISREG(os.fstat(file.fileno()).st_mode) and file.tell() == 0:
            if os.fstat(file.fileno()).st_size > most:
                raise Bad(f"{shown}: it has more than {most} bytes, and no more are read")
            yield file
            return
        with tempfile.TemporaryFile() as kept:
            while kept.tell() <= most:
                piece = _some(file, PIECE, shown)
                if not piece:
                    break
                kept.write(piece)
            if kept.tell() > most:
                raise Bad(f"{shown}: it has more than {most} bytes, and no more are read")
            kept.seek(0)
            yield kept


def whole(file):
    """All bytes of a source, to be written in; without a second copy of them on the way."""
    data = bytearray(os.fstat(file.fileno()).st_size)
    if file.readinto(data) != len(data) or file.read(1):
        raise OSError(errno.EIO, "the file changed while it was read", getattr(file, "name", None))
    return data


def _shown(name):
    return "standard input" if name == "-" else os.fspath(name)


@contextmanager
def _opened(name):
    if name == "-":
        yield standard("stdin"), "standard input"
        return
    with open(name, "rb") as file:
        yield file, name


def _some(file, size, shown):
    try:
        return file.read(size)
    except OSError as error:
        raise OSError(error.errno, error.strerror, shown) from None


def standard(name):
    """stdin, stdout or stderr for bytes, or an OSError where it was closed before the program began."""
    stream = getattr(sys, name)
    if stream is None:
        raise OSError(errno.EBADF, "it is closed", {"stdin": "standard input", "stdout": "standard output"}.get(name, "standard error"))
    return stream.buffer


# Writing


def write_whole(name, parts, *, replace=True):
    """Writes the parts; where that fails, or is interrupted, what stood there stays. A file that is there is replaced, unless FileExistsError
    is asked for with replace=False."""
    with target(name, replace=replace) as write:
        held, size = [], 0
        for part in parts:
            held.append(part)
            size += len(part)
            if size >= PIECE:
                write(b"".join(held))
                held, size = [], 0
        write(b"".join(held))


@contextmanager
def target(name, *, replace=True):
    """A function that writes bytes. They stand under the name once the block ends, and not if it ends with an exception. A pipe, a device
    and '-' take them as they come. A link to a file that is there keeps naming it, and a link to none is refused."""
    if name == "-":
        standard("stdout")
        sys.stdout.flush()
        yield _writing(1, "standard output")
        return
    there = _found(name)
    if there and not stat.S_ISREG(there.st_mode):
        handle = os.open(name, os.O_WRONLY | os.O_NOCTTY)
        try:
            yield _writing(handle, name)
        finally:
            os.close(handle)
        return
    if there and not replace:
        raise _exists(name)
    path = os.path.realpath(name)
    handle, made = _made(os.path.dirname(path), there)
    try:
        _take_rights(handle, there)
        yield _writing(handle, name)
        os.fsync(handle)
        closing, handle = handle, None
        os.close(closing)
        printed()
        _move(made, path, name, replace)
        made = None
    except OSError as error:
        if error.filename in (None, made):
            error.filename, error.filename2 = os.fspath(name), None
        raise
    finally:
        if handle is not None:
            os.close(handle)
        if made is not None:
            with suppress(OSError):
                os.unlink(made)
    _settle(os.path.dirname(path))


def _found(name):
    try:
        return os.stat(name)
    except FileNotFoundError:
        if os.path.islink(name):
            raise OSError(errno.ENOENT, "a link to a file that is not there", os.fspath(name)) from None
        return None


def _made(folder, there):
    """A new file in the folder, under a name that nobody has, and for nobody who could not read the one whose place it will take."""
    while True:
        made = os.path.join(folder, f".altair-{secrets.token_hex(6)}")
        with suppress(FileExistsError):
            return os.open(made, os.O_WRONLY | os.O_CREAT | os.O_EXCL, there.st_mode & 0o777 if there else 0o666), made


def _take_rights(handle, there):
    """The owner, where that may be done, and the rights of the file whose place it will take."""
    if there:
        with suppress(PermissionError):
            os.fchown(handle, there.st_uid, there.st_gid)
        os.fchmod(handle, stat.S_IMODE(there.st_mode))


def _move(made, path, name, replace):
    """Gives a finished file its name. A link, unlike a move, never replaces a file that has come meanwhile."""
    if not replace:
        try:
            os.link(made, path)
            os.unlink(made)
            return
        except FileExistsError:
            raise _exists(name) from None
        except OSError:  # a file system without links
            if os.path.lexists(path):
                raise _exists(name) from None
    os.replace(made, path)


def _exists(name):
    return FileExistsError(errno.EEXIST, "it is there already", os.fspath(name))


def _settle(folder):
    """The new name survives a loss of power, where the file system can say so."""
    handle = os.open(folder, os.O_RDONLY | os.O_DIRECTORY)
    try:
        with suppress(OSError):
            os.fsync(handle)
    finally:
        os.close(handle)


def _writing(handle, name):
    """Writes past Python's buffers, so that a full disk or a closed pipe shows where it is met."""

    def write(data):
        left = memoryview(data).cast("B")
        try:
            while left:
                left = left[os.write(handle, left) :]
        except OSError as error:
            raise OSError(error.errno, error.strerror, os.fspath(name)) from None

    return write

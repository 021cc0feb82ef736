"""How every command ends: 0 done; 1 refused, with the number and its words on standard error; 2 could not read or write, or not
understood. One line on standard error says why, and never a traceback.

A command's work is a function that prints, and answers a status or None for 0. It may raise Refused and Bad, which are 1, and Stopped,
OSError, ImportError (a missing library) and MemoryError, which are 2. What it printed is written before a file is moved into place, and
before the command ends, and where that fails it ends with 2, whatever it would have ended with. INT, TERM and HUP undo what was begun and then end it, by the signal."""
import errno
import os
import signal
import sys

from . import _files
from ._errors import Bad, Stopped
from ._refusals import Refused

DONE, REFUSED, TROUBLE = 0, 1, 2
SIGNALS = signal.SIGINT, signal.SIGTERM, signal.SIGHUP


class _Interrupted(BaseException):
    """A signal that ends the command: no Exception, so that no command takes it for one."""


def run(name, work, *words):
    """Does work(*words) and ends the process, as the first lines say. `name` begins each line on standard error."""
    _hold_closed_streams()
    _raise_signals()
    try:
        status = _ended(name, work, words)
    except _Interrupted as interrupted:
        _end_by(interrupted.args[0])
    # past the interpreter's own end, which would try again to write what could not be written
    os._exit(status)


def status_of(name, work, *words):
    """Does the work and answers its status, what went wrong being said."""
    try:
        return work(*words) or DONE
    except (Bad, Refused) as refused:
        said(name, refused)
        return REFUSED
    except OSError as error:
        said(name, told(error))
    except MemoryError:
        said(name, "not enough memory")
    except RecursionError:
        said(name, "the input is nested too deeply")
    except (Stopped, ImportError) as stopped:
        said(name, stopped)
    return TROUBLE


def said(name, words):
    """Tells the user, on standard error. Where nobody can be told, what is done is done all the same."""
    try:
        if sys.stderr is not None:
            print(f"{name}: {words}", file=sys.stderr, flush=True)
    except OSError:
        sys.stderr = None


def told(error):
    """An OSError in words: the file's name and what the system says of it."""
    what = error.strerror or str(error) or type(error).__name__
    if error.filename is None:
        return what
    return f"{error.filename if isinstance(error.filename, int) else os.fsdecode(error.filename)}: {what}"


def _ended(name, work, words):
    """The status once all that was printed is written."""
    try:
        status = status_of(name, work, *words)
    except SystemExit as ended:  # argparse, after --help or wrong words
        status = ended.code if isinstance(ended.code, int) else DONE if ended.code is None else TROUBLE
        if isinstance(ended.code, str):
            said(name, ended.code)
    try:
        sys.stdout.flush()
    except OSError as error:
        if status != TROUBLE:  # else it has been said
            said(name, told(error))
        return TROUBLE
    return status


class _Output:
    """Standard output, which may have been closed before the command began. What could not be written is said again at the end: argparse
    takes no notice of it."""

    def __init__(self, stream):
        self._stream, self._failed = stream, None

    def write(self, text):
        return self._tried(lambda: self._open().write(text))

    def flush(self):
        if self._failed:
            raise self._failed
        if self._stream is not None:
            self._tried(self._stream.flush)

    def _tried(self, work):
        try:
            return work()
        except OSError as error:
            self._failed = OSError(error.errno, error.strerror, "standard output")
            raise self._failed from None

    def isatty(self):
        return self._stream is not None and self._stream.isatty()

    def __getattr__(self, name):
        return getattr(self._open(), name)

    def _open(self):
        if self._stream is None:
            raise OSError(errno.EBADF, "it is closed", "standard output")  # also for what looks for the bytes below
        return self._stream


def _hold_closed_streams():
    """A standard stream that was closed stays so: no file that is opened later gets its number, or is printed into."""
    for number, how in ((0, os.O_WRONLY), (1, os.O_RDONLY), (2, os.O_RDONLY)):
        try:
            os.fstat(number)
        except OSError:
            os.open(os.devnull, how)  # the lowest number that is free, which is this one
    if sys.stdout is not None:
        sys.stdout.reconfigure(errors="surrogateescape")  # a name that is not UTF-8 is printed as it is
    sys.stdout = _Output(sys.stdout)
    _files.printed = sys.stdout.flush


def _raise_signals():
    def interrupted(number, frame):
        for each in SIGNALS:
            signal.signal(each, signal.SIG_IGN)  # what was begun is undone first
        raise _Interrupted(number)

    for number in SIGNALS:
        if signal.getsignal(number) != signal.SIG_IGN:
            signal.signal(number, interrupted)


def _end_by(number):
    signal.signal(number, signal.SIG_DFL)
    os.kill(os.getpid(), number)
    os._exit(128 + number)

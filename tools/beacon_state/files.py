"""Inputs and outputs of the commands, through the package's own: '-' is standard input or output, and nothing is replaced unasked."""
import sys
from contextlib import contextmanager

from altair_close import _errors, _files
from altair_close._files import whole

from .errors import Bad, Stopped

LONGEST_STATE = 2**31  # bytes: four times a state of mainnet with a million validators, in JSON


@contextmanager
def source(name, most=LONGEST_STATE):
    """A file to read bytes from, at its beginning, that can be read again. What is wrong in it is said with its name."""
    try:
        with _files.source(name, most) as file:
            yield file
    except Bad as bad:
        raise _errors.Bad(f"{'standard input' if name == '-' else name}: {bad}") from None


def settings_file(name):
    """The bytes of a file of settings."""
    return _files.read(name, 2**20)


@contextmanager
def target(name, force, is_text=False):
    """A function that writes bytes. What was written stands under the name once all of it is there."""
    if name == "-" and not is_text and sys.stdout.isatty():
        raise Stopped("standard output is a terminal, and what is written is no text for one")
    try:
        with _files.target(name, replace=force) as write:
            yield write
    except FileExistsError:
        raise Stopped(f"{name} is there already; --force replaces it") from None

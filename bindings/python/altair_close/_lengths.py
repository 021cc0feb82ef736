"""How long a buffer is made that a call writes and that is not lent: from the buffers that are lent beside it."""
from . import _signatures
from ._refusals import Refused
from ._words import VALIDATOR_LENGTH, Header


def of(number, *counts):
    """A length as the table of words has it: a number of how many rows each of these buffers has, or of what it holds."""
    return lambda lent: number(*(row(lent, name) if callable(row) else lent[name].count // row for name, row in counts))


def longest(lent, name):
    """The largest number of a list, but no more than all that is lent has in bytes: C refuses one that is larger."""
    numbers = lent[name].view.cast("B").cast("Q") if lent[name].count else []
    return min(max(numbers, default=0), sum(other.view.nbytes for other in lent.values()))


def _held(lent):
    """What the file's header says; nothing where it is refused, and the read then answers that refusal with its position."""
    try:
        return _signatures.call("read_header", lent["file"].value)
    except Refused:
        return Header(0, 0, 0)


def held_registry(lent):
    return VALIDATOR_LENGTH * _held(lent).validators


def held_slashings(lent):
    return _held(lent).slashings

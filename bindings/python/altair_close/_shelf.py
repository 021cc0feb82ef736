"""A shelf of record files, closed in one call."""
from array import array
from typing import Iterable, List, Optional, Sequence, Union

from ._arguments import Bytes
from ._refusals import Refused
from ._signatures import buffers, call, promised
from ._types import FORK_ALTAIR, Bellatrix, Buffer, BytesLike, NumbersLike, Shelf


@promised
def close_shelf(files: BytesLike, lengths: NumbersLike, fork: int, bellatrix: Bellatrix, *,
                out: Sequence[Optional[Buffer]] = (None, None, None, None)) -> Shelf:
    """It gives Shelf. `out` is the four buffers, for closing, opening_numbers, closing_numbers and answers."""
    lent = buffers(out, "closing", "opening_numbers", "closing_numbers", "answers")
    closing, _, _, answers = call("close_shelf", files, lengths, *lent, fork, bellatrix)
    return Shelf(closing, answers)


def close_files(files: Iterable[BytesLike], *, fork: int = FORK_ALTAIR, bellatrix: Bellatrix = Bellatrix(0, 0)) -> List[Union[bytes, Refused]]:
    """For each of several record files the bytes of the closed record's file, or the Refused that its close raises alone. Files of
    version 1 are refused with 6."""
    try:
        listed = list(files)
    except TypeError:
        raise TypeError(f"files: files are wanted, any that can be gone through, not {type(files).__name__}") from None
    held = [bytes(Bytes().checked(f"files[{place}]", file, False).view) for place, file in enumerate(listed)]
    shelf = close_shelf(b"".join(held), array("Q", map(len, held)), fork, bellatrix)
    closed: List[Union[bytes, Refused]] = []
    at = 0
    for file, number in zip(held, shelf.answers):
        closed.append(Refused(number) if number else bytes(shelf.closing[at : at + len(file)]))
        at += len(file)
    return closed

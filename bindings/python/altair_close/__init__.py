"""The Altair epoch close: Ethereum's eight epoch steps on a ledger's record, proved to give what Altair's rules define.

Each function has the name that it has in bindings/c/altair.h, without the prefix altair_. Numbers are ints from 0 to 2^64 - 1. A
registry, ten numbers a validator, is any C-contiguous buffer of 64-bit unsigned numbers (an array, a memoryview, numpy's arrays,
also with ten a row) and goes in without a copy; a list or tuple is copied. Roots and files are any buffer of bytes.

What would be written into a lent buffer comes back: a new one, or the one that the keyword `out` names. An argument of the wrong
kind raises TypeError, one out of range ValueError, with the argument's name, and does not reach C. A refused call raises Refused,
with the number and, where that is 1, the argument and the length called for. Python's standard library alone, CPython 3.8 or later.

    >>> import altair_close
    >>> altair_close.get_base_reward_per_increment(altair_close.MAINNET, 160 * 10**9)
    160000
"""
# `X as X`: a type checker takes no other name as handed on
from ._words import *
from ._calls import *
from ._close import close as close, deneb_close as deneb_close, electra_close as electra_close, listing_lines as listing_lines
from ._desk import Desk as Desk, Ended as Ended, carry_out as carry_out, close_step as close_step, take_order as take_order
from ._electra import ClosedElectraRecord as ClosedElectraRecord, ElectraRecord as ElectraRecord
from ._record import ClosedRecord as ClosedRecord, Record as Record, read_file as read_file
from ._refusals import Fault as Fault, Refused as Refused
from ._shelf import close_files as close_files, close_shelf as close_shelf
from ._store import add_rules as add_rules
from ._types import PRESETS as PRESETS, Amounts as Amounts, Closed as Closed, ElectraAmounts as ElectraAmounts
from ._types import ElectraClosed as ElectraClosed, Entry as Entry, Queued as Queued, Running as Running
from ._types import Shelf as Shelf, Store as Store, Told as Told, Votes as Votes

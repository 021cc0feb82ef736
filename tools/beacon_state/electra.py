"""What Electra's record has beside Altair's (document 03, F-2), made of a state: credentials, three numbers, two indices, queues.

Whether a deposit's signature is valid is asked of the close, and no signature is checked here: that takes BLS, which is not in
Python's library. It is read of a deposit alone whose key no validator has. Where nothing is said it is taken as valid, and the key
becomes a validator; whoever knows better names those that are not. Every figure of the validators that the state has is the same
either way, since a new one joins behind them and takes no part in the steps that follow but for itself."""
from array import array
from typing import Any, NamedTuple

from altair_close import Bellatrix, DepositNumbers, Electra as Five, ExitChurn
from altair_close import _electra_file

COMPOUNDING = 0x02
QUEUES = ("deposit_balance_to_consume", "exit_balance_to_consume", "earliest_exit_epoch", "eth1_deposit_index",
          "deposit_requests_start_index")


class Deposit(NamedTuple):
    """A pending deposit: its key, the first byte of its credentials, amount and slot."""

    key: bytes
    credentials: int
    amount: int
    slot: int


class Electra(NamedTuple):
    """The lists are arrays of 64-bit numbers, as the close is lent them."""

    compounding: Any
    deposit_balance_to_consume: int
    exit_balance_to_consume: int
    earliest_exit_epoch: int
    eth1_deposit_index: int
    deposit_requests_start_index: int
    deposits: Any
    consolidations: Any
    new_keys: tuple = ()  # the keys that no validator has, in the order of their numbers
    places: tuple = ()  # the deposits' keys, in the queue's order

    def joined(self, count, after):
        """The keys of the validators from number `count` up to `after`, which deposits made: in the order of their first valid deposits."""
        found = {}
        for at in range(0, len(self.deposits), 5):
            key, _, _, _, valid = self.deposits[at : at + 5]
            if key >= count and valid:
                found.setdefault(key, self.new_keys[key - count])
        return list(found.values())[: after - count]


def of_file(file):
    """The parts of a record file that has them behind it, which says itself which deposits are valid, and their settings by name."""
    part = _electra_file.Part(file)
    numbers = {name: part.head[name] for name in _electra_file.NUMBERS}
    settings = {name.upper(): part.head[name] for name in _electra_file.SETTINGS}
    lists = (array("Q", some) for some in (part.compounding(), part.deposits(), part.consolidations()))
    compounding, deposits, consolidations = lists
    return Electra(compounding, *(numbers[name] for name in QUEUES), deposits, consolidations), settings


def part(queues, settings):
    """The bytes that stand behind a record file."""
    named = {name: getattr(queues, name) for name in (*ExitChurn._fields, *DepositNumbers._fields)}
    seven = (settings[name.upper()] for name in (*Bellatrix._fields, *Five._fields))
    return _electra_file.part(seven, named.values(), queues.compounding, queues.deposits, queues.consolidations)


def compounding(credentials):
    """A number for each first byte: 1 where it is 0x02."""
    made = bytearray(8 * len(credentials))
    made[::8] = bytes(credentials).translate(bytes(int(byte == COMPOUNDING) for byte in range(256)))
    return memoryview(made).cast("Q")


def record(keys, credentials, queues, invalid=None):
    """The parts of an Electra record. `invalid(keys)` gives the places, in the queue, of the deposits whose signature is known not to be
    valid."""
    numbers, pending, consolidations = queues
    named = keys.find({deposit.key for deposit in pending})
    unknown, deposits = {}, array("Q")
    wrong = invalid([deposit.key for deposit in pending]) if invalid else ()
    for place, deposit in enumerate(pending):
        key = named.get(deposit.key)
        if key is None:
            key = keys.count + unknown.setdefault(deposit.key, len(unknown))
        deposits.extend((key, int(deposit.credentials == COMPOUNDING), deposit.amount, deposit.slot, int(place not in wrong)))
    pairs = memoryview(bytes(consolidations)).cast("Q")
    return Electra(compounding(credentials), *(numbers[name] for name in QUEUES), deposits, pairs,
                   tuple(unknown), tuple(deposit.key for deposit in pending))

"""Electra's part of a record, which stands behind a record file: where its numbers stand, and what is refused of it. docs/RECORD_FILE.md.

The library reads no such part: what is refused here is what electra_close refuses of the same numbers, under the same refusal."""
import struct

from . import _layout
from ._layout import Fault
from ._types import flat
from ._words import (CONSOLIDATION_LENGTH, DEPOSIT_COMPOUNDING, DEPOSIT_LENGTH, DEPOSIT_PUBKEY, DEPOSIT_SLOT, DEPOSIT_VALID, MOST_VALIDATORS,
                     NUMBER_LIMIT, Bellatrix, DepositNumbers, Electra, ExitChurn)

PART_VERSION = 1
SETTINGS = (*Bellatrix._fields, *Electra._fields)
NUMBERS = (*ExitChurn._fields, *DepositNumbers._fields)
HEAD_NAMES = ("version", "pending_deposits", "pending_consolidations", *SETTINGS, *NUMBERS)
HEAD = 8 * len(HEAD_NAMES)  # bytes
DEPOSIT = ("pubkey", "compounding", "amount", "slot", "valid")
CONSOLIDATION = ("source_index", "target_index")
LONGEST = HEAD + 8 * MOST_VALIDATORS * (1 + DEPOSIT_LENGTH + CONSOLIDATION_LENGTH)


def begins(file):
    """Where the part begins: at the end of the record, as its header names it; None where the header is none or nothing follows."""
    if len(file) < _layout.SETTINGS_AT or _layout.numbers(file, 0, 1)[0] not in _layout.VERSIONS:
        return None
    length = _layout.numbers(file, 8, 1)[0]
    return length if length < len(file) else None


def length(validators, deposits, consolidations):
    return HEAD + 8 * (validators + DEPOSIT_LENGTH * deposits + CONSOLIDATION_LENGTH * consolidations)


def named_length(file):
    """How long a file is whose part's head has been read; no more than any may be."""
    at = begins(file)
    if at is None or len(file) < at + HEAD:
        return len(file)
    _, deposits, consolidations = _layout.numbers(file, at, 3)
    return at + min(length(_layout.numbers(file, 16, 1)[0], deposits, consolidations), LONGEST)


def is_electra(file):
    """Whether Electra's part stands behind the record: its version and its length say so."""
    at = begins(file)
    return at is not None and len(file) >= at + HEAD and _layout.numbers(file, at, 1)[0] == PART_VERSION and named_length(file) == len(file)


class Part:
    """The part of a file that has one: the head's numbers by name, and where the lists stand."""

    def __init__(self, file):
        self.file, self.at = file, begins(file)
        self.head = dict(zip(HEAD_NAMES, _layout.numbers(file, self.at, len(HEAD_NAMES))))
        self.validators = _layout.numbers(file, 16, 1)[0]
        self.compounding_at = self.at + HEAD
        self.deposits_at = self.compounding_at + 8 * self.validators
        self.consolidations_at = self.deposits_at + 8 * DEPOSIT_LENGTH * self.head["pending_deposits"]

    def of(self, kind):
        """A named tuple of the head's numbers."""
        return kind(*(self.head[name] for name in kind._fields))

    def compounding(self):
        return _layout.numbers(self.file, self.compounding_at, self.validators)

    def deposits(self):
        return _layout.numbers(self.file, self.deposits_at, DEPOSIT_LENGTH * self.head["pending_deposits"])

    def consolidations(self):
        return _layout.numbers(self.file, self.consolidations_at, CONSOLIDATION_LENGTH * self.head["pending_consolidations"])


def part(settings, numbers, compounding, deposits, consolidations):
    """The bytes of a part: the seven settings, the five numbers, and the lists, deposits and consolidations in one row each."""
    lists = [flat(some) for some in (compounding, deposits, consolidations)]
    head = (PART_VERSION, len(lists[1]) // DEPOSIT_LENGTH, len(lists[2]) // CONSOLIDATION_LENGTH, *settings, *numbers)
    return b"".join([struct.pack(f"<{len(head)}Q", *head), *lists])


def fault(file):
    """The first fault of a file with Electra's part, in the library's order, or None where it is accepted."""
    at = begins(file)
    if at is None:
        return Fault(6, len(file), "Electra's part", "nothing follows the record")
    found = _layout.fault(file[:at])
    if found:
        return found
    if len(file) < at + HEAD:
        return Fault(6, at, "Electra's part", f"it has {len(file) - at} bytes, and its head alone {HEAD}")
    version = _layout.numbers(file, at, 1)[0]
    if version != PART_VERSION:
        return Fault(6, at, "Electra's part: version", f"{PART_VERSION} is wanted, not {version}")
    _, deposits, consolidations = _layout.numbers(file, at, 3)
    wanted = length(_layout.numbers(file, 16, 1)[0], deposits, consolidations)
    if len(file) - at != wanted:
        return Fault(6, at, "Electra's part", f"with {deposits} deposits and {consolidations} consolidations it has {wanted} bytes, not {len(file) - at}")
    tests = _shape_fault, _settings_fault, _record_fault
    return next(filter(None, (test(Part(file)) for test in tests)), None)


def _shape_fault(found):
    most, n = MOST_VALIDATORS, found.validators
    for name in ("pending_deposits", "pending_consolidations"):
        if found.head[name] > most:
            return Fault(1, found.at, name, f"at most {most} are taken, not {found.head[name]}")
    keys = found.deposits()[DEPOSIT_PUBKEY::DEPOSIT_LENGTH]
    for i, key in enumerate(keys):
        if key >= n + len(keys):
            why = f"a key below {n + len(keys)}, the number of validators and deposits, is wanted, not {key}"
            return Fault(1, found.deposits_at + 8 * DEPOSIT_LENGTH * i, f"pending_deposits[{i}].pubkey", why)
    for i, index in enumerate(found.consolidations()):
        if index >= n:
            name = f"pending_consolidations[{i // 2}].{CONSOLIDATION[i % 2]}"
            return Fault(1, found.consolidations_at + 8 * i, name, f"a validator's number, below {n}, is wanted, not {index}")
    return None


def _settings_fault(found):
    for place, name in enumerate(SETTINGS):
        at, number = found.at + 24 + 8 * place, found.head[name]
        if number >= NUMBER_LIMIT:
            return Fault(2, at, f"settings.{name}", f"a number below 2^48 is wanted, not {number}")
        if number == 0 and name in ("inactivity_penalty_quotient_bellatrix", "max_per_epoch_activation_exit_churn_limit"):
            return Fault(2, at, f"settings.{name}", "it may not be 0")
    increment = _layout.numbers(found.file, _layout.SETTINGS_AT + 24, 1)[0]
    least = found.head["min_per_epoch_churn_limit_electra"]
    if least < increment:
        at = found.at + 24 + 8 * SETTINGS.index("min_per_epoch_churn_limit_electra")
        return Fault(2, at, "settings.min_per_epoch_churn_limit_electra", f"at least the increment, {increment}, is wanted, not {least}")
    return None


def _record_fault(found):
    for i, number in enumerate(found.compounding()):
        if number > 1:
            return Fault(3, found.compounding_at + 8 * i, f"validators[{i}].compounding", f"0 or 1 is wanted, not {number}")
    largest = {DEPOSIT_COMPOUNDING: 1, DEPOSIT_SLOT: NUMBER_LIMIT - 1, DEPOSIT_VALID: 1}
    for i, number in enumerate(found.deposits()):
        if number > largest.get(i % DEPOSIT_LENGTH, number):
            field = f"pending_deposits[{i // DEPOSIT_LENGTH}].{DEPOSIT[i % DEPOSIT_LENGTH]}"
            wanted = "a slot below 2^48" if i % DEPOSIT_LENGTH == DEPOSIT_SLOT else "0 or 1"
            return Fault(3, found.deposits_at + 8 * i, field, f"{wanted} is wanted, not {number}")
    return None

"""The record file: where its parts stand, and what the library refuses of it, with the field that is at fault.

The limits are the library's, said here once for Python; test_layout.py holds `fault` to altair_read_file."""
import struct
from typing import NamedTuple

from ._words import (CURRENT_EPOCH_PARTICIPATION, EXIT_EPOCH, FAR_FUTURE_EPOCH, LONGEST_VECTOR, MOST_VALIDATORS, NUMBER_LIMIT,
                     PREVIOUS_EPOCH_PARTICIPATION, SLASHED, VALIDATOR_LENGTH, ExitQueue, Finality, Settings)

VERSIONS = 1, 2
FILE_VERSION = 2  # the one that is written; version 1 has no exit queue's pair
SETTINGS_AT, FINALITY_AT, QUEUE_AT = 80, 232, 368
CHECKPOINTS = Finality._fields[2:]
CHECKPOINTS_AT = {name: FINALITY_AT + 16 + 40 * place for place, name in enumerate(CHECKPOINTS)}
VALIDATOR = ("effective_balance", "slashed", "activation_eligibility_epoch", "activation_epoch", "exit_epoch", "withdrawable_epoch",
             "balance", "previous_epoch_participation", "current_epoch_participation", "inactivity_score")

BELOW = NUMBER_LIMIT  # slots, epochs of checkpoints and settings
MOST_BITS = 15
LARGEST = {SLASHED: 1, PREVIOUS_EPOCH_PARTICIPATION: 255, CURRENT_EPOCH_PARTICIPATION: 255}
NOT_ZERO = ("slots_per_epoch", "effective_balance_increment", "hysteresis_quotient", "inactivity_score_bias",
            "inactivity_penalty_quotient_altair", "churn_limit_quotient")


def validators_at(version=FILE_VERSION):
    return QUEUE_AT + 16 * (version - 1)


def roots_at(validators, version=FILE_VERSION):
    return validators_at(version) + 80 * validators


def slashings_at(validators, roots, version=FILE_VERSION):
    return roots_at(validators, version) + 32 * roots


def file_length(validators, roots, slashings, version=FILE_VERSION):
    return slashings_at(validators, roots, version) + 8 * slashings


LONGEST_FILE = file_length(MOST_VALIDATORS, LONGEST_VECTOR, LONGEST_VECTOR)


def header(validators, roots, slashings, version=FILE_VERSION):
    """The ten numbers that a file begins with."""
    return [version, file_length(validators, roots, slashings, version), validators, roots, slashings, SETTINGS_AT, FINALITY_AT,
            validators_at(version), roots_at(validators, version), slashings_at(validators, roots, version)]


def queue_of(registry):
    """The exit queue's pair of a registry, a memoryview of 64-bit numbers: counted here, for files that the library is not asked about."""
    exits = registry[EXIT_EPOCH::VALIDATOR_LENGTH].tolist()
    last = max((epoch for epoch in exits if epoch != FAR_FUTURE_EPOCH), default=None)
    return ExitQueue(0, 0) if last is None else ExitQueue(last, exits.count(last))


def numbers(file, at, count):
    return struct.unpack_from(f"<{count}Q", file, at)


class Fault(NamedTuple):
    """Why the library refuses a file: its number, where reading stops, the field that is at fault and what is wrong with it."""

    refusal: int
    position: int
    field: str
    why: str


def fault(file):
    """The first fault of a file, in the library's order, or None where it is accepted."""
    view = memoryview(file)
    file = view if view.format == "B" else memoryview(bytes(view))
    tests = _header_fault, _shape_fault, _settings_fault, _finality_fault, _registry_fault, _queue_fault
    return next(filter(None, (test(file) for test in tests)), None)


def _header_fault(file):
    if len(file) < SETTINGS_AT:
        return Fault(6, 0, "header", f"the file has {len(file)} bytes, and a header has {SETTINGS_AT}")
    found = numbers(file, 0, 10)
    if found[0] not in VERSIONS:
        return Fault(6, SETTINGS_AT, "header: version", f"1 or 2 is wanted, not {found[0]}")
    wanted = header(*found[2:5], found[0])
    names = ("version", "length", "validators", "roots", "slashings", "offset of the settings", "offset of the finality",
             "offset of the validators", "offset of the roots", "offset of the slashings")
    for name, number, right in zip(names, found, wanted):
        if number != right:
            return Fault(6, SETTINGS_AT, f"header: {name}", f"{right} is wanted, not {number}")
    if found[1] != len(file):
        return Fault(6, SETTINGS_AT, "header: length", f"it is {found[1]}, and the file has {len(file)} bytes")
    return None


def _shape_fault(file):
    validators, roots, slashings = numbers(file, 16, 3)
    if validators > MOST_VALIDATORS:
        return Fault(1, FINALITY_AT, "validators", f"at most {MOST_VALIDATORS} are taken, not {validators}")
    named = ("slots_per_historical_root", roots, "roots"), ("epochs_per_slashings_vector", slashings, "slashings")
    settings = Settings(*numbers(file, SETTINGS_AT, 19))
    for name, held, what in named:
        if not 1 <= held <= LONGEST_VECTOR:
            return Fault(1, FINALITY_AT, f"settings.{name}", f"1 to {LONGEST_VECTOR} is wanted, not {held}")
    for name, held, what in named:
        if held != getattr(settings, name):
            return Fault(1, FINALITY_AT, f"settings.{name}", f"it is {getattr(settings, name)}, and the file has {held} {what}")
    return None


def _settings_fault(file):
    for name, number in zip(Settings._fields, numbers(file, SETTINGS_AT, 19)):
        if number == 0 and name in NOT_ZERO:
            return Fault(2, FINALITY_AT, f"settings.{name}", "it may not be 0")
        if number >= BELOW:
            return Fault(2, FINALITY_AT, f"settings.{name}", f"a number below 2^48 is wanted, not {number}")
    return None


def _finality_fault(file):
    slot, bits = numbers(file, FINALITY_AT, 2)
    if slot >= BELOW:
        return Fault(3, QUEUE_AT, "slot", f"a number below 2^48 is wanted, not {slot}")
    if bits > MOST_BITS:
        return Fault(3, QUEUE_AT, "justification_bits", f"0 to {MOST_BITS} is wanted, not {bits}")
    for name, at in CHECKPOINTS_AT.items():
        epoch = numbers(file, at, 1)[0]
        if epoch >= BELOW:
            return Fault(3, QUEUE_AT, f"{name}.epoch", f"a number below 2^48 is wanted, not {epoch}")
    return None


def registry_of(file):
    """The registry of a file whose header is good."""
    version, _, validators = numbers(file, 0, 3)
    return file[validators_at(version) : roots_at(validators, version)].cast("Q")


def _registry_fault(file):
    registry = registry_of(file)
    bad = []
    for place, largest in LARGEST.items():
        column = registry[place::VALIDATOR_LENGTH]
        if len(column) > 0 and max(column) > largest:
            bad.append((next(i for i, number in enumerate(column) if number > largest), place))
    if not bad:
        return None
    index, place = min(bad)
    at = VALIDATOR_LENGTH * index + place
    why = f"0 to {LARGEST[place]} is wanted, not {registry[at]}"
    return Fault(3, validators_at(numbers(file, 0, 1)[0]) + 8 * at, f"validators[{index}].{VALIDATOR[place]}", why)


def _queue_fault(file):
    if numbers(file, 0, 1)[0] == 1:
        return None
    for name, stored, right in zip(ExitQueue._fields, numbers(file, QUEUE_AT, 2), queue_of(registry_of(file))):
        if stored != right:
            return Fault(8, QUEUE_AT, f"exit_queue.{name}", f"it is {stored}, and that of the validators is {right}")
    return None

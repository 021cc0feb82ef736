"""A record file and its parts. Where they stand, and what their largest numbers are, the Python package says."""
import struct
from typing import NamedTuple

from altair_close._layout import (CHECKPOINTS, FILE_VERSION, FINALITY_AT, LARGEST, MOST_BITS, MOST_VALIDATORS, QUEUE_AT, SETTINGS_AT,
                                  VALIDATOR, VERSIONS, header, queue_of, validators_at)

from .errors import Bad, counted

ENTRY = 8 * len(VALIDATOR)


class Record(NamedTuple):
    """A record; its lists are bytes as they stand in the file. The exit queue's pair is not among them: it follows from the registry."""

    settings: tuple
    slot: int
    justification_bits: int
    checkpoints: bytes
    registry: bytes
    block_roots: bytes
    slashings: bytes
    version: int = FILE_VERSION

    @property
    def validators(self):
        return len(self.registry) // ENTRY


def pieces(record):
    """The bytes of a record's file, in order."""
    n, s, l = record.validators, len(record.block_roots) // 32, len(record.slashings) // 8
    yield struct.pack("<10Q19Q2Q", *header(n, s, l), *record.settings, record.slot, record.justification_bits)
    yield record.checkpoints
    yield struct.pack("<2Q", *queue_of(memoryview(record.registry).cast("B").cast("Q")))
    yield from (record.registry, record.block_roots, record.slashings)


def read(file):
    """The record of a file of version 1 or 2. Every number of it is taken as it stands: what its ranges are, the library says."""
    if len(file) < SETTINGS_AT:
        raise Bad(f"{len(file)} bytes, and a record file has at least {SETTINGS_AT}", offset=len(file))
    numbers = struct.unpack_from("<10Q", file)
    if numbers[0] not in VERSIONS:
        raise Bad(f"{numbers[0]}, and 1 or 2 is wanted", "header", 0)
    wanted = header(*numbers[2:5], numbers[0])
    for k, (number, right) in enumerate(zip(numbers, wanted)):
        if number != right:
            raise Bad(f"{number}, and {right} is wanted", "header", 8 * k)
    if len(file) != wanted[1]:
        raise Bad(f"the file has {len(file)} bytes, and its header says {wanted[1]}", "header", 8)
    settings, (slot, bits) = struct.unpack_from("<19Q", file, SETTINGS_AT), struct.unpack_from("<2Q", file, FINALITY_AT)
    checkpoints, cuts = bytes(file[FINALITY_AT + 16 : QUEUE_AT]), [wanted[7], wanted[8], wanted[9], wanted[1]]
    lists = (bytes(file[begin:end]) for begin, end in zip(cuts, cuts[1:]))
    return Record(settings, slot, bits, checkpoints, *lists, numbers[0])


def closes(record, opening):
    """Refuses a record that is not the close of an opening, or does not fit a state."""
    counts = [(len(r.registry) // ENTRY, len(r.block_roots) // 32, len(r.slashings) // 8) for r in (record, opening)]
    for k, (name, there, wanted) in enumerate(zip(("validator", "block root", "slashing"), *counts)):
        if there != wanted:
            raise Bad(f"{counted(there, name)}, and the state has {wanted}", "header", 16 + 8 * k)
    if record.slot != opening.slot:
        raise Bad(f"{record.slot}, and the state's is {opening.slot}; a close leaves it", "slot", FINALITY_AT)
    if record.block_roots != opening.block_roots:
        i = next(k for k, (a, b) in enumerate(zip(record.block_roots, opening.block_roots)) if a != b) // 32
        at = header(*counts[0], record.version)[8] + 32 * i
        raise Bad("not the state's; a close leaves them", f"block_roots[{i}]", at)
    if record.justification_bits > MOST_BITS:
        raise Bad(f"{record.justification_bits}, and at most {MOST_BITS} is allowed", "justification_bits", FINALITY_AT + 8)
    for place, largest in LARGEST.items():
        low, *high = (record.registry[8 * place + k :: ENTRY] for k in range(8))
        if (low and max(low) > largest) or any(map(any, high)):
            i = next(i for i in range(record.validators) if low[i] > largest or any(part[i] for part in high))
            at = ENTRY * i + 8 * place
            number = int.from_bytes(record.registry[at : at + 8], "little")
            raise Bad(f"{number}, and at most {largest} is allowed", f"validators[{i}].{VALIDATOR[place]}", validators_at(record.version) + at)

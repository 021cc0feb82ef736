"""The library's limits as Python has them: `fault` answers as altair_read_file does, on files bent at random."""
import mmap
import random
import struct
import unittest

import altair_close as altair
from altair_close import MINIMAL, Checkpoint, Finality, Record, Refused, _layout
from altair_close._layout import fault

FAR = altair.FAR_FUTURE_EPOCH
HIT = [32 * 10**9, 0, 0, 0, FAR, FAR, 32 * 10**9, 7, 7, 0]
ENDS = [0, 1, 2, 15, 16, 255, 256, 65535, 65536, 65537, 2**24, 2**24 + 1, 2**32, 2**48 - 1, 2**48, 2**60, 2**63, FAR - 1, FAR]


def record(validators, roots=64, slashings=64):
    settings = MINIMAL._replace(slots_per_historical_root=roots, epochs_per_slashings_vector=slashings)
    finality = Finality(31, 3, Checkpoint(1, b"\1" * 32), Checkpoint(2, b"\2" * 32), Checkpoint(1, b"\3" * 32))
    return Record(settings, finality, HIT * validators, [5] * slashings, b"\4" * 32 * roots)


def in_version_1(file):
    """The file without the pair: later offsets and the length are 16 less."""
    old = bytearray(file[:368] + file[384:])
    header = struct.unpack_from("<10Q", old)
    struct.pack_into("<10Q", old, 0, *(n - {0: 1, 1: 16, 7: 16, 8: 16, 9: 16}.get(i, 0) for i, n in enumerate(header)))
    return bytes(old)


def bent(random_, file):
    """The file with a few numbers, bytes or its length changed."""
    file = bytearray(file)
    for _ in range(random_.choice((1, 1, 1, 2, 3))):
        kind = random_.randrange(8)
        if kind == 0 and len(file) > 0:
            file[random_.randrange(len(file))] ^= 1 << random_.randrange(8)
        elif kind == 1:
            del file[random_.randrange(len(file) + 1) :]
        elif kind == 2:
            file += bytes(random_.choice((1, 8, 32, 80)))
        elif len(file) >= 8:
            most = random_.choice((80, 232, 368, 448, len(file)))
            at = 8 * random_.randrange(min(most, len(file)) // 8)
            at = random_.choice((at, at, at, 368, 376)) if len(file) > 384 else at
            struct.pack_into("<Q", file, at, random_.choice(ENDS))
    return bytes(file)


def answered(file):
    """The refusal and position of the library, or None."""
    try:
        altair.read_file(file)
    except Refused as refused:
        return refused.number, refused.position
    return None


class Layout(unittest.TestCase):
    def test_as_the_library(self):
        random_, seen = random.Random(17), {}
        files = [record(n, *vectors).write() for vectors in ((64, 64), (1, 1), (3, 65536)) for n in (0, 1, 3)]
        leaving = record(3)
        leaving.registry[4] = leaving.registry[14] = 9
        files.insert(0, leaving.write())
        self.assertEqual(struct.unpack_from("<2Q", files[0], 368), (9, 2))
        files[:0] = map(in_version_1, files[:7])
        for _ in range(12000):
            file = bent(random_, random_.choice(files[:14] if random_.random() < 0.95 else files))
            found = fault(file)
            self.assertEqual(found and (found.refusal, found.position), answered(file))
            seen[found and found.refusal] = seen.get(found and found.refusal, 0) + 1
        self.assertTrue(all(seen.get(number, 0) > 100 for number in (None, 1, 2, 3, 6, 8)), seen)

    def test_more_validators_than_are_taken(self):
        most = 2**24 + 1
        file = mmap.mmap(-1, _layout.file_length(most, 64, 64))  # its pages are made where they are read
        file[80:384] = record(0).write()[80:384]
        for validators, refusal in ((most, 1), (most + 1, 6)):
            file[:80] = struct.pack("<10Q", *_layout.header(validators, 64, 64))
            self.assertEqual(fault(file).refusal, refusal)
            self.assertEqual(answered(file)[0], refusal)

    def test_the_field_is_named(self):
        file = bytearray(record(2).write())
        for at, number, field in (
            (0, 3, "header: version"), (0, 1, "header: length"), (80, 0, "settings.slots_per_epoch"), (88, 63, "settings.slots_per_historical_root"),
            (224, 2**48, "settings.churn_limit_quotient"), (232, 2**48, "slot"), (240, 16, "justification_bits"),
            (328, FAR, "finalized_checkpoint.epoch"), (448, 256, "validators[0].current_epoch_participation"),
            (472, 2, "validators[1].slashed"), (368, 1, "exit_queue.last_epoch"), (376, 1, "exit_queue.number"),
        ):
            bad = bytearray(file)
            struct.pack_into("<Q", bad, at, number)
            with self.assertRaises(Refused) as caught:
                Record.read(bad)
            self.assertEqual(caught.exception.field, field)
            self.assertIn(field, str(caught.exception))
        # a buffer of the wrong length is no fault of the file's
        with self.assertRaises(Refused) as caught:
            altair.read_file(file, out=(memoryview(bytearray(8)).cast("Q"), None))
        self.assertEqual((caught.exception.number, caught.exception.field), (1, None))


if __name__ == "__main__":
    unittest.main()

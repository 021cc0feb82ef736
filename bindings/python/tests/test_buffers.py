"""Any buffer goes in as it stands, and `out` takes buffers to reuse."""
import ctypes
import mmap
import tempfile
import unittest
from array import array
from concurrent.futures import ThreadPoolExecutor
from pathlib import Path

import altair_close as altair
from altair_close import Checkpoint, Finality, MINIMAL, Refused
from altair_close import _buffers, _signatures

try:
    import numpy
except ImportError:
    numpy = None

FAR = altair.FAR_FUTURE_EPOCH
VALIDATORS = 7
NUMBERS = array("Q", [32 * 10**9, 0, 0, 0, FAR, FAR, 32 * 10**9, 7, 7, 0] * VALIDATORS)
SLASHINGS = array("Q", bytes(8 * 64))
ROOTS = bytes(32 * 64)
FINALITY = Finality(31, 3, Checkpoint(1), Checkpoint(2), Checkpoint(1))


def in_mmap(data):
    pages = mmap.mmap(-1, max(len(data), 1))
    pages[: len(data)] = data
    return memoryview(pages)[: len(data)]


def registries():
    """The same numbers in every kind of buffer."""
    data = NUMBERS.tobytes()
    yield "list", list(NUMBERS)
    yield "tuple", tuple(NUMBERS)
    yield "array", NUMBERS
    yield "array of unsigned long", array("L", NUMBERS)
    yield "memoryview", memoryview(bytearray(data)).cast("Q")
    yield "read-only memoryview", memoryview(data).cast("Q")
    yield "two dimensions", memoryview(bytearray(data)).cast("Q", shape=[VALIDATORS, 10])
    yield "two dimensions, read-only", memoryview(data).cast("Q", shape=[VALIDATORS, 10])
    yield "ctypes", (ctypes.c_uint64 * len(NUMBERS)).from_buffer_copy(data)
    yield "ctypes, two dimensions", (ctypes.c_uint64 * 10 * VALIDATORS).from_buffer_copy(data)
    yield "mapped memory", in_mmap(data).cast("Q")
    if numpy:
        yield "numpy", numpy.frombuffer(bytearray(data), dtype=numpy.uint64)
        yield "numpy, read-only", numpy.frombuffer(data, dtype="<u8")
        yield "numpy, two dimensions", numpy.frombuffer(bytearray(data), dtype=numpy.uint64).reshape(VALIDATORS, 10)


def bytes_of():
    yield "bytes", ROOTS
    yield "bytearray", bytearray(ROOTS)
    yield "memoryview", memoryview(ROOTS)
    yield "a root a row", memoryview(bytearray(ROOTS)).cast("B", shape=[64, 32])
    yield "characters", memoryview(ROOTS).cast("c")
    yield "ctypes", (ctypes.c_uint8 * len(ROOTS))()
    yield "mapped memory", in_mmap(ROOTS)
    if numpy:
        yield "numpy", numpy.zeros((64, 32), dtype=numpy.uint8)


class Buffers(unittest.TestCase):
    def setUp(self):
        self.closed = altair.close(MINIMAL, FINALITY, None, NUMBERS, SLASHINGS, ROOTS)

    def test_every_kind_of_buffer(self):
        for kind, registry in registries():
            for roots_kind, roots in bytes_of():
                with self.subTest(kind, roots=roots_kind):
                    self.assertEqual(altair.close(MINIMAL, FINALITY, None, registry, SLASHINGS, roots), self.closed)
            self.assertEqual(altair.charged(MINIMAL, 31, registry), VALIDATORS)

    def test_buffers_are_not_copied(self):
        for kind, registry in registries():
            if kind not in ("list", "tuple"):
                lent = {}
                words = _signatures.lend("charged", (MINIMAL, 31, registry), lent)
                view = memoryview(registry)
                expected = _buffers.Lent("registry", registry, view, False).address
                self.assertEqual((words[2], words[3]), (expected, len(NUMBERS)), kind)
                if not view.readonly:
                    self.assertEqual(expected, ctypes.addressof(ctypes.c_uint8.from_buffer(registry)), kind)

    def test_out(self):
        for make in (lambda count: array("Q", bytes(8 * count)), lambda count: (ctypes.c_uint64 * count)(),
                     lambda count: memoryview(bytearray(8 * count)).cast("Q")):
            registry, slashings, amounts = make(len(NUMBERS)), make(64), make(9 * VALIDATORS)
            closed = altair.close(MINIMAL, FINALITY, None, NUMBERS, SLASHINGS, ROOTS, out=(registry, slashings, amounts))
            self.assertIs(closed.registry, registry)
            self.assertIs(closed.slashings, slashings)
            self.assertIs(closed.amounts, amounts)
            self.assertEqual((list(registry), list(slashings)), (list(self.closed.registry), list(self.closed.slashings)))
            self.assertEqual((list(amounts), list(closed.booked())), (list(self.closed.amounts), list(self.closed.booked())))
        rows = memoryview(bytearray(8 * len(NUMBERS))).cast("Q", shape=[VALIDATORS, 10])
        altair.close(MINIMAL, FINALITY, None, NUMBERS, SLASHINGS, ROOTS, out=[rows, None, None])
        self.assertEqual(rows.tobytes(), self.closed.registry.tobytes())
        table = memoryview(bytearray(72 * VALIDATORS)).cast("Q", shape=[VALIDATORS, 9])
        closed = altair.close(MINIMAL, FINALITY, None, NUMBERS, SLASHINGS, ROOTS, out=(None, None, table))
        self.assertEqual((table.tobytes(), list(closed.booked())), (self.closed.amounts.tobytes(), list(self.closed.booked())))

    def test_a_refused_close_and_its_out(self):
        out = array("Q", [5]) * len(NUMBERS), array("Q", [6]) * 64, array("Q", [7]) * (9 * VALIDATORS)
        with self.assertRaises(Refused) as caught:
            altair.close(MINIMAL, FINALITY._replace(slot=2**48), None, NUMBERS, SLASHINGS, ROOTS, out=out)
        self.assertEqual((caught.exception.number, *map(set, out)), (3, {5}, {6}, {7}))
        with self.assertRaises(Refused) as caught:
            altair.close(MINIMAL, FINALITY, altair.ExitQueue(0, 1), NUMBERS, SLASHINGS, ROOTS, out=out)
        self.assertEqual((caught.exception.number, *map(set, out)), (8, {5}, {6}, {7}))
        rich = array("Q", NUMBERS)
        rich[6] = FAR
        with self.assertRaises(Refused) as caught:
            altair.close(MINIMAL, FINALITY, None, rich, SLASHINGS, ROOTS, out=out)
        self.assertEqual((caught.exception.number, out), (5, (rich, SLASHINGS, array("Q", bytes(72 * VALIDATORS)))))
        with self.assertRaises(Refused) as caught:
            altair.close(MINIMAL, FINALITY, None, NUMBERS, SLASHINGS, ROOTS, out=(out[0][1:], None, None))
        self.assertEqual(caught.exception.number, 1)
        with self.assertRaises(Refused) as caught:
            altair.close(MINIMAL, FINALITY, None, NUMBERS, SLASHINGS, ROOTS, out=(None, None, out[2][1:]))
        self.assertEqual(caught.exception.number, 1)

    def test_a_bad_out(self):
        step = altair.process_participation_flag_updates
        room = bytearray(8 * len(NUMBERS) + 80)
        for bad in (NUMBERS.tolist(), 1, "x", bytes(560), memoryview(bytes(560)).cast("Q"), bytearray(560), array("q", [0] * 70)):
            with self.assertRaisesRegex(TypeError, r"^out \(closing\): (a C-contiguous buffer|it is written)"):
                step(NUMBERS, out=bad)
        with self.assertRaisesRegex(ValueError, r"^out \(closing\): .*overlaps opening"):
            step(NUMBERS, out=NUMBERS)
        numbers = memoryview(room).cast("Q")
        with self.assertRaisesRegex(ValueError, r"^out \(closing\): .*overlaps opening"):
            step(numbers[:70], out=numbers[69:79])
        step(numbers[:40], out=numbers[40:])
        for bad in (None, NUMBERS, (NUMBERS,), 1, (None, None), {}):
            with self.assertRaisesRegex(TypeError, "^out: "):
                altair.close(MINIMAL, FINALITY, None, NUMBERS, SLASHINGS, ROOTS, out=bad)
        both = array("Q", bytes(8 * 70))
        with self.assertRaisesRegex(ValueError, "overlaps"):
            altair.close(MINIMAL, FINALITY, None, NUMBERS, SLASHINGS, ROOTS, out=(both, memoryview(both)[:64], None))
        with self.assertRaisesRegex(ValueError, "overlaps"):
            altair.close(MINIMAL, FINALITY, None, NUMBERS, SLASHINGS, ROOTS, out=(both, None, memoryview(both)[:63]))

    def test_what_is_changed(self):
        validator = array("Q", NUMBERS[:10])
        after = altair.increase_balance(validator, 5)
        self.assertEqual((validator[6], after[6]), (32 * 10**9, 32 * 10**9 + 5))
        room = array("Q", bytes(80))
        self.assertIs(altair.decrease_balance(after, 7, out=room), room)
        self.assertEqual((after[6], room[6], room[4]), (32 * 10**9 + 5, 32 * 10**9 - 2, FAR))
        self.assertIs(altair.increase_balance(room, 1, out=room), room)
        self.assertEqual(room[6], 32 * 10**9 - 1)
        kept = array("Q", room)
        for out in (room, array("Q", [9] * 10)):
            before = array("Q", out)
            with self.assertRaises(Refused):
                altair.increase_balance(room, FAR, out=out)
            self.assertEqual((room, out), (kept, before))
        for bad in (array("Q", [0] * 9), array("q", [0] * 10), bytes(80)):
            with self.assertRaisesRegex((TypeError, ValueError), "^out: "):
                altair.increase_balance(room, 1, out=bad)
        with self.assertRaisesRegex(TypeError, "^out: "):
            altair.increase_balance(list(room), 1, out=list(room))
        rows = memoryview(NUMBERS.tobytes()).cast("Q", shape=[VALIDATORS, 10])
        left, queue = altair.initiate_validator_exit(MINIMAL, 31, 0, None, rows)
        self.assertEqual((left[4], left[14], queue), (8, FAR, (8, 1)))
        room = array("Q", NUMBERS)
        self.assertIs(altair.initiate_validator_exit(MINIMAL, 31, 0, altair.ExitQueue(0, 0), room, out=room).registry, room)
        self.assertEqual(altair.exit_queue(room), (8, 1))

    def test_files(self):
        record = altair.Record(MINIMAL, FINALITY, NUMBERS, SLASHINGS, ROOTS, altair.ExitQueue(0, 0))
        file = record.write()
        self.assertEqual(record._replace(queue=None).write(), file)
        room = bytearray(len(file))
        self.assertIs(altair.write_file(MINIMAL, FINALITY, None, NUMBERS, ROOTS, SLASHINGS, out=room), room)
        self.assertEqual(room, file)
        registry, slashings = array("Q", bytes(8 * 70)), array("Q", [1]) * 64
        read = altair.read_file(memoryview(file), out=(registry, slashings))
        self.assertIs(read.registry, registry)
        self.assertEqual(read, record)
        with self.assertRaisesRegex(ValueError, "overlaps"):
            altair.read_file(room, out=(memoryview(room)[:560].cast("Q"), None))
        with self.assertRaises(Refused):
            altair.write_file(MINIMAL, FINALITY, None, NUMBERS, ROOTS, SLASHINGS, out=bytearray(len(file) - 1))

    def test_records_by_path(self):
        with tempfile.TemporaryDirectory() as folder:
            path = Path(folder, "my.record")
            record = altair.Record(MINIMAL, FINALITY, NUMBERS, SLASHINGS, ROOTS, altair.ExitQueue(0, 0))
            record.save(path)
            self.assertEqual(altair.Record.open(str(path)), record)
            closed = altair.Record.open(path).close()
            finality, queue, registry, slashings, *_ = self.closed
            self.assertEqual(closed, altair.Record(MINIMAL, finality, registry, slashings, ROOTS, queue))
            with self.assertRaises(Refused):
                record._replace(roots=b"").save(path)
            self.assertEqual(altair.Record.open(path), record)
            self.assertRaises(FileNotFoundError, altair.Record.open, Path(folder, "none"))

    def test_threads(self):
        """Records of their own, closed side by side."""
        registries_ = [array("Q", NUMBERS) for _ in range(8)]
        for place, registry in enumerate(registries_):
            registry[6] += place
        close = lambda registry: altair.close(MINIMAL, FINALITY, None, registry, SLASHINGS, ROOTS)
        with ThreadPoolExecutor(4) as pool:
            self.assertEqual(list(pool.map(close, registries_ * 50)), list(map(close, registries_)) * 50)

    def refused_kinds(self):
        """Buffers of other kinds, with what is said of each."""
        yield array("q", NUMBERS[6:7] * 10), "array.array of format 'q' with 8 bytes"
        yield array("I", range(10)), "array.array of format 'I' with 4 bytes"
        yield array("d", range(10)), "array.array of format 'd' with 8 bytes"
        yield bytes(80), "bytes of format 'B' with 1 bytes"
        yield memoryview(NUMBERS)[::2], "this memoryview is not C-contiguous"
        yield memoryview(bytearray(81))[1:].cast("Q"), "do not begin at a multiple of 8 bytes"
        yield memoryview(bytearray(80)).cast("Q", shape=[1, 1, 10]), r"not one of shape \(1, 1, 10\)"
        yield (ctypes.c_int64 * 10)(), "c_long(long)?_Array_10 of format '<[lq]' with 8 bytes"
        if numpy:
            table = numpy.zeros((10, 10), dtype=numpy.uint64)
            for dtype, code, size in (("int64", "l", 8), ("uint32", "I", 4), ("float64", "d", 8), (">u8", ">[LQ]", 8), ("bool", r"\?", 1), ("O", "O", 8)):
                yield table[0].astype(dtype), f"numpy.ndarray of format '{code}' with {size} bytes"
            yield table.T[:, :3], "this numpy.ndarray is not C-contiguous"
            yield table[:, :5], "this numpy.ndarray is not C-contiguous"
            yield numpy.asfortranarray(table), "this numpy.ndarray is not C-contiguous"
            yield table.reshape(20, 5), r"not one of shape \(20, 5\)"
            yield numpy.zeros(3, dtype="datetime64[s]"), "not this numpy.ndarray: cannot include dtype 'M'"

    def test_a_refused_kind_is_named(self):
        for value, said in self.refused_kinds():
            self.assertRaisesRegex((TypeError, ValueError), rf"^registry: .*{said}", altair.charged, MINIMAL, 31, value)
        readonly = memoryview(NUMBERS.tobytes()).cast("Q")
        self.assertRaisesRegex(TypeError, r"^out \(closing\): it is written, and it is read-only", altair.process_participation_flag_updates, NUMBERS, out=readonly)
        if numpy:
            self.assertRaisesRegex(TypeError, r"^roots: .*numpy.ndarray of format 'b' with 1 bytes", altair.get_block_root, MINIMAL, numpy.zeros(2048, dtype="int8"), 31, 2)
            table = numpy.zeros((VALIDATORS, 10), dtype=numpy.uint64)
            self.assertIs(altair.process_participation_flag_updates(NUMBERS, out=table), table)

    def test_nothing_is_moved_while_it_is_lent(self):
        registry = array("Q", NUMBERS)
        lines = altair.listing_lines(registry, self.closed.registry)
        next(lines)
        with self.assertRaises(BufferError):
            registry.append(1)
        lines.close()
        registry.append(1)

    def test_empty(self):
        closed = altair.close(MINIMAL, FINALITY, None, [], SLASHINGS, ROOTS)
        self.assertEqual((len(closed.registry), closed.finality.current_justified_checkpoint.epoch), (0, 3))
        self.assertEqual(altair.charged(MINIMAL, 31, array("Q")), 0)


if __name__ == "__main__":
    unittest.main()

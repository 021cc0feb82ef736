"""The Snappy decoder on hand-made blocks and streams: every kind of element, and what must be refused."""
import random
import unittest

import tool  # noqa: F401  (finds the packages)
from beacon_state.errors import Bad
from packing import STREAM, chunk, copy1, copy2, copy4, literal, summed, varint
from published.snappy import checksum, unpacked


class Blocks(unittest.TestCase):
    def good(self, packed, data):
        self.assertEqual(unpacked(packed), data)

    def bad(self, packed, said):
        with self.assertRaises(Bad) as caught:
            unpacked(packed)
        self.assertIn(said, str(caught.exception))

    def test_literals(self):
        self.good(b"\0", b"")
        self.good(b"\5\x10hello", b"hello")
        for count in 1, 2, 59, 60:
            data = random.Random(count).randbytes(count)
            self.good(varint(count) + literal(data), data)
        for width, count in (1, 1), (1, 61), (1, 256), (2, 257), (2, 65536), (3, 65537), (3, 70000), (4, 70001):
            data = random.Random(count).randbytes(count)
            self.good(varint(count) + literal(data, width), data)

    def test_copies(self):
        self.good(b"\x0c" + literal(b"abcd") + copy1(4, 8), b"abcdabcdabcd")
        self.good(varint(4 + 11) + literal(b"abcd") + copy1(1, 11), b"abcd" + b"d" * 11)
        self.good(varint(5 + 7) + literal(b"abcde") + copy1(3, 7), b"abcdecdecdec")
        self.good(varint(4 + 1) + literal(b"abcd") + copy2(3, 1), b"abcdb")
        self.good(varint(4 + 64) + literal(b"abcd") + copy2(4, 64), b"abcd" * 17)
        self.good(varint(4 + 64) + literal(b"abcd") + copy4(2, 64), b"abcd" + b"cd" * 32)
        data = random.Random(1).randbytes(70000)
        self.good(varint(70004) + literal(data, 3) + copy4(70000, 4), data + data[:4])
        self.good(varint(70004) + literal(data, 3) + copy2(65535, 4), data + data[4465:4469])
        self.good(varint(2051) + literal(data[:2047], 2) + copy1(2047, 4), data[:2047] + data[:4])

    def test_many_elements(self):
        rng, data, packed = random.Random(2), b"", b""
        for _ in range(2000):
            if not data or rng.random() < 0.4:
                new = rng.randbytes(rng.randrange(1, 60))
                packed += literal(new, rng.choice([0, 1, 2, 3, 4]))
            else:
                count, back = rng.randrange(4, 12), min(len(data), rng.choice([1, 2, 7, 500, 2047]))
                new = bytes(data[len(data) - back + i % back] for i in range(count))
                packed += rng.choice([copy1, copy2, copy4])(back, count)
            data += new
        self.good(varint(len(data)) + packed, data)

    def test_bad_blocks(self):
        self.bad(b"", "no length")
        self.bad(b"\x80", "no length")
        self.bad(b"\x80\x80\x80\x80\x80\1", "no length")
        self.bad(b"\xff\xff\xff\xff\x7f", "the block says")
        self.bad(b"\5\x10hell", "byte 1: a literal of 5 bytes, and 4 are there")
        self.bad(b"\4\x10hello", "more than the 4 bytes")
        self.bad(b"\6\x10hello", "the block says 6 bytes, and has 5")
        self.bad(b"\5" + bytes([60 << 2]), "within a literal's length")
        self.bad(b"\5" + copy1(1, 5), "byte 1: a copy from 1 bytes back, and 0 are made")
        self.bad(b"\x09" + literal(b"hello") + copy2(0, 4), "byte 7: a copy from 0 bytes back")
        self.bad(b"\x09" + literal(b"hello") + copy4(6, 4), "byte 7: a copy from 6 bytes back, and 5 are made")
        for cut in copy1(1, 4)[:1], copy2(1, 4)[:2], copy4(1, 4)[:3]:
            self.bad(b"\x09" + literal(b"hello") + cut, "ends within a copy")

    def test_streams(self):
        self.assertEqual(checksum(b"123456789"), 0xE3069283)
        self.good(STREAM, b"")
        block = b"\x0c" + literal(b"abcd") + copy1(4, 8)
        stream = STREAM + summed(0, block, b"abcd" * 3) + summed(1, b"plain", b"plain") + summed(1, b"", b"")
        self.good(stream, b"abcd" * 3 + b"plain")
        passed_over = STREAM + chunk(0xFE, b"pad") + chunk(0x80, b"skip") + chunk(0xFD, b"")
        self.good(stream + passed_over + stream, (b"abcd" * 3 + b"plain") * 2)
        self.good(STREAM + summed(1, b"x" * 65536, b"x" * 65536), b"x" * 65536)

    def test_bad_streams(self):
        self.bad(STREAM + summed(1, b"plain", b"plane"), "byte 10: the chunk's checksum")
        self.bad(STREAM + chunk(1, b"abc"), "without its checksum")
        self.bad(STREAM + chunk(2, b"abc"), "byte 10: a chunk of kind 2")
        self.bad(STREAM + chunk(0x7F, b""), "a chunk of kind 127")
        self.bad(STREAM + chunk(0xFF, b"snappy"), "a stream's beginning")
        self.bad(STREAM + b"\1\5\0\0abcd", "a chunk of 5 bytes, and 4 are there")
        self.bad(STREAM + b"\1\5", "byte 10")
        self.bad(STREAM + summed(1, b"x" * 65537, b"x" * 65537), "above 65536")
        self.bad(STREAM + summed(0, varint(65537), b""), "above 65536")

    def test_random_damage(self):
        rng, data = random.Random(3), b"abcd" * 40
        block = varint(len(data)) + literal(b"abcd") + copy2(4, 64) + copy1(4, 11) + copy4(4, 64) + copy2(4, 17)
        for form in block, STREAM + summed(0, block, data) + chunk(0xFE, b"..") + summed(1, data, data):
            unpacked(form)
            for _ in range(2000):
                bad = bytearray(form[: rng.randrange(len(form) + 1)] if rng.random() < 0.3 else form)
                for _ in range(rng.choice([0, 1, 3])):
                    if bad:
                        bad[rng.randrange(len(bad))] = rng.randrange(256)
                try:
                    unpacked(bytes(bad))
                except Bad:
                    pass


if __name__ == "__main__":
    unittest.main()

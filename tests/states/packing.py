"""Snappy, written by hand: elements of blocks, chunks of streams, and whole files."""

STREAM = b"\xff\x06\x00\x00sNaPpY"


def varint(n):
    out = b""
    while n >= 128:
        out, n = out + bytes([n & 127 | 128]), n >> 7
    return out + bytes([n])


def literal(data, width=0):
    """A literal whose length stands in the tag (up to 60), or in `width` bytes."""
    n = len(data) - 1
    return (bytes([(59 + width) << 2]) + n.to_bytes(width, "little") if width else bytes([n << 2])) + data


def copy1(back, count):
    return bytes([back >> 8 << 5 | (count - 4) << 2 | 1, back & 255])


def copy2(back, count):
    return bytes([(count - 1) << 2 | 2]) + back.to_bytes(2, "little")


def copy4(back, count):
    return bytes([(count - 1) << 2 | 3]) + back.to_bytes(4, "little")


def crc32c(data):
    """Bit by bit, by the polynomial."""
    crc = 2**32 - 1
    for byte in data:
        crc ^= byte
        for _ in range(8):
            crc = crc >> 1 ^ 0x82F63B78 * (crc & 1)
    return crc ^ 2**32 - 1


def chunk(kind, data):
    return bytes([kind]) + len(data).to_bytes(3, "little") + data


def summed(kind, body, of):
    crc = crc32c(of)
    return chunk(kind, ((crc >> 15 | crc << 17 & 2**32 - 1) + 0xA282EAD8 & 2**32 - 1).to_bytes(4, "little") + body)


def packed(data, stream=False):
    """A block of literals, and copies of 64 where the last 64 bytes come again; or a stream of such."""
    if stream:
        parts = [data[at : at + 65536] for at in range(0, len(data), 65536)]
        return STREAM + b"".join(summed(k % 2, part if k % 2 else packed(part), part) for k, part in enumerate(parts))
    out, begin = [varint(len(data))], 0
    for at in [*range(64, len(data) - 63, 64), len(data)]:
        again = at < len(data) and data[at : at + 64] == data[at - 64 : at]
        if (again or at == len(data)) and begin < at:
            out.append(literal(data[begin:at], 4))
        if again:
            out.append(copy2(64, 64))
            begin = at + 64
    return b"".join(out)

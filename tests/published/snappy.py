"""Snappy, to be read: the block format, in which the published tests are packed, and the framing format around such blocks.

Both after google/snappy, format_description.txt and framing_format.txt. A block never begins as a stream does: read as a block,
the stream's first bytes would copy from before the beginning."""
from beacon_state.errors import Bad

STREAM = b"\xff\x06\x00\x00sNaPpY"
MOST = 2**32 - 1
CHUNK_MOST = 65536
COMPRESSED, PLAIN, SKIPPABLE, IDENTIFIER = 0x00, 0x01, 0x80, 0xFF


def unpacked(data):
    """The bytes that were packed."""
    return _stream(data) if data.startswith(STREAM) else _block(data, 0, len(data), MOST)


def _block(data, at, end, most):
    length, at = _length(data, at, end)
    if length > most:
        raise Bad(f"the block says {length} bytes, above {most}", offset=at)
    out = bytearray()
    while at < end:
        begin, tag = at, data[at]
        at += 1
        if tag & 3 == 0:
            count, at = _literal(data, tag >> 2, at, end)
            if at + count > end:
                raise Bad(f"a literal of {count} bytes, and {end - at} are there", offset=begin)
            out += data[at : at + count]
            at += count
        else:
            width = (1, 2, 4)[(tag & 3) - 1]
            if at + width > end:
                raise Bad("the block ends within a copy", offset=begin)
            back = int.from_bytes(data[at : at + width], "little")
            at += width
            if width == 1:
                back, count = (tag >> 5) << 8 | back, (tag >> 2 & 7) + 4
            else:
                count = (tag >> 2) + 1
            if not 1 <= back <= len(out):
                raise Bad(f"a copy from {back} bytes back, and {len(out)} are made", offset=begin)
            start = len(out) - back
            # a copy may reach into what it makes itself: the last `back` bytes over and over
            out += out[start : start + count] if back >= count else (out[start:] * (count // back + 1))[:count]
        if len(out) > length:
            raise Bad(f"more than the {length} bytes that the block says", offset=begin)
    if len(out) != length:
        raise Bad(f"the block says {length} bytes, and has {len(out)}", offset=end)
    return bytes(out)


def _length(data, at, end):
    """The block's length, seven bits a byte."""
    length = 0
    for k in range(5):
        if at + k >= end:
            break
        length |= (data[at + k] & 0x7F) << 7 * k
        if data[at + k] < 0x80:
            return length, at + k + 1
    raise Bad("no length at the block's beginning", offset=at)


def _literal(data, length, at, end):
    """A literal's length less 1 stands in the tag, or in the 1 to 4 bytes behind it."""
    width = max(length - 59, 0)
    if at + width > end:
        raise Bad("the block ends within a literal's length", offset=at - 1)
    return (int.from_bytes(data[at : at + width], "little") if width else length) + 1, at + width


def _stream(data):
    out, at = [], 0
    while at < len(data):
        kind, length = data[at], int.from_bytes(data[at + 1 : at + 4], "little")
        begin, at = at, at + 4
        end = at + length
        if end > len(data):
            raise Bad(f"a chunk of {length} bytes, and {max(len(data) - at, 0)} are there", offset=begin)
        if kind in (COMPRESSED, PLAIN):
            if length < 4:
                raise Bad("a chunk without its checksum", offset=begin)
            whole = data[at + 4 : end] if kind == PLAIN else _block(data, at + 4, end, CHUNK_MOST)
            if len(whole) > CHUNK_MOST:
                raise Bad(f"a chunk of {len(whole)} bytes, above {CHUNK_MOST}", offset=begin)
            if masked(checksum(whole)) != int.from_bytes(data[at : at + 4], "little"):
                raise Bad("the chunk's checksum is not that of its bytes", offset=begin)
            out.append(whole)
        elif kind == IDENTIFIER:
            if data[begin:end] != STREAM:
                raise Bad("a stream's beginning is not as it must be", offset=begin)
        elif kind < SKIPPABLE:
            raise Bad(f"a chunk of kind {kind}, which may not be skipped", offset=begin)
        at = end
    return b"".join(out)


def _table():
    for n in range(256):
        for _ in range(8):
            n = n >> 1 ^ (0x82F63B78 if n & 1 else 0)
        yield n


TABLE = tuple(_table())


def checksum(data):
    """CRC-32C."""
    crc = 0xFFFFFFFF
    for byte in data:
        crc = TABLE[(crc ^ byte) & 0xFF] ^ crc >> 8
    return crc ^ 0xFFFFFFFF


def masked(crc):
    return ((crc >> 15 | crc << 17) + 0xA282EAD8) & 0xFFFFFFFF

"""The SSZ rules: what each kind of value takes in bytes, and how a container's bytes fall into fields.

A kind has a `size` in bytes, None where it varies, and `bounded`: the bytes of it that not every number fits, as
(offset, largest, name). No list or vector of a state holds values of varying size, so that only containers have offsets."""
from .errors import Bad, counted

OFFSET = 4


class Uint:
    bounded = ()

    def __init__(self, size):
        self.size = size


class Bytes:
    bounded = ()

    def __init__(self, size):
        self.size = size


class Boolean:
    size = 1
    bounded = ((0, 1, ""),)


class Bits:
    """A vector of up to eight bits, in one byte."""

    size = 1

    def __init__(self, count):
        self.count = count
        self.bounded = ((0, 2**count - 1, ""),)


class ByteList:
    size = None
    bounded = ()

    def __init__(self, limit):
        self.limit = limit


class Vector:
    def __init__(self, of, count):
        self.of, self.count, self.size = of, count, of.size * count
        bounded = [(i, *place) for i in range(count if of.bounded else 0) for place in of.bounded]
        self.bounded = tuple((i * of.size + at, largest, f"[{i}]{name}") for i, at, largest, name in bounded)


class List:
    size = None
    bounded = ()

    def __init__(self, of, limit):
        self.of, self.limit = of, limit


class Container:
    def __init__(self, *fields):
        self.fields = dict(fields)
        self.fixed = sum(OFFSET if kind.size is None else kind.size for kind in self.fields.values())
        self.size = None if any(kind.size is None for kind in self.fields.values()) else self.fixed
        self.bounded = tuple(
            (at + inner, largest, f".{name}{rest}")
            for name, at in self.places().items()
            for inner, largest, rest in self.fields[name].bounded
        )

    def places(self):
        """Where each field, or its offset, stands in the fixed part."""
        places, at = {}, 0
        for name, kind in self.fields.items():
            places[name] = at
            at += OFFSET if kind.size is None else kind.size
        return places


def split(container, data, start, end, field=""):
    """The bytes of each field: name -> (begin, end) in data."""
    named = f"{field}." if field else ""
    spans, variable = {}, []
    for name, at in container.places().items():
        kind, begin = container.fields[name], start + at
        stop = begin + (OFFSET if kind.size is None else kind.size)
        if stop > end:
            raise Bad(f"bytes {begin} to {stop - 1} are wanted, and {counted(end, 'byte')} are there", named + name, end)
        spans[name] = (begin, stop)
        if kind.size is None:
            variable.append((name, begin, start + int.from_bytes(data[begin:stop], "little")))
    wanted = start + container.fixed
    for k, (name, at, begin) in enumerate(variable):
        if k == 0 and begin != wanted:
            raise Bad(f"the offset is {begin - start}, and the fixed part has {container.fixed} bytes", named + name, at)
        if begin < wanted:
            raise Bad(f"the offset {begin - start} is below the one before it, {wanted - start}", named + name, at)
        if begin > end:
            raise Bad(f"the offset is {begin - start}, and {counted(end - start, 'byte')} are there", named + name, at)
        wanted = begin
        if k > 0:
            spans[variable[k - 1][0]] = (variable[k - 1][2], begin)
    if variable:
        spans[variable[-1][0]] = (variable[-1][2], end)
    elif start + container.fixed != end:
        raise Bad(f"{counted(end - start, 'byte')} are there, and {container.fixed} are wanted", field, end)
    return spans


def check(kind, data, start, end, field):
    """Refuses bytes that are no value of the kind; start to end is as long as its size where that is fixed."""
    if isinstance(kind, Container) and kind.size is None:
        for name, (begin, stop) in split(kind, data, start, end, field).items():
            check(kind.fields[name], data, begin, stop, f"{field}.{name}" if field else name)
        return
    if isinstance(kind, ByteList) and end - start > kind.limit:
        raise Bad(f"{end - start} bytes, and at most {kind.limit} are allowed", field, start)
    if isinstance(kind, List):
        count, rest = divmod(end - start, kind.of.size)
        if rest:
            raise Bad(f"{end - start} bytes are no whole number of entries of {kind.of.size}", field, start + count * kind.of.size)
        if count > kind.limit:
            raise Bad(f"{count} entries, and at most {kind.limit} are allowed", field, start)
        for at, largest, name in kind.of.bounded:
            column = data[start + at : end : kind.of.size]
            if column and max(column) > largest:
                i = next(i for i, byte in enumerate(column) if byte > largest)
                out_of_range(column[i], largest, f"{field}[{i}]{name}", start + at + i * kind.of.size)
    for at, largest, name in kind.bounded:
        if data[start + at] > largest:
            out_of_range(data[start + at], largest, field + name, start + at)


def out_of_range(byte, largest, field, offset):
    raise Bad(f"{byte}, and at most {largest} is allowed", field, offset)

"""The kinds of argument: what each one takes from Python, and the words that C gets for it; and the values of a struct.

A kind has `words`, the ctypes of what C takes, and `lend(name, value, lent)`, which checks the value and gives those words; the
buffers among them join the dictionary `lent` under the argument's name. What is wrong is told with the argument's name.
"""
import ctypes
import functools
import operator
import struct
import typing
from array import array

from . import _buffers, _types

U64 = ctypes.c_uint64
LARGEST = 2**64 - 1


def kind_of(value):
    return f"{type(value).__module__}.{type(value).__name__}".replace("builtins.", "")


def told(number):
    return str(number) if -(2**80) < number < 2**80 else f"one of {number.bit_length()} bits"


def number(name, value, largest=LARGEST):
    """An int, or what stands for one (as numpy's), from 0 to the largest."""
    if type(value) is not int:
        try:
            if isinstance(value, bool):
                raise TypeError
            value = operator.index(value)
        except TypeError:
            raise TypeError(f"{name}: a whole number is wanted, not {kind_of(value)}") from None
    if not 0 <= value <= largest:
        bound = "2^64 - 1" if largest == LARGEST else largest
        raise ValueError(f"{name}: a number from 0 to {bound} is wanted, not {told(value)}")
    return value


def numbers(name, value):
    """A list's or tuple's numbers, in an array of their own."""
    if set(map(type, value)) <= {int}:
        try:
            return array("Q", value)
        except OverflowError:
            pass
    return array("Q", [number(f"{name}[{i}]", item) for i, item in enumerate(value)])


def view_of(name, value, wanted):
    try:
        view = memoryview(value)
    except TypeError:
        raise TypeError(f"{name}: {wanted} is wanted, not {kind_of(value)}") from None
    except (ValueError, BufferError) as error:
        raise ValueError(f"{name}: {wanted} is wanted, not this {kind_of(value)}: {error}") from None
    if not view.c_contiguous:
        raise ValueError(f"{name}: {wanted} is wanted, and this {kind_of(value)} is not C-contiguous")
    return view


class Number:
    """A number by itself, or of a struct."""

    format = "Q"

    def __init__(self, largest=LARGEST, word=U64):
        self.largest, self.words = largest, (word,)

    def lend(self, name, value, lent):
        return (number(name, value, self.largest),)

    def flat(self, name, value):
        return [number(name, value)]

    def build(self, parts):
        return next(parts)


NUMBER, FLAGS = Number(), Number(255, ctypes.c_uint8)


class Buffer:
    """A C-contiguous buffer, lent as it stands: a pointer, and how many elements."""

    words = (ctypes.c_void_p, ctypes.c_size_t)
    format, size, wanted, or_else = "", 0, "", ""

    def __init__(self, row=None, written=None, blank=False, scratch=False):
        """row: how many elements a row of a 2-D buffer has. written: how long one is made where None is given, from `lent`. blank: it is
        made of zeros, since an accepted call need not fill all of it. scratch: C works in it, and it does not come back."""
        self.row, self.written, self.blank, self.scratch = row, written, blank, scratch

    def checked(self, name, value, written):
        wanted = self.wanted if written else self.or_else + self.wanted
        view = view_of(name, value, wanted)
        format = view.format.lstrip("@=<")
        if view.itemsize != self.size or len(format) != 1 or format not in self.format:
            found = f"{kind_of(value)} of format {view.format!r} with {view.itemsize} bytes an element"
            raise TypeError(f"{name}: {wanted} is wanted, not {found}")
        if view.ndim > 1 and (self.row is None or view.ndim > 2 or view.shape[1] != self.row):
            rows = "has one dimension" if self.row is None else f"with two dimensions has {self.row} elements a row"
            raise ValueError(f"{name}: one that {rows} is wanted, not one of shape {tuple(view.shape)}")
        if written and view.readonly:
            raise TypeError(f"{name}: it is written, and it is read-only")
        lent = _buffers.Lent(name, value, view, written)
        if lent.address % self.size:
            raise ValueError(f"{name}: its numbers do not begin at a multiple of {self.size} bytes in memory")
        return lent

    def made(self, name, value):
        return value

    def lend(self, name, value, lent):
        if self.written:
            if value is None:
                value = (_buffers.zeros if self.blank else _buffers.fresh)(self.written(lent), self.size)
            found = self.checked(f"out ({name})", value, True)
        else:
            found = self.checked(name, self.made(name, value), False)
        lent[name] = found
        return found.address, found.count


class Numbers(Buffer):
    """64-bit numbers: any buffer of them, or a list or tuple, which is copied."""

    format, size, wanted, or_else = "QLN", 8, "a C-contiguous buffer of 64-bit unsigned numbers", "a list or "

    def made(self, name, value):
        return numbers(name, value) if isinstance(value, (list, tuple)) else value


class Bytes(Buffer):
    format, size, wanted = "Bc", 1, "a C-contiguous buffer of bytes"


class Changed(Numbers):
    """Numbers that C changes in place: the numbers before, and None or the buffer for those after. C is handed that buffer only
    where it is the one before; else a copy, so that a refused call has written nothing."""

    def lend(self, name, value, lent):
        before, out = value
        before = self.checked(name, self.made(name, before), False)
        after = None if out is None else self.checked("out", out, True)
        if after is not None and after.count != before.count:
            raise ValueError(f"out: as many numbers as {name} has, {before.count}, are wanted, not {after.count}")
        if after is not None and after.address == before.address:
            found = after
        else:
            found = before.copied()
            found.target = after
        lent[name] = found
        return found.address, found.count


class Kept(Numbers):
    """Numbers that the caller holds from call to call, and C changes there: never a list, of which C would change a copy."""

    def __init__(self, row=None):
        super().__init__(row=row, written=held_by_the_caller)


def held_by_the_caller(lent):
    raise TypeError("out: a buffer that stays from call to call is wanted, not None")


def as_long_as(other):
    """For a buffer that is written: as many elements as another argument has."""
    return lambda lent: lent[other].count


class Store:
    """A store, or Rules or Settings, which are a store of one entry that starts at epoch 0: its numbers, and how many entries are in use."""

    words = (*Buffer.words, U64)

    def __init__(self, changed):
        self.changed = changed  # C adds to a copy, which comes back
        self.numbers = (Changed if changed else Numbers)(row=_types.ENTRY_LENGTH)

    def lend(self, name, value, lent):
        alone = isinstance(value, (_types.Rules, _types.Settings))
        if alone and not self.changed:
            value = [_types.entry_numbers(0, struct_of(_types.Rules).checked(name, value)), 1]
        wanted = "a Store is wanted" if self.changed else "a Store, Rules or Settings are wanted"
        if alone and self.changed or not isinstance(value, (tuple, list)) or len(value) != 2:
            raise TypeError(f"{name}: {wanted}, not {kind_of(value)}")
        if hasattr(value, "_fields") and not isinstance(value, _types.Store):
            raise TypeError(f"{name}: {wanted}, not {kind_of(value)}")
        count = number(f"{name}.count", value[1])
        return (*self.numbers.lend(name, (value[0], None) if self.changed else value[0], lent), count)


# By value: the parts of a struct, each with its format and what it takes and gives


def words_of(size):
    """A struct of 64-bit words, as C has it."""
    return type(f"Words{size}", (ctypes.Structure,), {"_fields_": [(f"word{i}", U64) for i in range(size // 8)]})


class Part:
    """A value of a struct: `flat` checks it and gives what is packed, `build` takes as much from what was unpacked."""

    def __init__(self, format, flat, build=lambda value: value):
        self.format, self.flat, self._build = format, lambda name, value: [flat(name, value)], build

    def build(self, parts):
        return self._build(next(parts))


def truth(name, value):
    if not isinstance(value, (bool, int)):
        raise TypeError(f"{name}: True or False is wanted, not {kind_of(value)}")
    return int(bool(value))


def signed(name, value):
    """An int of 64 bits with its sign."""
    if type(value) is int and not -(2**63) <= value < 2**63:
        raise ValueError(f"{name}: a number from -2^63 to 2^63 - 1 is wanted, not {told(value)}")
    return value if type(value) is int else number(name, value)


class Octets:
    """So many bytes."""

    def __init__(self, count):
        self.count, self.format = count, f"{count}s"

    def flat(self, name, value):
        lent = Bytes().checked(name, value, False)
        if lent.count != self.count:
            raise ValueError(f"{name}: {self.count} bytes are wanted, not {lent.count}")
        return [bytes(lent.view)]

    def build(self, parts):
        return next(parts)


class Several:
    """So many numbers, a tuple of them."""

    def __init__(self, count):
        self.count, self.format = count, f"{count}Q"

    def flat(self, name, value):
        if not isinstance(value, (tuple, list)) or len(value) != self.count:
            raise TypeError(f"{name}: a tuple of {self.count} numbers is wanted, not {kind_of(value)}")
        return [number(f"{name}[{place}]", item) for place, item in enumerate(value)]

    def build(self, parts):
        return tuple(next(parts) for _ in range(self.count))


TRUTH, SIGNED, ROOT = Part("Q", truth, lambda n: n == 1), Part("q", signed), Octets(32)


class Row:
    """Values one behind another."""

    def __init__(self, parts):
        self.parts, self.format = parts, "".join(part.format for part in parts)

    def build(self, parts):
        return [part.build(parts) for part in self.parts]


def part_of(hint):
    """What a field's hint says: a number, a truth, a root, several numbers, or a named tuple."""
    if getattr(hint, "__origin__", None) is tuple:
        return Several(len(hint.__args__))
    return {int: NUMBER, bool: TRUTH, bytes: ROOT}.get(hint) or struct_of(hint)


class Struct(Row):
    """A named tuple that C has as a struct of 64-bit numbers and roots: its fields by their hints, or as they are named here."""

    def __init__(self, given, named):
        self.given = given
        hints = typing.get_type_hints(given)
        super().__init__([named.get(field) or part_of(hints[field]) for field in given._fields])
        self.words = (words_of(struct.calcsize("<" + self.format)),)

    def checked(self, name, value):
        if not isinstance(value, self.given) or len(value) != len(self.given._fields):
            raise TypeError(f"{name}: {self.given.__name__} is wanted, not {kind_of(value)}")
        return value

    def flat(self, name, value):
        value = self.checked(name, value)
        return [item for field, part, inner in zip(value._fields, self.parts, value) for item in part.flat(f"{name}.{field}", inner)]

    def lend(self, name, value, lent):
        return (self.words[0].from_buffer_copy(struct.pack("<" + self.format, *self.flat(name, value))),)

    def build(self, parts):
        return self.given(*super().build(parts))


class Rules(Struct):
    """Rules, or Settings, which are closed as Altair."""

    def checked(self, name, value):
        if isinstance(value, _types.Settings):
            value = _types.Rules(value)
        if not isinstance(value, _types.Rules) or len(value) != len(_types.Rules._fields):
            raise TypeError(f"{name}: Rules or Settings are wanted, not {kind_of(value)}")
        self.parts[0].flat(f"{name}.settings", value.settings)
        number(f"{name}.fork", value.fork)
        self.parts[2].flat(f"{name}.bellatrix", value.bellatrix)
        return value


@functools.lru_cache(maxsize=None)
def struct_of(given, **named):
    """The struct of a named tuple, one for each."""
    return (Rules if given is _types.Rules else Struct)(given, named)


STORE, CHANGED_STORE = Store(False), Store(True)

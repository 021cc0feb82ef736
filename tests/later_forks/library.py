"""The library's calls, by ctypes alone: structs of 64-bit words by value, and buffers with a word behind each that must stay."""
import ctypes
import os
from array import array
from pathlib import Path

from .calls import CALLS

BY_VALUE = {"rules", "finality", "queue", "churn", "numbers"}
BEHIND = 0x5AFE5AFE5AFE5AFE
U64 = ctypes.c_uint64


def words(count):
    return type(f"Words{count}", (ctypes.Structure,), {"_fields_": [("words", U64 * count)]})


class Library:
    def __init__(self, path):
        self.library, self.functions, self.structs = ctypes.CDLL(str(path)), {}, {count: words(count) for count in range(2, 40)}

    def has(self, name):
        return hasattr(self.library, name)

    def function(self, name):
        if name not in self.functions:
            found = self.library[name]
            found.restype = U64 if CALLS[name].answer == 1 else self.structs[CALLS[name].answer]
            self.functions[name] = found
        return self.functions[name]

    def said(self, call):
        """The numbers of the answer, and what the closing buffers then hold; what is only read must stay as it was."""
        name, made, lent, values = call["name"], CALLS[call["name"]], {}, []
        for argument in made.arguments:
            value = call[argument]
            if isinstance(value, int):
                values.append(U64(value))
            elif argument in BY_VALUE:
                struct = self.structs[len(value)]
                values.append(struct((U64 * len(value))(*value)))
            elif isinstance(value, bytes):
                buffer = lent[argument] = bytearray(value + BEHIND.to_bytes(8, "little"))
                values += [ctypes.byref((ctypes.c_uint8 * len(buffer)).from_buffer(buffer)), ctypes.c_size_t(len(value))]
            else:
                buffer = lent[argument] = array("Q", [*value, BEHIND])
                values += [ctypes.c_void_p(buffer.buffer_info()[0]), ctypes.c_size_t(len(value))]
        answer = self.function(name)(*values)
        after = {}
        for argument, buffer in lent.items():
            if isinstance(buffer, bytearray):
                whole, before = bytes(buffer), call[argument] + BEHIND.to_bytes(8, "little")
            else:
                whole, before = buffer.tolist(), [*call[argument], BEHIND]
            if argument in made.closings:
                after[argument] = whole[:-1]
            if argument not in made.closings and argument != "places" and whole != before or whole[-1] != before[-1]:
                raise AssertionError(f"{name} wrote into {argument}, or behind it")
        return [answer] if isinstance(answer, int) else list(answer.words), after


def opened(root):
    """The library that ALTAIR_LIBRARY names, else the one that make has built; None where there is none."""
    path = Path(os.environ.get("ALTAIR_LIBRARY") or root / "target/altair/libaltair.so")
    return Library(path.resolve()) if path.is_file() else None

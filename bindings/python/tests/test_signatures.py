"""The table of signatures is the header's: the same functions, arguments and answers, and every public function says its types."""
import ctypes
import inspect
import re
import typing
import unittest
from pathlib import Path

import altair_close
from altair_close import _library, _signatures

HEADER = Path(__file__).resolve().parents[2] / "c/altair.h"
SIZES = {"uint64_t": 8, "int64_t": 8, "uint8_t": 1, "size_t": 8}


def text():
    return re.sub(r"/\*.*?\*/|^#.*?[^\\]$", "", HEADER.read_text(), flags=re.S | re.M)


def declared():
    """The functions of the header: name in C, answer, and the types of the arguments; those of plain C are left out."""
    for answer, name, arguments in re.findall(r"^(\w+) (\w+)\(([^)]*)\);", text(), flags=re.M):
        if not name.startswith(("altair_checked_", "altair_why_", "altair_under_", "altair_put_")):
            words = [" ".join(word.split()) for word in arguments.split(",") if word.strip() != "void"]
            yield name, answer, [re.fullmatch(r"(.*?)\w+", word)[1].strip() for word in words]


def size(kind, structs):
    """The bytes of a type of the header."""
    if kind.endswith("*") or kind in SIZES:
        return SIZES.get(kind, 8)
    parts = re.findall(r"(\w+) \w+(?:\[(\d+)\])?;", structs[kind])
    return sum(size(part, structs) * int(count or 1) for part, count in parts)


class Table(unittest.TestCase):
    def test_it_is_the_headers(self):
        structs = dict(re.findall(r"typedef struct (\w+) \{(.*?)\}", text(), flags=re.S))
        found = {name: (answer, arguments) for name, answer, arguments in declared()}
        self.assertGreaterEqual(len(found), 61)
        self.assertEqual(list(found), [_library.symbol(name) for name in _signatures.SIGNATURES])
        for name, signature in _signatures.SIGNATURES.items():
            answer, arguments = found[_library.symbol(name)]
            self.assertEqual(ctypes.sizeof(signature.answer.kind), size(answer, structs), name)
            self.assertEqual([ctypes.sizeof(word) for word in signature.words], [size(kind, structs) for kind in arguments], name)

    def test_each_has_a_function_with_its_arguments(self):
        for name, signature in _signatures.SIGNATURES.items():
            function = getattr(altair_close, name)
            parameters = [parameter for parameter in inspect.signature(function).parameters if parameter != "out"]
            self.assertTrue(function.__doc__, name)
            handed_in = [argument for argument, kind in signature.arguments.items() if not getattr(kind, "written", None)]
            kept = list(signature.arguments) if name in ("take_order", "carry_out") else handed_in
            self.assertEqual(parameters, kept, name)

    def test_nothing_else_is_handed_on(self):
        self.assertEqual({name for name in vars(altair_close) if name in ("Tuple", "NamedTuple", "Any", "Read", "FullValues", "lengths", "call")}, set())

    def test_every_public_function_has_hints(self):
        for name, value in vars(altair_close).items():
            for function in [value] if inspect.isfunction(value) else vars(value).values() if inspect.isclass(value) else []:
                if inspect.isfunction(function) and function.__module__.startswith("altair_close") and "namedtuple" not in function.__module__:
                    self.assertIn("return", typing.get_type_hints(function), f"{name} {function}")


if __name__ == "__main__":
    unittest.main()

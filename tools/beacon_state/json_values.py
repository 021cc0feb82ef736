"""The values of a state in JSON as the Beacon API prints them: numbers in quotes, bytes in hexadecimal behind 0x."""
import re

from .errors import counted
from .ssz import Bits, Boolean, ByteList, Bytes, Container, List, Uint, Vector
from .window import Number

HEXADECIMAL = re.compile("0x(?:[0-9a-fA-F]{2})*").fullmatch
DIGITS = re.compile("0|[1-9][0-9]{0,77}").fullmatch


class Wrong(Exception):
    """A value that is not of its kind: what is wrong, and where inside it."""

    def __init__(self, what, path=""):
        self.what, self.path = what, path


def parser(kind):
    """The function from JSON values to values of a kind: int, bytes, or a list. Objects come to it as tuples of pairs."""
    if isinstance(kind, Uint):
        return uint(8 * kind.size)
    if isinstance(kind, Boolean):
        return boolean
    if isinstance(kind, (Bytes, Bits)):
        return octets(kind.size, kind.size, kind.bounded)
    if isinstance(kind, ByteList):
        return octets(0, kind.limit, ())
    return container(kind) if isinstance(kind, Container) else entries(kind)


def uint(bits):
    most = 2**bits

    def parse(value):
        if not isinstance(value, str) or not DIGITS(value) or (number := int(value)) >= most:
            raise Wrong(f"a number below 2^{bits} in quotes is wanted, not {shown(value)}")
        return number

    return parse


def boolean(value):
    if not isinstance(value, bool):
        raise Wrong(f"true or false is wanted, not {shown(value)}")
    return int(value)


def octets(least, most, bounded):
    def parse(value):
        if not isinstance(value, str) or not HEXADECIMAL(value) or not least <= len(value) // 2 - 1 <= most:
            wanted = counted(most, "byte") if least == most else f"at most {counted(most, 'byte')}"
            raise Wrong(f"0x and {wanted} in hexadecimal are wanted, not {shown(value)}")
        made = bytes.fromhex(value[2:])
        for at, largest, _ in bounded:
            if made[at] > largest:
                raise Wrong(f"{made[at]}, and at most {largest} is allowed")
        return made

    return parse


def entries(kind):
    entry = parser(kind.of)

    def parse(value):
        if not isinstance(value, list):
            raise Wrong(f"a list is wanted, not {shown(value)}")
        test_count(kind, len(value))
        made = []
        try:
            for one in value:
                made.append(entry(one))
        except Wrong as wrong:
            raise Wrong(wrong.what, f"[{len(made)}]{wrong.path}") from None
        return made

    return parse


def container(kind):
    parsers = {name: parser(of) for name, of in kind.fields.items()}

    def parse(value):
        if not isinstance(value, tuple):
            raise Wrong(f"an object is wanted, not {shown(value)}")
        given = dict(value)
        if len(given) != len(value) or given.keys() != parsers.keys():
            test_names([name for name, _ in value], parsers)
        made = []
        try:
            for name, parse_field in parsers.items():
                made.append(parse_field(given[name]))
        except Wrong as wrong:
            raise Wrong(wrong.what, f".{name}{wrong.path}") from None
        return made

    return parse


def test_count(kind, count):
    if isinstance(kind, Vector) and count != kind.count:
        raise Wrong(f"{counted(count, 'entry')}, and {kind.count} are wanted")
    if isinstance(kind, List) and count > kind.limit:
        raise Wrong(f"{counted(count, 'entry')}, and at most {kind.limit} are allowed")


def test_names(given, wanted):
    for name in given:
        if name not in wanted:
            raise Wrong(f"the name {shown(name)} is not known here")
        if given.count(name) > 1:
            raise Wrong(f"the name {name} stands there twice")
    raise Wrong(f"{', '.join(name for name in wanted if name not in given)} missing")


def shown(value):
    """A JSON value as a message shows it."""
    if isinstance(value, (list, tuple)):
        return "a list" if isinstance(value, list) else "an object"
    if isinstance(value, str):
        return repr(value[:60]) + (".." if len(value) > 60 else "")
    return value.text[:60] if isinstance(value, Number) else {True: "true", False: "false", None: "null"}[value]

"""A call of the library: what it is lent is checked, C is called, and what it answers is given. _calls.py has the table."""
import struct
from typing import Any, Callable, Dict, TypeVar

from . import _arguments, _buffers, _library
from ._arguments import TRUTH, U64, struct_of, words_of
from ._refusals import Fault, Refused
from ._types import ExitQueue, Read, Running, Told
from ._words import VERSION

SIGNATURES: Dict[str, Any] = {}
PROMISES: Dict[str, str] = {}
_Function = TypeVar("_Function", bound=Callable[..., Any])


def promised(function: _Function) -> _Function:
    """A function that is written by hand over a call of its name: the words of the call, and then what is its own."""
    function.__doc__ = f"{PROMISES[function.__name__]}\n\n    {function.__doc__ or ''}"
    return function


class Answer:
    """A struct whose first number is the refusal, and what is given for the rest of it."""

    def __init__(self, part):
        self.part, self.format = part, "<Q" + part.format
        self.kind = words_of(struct.calcsize(self.format))

    def read(self, answer):
        """The refusal, and what is given."""
        refusal, *parts = struct.unpack(self.format, bytes(answer))
        return refusal, None if refusal else self.part.build(iter(parts))

    def position(self, answer):
        """Where the reading of a file stopped: what stands behind the refusal."""
        return answer.word1 if isinstance(self.part, _arguments.Struct) and self.part.given is Read else None


class Code:
    """A number alone: the refusal, or of a function that refuses nothing what it answers."""

    kind = U64

    def __init__(self, itself):
        self.itself = itself

    def read(self, answer):
        return (0, answer) if self.itself else (answer, None)

    def position(self, answer):
        return None


class ToldAnswer(Answer):
    """A refusal is told, and not raised: the close as it is now comes with it."""

    def __init__(self):
        super().__init__(_arguments.Row([TRUTH, struct_of(Running)]))

    def read(self, answer):
        refusal, *parts = struct.unpack(self.format, bytes(answer))
        return 0, Told(refusal, *self.part.build(iter(parts)))


ITSELF, CODE, TOLD = Code(True), Code(False), ToldAnswer()


class Signature:
    def __init__(self, answer, given=None, **arguments):
        self.answer, self.given, self.arguments = answer, given, arguments
        self.words = [word for kind in arguments.values() for word in kind.words]


_functions: Dict[str, Any] = {}


def function(name):
    """The C function, from the library that is opened at the first call."""
    if not _functions:
        _functions.update(_library.opened(SIGNATURES, VERSION))
    return _functions[name]


def lend(name, values, lent):
    """C's words for the values, in their order; the buffers among them join `lent`, what is read before what is written, whose length it says."""
    arguments, words = SIGNATURES[name].arguments, {}
    handed = dict(zip(arguments, values))
    for argument in sorted(handed, key=lambda argument: getattr(arguments[argument], "written", None) is not None):
        words[argument] = arguments[argument].lend(argument, handed[argument], lent)
    _buffers.apart(lent.values())
    return [word for argument in arguments for word in words[argument]]


def buffers(out, *names):
    if not isinstance(out, (tuple, list)) or len(out) != len(names):
        raise TypeError(f"out: {len(names)} buffers are wanted, for {', '.join(names)}")
    return out


def pair_of(queue, registry):
    """The exit queue's pair, or where None is given the registry's; of one that the call itself will refuse, any."""
    if queue is not None:
        return queue
    try:
        return call("exit_queue", registry)
    except (Refused, TypeError, ValueError):
        return ExitQueue(0, 0)


def fault(name, words):
    """Why a call with these words is refused with 1."""
    said = function("why_" + name)(*words)
    return Fault(said.argument.decode(), said.wanted.decode(), said.number) if said.argument else None


def refused(name, words, number, answer):
    return Refused(number, SIGNATURES[name].answer.position(answer), fault=fault(name, words) if number == 1 else None)


def call(name, *values):
    """Calls the function: the values are checked and lent, and what C answers is given, or Refused where its number is not 0."""
    lent, signature = {}, SIGNATURES[name]
    words = lend(name, values, lent)
    answer = function(name)(*words)
    refusal, given = signature.answer.read(answer)
    if refusal != 0:
        raise refused(name, words, refusal, answer)
    written = [lent[argument] for argument, kind in signature.arguments.items()
               if argument in lent and lent[argument].written and not getattr(kind, "scratch", False)]
    for buffer in written:
        buffer.settle()
    written = [buffer.value for buffer in written]
    if signature.given:
        return signature.given(given, *written)
    if signature.answer is TOLD or not written:
        return given
    values = written if signature.answer is CODE else [*written, given]
    return values[0] if len(values) == 1 else tuple(values)

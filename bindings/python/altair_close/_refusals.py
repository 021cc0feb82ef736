"""Why a call was refused."""
from typing import Any, NamedTuple, Optional

from ._words import REFUSALS


class Fault(NamedTuple):
    """What was wrong where a call is refused with 1: the argument, words for what is called for, and the number or length."""

    argument: str
    wanted: str
    number: int


class Refused(Exception):
    """A refused call: its number; where that is 1 the fault, and of a file where reading stopped and the field that is at fault, where one
    is."""

    def __init__(self, number: int, position: Optional[int] = None, field: Optional[str] = None, fault: Optional[Fault] = None) -> None:
        where = "" if position is None else f", at byte {position}"
        what = "" if field is None else f": {field}"
        why = "" if fault is None or field is not None else f": {fault.argument}: {fault.wanted} ({fault.number})"
        super().__init__(f"refused {number}: {REFUSALS.get(number, 'a number that this version does not know')}{where}{what}{why}")
        self.number, self.position, self.field, self.fault = number, position, field, fault

    def __reduce__(self) -> Any:
        return Refused, (self.number, self.position, self.field, self.fault)

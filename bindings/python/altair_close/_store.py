"""Settings by starting epoch: entries added to a store."""
from array import array
from typing import Any, Optional, Sequence, Tuple, Union

from ._refusals import Refused
from ._signatures import call, promised
from ._types import ENTRY_LENGTH, FAR_FUTURE_EPOCH, Rules, Settings, Store, held


@promised
def add_rules(store: Store, start: int, rules: Union[Rules, Settings]) -> Store:
    """It gives a Store of its own, and what is handed in stays. A store without room behind the entries in use is refused with 1."""
    return Store(*call("add_rules", store, start, rules))


def with_room(store: Store) -> Store:
    """The store with room for one entry more."""
    return Store(held(store.used()) + array("Q", bytes(8 * ENTRY_LENGTH)), store.count)


def _good(numbers: "array[int]", count: int) -> int:
    """How many of the entries, from the first on, the library takes as a store."""
    low, high = 0, count
    while low < high:
        middle = high if low == 0 and high == count else (low + high + 1) // 2
        try:
            call("read_rules", Store(numbers[: ENTRY_LENGTH * middle], middle), FAR_FUTURE_EPOCH)
            low = middle
        except Refused:
            high = middle - 1
    return low


def added(entries: Sequence[Any]) -> Tuple[Store, Optional[Refused]]:
    """The store of as many of the entries as can be added one behind another, and the Refused of the next one, or None. To add an entry takes
    a time that grows with the store: so they are tested alone and then all together."""
    numbers = array("Q")
    for place, entry in enumerate(entries):
        if not isinstance(entry, (tuple, list)) or len(entry) != 2:
            raise TypeError(f"entries[{place}]: a start and Rules or Settings are wanted, not {type(entry).__name__}")
        try:
            numbers.extend(add_rules(with_room(Store()), *entry).numbers)
        except Refused:
            break
    count = _good(numbers, len(numbers) // ENTRY_LENGTH)
    store = Store(numbers[: ENTRY_LENGTH * count], count)
    if count == len(entries):
        return store, None
    try:
        raise AssertionError(f"entry {count} was refused among others and is taken alone: {store.adding(*entries[count])}")
    except Refused as refused:
        return store, refused

"""What a user's type checker must accept, and below `wrong` what it must refuse: tests/run hands this file to mypy, which counts."""
from array import array
from typing import List, Optional, Tuple, Union

import altair_close
from altair_close import Closed, Desk, ExitQueue, Fault, Finality, Record, Refused, Rules, Settings, Store, Total

settings: Settings = altair_close.MAINNET._replace(slots_per_epoch=8)
registry = array("Q", [0] * 10)
epoch: int = altair_close.get_current_epoch(settings, 127)
active: bool = altair_close.is_active_validator(registry, epoch)
total: Total = altair_close.get_total_active_balance(settings, 127, registry)
root: bytes = altair_close.get_block_root(settings, bytes(32), 127, 2)
finality: Finality = altair_close.weigh_justification_and_finalization(settings, bytes(32), Finality(127), 3, 2, 1)
pair: ExitQueue = altair_close.process_registry_updates(settings, 127, 1, None, registry).queue
store: Store = Store.of((0, settings), (3, Rules(settings)))
closed: Closed = altair_close.close(store, finality, None, registry, [0], b"")
record = Record(settings, finality, registry, [0], b"")
after: Record = record.close(store=store)
net: int = next(closed.booked()).net
lines: List[str] = list(record.listing(after))
desk = Desk(record, settings, room=2)
answers: List[int] = desk.carry_out(256)
ended: Optional[Closed] = desk.closed()
files: List[Union[bytes, Refused]] = altair_close.close_files([b""])
fault: Optional[Fault] = Refused(1).fault
seconds: Tuple[int, bool] = (altair_close.slot_at_time(altair_close.MAINNET_CLOCK, 1606824023), False)

# wrong
altair_close.get_current_epoch(settings, "127")
altair_close.get_current_epoch((32, 8192), 127)
altair_close.is_active_validator(registry)
altair_close.process_registry_updates(settings, 127, 1, (0, 0), registry)
flag: str = altair_close.has_flag(7, 1)
altair_close.close(settings, 127, None, registry, [0], b"")
Desk(record, settings, "2")
Store.of(3)
record.listing(3)
altair_close.MAINNET.slots_per_epoc

"""A state as a node serves it, in whichever form, or a record file."""
from . import record_file, state_json
from .files import whole
from .state_ssz import State


def is_json(head):
    """A state's SSZ begins with genesis_time, which has a byte 0 among its eight; JSON has none."""
    return head.lstrip(b" \t\n\r").startswith(b"{") and 0 not in head


def is_record(head):
    """A record file begins with its version, 1 or 2; a state's genesis_time is a second of our time."""
    return int.from_bytes(head, "little") in record_file.VERSIONS


def beginning(file):
    head = file.read(8)
    file.seek(0)
    return head


def state_of(file, settings, fork=None):
    """A State, or where the file is JSON a Read: both have fork, record, number, keys, credentials and queues."""
    if is_json(beginning(file)):
        return state_json.Read(file, settings, fork)
    return State(whole(file), settings, fork)

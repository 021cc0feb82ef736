"""A record as a readable text, JSON, and its file: `write` makes the file of a text, `show` the text of a file.

The text has the keys settings, slot, justification_bits, previous_justified_checkpoint, current_justified_checkpoint,
finalized_checkpoint, exit_queue, validators, block_roots and slashings. Numbers are 0 to 2^64 - 1, "far" stands for 2^64 - 1, roots
are 64 hexadecimal digits. `block_roots` and `slashings` may be left out, or hold fewer than the settings ask for: the rest is zeros.
`exit_queue` has the keys last_epoch and number; where it is left out, it is that of the validators.

The text of an Electra or Fulu record has besides deposit_balance_to_consume, exit_balance_to_consume, earliest_exit_epoch,
eth1_deposit_index, deposit_requests_start_index, pending_deposits (each with pubkey, a number: the validator's whose key it is, or for a
key that none has one from the number of validators on; compounding, amount, slot and valid) and pending_consolidations (source_index
and target_index); each validator has compounding, and the settings Bellatrix's pair and Electra's five. Its file has Electra's part
behind the record."""
import json
import re
import struct

from . import _electra_file, _layout
from ._electra_file import CONSOLIDATION, DEPOSIT
from ._errors import Bad
from ._layout import CHECKPOINTS, VALIDATOR
from ._types import FAR_FUTURE_EPOCH, VALIDATOR_LENGTH, ExitQueue, Settings

NAMES = ("settings", "slot", "justification_bits", *CHECKPOINTS, "exit_queue", "validators", "block_roots", "slashings")
MAY_MISS = ("exit_queue", "block_roots", "slashings")
ELECTRA_NAMES = (*sorted(_electra_file.NUMBERS), "pending_deposits", "pending_consolidations")
ROOT = re.compile("(?:0x)?([0-9a-fA-F]{64})")


class _Digits(str):
    """A number that is not one from 0 to 2^64 - 1, as it is written."""


class _Object(dict):
    """An object of the text, and the first key that stands in it twice."""

    def __init__(self, pairs):
        super().__init__(pairs)
        seen = set()
        self.twice = next((key for key, _ in pairs if key in seen or seen.add(key)), None)


def _number(digits):
    return int(digits) if len(digits) <= 20 and int(digits) in range(2**64) and digits != "-0" else _Digits(digits)


def _told(value):
    if isinstance(value, _Digits):
        return value if len(value) <= 40 else f"{value[:20]}.. of {len(value)} digits"
    if isinstance(value, str):
        return json.dumps(value if len(value) <= 80 else value[:40] + "..")
    names = {dict: "an object", list: "a list", bool: "true or false", type(None): "null"}
    return next((name for kind, name in names.items() if isinstance(value, kind)), str(value))


def _parsed(text):
    try:
        return json.loads(text, object_pairs_hook=_Object, parse_int=_number, parse_float=_Digits, parse_constant=_Digits)
    except ValueError as error:
        raise Bad(f"not JSON: {error}") from None
    except RecursionError:
        raise Bad("lists or objects stand in one another too deeply") from None


def _number_of(value, where):
    if value == "far" and not isinstance(value, _Digits):
        return FAR_FUTURE_EPOCH
    if isinstance(value, bool) or not isinstance(value, int):
        raise Bad(f'{where}: a number from 0 to 2^64 - 1, or "far", is wanted, not {_told(value)}')
    return value


def _root(value, where):
    digits = ROOT.fullmatch(value) if isinstance(value, str) else None
    if digits is None:
        raise Bad(f"{where}: 64 hexadecimal digits are wanted, not {_told(value)}")
    return bytes.fromhex(digits[1])


def _fields(value, names, where, may_miss=()):
    """The values of an object that has exactly these keys, in their order; a list for one that may be missing and is."""
    if not isinstance(value, _Object):
        raise Bad(f"{where}: an object with the keys {', '.join(names)} is wanted, not {_told(value)}")
    if value.twice is not None:
        raise Bad(f"{where}: the key {_told(value.twice)} stands there twice")
    for name in value:
        if name not in names:
            raise Bad(f"{where}: no key {_told(name)} is known here; known are {', '.join(names)}")
    for name in names:
        if name not in value and name not in may_miss:
            raise Bad(f'{where}: the key "{name}" is missing')
    return [value.get(name, []) for name in names]


def _list(value, item, most, where):
    """The items of a list, each read by `item`."""
    if not isinstance(value, list):
        raise Bad(f"{where}: a list is wanted, not {_told(value)}")
    if len(value) > most:
        raise Bad(f"{where}: at most {most} are taken, not {len(value)}")
    return [item(each, f"{where}[{i}]") for i, each in enumerate(value)]


def _settings(value, electra):
    """The nineteen, and those that Electra has besides, in the order of its part."""
    names = (*Settings._fields, *(_electra_file.SETTINGS if electra else ()))
    numbers = [_number_of(each, f"settings.{name}") for name, each in zip(names, _fields(value, names, "settings"))]
    settings = Settings(*numbers[:19])
    for name in ("slots_per_historical_root", "epochs_per_slashings_vector"):
        # more would make no file that the library reads, and a long one
        if getattr(settings, name) > _layout.LONGEST_VECTOR:
            raise Bad(f"settings.{name}: 1 to {_layout.LONGEST_VECTOR} is wanted, not {getattr(settings, name)}")
    return settings, numbers[19:]


def _checkpoint(value, where):
    epoch, root = _fields(value, ("epoch", "root"), where)
    return struct.pack("<Q", _number_of(epoch, f"{where}.epoch")) + _root(root, f"{where}.root")


def _numbers_of(names):
    """Reads an object that has a number under each of these names, and gives them in their order."""
    return lambda value, where: [_number_of(each, f"{where}.{name}") for name, each in zip(names, _fields(value, names, where))]


def _queue(value, registry, version):
    """The bytes of the exit queue's pair, none of them in version 1, which cannot hold another pair than that of the validators."""
    right = _layout.queue_of(memoryview(registry).cast("Q"))
    given = right
    if value != []:
        fields = _fields(value, ExitQueue._fields, "exit_queue")
        given = ExitQueue(*(_number_of(each, f"exit_queue.{name}") for name, each in zip(ExitQueue._fields, fields)))
    if version > 1:
        return struct.pack("<2Q", *given)
    if given != right:
        raise Bad(f"exit_queue: a file of version 1 has no place for {tuple(given)}, which is not that of the validators, {tuple(right)}")
    return b""


def write(text, *, unchecked=False, version=_layout.FILE_VERSION):
    """The bytes of the record file of a text. Bad where it is none, or, unless unchecked, one that the library refuses."""
    parsed = _parsed(text)
    electra = isinstance(parsed, _Object) and any(name in parsed for name in ELECTRA_NAMES)
    names = (*NAMES, *(ELECTRA_NAMES if electra else ()))
    values = dict(zip(names, _fields(parsed, names, "the record", may_miss=MAY_MISS)))
    settings, later = _settings(values["settings"], electra)
    roots, slashings = settings.slots_per_historical_root, settings.epochs_per_slashings_vector
    finality = [struct.pack("<Q", _number_of(values[name], name)) for name in ("slot", "justification_bits")]
    finality += [_checkpoint(values[name], name) for name in CHECKPOINTS]
    validator = _numbers_of((*VALIDATOR, "compounding") if electra else VALIDATOR)
    validators = _list(values["validators"], validator, _layout.MOST_VALIDATORS, "validators")
    registry = [struct.pack("<10Q", *numbers[:VALIDATOR_LENGTH]) for numbers in validators]
    block_roots = b"".join(_list(values["block_roots"], _root, roots, "block_roots"))
    slashed = _list(values["slashings"], _number_of, slashings, "slashings")
    header = struct.pack("<10Q", *_layout.header(len(registry), roots, slashings, version))
    queue = _queue(values["exit_queue"], b"".join(registry), version)
    file = b"".join([
        header, struct.pack("<19Q", *settings), *finality, queue, *registry, block_roots.ljust(32 * roots, b"\0"),
        struct.pack(f"<{len(slashed)}Q", *slashed).ljust(8 * slashings, b"\0"),
    ])
    if electra:
        file += _part(values, later, [numbers[VALIDATOR_LENGTH] for numbers in validators])
    found = None if unchecked else (_electra_file if electra else _layout).fault(file)
    if found:
        raise Bad(f"{found.field}: {found.why}: the library refuses this record under {found.refusal}")
    return file


def _part(values, settings, compounding):
    """The bytes of Electra's part."""
    numbers = [_number_of(values[name], name) for name in _electra_file.NUMBERS]
    queues = [_list(values[name], _numbers_of(fields), _layout.MOST_VALIDATORS, name)
              for name, fields in (("pending_deposits", DEPOSIT), ("pending_consolidations", CONSOLIDATION))]
    deposits, consolidations = ([number for each in queue for number in each] for queue in queues)
    return _electra_file.part(settings, numbers, compounding, deposits, consolidations)


def _items(key, texts):
    """The lines of a list's texts under its key."""
    yield f',\n  "{key}": ['
    between, end = "\n    ", "]"
    for text in texts:
        yield between + text.replace("\n", "\n    ")
        between, end = ",\n    ", "\n  ]"
    yield end


def _shown(number):
    return '"far"' if number == FAR_FUTURE_EPOCH else str(number)


def _without_zeros(values, zero):
    """How many there are up to the last that is not zero."""
    return next((count for count in range(len(values), 0, -1) if values[count - 1] != zero), 0)


def show(file):
    """The text of a record file, in parts. Bad where its header is none; other faults are shown as they stand."""
    electra = _electra_file.is_electra(file)
    found = (_electra_file if electra else _layout).fault(file)
    if found and found.refusal == 6:
        raise Bad(f"{found.field}: {found.why}")
    return _text(file, _electra_file.Part(file) if electra else None)


def _objects(names, numbers):
    """The text of an object of these numbers, for as many as there are."""
    lines = "{\n" + ",\n".join(f'  "{name}": %s' for name in names) + "\n}"
    return (lines % tuple(map(_shown, numbers[at : at + len(names)])) for at in range(0, len(numbers), len(names)))


def _text(file, part):
    version, _, validators, roots, slashings = _layout.numbers(file, 0, 5)
    slot, bits = _layout.numbers(file, _layout.FINALITY_AT, 2)
    settings = dict(zip(Settings._fields, _layout.numbers(file, _layout.SETTINGS_AT, 19)))
    if part:
        settings.update((name, part.head[name]) for name in _electra_file.SETTINGS)
    head = {"settings": settings, "slot": slot, "justification_bits": bits}
    for name, at in _layout.CHECKPOINTS_AT.items():
        epoch = _layout.numbers(file, at, 1)[0]
        head[name] = {"epoch": "far" if epoch == FAR_FUTURE_EPOCH else epoch, "root": bytes(file[at + 8 : at + 40]).hex()}
    if version > 1:
        last, number = _layout.numbers(file, _layout.QUEUE_AT, 2)
        head["exit_queue"] = {"last_epoch": "far" if last == FAR_FUTURE_EPOCH else last, "number": number}
    if part:
        head.update((name, "far" if part.head[name] == FAR_FUTURE_EPOCH else part.head[name]) for name in _electra_file.NUMBERS)
    yield json.dumps(head, indent=2)[:-2]

    names, compounding = ((*VALIDATOR, "compounding"), part.compounding()) if part else (VALIDATOR, ())
    lines = "{\n" + ",\n".join(f'  "{name}": %s' for name in names) + "\n}"
    first = _layout.validators_at(version)
    entries = ((*_layout.numbers(file, first + 80 * i, VALIDATOR_LENGTH), *compounding[i : i + 1]) for i in range(validators))
    yield from _items("validators", (lines % tuple(map(_shown, entry)) for entry in entries))
    if part:
        yield from _items("pending_deposits", _objects(DEPOSIT, part.deposits()))
        yield from _items("pending_consolidations", _objects(CONSOLIDATION, part.consolidations()))
    at = _layout.roots_at(validators, version)
    block_roots = [bytes(file[at + 32 * i : at + 32 * i + 32]) for i in range(roots)]
    shown = _without_zeros(block_roots, bytes(32))
    yield from _items("block_roots", (f'"{root.hex()}"' for root in block_roots[:shown]))
    numbers = _layout.numbers(file, _layout.slashings_at(validators, roots, version), slashings)
    yield from _items("slashings", map(_shown, numbers[: _without_zeros(numbers, 0)]))
    yield "\n}\n"

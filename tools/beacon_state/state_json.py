"""A state as the Beacon API prints it in JSON: read to a record, and written again with a closed record's numbers.

Fields may stand in any order. Written again, each value that has changed is replaced where it stands; every other byte stays."""
import json
import re
import sys
from array import array
from operator import itemgetter

from . import bulk as many
from .containers import FORKS, OTHERS, Validator, beacon_state, execution_payload_header, from_on
from .electra import QUEUES, Deposit
from .errors import Bad
from .forks import another, contradicted, title
from .json_values import Wrong, parser, shown, test_count
from .keys import Keys
from .record_file import CHECKPOINTS, VALIDATOR, Record
from .ssz import List, Vector
from .state_ssz import PER_VALIDATOR, equal_counts
from .window import Window

OF_VALIDATOR = VALIDATOR[:6]
six_numbers = itemgetter(*(list(Validator.fields).index(name) for name in OF_VALIDATOR))
PAYLOAD = "latest_execution_payload_header"
HEADERS = ("deneb", "capella", "bellatrix")  # the forks that brought a payload header of their own, the last one first
# fields that a state of Altair to Fulu has not, and whose they are
NAMED_BY = {
    "previous_epoch_attestations": "phase0",
    "current_epoch_attestations": "phase0",
    "latest_execution_payload_bid": "gloas",
    "execution_payload_availability": "gloas",
    "builder_pending_payments": "gloas",
    "builder_pending_withdrawals": "gloas",
    "builders": "gloas",
}
# the lists that hold one of a validator's ten numbers each, with its place
PLACES = {name: 6 + k for k, name in enumerate(PER_VALIDATOR[1:])}
MOST = {name: 255 if name.endswith("_participation") else 2**64 - 1 for name in (*PLACES, "slashings")}
ROOTS = ("block_roots", "state_roots", "randao_mixes")


class Walk:
    """Hands each value of a state to visit(field, index, value), index None where the field is no list; `fork` is what it was."""

    def __init__(self, window, settings, visit, fork=None, bulk=None):
        self.window, self.visit, self.settings, self.wanted, self.bulk = window, visit, settings, fork, bulk or {}
        self.fields = beacon_state(FORKS[-1], settings).fields
        self.places, self.counts, self.beside, self.payload = {}, {}, {}, None
        self.members(inside=False)
        window.end()
        if "data" not in self.beside:
            for name, at, _ in self.beside.values():
                raise unknown(name, at)
        self.fork = self.fork_found()
        fields = beacon_state(self.fork, settings).fields
        missing = [name for name in fields if name not in self.places]
        if missing:
            raise Bad(f"no state of {title(self.fork)}: {', '.join(missing)} missing")
        for name in self.places:
            if name not in fields:
                raise Bad(f"no field of {title(self.fork)}", shown(name), self.places[name])
        if self.payload and self.payload != next(fork for fork in HEADERS if from_on(self.fork, fork)):
            what = f"the fields are those of {title(self.payload)}, and the state is of {title(self.fork)}"
            raise Bad(what, PAYLOAD, self.places[PAYLOAD])
        equal_counts({name: self.counts[name] for name in PER_VALIDATOR}, self.places)

    def members(self, inside):
        """The fields of the state, or of the object that a node puts around it."""
        window = self.window
        for _ in window.members("{}"):
            window.field = ""
            name, at = window.value(), window.base + window.begin
            if not isinstance(name, str):
                raise window.bad(f"a name is wanted, not {shown(name)}")
            window.expect(":")
            window.field = name
            if name in self.fields:
                self.member(name, self.fields[name])
            elif inside:
                raise unknown(name, at)
            else:
                value = self.members(inside=True) if name == "data" else window.value()
                self.beside.setdefault(name if name in ("data", "version") else "other", (name, at, value))
                if name == "version" and value in OTHERS:
                    raise another(value)

    def member(self, name, kind):
        window = self.window
        window.mark()
        if name in self.places:
            raise window.bad("the field stands there twice", "", window.at)
        self.places[name] = window.place()
        try:
            if isinstance(kind, (Vector, List)):
                self.entries(name, kind)
            elif name == PAYLOAD:
                self.header(window.value())
            else:
                self.visit(name, None, parser(kind)(window.value()))
        except Wrong as wrong:
            raise window.bad(wrong.what, wrong.path) from None

    def header(self, value):
        """The payload header of the fork whose fields it has."""
        names = {name for name, _ in value} if isinstance(value, tuple) else ()
        self.payload = "deneb" if "blob_gas_used" in names else "capella" if "withdrawals_root" in names else "bellatrix"
        self.visit(PAYLOAD, None, parser(execution_payload_header(self.payload, self.settings))(value))

    def fork_found(self):
        """The fork whose fields are there, and which the word `version` names where it stands there."""
        newest = [fork for fork in FORKS if any(name in self.places for name in NEW.get(fork, ()))]
        found = max([*newest, self.payload or FORKS[0]], key=FORKS.index)
        _, at, version = self.beside.get("version", ("", 0, found))
        if self.wanted:
            return self.wanted
        if version != found:
            raise contradicted(found, version, "version", at) if version in FORKS else Bad(
                f"{shown(version)}, and the fields are those of {title(found)}", "version", at)
        return found

    def entries(self, name, kind):
        window, visit, parse, count, bulk = self.window, self.visit, parser(kind.of), 0, self.bulk.get(name)
        for _ in window.members("[]"):
            if bulk:
                count += bulk(window)
            window.index = count
            visit(name, count, parse(window.value()))
            count += 1
        self.counts[name] = count
        window.index, window.begin = None, self.places[name] - window.base
        test_count(kind, count)


# the fields that a fork brings, by which it is told
NEW = {
    "capella": ("next_withdrawal_index", "next_withdrawal_validator_index", "historical_summaries"),
    "electra": ("deposit_requests_start_index", *QUEUES[:3], "pending_deposits", "pending_partial_withdrawals", "pending_consolidations"),
    "fulu": ("proposer_lookahead",),
}


def unknown(name, at):
    if name in NAMED_BY:
        return another(NAMED_BY[name])
    return Bad(f"no field of this name is known in {title(FORKS[0])} to {title(FORKS[-1])}", shown(name), at)


class Read:
    """What a JSON text says: the fork, the record and what else a statement asks for."""

    def __init__(self, source, settings, fork=None):
        six, roots, self.values = array("Q"), [], {}
        numbers = {name: array("Q") for name in (*PLACES, "slashings")}
        keys, first, self.deposits, self.pairs = bytearray(), bytearray(), [], array("Q")

        def visit(name, index, value):
            if name == "validators":
                six.extend(six_numbers(value))
                keys.extend(value[0])
                first.append(value[1][0])
            elif name in numbers:
                numbers[name].append(value)
            elif name == "block_roots":
                roots.append(value)
            elif name == "pending_deposits":
                key, credentials, amount, _, slot = value
                self.deposits.append(Deposit(key, credentials[0], amount, slot))
            elif name == "pending_consolidations":
                self.pairs.extend(value)
            elif index is None:
                self.values[name] = value

        bulk = {name: lambda window, name=name: many.numbers(window, MOST[name], numbers[name].extend) for name in numbers}
        bulk.update({name: lambda window: many.roots(window, lambda _: None) for name in ROOTS})
        bulk["block_roots"] = lambda window: many.roots(window, roots.append)
        bulk["validators"] = lambda window: many.validators(window, keys, first, six)
        self.fork = Walk(Window(source.read), settings, visit, fork, bulk).fork
        count = len(numbers["balances"])
        registry = array("Q", bytes(80 * count))
        for place in range(6):
            registry[place::10] = six[place::6]
        for name, place in PLACES.items():
            registry[place::10] = numbers[name]
        self.registry, self.roots, self.slashings = little(registry), b"".join(roots), little(numbers["slashings"])
        self._keys, self._first = Keys(memoryview(keys), Keys.LENGTH, count), first

    def record(self, settings):
        """The record; settings are the nineteen numbers."""
        checkpoints = b"".join(epoch.to_bytes(8, "little") + root for epoch, root in map(self.values.get, CHECKPOINTS))
        bits = self.values["justification_bits"][0]
        return Record(settings, self.values["slot"], bits, checkpoints, self.registry, self.roots, self.slashings)

    def number(self, name):
        return self.values[name]

    def root(self, name):
        return self.values[name]

    def keys(self):
        return self._keys

    def credentials(self):
        return self._first

    def queues(self):
        return {name: self.values[name] for name in QUEUES}, self.deposits, little(self.pairs)


def little(numbers):
    """The little-endian bytes of an array of numbers, and back."""
    if sys.byteorder == "big":
        numbers.byteswap()
    return numbers.tobytes()


def numbers_of(data):
    numbers = array("Q")
    numbers.frombytes(data)
    if sys.byteorder == "big":
        numbers.byteswap()
    return numbers


def put(source, settings, opening, closed, sink, fork):
    """Hands the text on to the sink with a closed record's numbers in it; opening is the text's own, and closed is its close."""
    old, new = numbers_of(opening.registry), numbers_of(closed.registry)
    slashings = numbers_of(closed.slashings)
    window = Window(source.read, sink)

    def visit(name, index, value):
        if name == "validators":
            at = 10 * index
            if new[at : at + 6] != old[at : at + 6]:
                fields = {field: str(number) for field, number in zip(OF_VALIDATOR, new[at : at + 6])}
                window.replace(replaced(window.raw(), {**fields, "slashed": fields["slashed"] == "1"}))
        elif name in PLACES or name == "slashings":
            number = slashings[index] if name == "slashings" else new[10 * index + PLACES[name]]
            if number != value:
                window.replace(f'"{number}"')
        elif name == "justification_bits" and value[0] != closed.justification_bits:
            window.replace(f'"0x{closed.justification_bits:02x}"')
        elif name in CHECKPOINTS:
            at = 40 * CHECKPOINTS.index(name)
            epoch, root = int.from_bytes(closed.checkpoints[at : at + 8], "little"), closed.checkpoints[at + 8 : at + 40]
            fields = {"epoch": str(epoch)} if epoch != value[0] else {}
            if root != value[1]:
                fields["root"] = "0x" + root.hex()
            if fields:
                window.replace(replaced(window.raw(), fields))

    Walk(window, settings, visit, fork)


def replaced(text, fields):
    """An object's text with some of its values replaced: where they stand, if the names are spelt plainly."""
    made = text
    for name, value in fields.items():
        made, count = re.subn(rf'("{name}"\s*:\s*)("[^"]*"|true|false)', lambda found: found[1] + json.dumps(value), made)
        if count != 1:
            return json.dumps({**json.loads(text), **fields})
    return made

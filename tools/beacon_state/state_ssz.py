"""A state's SSZ bytes to a record, and a record's numbers put back into them.

No number is made on the way: every number of both forms is little-endian, so that a column of n numbers is moved as one strided
slice for each of its bytes."""
from .containers import FORKS, PendingDeposit, Validator, beacon_state
from .electra import QUEUES, Deposit
from .errors import Bad, counted
from .forks import another, contradicted, title
from .keys import Keys
from .record_file import CHECKPOINTS, ENTRY, MOST_VALIDATORS, VALIDATOR, Record
from .ssz import OFFSET, check, split

# a validator's ten numbers: the state's list, and the field of its entry
COLUMNS = [("validators", name) for name in VALIDATOR[:6]] + [
    ("balances", ""),
    ("previous_epoch_participation", ""),
    ("current_epoch_participation", ""),
    ("inactivity_scores", ""),
]
PER_VALIDATOR = ("validators", "balances", "previous_epoch_participation", "current_epoch_participation", "inactivity_scores")


class State:
    """A state's bytes, its kind and the place of each field. Every byte is tested."""

    def __init__(self, data, settings, fork=None):
        self.data, self.fork = data, fork_of(data, settings, fork)
        self.kind = beacon_state(self.fork, settings)
        self.spans = split(self.kind, data, 0, len(data))
        for name, (begin, end) in self.spans.items():
            check(self.kind.fields[name], data, begin, end, name)
        counts = {name: self.count(name) for name in PER_VALIDATOR}
        equal_counts(counts, {name: self.spans[name][0] for name in counts})

    def count(self, name):
        begin, end = self.spans[name]
        return (end - begin) // self.kind.fields[name].of.size

    def bytes_of(self, name):
        begin, end = self.spans[name]
        return bytes(self.data[begin:end])

    def number(self, name):
        return int.from_bytes(self.bytes_of(name), "little")

    def columns(self):
        """For each of the ten numbers: where its first byte stands, where its list ends, the step, and its bytes."""
        places = Validator.places()
        for name, field in COLUMNS:
            begin, end = self.spans[name]
            of = self.kind.fields[name].of
            yield begin + (places[field] if field else 0), end, of.size, Validator.fields[field].size if field else of.size

    def record(self, settings):
        """The record of the state; settings are the nineteen numbers."""
        registry = bytearray(ENTRY * self.count("validators"))
        for place, (begin, end, step, size) in enumerate(self.columns()):
            for k in range(size):
                registry[8 * place + k :: ENTRY] = self.data[begin + k : end : step]
        return Record(
            settings,
            self.number("slot"),
            self.number("justification_bits"),
            b"".join(map(self.bytes_of, CHECKPOINTS)),
            registry,
            self.bytes_of("block_roots"),
            self.bytes_of("slashings"),
        )

    def root(self, name):
        return self.bytes_of(name)

    def keys(self):
        begin, _ = self.spans["validators"]
        return Keys(memoryview(self.data)[begin:], Validator.size, self.count("validators"))

    def credentials(self):
        """The first byte of each validator's withdrawal credentials."""
        begin, end = self.spans["validators"]
        return self.data[begin + Validator.places()["withdrawal_credentials"] : end : Validator.size]

    def queues(self):
        """What Electra's record has beside Altair's: QUEUES by name, deposits and consolidations."""
        numbers = {name: self.number(name) for name in QUEUES}
        begin, end = self.spans["pending_deposits"]
        places = PendingDeposit.places()
        key = lambda at: bytes(self.data[at : at + Keys.LENGTH])
        first = lambda at, name: self.data[at + places[name]]
        whole = lambda at, name: int.from_bytes(self.data[at + places[name] : at + places[name] + 8], "little")
        deposits = [
            Deposit(key(at), first(at, "withdrawal_credentials"), whole(at, "amount"), whole(at, "slot"))
            for at in range(begin, end, PendingDeposit.size)
        ]
        return numbers, deposits, self.bytes_of("pending_consolidations")

    def put(self, record):
        """Writes a closed record's numbers over the state's own; closes(record, the state's record) has passed."""
        for place, (begin, end, step, size) in enumerate(self.columns()):
            for k in range(size):
                self.data[begin + k : end : step] = record.registry[8 * place + k :: ENTRY]
        fields = {name: record.checkpoints[40 * k : 40 * k + 40] for k, name in enumerate(CHECKPOINTS)}
        fields["justification_bits"] = bytes([record.justification_bits])
        fields["slashings"] = record.slashings
        for name, value in fields.items():
            begin, end = self.spans[name]
            self.data[begin:end] = value


def fork_of(data, settings, wanted=None):
    """The fork whose layout the offsets show, or the one that is wanted, where they show it."""
    kinds = {fork: beacon_state(fork, settings) for fork in FORKS}
    places = kinds[FORKS[0]].places()
    at = places["historical_roots"]
    if len(data) < at + OFFSET:
        return wanted or FORKS[0]
    named = settings.fork_named(data[places["fork"] + 4 : places["fork"] + 8])
    first = int.from_bytes(data[at : at + OFFSET], "little")
    fits = [fork for fork, kind in kinds.items() if first == kind.fixed]
    if not fits:
        if named and named not in FORKS or named and wanted is None:
            raise another(named, first, {fork: kinds[fork].fixed for fork in FORKS if fork == named}, at)
        sizes = ", ".join(f"{kind.fixed} in {title(fork)}" for fork, kind in kinds.items())
        raise Bad(f"the offset is {first}; with these settings it is {sizes}. Another fork or preset?", "historical_roots", at)
    if wanted:
        if wanted not in fits:
            raise Bad(f"the offset is {first}, that of {title(fits[0])}, and --fork says {title(wanted)}", "historical_roots", at)
        return wanted
    found = fits[0] if len(fits) == 1 else by_payload(data, fits, kinds)
    if named and named != found:
        raise contradicted(found, named, "fork.current_version", places["fork"] + 4)
    return found


def by_payload(data, fits, kinds):
    """Capella and Deneb differ inside the payload header alone: in the offset of its extra_data."""
    name = "latest_execution_payload_header"
    at = kinds[fits[0]].places()[name]
    begin = int.from_bytes(data[at : at + OFFSET], "little")
    headers = {fork: kinds[fork].fields[name] for fork in fits}
    at = begin + headers[fits[0]].places()["extra_data"]
    offset = int.from_bytes(data[at : at + OFFSET], "little")
    return next((fork for fork, header in headers.items() if header.fixed == offset), fits[0])


def equal_counts(counts, places):
    for name, count in counts.items():
        if count != counts["validators"]:
            raise Bad(f"{counted(count, 'entry')}, and there are {counted(counts['validators'], 'validator')}", name, places[name])
    if counts["validators"] > MOST_VALIDATORS:
        raise Bad(f"{counts['validators']} entries, and a record has at most 2^24", "validators", places["validators"])

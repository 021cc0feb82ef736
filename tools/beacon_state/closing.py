"""The close of a record under a fork's rules, through the library. Capella's eight steps are Bellatrix's, and Fulu's ten Electra's
(document 03)."""
import altair_close as altair

from . import settings as settings_of
from .errors import Bad
from .record_file import CHECKPOINTS, VALIDATOR

ELECTRA = tuple(name.upper() for name in altair.Electra._fields)


def settings_of_record(record):
    return altair.Settings(*record.settings)


def finality_of(record):
    """The Finality of a record of this package."""
    parts = [bytes(record.checkpoints[at : at + 40]) for at in range(0, 120, 40)]
    points = [altair.Checkpoint(int.from_bytes(part[:8], "little"), part[8:]) for part in parts]
    return altair.Finality(record.slot, record.justification_bits, *points)


def numbers(data):
    return memoryview(data).cast("B").cast("Q")


def pair_of(settings):
    return altair.Bellatrix(*(settings[f"{name}_BELLATRIX"] for name in settings_of.PAIR))


def rules(record, fork, settings):
    """What the close of a record goes by under a fork up to Capella; the pair is not read under Altair."""
    if fork == "altair":
        return altair.Rules(settings_of_record(record))
    return altair.Rules(settings_of_record(record), altair.FORK_BELLATRIX, pair_of(settings))


def electra_rules(record, settings):
    """What a close of Electra's or Fulu's goes by."""
    five = (settings[name] for name in ELECTRA)
    return altair.ElectraRules(settings_of_record(record), pair_of(settings), altair.Electra(*five))


def electra_close(record, queues, settings):
    """The ElectraClosed of a record with the parts that Electra's has beside it."""
    numbers_of = altair.DepositNumbers(queues.deposit_balance_to_consume, queues.eth1_deposit_index, queues.deposit_requests_start_index)
    return altair.electra_close(
        electra_rules(record, settings), finality=finality_of(record), churn=altair.ExitChurn(queues.exit_balance_to_consume, queues.earliest_exit_epoch),
        numbers=numbers_of, registry=numbers(record.registry), compounding=queues.compounding, slashings=numbers(record.slashings),
        roots=record.block_roots, deposits=queues.deposits, consolidations=queues.consolidations)


def close(record, fork, settings):
    """The Closed of a record of Altair to Deneb."""
    by, registry = rules(record, fork, settings), numbers(record.registry)
    lent = dict(finality=finality_of(record), queue=altair.exit_queue(registry), registry=registry, slashings=numbers(record.slashings),
                roots=record.block_roots)
    if fork == "deneb":
        most = settings["MAX_PER_EPOCH_ACTIVATION_CHURN_LIMIT"]
        return altair.deneb_close(altair.DenebRules(by.settings, by.bellatrix, most), **lent)
    return altair.close(by, **lent)


def is_close_of(closed, opening, fork, settings):
    """Refuses a closed record that the close of this opening is not, with the first field that differs."""
    try:
        right = close(opening, fork, settings)
    except altair.Refused as refused:
        raise Bad(f"the library refuses to close this state ({refused}), so that this is no close of it") from None
    finality = finality_of(closed)
    for name in ("justification_bits", *CHECKPOINTS):
        if getattr(finality, name) != getattr(right.finality, name):
            raise other(name, getattr(finality, name), getattr(right.finality, name))
    for name, ours, theirs in ("validators", closed.registry, right.registry), ("slashings", closed.slashings, right.slashings):
        ours, theirs = numbers(ours), numbers(theirs)
        if ours != theirs:
            at = next(k for k, (a, b) in enumerate(zip(ours, theirs)) if a != b)
            place = f"slashings[{at}]" if name == "slashings" else f"validators[{at // 10}].{VALIDATOR[at % 10]}"
            raise other(place, ours[at], theirs[at])


def other(field, there, right):
    return Bad(f"{told(there)}, and the close of this state under its own rules has {told(right)}: it is another record's close", field)


def told(value):
    return f"epoch {value.epoch} with root 0x{value.root.hex()}" if isinstance(value, altair.Checkpoint) else str(value)

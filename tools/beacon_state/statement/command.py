"""The command tools/statement."""
import argparse
import re
from contextlib import contextmanager

import altair_close as altair
from altair_close import _electra_file, _layout
from altair_close._command import said
from altair_close._errors import Bad as Named

from .. import electra, record_file, settings as settings_of
from ..containers import FORKS, from_on
from ..errors import Bad, Stopped
from ..files import settings_file, source, target, whole
from ..forks import title
from ..opening import beginning, is_record, state_of
from . import page, plain
from .account import Account, test_follows
from .choice import Choice
from .epoch import Opening, close, test_open
from .node import Node
from .statement import Statement
from .waiting import exits, pending, waits

HELP = """A statement of one close, or of a run of closes.

  tools/statement [OPTIONS] STATE..
  tools/statement [OPTIONS] --node URL --epoch EPOCH

STATE is a BeaconState of Altair to Fulu as a node serves it (SSZ or JSON), taken after the last slot of the epoch that is to be
closed, or a record file; '-' is standard input. Each is closed by its fork's rules, through the proved library. With --node the
state of the epoch's last slot is fetched; EPOCH may be a range, as 100-109.

For each validator it says the public key, the status, the opening and the closing balance, what each rule gave and took, and the net
change, in Gwei and ETH. Several states, in order, make one statement: sums by validator, and what blocks did between a closing and the
next opening (proposals, sync committees, withdrawals, deposits) as one figure; epochs that are left out are named.

For each that waits for activation it says how many are ahead, the number of closes that demand 3 promises, and the date; from Electra
on the same for a deposit in the queue; with --exit, the exit epoch that an order would get now.

From Electra on deposits make validators. Whether a deposit's signature is valid is not checked: one of a key that no validator has
is taken as valid, and the statement says so, unless --invalid-deposits names it.

A record file names no fork: it is closed as Altair, or by --fork; one with Electra's queues behind it (tools/state record) as
Electra. An epoch that is closed already is refused.

Exit status: 0 done; 1 a state is refused; 2 a wrong command line, or it could not read or write."""

FORMS = {"text": plain.text, "csv": plain.csv, "json": plain.json_of, "page": page.page}
SUFFIXES = {"html": "page", "htm": "page", "csv": "csv", "json": "json"}


def arguments():
    parser = argparse.ArgumentParser(prog="tools/statement", description=HELP, formatter_class=argparse.RawDescriptionHelpFormatter,
                                     usage="tools/statement [OPTIONS] STATE.. | --node URL --epoch EPOCH")
    add = parser.add_argument
    add("states", nargs="*", metavar="STATE")
    add("--validators", action="append", default=[], metavar="WHICH",
        help="numbers, ranges (0-9), public keys, or a file of them, with commas between; may be given again (all)")
    add("--format", choices=list(FORMS), help="text (unless --out ends with .csv, .json or .html); page is one HTML file with a chart")
    add("--out", metavar="FILE", default="-", help="where the statement goes (standard output)")
    add("--force", action="store_true", help="replace FILE where it is there already")
    add("--by-epoch", action="store_true", help="of a run, a line for each validator and epoch, in place of the sums")
    add("--exit", action="append", default=[], metavar="INDEX", help="also say what an order to leave would get now; may be given again")
    add("--invalid-deposits", action="append", default=[], metavar="WHICH",
        help="pending deposits whose signature is not valid: places in the queue from 0 on, ranges, public keys, or a file of them")
    add("--node", metavar="URL", help="a beacon node, as http://127.0.0.1:5052")
    add("--epoch", metavar="EPOCH", help="the epoch, or the range of epochs, whose states the node is asked for")
    add("--preset", choices=list(settings_of.PRESETS), help="the network's preset, with its own config (mainnet; with --node its own)")
    add("--settings", action="append", metavar="FILE", help="config.yaml, preset files, or the JSON of /eth/v1/config/spec")
    add("--fork", choices=FORKS, help="the fork, of a record file, or where a state's own words contradict each other")
    add("--genesis-time", metavar="SECOND", help="when slot 0 began, of a record file that is not mainnet's")
    add("--anyway", action="store_true", help="close a record that looks closed already")
    return parser


def number(word, name):
    if not re.fullmatch("[0-9]{1,20}", word, re.ASCII) or int(word) > 2**64 - 1:
        raise Stopped(f"{name}: a number from 0 to 2^64 - 1 is wanted, not {word[:60]!r}")
    return int(word)


def epochs_of(word):
    first, _, last = word.partition("-")
    first, last = number(first, "--epoch"), number(last or first, "--epoch")
    if not first <= last < 2**40 or last - first >= 10000:
        raise Stopped(f"--epoch {word[:60]}: an epoch is wanted, or up to 10000 as 100-109")
    return range(first, last + 1)


def settings_for(given, node):
    if given.settings and given.preset:
        raise Stopped("--preset and --settings exclude each other; PRESET_BASE in the file names the preset")
    if given.settings:
        return settings_of.from_files([(name, settings_file(name)) for name in given.settings])
    if node and not given.preset:
        return node.settings()
    return settings_of.PRESETS[given.preset or "mainnet"]


def sources(given, node, settings):
    """A name and an open file for each state, one at a time."""
    if node:
        for epoch in epochs_of(given.epoch):
            slot = (epoch + 1) * settings["SLOTS_PER_EPOCH"] - 1
            yield f"{node.url}, slot {slot}", node.state(slot)
    for name in given.states:
        yield "standard input" if name == "-" else name, source(name)


def opening_of(name, file, settings, given):
    if is_record(beginning(file)):
        data = whole(file)
        part = _electra_file.begins(data) if _electra_file.is_electra(data) else None
        found = (_layout if part is None else _electra_file).fault(memoryview(data))
        if found:
            raise Bad(f"refused {found.refusal}: {found.field}: {found.why}")
        more = None if part is None else electra.of_file(data)
        return opening_of_record(name, record_file.read(data[:part]), more, settings, given)
    state = state_of(file, settings, given.fork)
    numbers = settings_of.of_record(settings)
    clock = altair.Clock(state.number("genesis_time"), settings["SECONDS_PER_SLOT"], settings["SLOTS_PER_EPOCH"])
    keys, more = state.keys(), None
    if from_on(state.fork, "electra"):
        invalid = Choice(given.invalid_deposits, "--invalid-deposits")
        more = electra.record(keys, state.credentials(), state.queues(), invalid.places)
    elif given.invalid_deposits:
        raise Stopped("--invalid-deposits: a state before Electra has no pending deposits")
    return Opening(name, state.fork, state.record(numbers), settings, clock, keys, state.root("genesis_validators_root"), more)


def opening_of_record(name, record, more, settings, given):
    """`more` are Electra's parts and their settings, where they stand behind the record."""
    fork = given.fork or ("electra" if more else "altair")
    if from_on(fork, "electra") and not more:
        raise Bad(f"{title(fork)}'s queues do not stand behind this record: give the state, or the record that tools/state makes of it")
    if more and not from_on(fork, "electra"):
        raise Bad(f"Electra's queues stand behind this record: it is no {title(fork)} record")
    if given.invalid_deposits:
        raise Stopped("--invalid-deposits: a record file says itself which deposits are valid, or has none")
    queues, own = more or (None, {})
    if more:
        settings = {**settings, **own, "EFFECTIVE_BALANCE_INCREMENT": altair.Settings(*record.settings).effective_balance_increment}
    clock = None
    if given.genesis_time is not None or record.settings in (settings_of.of_record(settings_of.MAINNET, each) for each in FORKS[:2]):
        clock = altair.MAINNET_CLOCK
        if given.genesis_time is not None:
            clock = altair.Clock(number(given.genesis_time, "--genesis-time"), settings["SECONDS_PER_SLOT"], record.settings[0])
    return Opening(name, fork, record, settings, clock, electra=queues)


def noted(opening):
    """The epoch must have ended."""
    slots, slot = opening.rules.slots_per_epoch, opening.record.slot
    if slots and (slot + 1) % slots:
        last = slot // slots * slots + slots - 1
        said("statement", f"note: {opening.name}: slot {slot} is not the last of its epoch, which is {last}: the epoch has not ended")


@contextmanager
def naming(name):
    try:
        yield
    except Bad as bad:
        raise Named(str(bad) if str(bad).startswith(f"{name}: ") else f"{name}: {bad}") from None
    except altair.Refused as refused:
        raise Named(f"{name}: {refused}") from None


def made(given):
    """The Statement that the words ask for."""
    node = Node(given.node) if given.node else None
    choice, asked = Choice(given.validators), [number(word, "--exit") for word in given.exit]
    settings = settings_for(given, node)
    account, after, keys = Account(), None, None
    for name, opened in sources(given, node, settings):
        after = None  # what the close before left is no longer wanted
        with opened as file, naming(name):
            opening = opening_of(name, file, settings, given)
            if account.epochs:
                test_follows(account.last, opening)
            if not given.anyway:
                test_open(opening)
            epoch, after = close(opening, lambda count, keys: choice.of(count, keys, name))
            noted(opening)
        account.add(epoch)
        keys = after.keys if after.keys is not None else keys
    choice.test_found(account.last.validators, opening.electra.places if opening.electra else ())
    return Statement(account, list(waits(after, account.last.chosen)), list(exits(after, asked)), given.by_epoch, keys,
                     list(pending(after, choice.has)))


def test_words(given, form):
    if bool(given.node) != bool(given.epoch):
        raise Stopped("--node and --epoch go together")
    if bool(given.node) == bool(given.states):
        raise Stopped("STATE.., or --node URL --epoch EPOCH, is wanted (see --help)")
    if given.states.count("-") > 1:
        raise Stopped("only one STATE can be standard input")
    if form == "csv" and given.exit:
        raise Stopped("--exit has no place in CSV: text, json and page have one")


def work(words):
    given = arguments().parse_args(words)
    form = given.format or SUFFIXES.get(given.out.rpartition(".")[2].lower(), "text")
    test_words(given, form)
    statement = made(given)
    # the bytes of a file's name as they are, but on a page, which is UTF-8
    odd = "replace" if form == "page" else "surrogateescape"
    with target(given.out, given.force, is_text=True) as write:
        buffer, size = [], 0
        for piece in FORMS[form](statement):
            buffer.append(piece)
            size += len(piece)
            if size > 2**20:
                write("".join(buffer).encode("utf-8", odd))
                buffer, size = [], 0
        write("".join(buffer).encode("utf-8", odd))

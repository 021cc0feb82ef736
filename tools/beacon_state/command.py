"""The command tools/state."""
import argparse

from altair_close._command import said
from altair_close._layout import LONGEST_FILE

from . import closing, electra, record_file, settings as settings_of, state_json
from .containers import FORKS, from_on
from .errors import Bad, Stopped
from .files import settings_file, source, target, whole
from .forks import a_state
from .opening import state_of
from .state_ssz import State
from .statement.choice import Choice

HELP = """Record files from beacon states, and back.

  tools/state record STATE RECORD            the record file of a state, for the close to take
  tools/state back STATE CLOSED NEW_STATE    the state with a closed record's numbers in it, every other byte as it was

STATE is a BeaconState of Altair to Fulu as a node serves it under /eth/v2/debug/beacon/states: SSZ (with the header
Accept: application/octet-stream) or JSON; which of the two, and which fork, is seen from the bytes. NEW_STATE has the form
of STATE. '-' is standard input or output. What is no state is refused with the field and the byte at fault, and a state of
another fork by that fork's name. Balances are in Gwei, 10^9 to the ETH, in all of them.

A record file holds what Altair's close reads. Bellatrix's and Capella's read the same with another pair of numbers (--pair),
Deneb's one number more, which altair-close --fork deneb has of mainnet and minimal, and a call is handed (--pair altair).
Electra's and Fulu's settings and queues stand behind the record, for altair-close --fork electra. Whether a deposit's
signature is valid is not checked: it is taken as valid, unless --invalid-deposits names it.

`back` asks the library for the close of STATE, by its fork's rules, and refuses a record that is another. A state that took
a close back is not yet the network's next one: the steps that are left out (eth1, randao, historical roots, sync committees)
have not run on it. A close of Electra's, which adds validators and moves the queues, is not put back.

Exit status: 0 done; 1 the state or the record is refused; 2 a wrong command line, or it could not read or write."""


def arguments():
    parser = argparse.ArgumentParser(prog="tools/state", description=HELP, formatter_class=argparse.RawDescriptionHelpFormatter)
    verbs = parser.add_subparsers(dest="verb", required=True, metavar="record | back")
    common = argparse.ArgumentParser(add_help=False)
    common.add_argument("--preset", choices=list(settings_of.PRESETS), help="the network's preset, with its own config (mainnet)")
    common.add_argument(
        "--settings",
        action="append",
        metavar="FILE",
        help="the network's own settings: the node's config.yaml, preset files, or the JSON of /eth/v1/config/spec; "
        "may be given again",
    )
    common.add_argument("--fork", choices=FORKS, help="the state's fork, where its own words contradict each other")
    common.add_argument("--force", action="store_true", help="replace a file that is there already")
    record = verbs.add_parser("record", parents=[common], help="the record file of a state")
    record.add_argument(
        "--pair",
        choices=("altair", "bellatrix"),
        help="must be said of a state behind Altair, since a record names no fork: whose inactivity penalty quotient and slashing "
        "multiplier go into it. bellatrix for a program that closes as Altair; altair for altair-close --fork, or a call that is told the fork",
    )
    record.add_argument(
        "--invalid-deposits",
        action="append",
        default=[],
        metavar="WHICH",
        help="of an Electra or Fulu state, the pending deposits whose signature is not valid: places in the queue from 0 on, ranges, "
        "public keys, or a file of them",
    )
    record.add_argument("state", metavar="STATE")
    record.add_argument("made", metavar="RECORD")
    back = verbs.add_parser("back", parents=[common], help="a closed record put back into its state")
    back.add_argument("state", metavar="STATE")
    back.add_argument("closed", metavar="CLOSED")
    back.add_argument("made", metavar="NEW_STATE")
    back.add_argument("--unchecked", action="store_true", help="do not ask whether CLOSED is the close of STATE")
    return parser


def settings_for(given):
    if not given.settings:
        return settings_of.PRESETS[given.preset or "mainnet"]
    if given.preset:
        raise Stopped("--preset and --settings exclude each other; PRESET_BASE in the file names the preset")
    return settings_of.from_files([(name, settings_file(name)) for name in given.settings])


def test_pair(fork, pair):
    """Refuses a fork and pair with which nobody closes the record rightly."""
    if from_on(fork, "electra"):
        if pair == "bellatrix":
            raise Stopped(f"{a_state(fork)}, whose record has Bellatrix's pair behind it: --pair bellatrix is not said")
        return
    if fork == "deneb" and pair != "altair":
        raise Stopped("a Deneb state, and a record names no fork: say --pair altair, and close the record by altair-close --fork deneb")
    if fork != "altair" and not pair:
        raise Stopped(f"{a_state(fork)}, and a record names no fork: say --pair bellatrix or --pair altair (see --help)")
    if fork == "altair" and pair == "bellatrix":
        raise Stopped("an Altair state, and --pair bellatrix")


def to_record(given, settings):
    with source(given.state) as file:
        state = state_of(file, settings, given.fork)
        test_pair(state.fork, given.pair)
        record, queues = state.record(settings_of.of_record(settings, given.pair or FORKS[0])), None
        if from_on(state.fork, "electra"):
            invalid = Choice(given.invalid_deposits, "--invalid-deposits")
            queues = electra.record(state.keys(), state.credentials(), state.queues(), invalid.places)
        elif given.invalid_deposits:
            raise Stopped("--invalid-deposits: a state before Electra has no pending deposits")
    slots = settings["SLOTS_PER_EPOCH"]
    if slots and (record.slot + 1) % slots:
        epoch = record.slot // slots
        note(f"slot {record.slot} is not the last of epoch {epoch}, which is {epoch * slots + slots - 1}: the epoch has not ended")
    with target(given.made, given.force) as write:
        for piece in record_file.pieces(record):
            write(piece)
        if queues:
            write(electra.part(queues, settings))


def back(given, settings):
    if given.state == given.closed == "-":
        raise Stopped("STATE and CLOSED cannot both be standard input")
    with source(given.state) as file:
        state = state_of(file, settings, given.fork)
        if from_on(state.fork, "electra"):
            raise Bad(f"{a_state(state.fork)}: its close adds validators and moves its queues, which is not put back")
        opening = state.record(settings_of.of_record(settings))
        with source(given.closed, LONGEST_FILE + 1) as closed_file:
            closed = record_file.read(whole(closed_file))
            record_file.closes(closed, opening)
            if not given.unchecked:
                closing.is_close_of(closed, opening, state.fork, settings)
        with target(given.made, given.force) as write:
            if isinstance(state, State):
                state.put(closed)
                write(state.data)
            else:
                file.seek(0)
                state_json.put(file, settings, opening, closed, lambda text: write(text.encode("ascii")), given.fork)


def note(text):
    said("state", f"note: {text}")


def work(words):
    given = arguments().parse_args(words)
    (to_record if given.verb == "record" else back)(given, settings_for(given))

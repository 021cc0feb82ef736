"""The command tools/outage."""
import argparse
import os
import re
import subprocess
import sys

import altair_close as altair
from altair_close import _layout, text
from altair_close._command import said
from altair_close._errors import Bad
from altair_close._files import read_record_or_text

from ..errors import Stopped
from ..files import target
from ..statement.amounts import eth
from ..statement.epoch import dated
from . import plot, trial

HELP = """What an absence costs: tries a number of epochs from a record on, with the validators that are named away.

  {0} [OPTIONS] RECORD EPOCHS [ABSENCE..]

RECORD is a record file, or its JSON (samples/README.md); '-' is standard input. EPOCHS is at most 4096. An ABSENCE is a validator's
number, a colon, and the first and the last epoch that it is away: '12: 40-70'. The rest is never away.

Printed are a head line for each close, then a line for each validator with its balance in the record, its balance afterwards, effective
balance, score, and the change, all balances in Gwei; and then what the absences cost each of the absent, and together: the balance beside
that of a second trial in which nobody is away. A record of up to 65536 bytes goes through the proved program try_outage, a longer one through the library, which
prints the same. It closes as Altair, by the record's own settings."""

STATUS = """Exit status: 0; 1 where the record is refused, or a close on the way; 2 a wrong command line, or it could not read or write."""
LONGEST = 65536  # bytes that the program reads
MOST = 4096
TOP = 2**64 - 1
PROGRAM = "target/bin/try_outage"


def arguments(name):
    parser = argparse.ArgumentParser(prog=name, description=HELP.format(name), formatter_class=argparse.RawDescriptionHelpFormatter,
                                     usage=f"{name} [OPTIONS] RECORD EPOCHS [ABSENCE..]",
                                     epilog=STATUS)
    add = parser.add_argument
    add("record", metavar="RECORD")
    add("epochs", metavar="EPOCHS")
    add("absences", nargs="*", metavar="ABSENCE")
    add("--root", default="0" * 64, metavar="HEX", help="the root at every slot (32 bytes in hex; zeros)")
    add("--listing", action="store_true", help="only what the program prints, without what the absences cost")
    add("--input", metavar="FILE", help="writes what the program reads, and runs nothing")
    add("--plot", metavar="FILE",
        help="draws the balance of each absent validator, epoch by epoch, as an SVG; beside it, dashed, had nobody been away")
    add("--genesis-time", metavar="SECOND", help="when slot 0 began, for dates on the plot")
    add("--seconds-per-slot", metavar="N", default="12", help="for dates on the plot (12)")
    add("--force", action="store_true", help="replace a file that is there already")
    add("--program", metavar="FILE", help=f"the program try_outage ({PROGRAM}, which `make programs` builds)")
    add("--library", action="store_true", help="through the library, whatever the record's length")
    return parser


def number(digits):
    if not re.fullmatch("[0-9]{1,20}", digits, re.ASCII) or int(digits) > TOP:
        raise Stopped(f"a number from 0 to 2^64 - 1 is wanted, not {digits!r}")
    return int(digits)


def absence(words):
    """Validator, first and last epoch of '12: 40-70'."""
    found = re.fullmatch(r"\s*(\d+)\s*:\s*(\d+)\s*-\s*(\d+)\s*", words, re.ASCII)
    if not found:
        raise Stopped(f"an absence is wanted as '12: 40-70', not {words!r}")
    who, first, last = map(number, found.groups())
    if last < first:
        raise Stopped(f"{words!r}: the first epoch is above the last")
    return who, first, last


def root_of(digits):
    if not re.fullmatch("(0x)?[0-9a-fA-F]{64}", digits):
        raise Stopped("a root of 32 bytes in hex is wanted")
    return bytes.fromhex(digits[-64:])


def file_of(name):
    """The bytes of a record file, or of that of a JSON text."""
    data, is_text = read_record_or_text(name)
    if not is_text:
        return data
    try:
        return bytes(text.write(data.decode("utf-8"), unchecked=True))
    except UnicodeDecodeError as error:
        raise Bad(f"{name}: byte {error.start} is not of UTF-8") from None
    except text.Bad as bad:
        raise Bad(f"{name}: {bad}") from None


def test_absences(absences, validators):
    seen = set()
    for who, _, _ in absences:
        if who >= validators:
            raise Stopped(f"the record has {validators} validators, and no number {who}")
        if who in seen:
            raise Stopped(f"validator {who} is named twice")
        seen.add(who)


def input_of(file, epochs, root, absences, validators):
    """All that the program reads, in parts. Who is never away has a first epoch above the last."""
    pairs = bytearray(((1).to_bytes(8, "little") + bytes(8)) * validators)
    for who, first, last in absences:
        pairs[16 * who : 16 * who + 16] = first.to_bytes(8, "little") + last.to_bytes(8, "little")
    return [file, epochs.to_bytes(8, "little"), root, pairs]


def printed(program, parts):
    """What the program prints. It ends with 0 whatever happens, so that an answer that is cut off is told by its text."""
    try:
        made = subprocess.run([program], input=b"".join(parts), stdout=subprocess.PIPE, check=True).stdout.decode("ascii")
    except OSError as error:
        raise Stopped(f"{program}: {error.strerror}: `make programs` builds it") from None
    except (subprocess.CalledProcessError, UnicodeDecodeError) as error:
        raise Stopped(f"{program}: {error}") from None
    if not made.endswith("\n"):
        raise Stopped(f"{program}: what it printed is cut off")
    return made


def progress_of(epochs, what):
    def progress(done):
        if done % 64 == 0 or done == epochs:
            said("outage", f"{what}: {done} of {epochs} epochs")

    return progress


class Answer:
    """The trials that a command needs, each made once and no sooner than it is asked for."""

    def __init__(self, file, epochs, root, absences):
        self.file, self.epochs, self.root, self.absences = file, epochs, root, absences
        self.is_long = len(file) > LONGEST
        self._record, self._trials = None, {}

    @property
    def record(self):
        if self._record is None:
            self._record = altair.Record.read(self.file)
        return self._record

    def trial(self, absent):
        if absent not in self._trials:
            away = {who: (first, last) for who, first, last in self.absences} if absent else {}
            progress = progress_of(self.epochs, "with the absences" if absent else "with nobody away") if self.is_long else lambda done: None
            self._trials[absent] = trial.tried(self.record, self.epochs, self.root, away, [who for who, _, _ in self.absences], progress)
        return self._trials[absent]


def costs(answer):
    """What the absences cost each of the absent, in Gwei and ETH, beside a trial in which nobody is away; and together."""
    absent, there = answer.trial(True), answer.trial(False)
    epochs, together = len(absent.heads), 0
    yield f"\nwhat the absences cost after {epochs} epochs, beside a trial in which nobody is away:\n"
    for who, first, last in answer.absences:
        with_it, without = absent.balances[who][-1], there.balances[who]
        if len(without) <= epochs:
            yield f"the trial in which nobody is away is refused with {there.refusal} after {len(without) - 1} epochs\n"
            return
        cost = without[epochs] - with_it
        together += cost
        yield f"{who}: {first}-{last}: {cost} Gwei ({eth(cost)} ETH): {with_it} Gwei, and {without[epochs]} Gwei had nobody been away\n"
    yield f"together: {together} Gwei ({eth(together)} ETH)\n"


def drawn(answer, given):
    record = answer.record
    slots = record.settings.slots_per_epoch
    dates = lambda epoch: ""
    if given.genesis_time is not None:
        clock = altair.Clock(number(given.genesis_time), number(given.seconds_per_slot), slots)
        dates = lambda epoch: dated(altair.first_second_of_epoch(clock, epoch), seconds=False)
    absent, there = answer.trial(True), answer.trial(False)
    first = trial.last_slot_of_next(record.finality.slot, slots) // slots
    return plot.svg(first, absent.balances, answer.absences, there.balances, dates)


def listing(answer, given, parts, home):
    """The program's text: from the program itself, or line for line the same from the library."""
    program = given.program or str(home / PROGRAM)
    length = sum(map(len, parts))
    if not given.library and length <= LONGEST and (given.program or os.path.exists(program)):
        return printed(program, parts)
    try:
        record = answer.record
    except altair.Refused as refused:
        return f"refused {refused.number}\n"
    return "".join(line + "\n" for line in trial.text(record, answer.trial(True)))


def why_refused(number, file):
    """The refusal in words; of a file, with the field."""
    found = _layout.fault(file)
    return f"{altair.Refused(number)}" + (f": {found.field}: {found.why}" if found and found.refusal == number else "")


def work(words, home, name="tools/outage"):
    given = arguments(name).parse_args(words)
    epochs, root = number(given.epochs), root_of(given.root)
    if epochs > MOST:
        raise Stopped(f"at most {MOST} epochs can be tried, not {epochs}")
    absences = [absence(each) for each in given.absences]
    file = file_of(given.record)
    found = _layout.fault(file)
    if found and found.refusal == 6:
        sys.stdout.write("" if given.input else f"refused {found.refusal}\n")
        said("outage", why_refused(found.refusal, file))
        return 1
    validators = int.from_bytes(file[16:24], "little")
    test_absences(absences, validators)
    parts = input_of(file, epochs, root, absences, validators)
    if given.input:
        with target(given.input, given.force) as write:
            write(b"".join(parts))
        return 0
    answer = Answer(file, epochs, root, absences)
    made = listing(answer, given, parts, home)
    sys.stdout.write(made)
    refused = re.search(r"(?:^|\n)refused ([0-9]+)\n$", made)
    if refused and "\n" not in made[:-1]:
        said("outage", why_refused(int(refused[1]), file))
        return 1
    if absences and not given.listing:
        sys.stdout.writelines(costs(answer))
    if given.plot:
        sys.stdout.flush()  # what cannot be printed leaves no plot
        with target(given.plot, given.force, is_text=True) as write:
            write(drawn(answer, given).encode())
    if refused:
        said("outage", f"{altair.Refused(int(refused[1]))}, at the close of number {made.count(chr(10))}")
        return 1
    return 0

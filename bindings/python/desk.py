#!/usr/bin/env python3
"""A desk that takes exit orders while a close runs: the record file on standard input is closed one step a call, as Altair, and between
two steps the desk takes the orders that its words name:

  tools/record write samples/example.json - | bindings/python/desk.py [--period EPOCHS] [ORDER..]

An ORDER is STEP:VALIDATOR:EPOCH, as 3:1:0: after step 3, validator 1, to leave from epoch 0 on. Each is answered with a line as it is
taken and as it is carried out; the listing of the close comes last. --period is shard_committee_period (mainnet's 256; here 0 unless it is
named). It exits with 0, with 1 where the record is refused, and with 2 where the words are wrong or it could not read, write or find the
library."""
import re
import sys
from collections import defaultdict

from altair_close import Desk, REFUSALS, Record, _command
from altair_close._errors import Stopped

STEPS = ("justification", "inactivity", "rewards", "registry", "slashings", "effective balances", "slashings reset", "participation flags")


def numbers(words, count):
    if not re.fullmatch(":".join(["[0-9]{1,20}"] * count), words, re.ASCII) or any(int(n) > 2**64 - 1 for n in words.split(":")):
        raise ValueError(words)
    return [int(n) for n in words.split(":")]


def asked(words):
    """The period, and the orders by the step after which they come."""
    period, orders = 0, defaultdict(list)
    words = list(words)
    if words[:1] == ["--period"]:
        ((period,), words) = numbers("".join(words[1:2]), 1), words[2:]
    for word in words:
        step, *order = numbers(word, 3)
        if not 1 <= step <= 8:
            raise ValueError(word)
        orders[step].append(order)
    return period, orders


def run(record, period, orders):
    desk = Desk(record, record.settings, room=sum(map(len, orders.values())))
    taken = []
    for number, name in enumerate(STEPS, 1):
        desk.step()
        print(f"step {number}, {name}: done")
        for validator, start in orders[number]:
            desk.order(validator, start)
            taken.append((validator, start))
            print(f"order {len(taken)} taken: validator {validator} from epoch {start} on")
    for place, ((validator, _), answer) in enumerate(zip(taken, desk.carry_out(period)), 1):
        epoch = desk.registry[10 * validator + 4] if answer == 0 else None
        print(f"order {place}: " + (f"validator {validator} leaves at epoch {epoch}" if answer == 0 else f"refused {answer}: {REFUSALS[answer]}"))
    print(*record.listing(desk.closed()), sep="\n")


def main(words):
    if "-h" in words or "--help" in words:
        return print(__doc__)
    try:
        period, orders = asked(words)
    except ValueError as error:
        raise Stopped(f"not understood: {str(error)[:60]!r}\n\n{__doc__}") from None
    run(Record.open("-"), period, orders)


if __name__ == "__main__":
    _command.run("desk", main, sys.argv[1:])

"""A statement as text, CSV and JSON, in pieces."""
import json

from ..forks import title
from .account import Totals
from .amounts import UNITS, eth, signed
from .epoch import ALL, RULES, dated
from .statement import BOUND, EARLIEST, PENDING, taken_as_valid

MEASURED = 1000  # rows whose width decides that of the columns


def text(statement):
    yield statement.heading() + "\n"
    if statement.period():
        yield f"from {statement.period()}\n"
    else:
        yield "without dates: --genesis-time says when slot 0 began\n"
    for epoch in statement.epochs:
        justified, finalized = epoch.finality.current_justified_checkpoint.epoch, epoch.finality.finalized_checkpoint.epoch
        yield (f"epoch {epoch.number}: {title(epoch.fork)}'s rules, slot {epoch.slot} of {epoch.name}, {epoch.validators} validators; "
               f"justified {justified}, finalized {finalized}\n")
    if statement.gaps():
        yield statement.gaps() + "\n"
    if taken_as_valid(statement):
        yield taken_as_valid(statement) + "\n"
    yield f"{UNITS}; opening balance + rewards - taken{extra_words(statement)} = closing balance; "
    yield f"status at {'the epoch behind each' if statement.by_epoch else f'epoch {statement.last.number + 1}'}\n\n"
    totals = Totals()
    yield from table(statement, totals)
    yield from waiting(statement)


def extra_words(statement):
    electra = " + deposited - consolidated_out + consolidated_in" if len(statement.account.rules) == len(ALL) else ""
    return electra + (" + blocks" if len(statement.epochs) > 1 else "") + (" + gaps" if statement.account.gaps else "")


def columns(statement):
    """Name, unit and value of each column of the text."""
    more = []
    if len(statement.epochs) > 1:
        more.append(("blocks", "Gwei", lambda row: signed(row.blocks)))
    if statement.account.gaps:
        more.append(("gaps", "Gwei", lambda row: signed(row.gaps)))
    rules = [(name, "Gwei", lambda row, k=k: row.amounts[k]) for k, name in enumerate(statement.account.rules)]
    return [
        *([("epoch", "", lambda row: row.last)] if statement.by_epoch else []),
        ("index", "", lambda row: row.index),
        ("status", "", lambda row: row.status),
        ("opening_balance", "Gwei", lambda row: row.opening_balance),
        *rules,
        *more,
        ("closing_balance", "Gwei", lambda row: row.closing_balance),
        ("net_change", "Gwei", lambda row: signed(row.net)),
        ("opening_balance", "ETH", lambda row: eth(row.opening_balance)),
        ("closing_balance", "ETH", lambda row: eth(row.closing_balance)),
        ("net_change", "ETH", lambda row: eth(row.net)),
    ]


def table(statement, totals):
    shown = columns(statement)
    lines, rows = [], totals.over(statement.rows())
    for row in rows:
        lines.append((row, [str(value(row)) for _, _, value in shown]))
        if len(lines) == MEASURED:
            break
    # the sum has at most as many digits more as the number of rows has
    widths = [max([len(name), len(unit), *(len(line[k]) for _, line in lines)]) for k, (name, unit, _) in enumerate(shown)]
    line = lambda values: " ".join(value.rjust(width) for value, width in zip(values, widths))
    yield line([name for name, _, _ in shown]) + ("  pubkey\n" if statement.keys else "\n")
    yield line([unit for _, unit, _ in shown]).rstrip() + "\n"
    key = lambda row: f"  {statement.key(row.index)}\n" if statement.keys else "\n"
    for row, values in lines:
        yield line(values) + key(row)
    for row in rows:
        yield line([str(value(row)) for _, _, value in shown]) + key(row)
    if statement.by_epoch:
        return  # rows of different epochs carry one balance forward: their sum says nothing
    yield line([total(totals, name, unit, shown) for name, unit, _ in shown]).rstrip() + "\n"


def total(totals, name, unit, shown):
    if name in ALL:
        return str(totals.amounts[ALL.index(name)] if totals.count else 0)
    found = {"index": "total", "opening_balance": totals.opening_balance, "closing_balance": totals.closing_balance,
             "net_change": totals.net, "blocks": totals.blocks, "gaps": totals.gaps}.get(name, "")
    if isinstance(found, str):
        return found
    return eth(found) if unit == "ETH" else signed(found) if name in ("net_change", "blocks", "gaps") else str(found)


def waiting(statement):
    if statement.waits:
        yield f"\nwaiting for activation ({BOUND})\n"
        for wait in statement.waits:
            yield f"{wait.index}: {wait_words(wait)}\n"
    if statement.pending:
        yield f"\npending deposits ({PENDING})\n"
        for one in statement.pending:
            yield f"{one.pubkey}: {pending_words(one)}\n"
    if statement.exits:
        yield f"\nwhat an order to leave would get now ({EARLIEST})\n"
        for one in statement.exits:
            yield f"{one.index}: {exit_words(one)}\n"


def at_date(date):
    return f" ({date})" if date else ""


def wait_words(wait):
    if wait.why:
        return wait.why
    if wait.closes == 0:
        return f"its activation epoch is set: active from epoch {wait.latest}{at_date(wait.date)}"
    closes = "1 further close" if wait.closes == 1 else f"{wait.closes} further closes"
    return f"{wait.ahead} ahead, activated within {closes}: active from epoch {wait.latest}{at_date(wait.date)} at the latest"


def pending_words(one):
    """Of a deposit in the queue."""
    of = f"{eth(one.amount)} ETH, {one.ahead} ahead, {eth(one.sum)} ETH with its own"
    if one.closes is None:
        return f"{of}: {one.why}"
    closes = "1 further close" if one.closes == 1 else f"{one.closes} further closes"
    if one.why:
        return f"{of}: within {closes}, {one.why}"
    return f"{of}: within {closes}, before epoch {one.latest}{at_date(one.date)}"


def exit_words(one):
    if one.why:
        return one.why
    return (f"exit epoch {one.exit_epoch}{at_date(one.exit_date)}, withdrawable from epoch {one.withdrawable_epoch}"
            f"{at_date(one.withdrawable_date)}")


def csv(statement):
    names = ["first_epoch", "last_epoch", "first_second", "last_second", "index", "pubkey", "status", "opening_balance_gwei",
             *(f"{name}_gwei" for name in statement.account.rules), "blocks_gwei", "gaps_gwei", "closing_balance_gwei", "net_change_gwei",
             "effective_balance_gwei", "opening_balance_eth", "closing_balance_eth", "net_change_eth", "waits_ahead", "waits_closes",
             "active_by_epoch", "active_by"]
    yield ",".join(names) + "\n"
    seconds = {epoch.number: epoch.dates() or ("", "") for epoch in statement.epochs}
    waits = {wait.index: wait for wait in statement.waits}
    for row in statement.rows():
        wait = waits.get(row.index)
        more = [str(n) for n in wait[1:5]] if wait and not wait.why else [""] * 4
        values = [row.first, row.last, seconds[row.first][0], seconds[row.last][1], row.index, statement.key(row.index), row.status,
                  row.opening_balance, *row.amounts, row.blocks, row.gaps, row.closing_balance, row.net, row.effective_balance,
                  eth(row.opening_balance), eth(row.closing_balance), eth(row.net), *more]
        yield ",".join(map(str, values)) + "\n"


def json_of(statement):
    """Numbers are strings; index, pubkey, status, effective_balance, source, target, head and inactivity are the Beacon API's names."""
    yield '{"unit": "Gwei", "gwei_per_eth": "1000000000",\n "epochs": [' + ",\n  ".join(map(epoch_json, statement.epochs)) + "],\n"
    yield ' "gaps": ' + json.dumps([{"first_epoch": str(gap.first), "last_epoch": str(gap.last)} for gap in statement.account.gaps]) + ",\n"
    yield ' "validators": ['
    totals, between = Totals(), "\n  "
    for row in totals.over(statement.rows()):
        yield between + json.dumps(row_json(statement, row))
        between = ",\n  "
    yield "]"
    if not statement.by_epoch:
        yield ',\n "totals": ' + json.dumps({**balances(totals), **amounts_json(totals.amounts)})
    yield ',\n "waiting": ' + json.dumps([tuple_json(wait) for wait in statement.waits])
    if len(statement.account.rules) == len(ALL):
        yield ',\n "pending_deposits": ' + json.dumps([tuple_json(one) for one in statement.pending])
        yield ',\n "note": ' + json.dumps(taken_as_valid(statement))
    yield ',\n "exits": ' + json.dumps([tuple_json(one) for one in statement.exits]) + "}\n"


def epoch_json(epoch):
    dates = epoch.dates()
    finality = epoch.finality
    made = {"epoch": epoch.number, "slot": epoch.slot, "fork": epoch.fork, "read_from": epoch.name, "validators": epoch.validators,
            "justified_epoch": finality.current_justified_checkpoint.epoch, "finalized_epoch": finality.finalized_checkpoint.epoch}
    if dates:
        made.update(first_second=dates[0], last_second=dates[1], first_date=dated(dates[0]), last_date=dated(dates[1]))
    return json.dumps({name: str(value) for name, value in made.items()})


def balances(of):
    return {"opening_balance": str(of.opening_balance), "closing_balance": str(of.closing_balance), "net_change": str(of.net),
            "blocks": str(of.blocks), "gaps": str(of.gaps), "opening_balance_eth": eth(of.opening_balance),
            "closing_balance_eth": eth(of.closing_balance), "net_change_eth": eth(of.net)}


def amounts_json(amounts):
    """By the rule, what was given less what was taken, as rewards/attestations has it; and each amount by itself."""
    nets = {rule: 0 for rule in ("source", "target", "head", "inactivity", "slashing")}
    for name, amount in zip(RULES, amounts):
        rule, kind = name.split("_")
        nets[rule] += amount if kind == "reward" else -amount
    found = {"rewards": {rule: str(net) for rule, net in nets.items()}, "amounts": {name: str(n) for name, n in zip(ALL, amounts)}}
    if len(amounts) == len(ALL):
        deposited, out, into = amounts[-3:]
        found.update(deposits=str(deposited), consolidations=str(into - out))
    return found


def row_json(statement, row):
    made = {"index": str(row.index), "status": row.status, "first_epoch": str(row.first), "last_epoch": str(row.last)}
    if statement.keys is not None:
        made["pubkey"] = statement.key(row.index)
    return {**made, "effective_balance": str(row.effective_balance), **balances(row), **amounts_json(row.amounts)}


def tuple_json(of):
    return {name: str(value) for name, value in of._asdict().items() if value not in (None, "")}

"""A statement as a page: one HTML file with nothing outside it, to be sent to a depositor."""
from html import escape

from ..errors import Stopped
from ..forks import title
from . import chart
from .account import Totals, net_of
from .amounts import eth
from .epoch import ALL, RULES, dated
from .plain import exit_words, extra_words, pending_words, wait_words
from .statement import BOUND, EARLIEST, PENDING, taken_as_valid

MOST = 2000  # validators: more make no page that is read
SHOWN = ("source", "target", "head", "inactivity", "slashing")
MEANING = {
    "source": "voting from the right justified epoch, in time",
    "target": "voting for the right target block, in time",
    "head": "voting for the right head block, in time",
    "inactivity": "absence while the network does not finalize",
    "slashing": "penalty of a slashed validator, by how much was slashed with it",
    "deposits": "deposits that the close applied",
    "consolidations": "balance of a validator that leaves, moved to another",
    "blocks": "what blocks did between two closes: proposals, sync committees, withdrawals, deposits",
    "gaps": "epochs of which no state was given: closes and blocks together",
}
STYLE = """
:root{--paper:#fff;--ink:#1c2430;--soft:#5b6675;--line:#d9dfe7;--band:#f5f7fa;--up:#1a7f4e;--down:#b3362b;--other:#2f6db5;--gap:#b07a1a}
@media (prefers-color-scheme:dark){:root{--paper:#14181f;--ink:#e6eaf0;--soft:#9aa6b5;--line:#333c48;--band:#1b212a;--up:#4cc38a;
--down:#f0837a;--other:#74aef0}}
*{box-sizing:border-box}body{margin:0;background:var(--paper);color:var(--ink);font:15px/1.5 system-ui,sans-serif}
main{max-width:80rem;margin:0 auto;padding:2rem 1.25rem 3rem}h1{font-size:1.7rem;margin:0 0 .2rem}h2{font-size:1.15rem;margin:2.2rem 0 .6rem}
p{margin:.3rem 0}.soft,td small,figcaption{color:var(--soft)}.tiles{display:flex;flex-wrap:wrap;gap:.8rem;margin:1.4rem 0 0}
.tile{flex:1 1 11rem;background:var(--band);border:1px solid var(--line);border-radius:.5rem;padding:.7rem .9rem}
.tile b{display:block;font-size:1.3rem;font-variant-numeric:tabular-nums}.tile>span{color:var(--soft);font-size:.85rem}
.wide{overflow-x:auto;border:1px solid var(--line);border-radius:.5rem}table{border-collapse:collapse;width:100%;font-size:.85rem}
th,td{padding:.4rem .45rem;text-align:right;vertical-align:top;white-space:nowrap;font-variant-numeric:tabular-nums}
th{background:var(--band);font-weight:600;border-bottom:1px solid var(--line)}tbody tr+tr td{border-top:1px solid var(--line)}
tfoot td{border-top:2px solid var(--line);font-weight:600}.left{text-align:left;white-space:normal}
.key{font:.7rem/1.35 ui-monospace,monospace;word-break:break-all;display:block;width:15.2rem;color:var(--soft)}
.up{color:var(--up)}.down{color:var(--down)}figure{margin:0}svg{max-width:100%;height:auto;display:block}svg text{fill:var(--ink)}
svg .soft{fill:var(--soft)}svg .axis{stroke:var(--line)}svg .up{fill:var(--up)}svg .down{fill:var(--down)}svg .other{fill:var(--other)}svg .gap{fill:var(--gap)}
.two{display:grid;grid-template-columns:minmax(0,5fr) minmax(0,8fr);gap:1.5rem;align-items:start}.rule{min-width:13rem}
@media (max-width:60rem){.two{grid-template-columns:minmax(0,1fr)}}figcaption{font-size:.85rem;margin-top:.3rem}.group{text-align:center;border-left:1px solid var(--line)}
@media print{main{padding:0;max-width:none}.wide{overflow:visible;border:0}body{font-size:11px}}
"""


def grouped(number):
    """Digits by threes, a true minus sign for a loss."""
    return f"{number:,}".replace("-", "\u2212").replace(",", "\u202f")


def signed(number):
    return f"+{grouped(number)}" if number > 0 else grouped(number)


def coloured(number, text):
    kind = "up" if number > 0 else "down" if number < 0 else ""
    return f'<span class="{kind}">{text}</span>' if kind else text


def coins(gwei, sign=False):
    return ("+" if sign and gwei > 0 else "") + eth(gwei).replace("-", "\u2212")


def by_rule(amounts):
    """rule -> what was given, what was taken."""
    found = {rule: [0, 0] for rule in SHOWN}
    for name, amount in zip(RULES, amounts):
        rule, kind = name.split("_")
        found[rule][kind == "taken"] += amount
    if len(amounts) == len(ALL):
        deposited, out, into = amounts[-3:]
        found.update(deposits=[deposited, 0], consolidations=[into, out])
    return found


def page(statement):
    totals = Totals()
    rows = []
    for row in totals.over(statement.account.rows()):
        rows.append(row)
        if len(rows) > MOST:
            raise Stopped(f"a page takes at most {MOST} validators: --validators chooses some")
    rules = by_rule(totals.amounts)
    run = len(statement.epochs) > 1
    yield '<!doctype html>\n<html lang="en"><head><meta charset="utf-8">'
    yield '<meta name="viewport" content="width=device-width,initial-scale=1">'
    yield f"<title>{escape(statement.heading())}</title><style>{STYLE}</style></head><body><main>\n"
    yield f"<h1>{escape(statement.heading())}</h1>\n"
    period = statement.period() or "without dates: nobody has said when slot 0 began"
    units = f"amounts in Gwei and ETH (1 ETH = {grouped(10**9)} Gwei)"
    yield f'<p class="soft">{escape(period)} · {escape(statement.forks())} rules · {units}</p>\n'
    if statement.gaps():
        yield f'<p class="down">{escape(statement.gaps().capitalize())}.</p>\n'
    if taken_as_valid(statement):
        yield f'<p class="soft">{escape(taken_as_valid(statement))}.</p>\n'
    yield tiles(totals)
    yield '<h2>What was given and taken, by rule</h2>\n<div class="two">'
    yield f"<figure>{chart.rules(bars(rules, totals, statement))}"
    yield f"<figcaption>{totals.count} validators together, in Gwei</figcaption></figure>\n"
    yield rules_table(rules, totals, statement) + "</div>\n"
    if run:
        yield f"<h2>Epoch by epoch</h2>\n<figure>{chart.epochs(points(statement))}"
        yield "<figcaption>Net change by closes, and what came between them, in Gwei, of the same validators</figcaption></figure>\n"
    yield f"<h2>Validators</h2>\n{validators_table(statement, rows, totals)}\n"
    yield from later(statement)
    yield closes_table(statement)
    yield f'<p class="soft">Opening balance + given \u2212 taken{extra_words(statement)} = closing balance, of each validator and in total. '
    yield "Every amount is that of a proved library, which closes the epoch as the network's rules define it.</p>\n"
    yield "</main></body></html>\n"


def tiles(totals):
    net = coloured(totals.net, coins(totals.net, True))
    parts = [("validators", str(totals.count), ""),
             ("opening balance, ETH", coins(totals.opening_balance), f"{grouped(totals.opening_balance)} Gwei"),
             ("closing balance, ETH", coins(totals.closing_balance), f"{grouped(totals.closing_balance)} Gwei"),
             ("net change, ETH", net, f"{signed(totals.net)} Gwei")]
    tile = '<div class="tile"><span>{}</span><b>{}</b><span>{}</span></div>'
    return '<div class="tiles">' + "".join(tile.format(*part) for part in parts) + "</div>\n"


def beside(totals, statement):
    """The figures that no close gave or took, where there can be some."""
    if len(statement.epochs) > 1:
        yield "blocks", totals.blocks
    if statement.account.gaps:
        yield "gaps", totals.gaps


def bars(rules, totals, statement):
    found = [(rule, given, taken) for rule, (given, taken) in rules.items()]
    return found + [(name, max(n, 0), max(-n, 0)) for name, n in beside(totals, statement)]


def rules_table(rules, totals, statement):
    lines = []
    for rule, (given, taken) in rules.items():
        lines.append((rule, given, taken, given - taken))
    for name, n in beside(totals, statement):
        lines.append((name, max(n, 0), max(-n, 0), n))
    body = "".join(
        f'<tr><td class="left rule">{rule}<br><small>{MEANING[rule]}</small></td><td>{grouped(given)}</td><td>{grouped(taken)}</td>'
        f"<td>{coloured(net, signed(net))}</td><td>{coins(net, True)}</td></tr>" for rule, given, taken, net in lines)
    head = '<th class="left">rule</th><th>given, Gwei</th><th>taken, Gwei</th><th>net, Gwei</th><th>net, ETH</th>'
    given, taken = sum(line[1] for line in lines), sum(line[2] for line in lines)
    foot = (f'<td class="left">together</td><td>{grouped(given)}</td><td>{grouped(taken)}</td><td>{signed(totals.net)}</td>'
            f"<td>{coins(totals.net, True)}</td>")
    return f'<div class="wide"><table><thead><tr>{head}</tr></thead><tbody>{body}</tbody><tfoot><tr>{foot}</tr></tfoot></table></div>'


def points(statement):
    """For each epoch: its number, what the close came to, and what came before it since the last one, by blocks or in a gap."""
    found = {}
    for row in statement.account.by_epoch():
        close, between, gap = found.get(row.last, (0, 0, 0))
        found[row.last] = close + net_of(row.amounts), between + row.blocks, gap + row.gaps
    return [(epoch, *numbers) for epoch, numbers in found.items()]


def cell(given, taken):
    parts = ([coloured(1, signed(given))] if given else []) + ([coloured(-1, grouped(-taken))] if taken else [])
    return f"<td>{'<br>'.join(parts) or '0'}</td>"


def validators_table(statement, rows, totals):
    more = [name for name, _ in beside(totals, statement)]
    # of a run there are columns more, so that those without any figure are left out
    kept = [rule for rule, pair in by_rule(totals.amounts).items() if any(pair) or not more]
    rules = (*kept, *more)
    named = "index, status, public key" if statement.keys is not None else "index, status"
    head = (f'<tr><th class="left" rowspan="2">{named}</th><th class="group" colspan="3">balance, ETH</th>'
            f'<th class="group" colspan="{len(rules) + 1}">given and taken, Gwei</th></tr>\n<tr><th>opening</th><th>closing</th><th>net</th>'
            + "".join(f"<th>{rule}</th>" for rule in rules) + "<th>net</th></tr>")
    lines = "\n".join(validator_line(statement, row, kept, more) for row in rows)
    foot = '<td class="left">together</td>' + figures(totals, kept, more)
    empty = [rule for rule in by_rule(totals.amounts) if rule not in kept]
    note = f'\n<p class="soft">Nobody was given or charged anything for {" or ".join(empty)}.</p>' if empty else ""
    body = f"<thead>{head}</thead><tbody>\n{lines}\n</tbody><tfoot><tr>{foot}</tr></tfoot>"
    return f'<div class="wide"><table id="validators">{body}</table></div>{note}'


def validator_line(statement, row, kept, more):
    key = f'<span class="key">{statement.key(row.index)}</span>' if statement.keys is not None else ""
    return f'<tr><td class="left"><b>{row.index}</b> {row.status}{key}</td>{figures(row, kept, more)}</tr>'


def figures(of, kept, more):
    """The cells of a row, or of the totals."""
    found = by_rule(of.amounts)
    amounts = "".join(cell(*found[rule]) for rule in kept) + "".join(f"<td>{signed(getattr(of, name))}</td>" for name in more)
    return (f"<td>{coins(of.opening_balance)}</td><td>{coins(of.closing_balance)}</td>"
            f"<td>{coloured(of.net, coins(of.net, True))}</td>"
            f"{amounts}<td>{coloured(of.net, signed(of.net))}</td>")


def later(statement):
    """Who waits, and what an order to leave would get."""
    for heading, note, first, lines in (
        ("Waiting for activation", BOUND, "index", [(wait.index, wait_words(wait)) for wait in statement.waits]),
        ("Pending deposits", PENDING, "public key", [(f'<span class="key">{one.pubkey}</span>', pending_words(one)) for one in statement.pending]),
        ("An order to leave, given now", EARLIEST, "index", [(one.index, exit_words(one)) for one in statement.exits]),
    ):
        if lines:
            body = "".join(f'<tr><td>{index}</td><td class="left">{escape(words)}</td></tr>' for index, words in lines)
            head = f'<tr><th>{first}</th><th class="left">what is promised</th></tr>'
            table = f"<table><thead>{head}</thead><tbody>{body}</tbody></table>"
            yield f'<h2>{heading}</h2>\n<p class="soft">{note.capitalize()}.</p>\n<div class="wide">{table}</div>\n'


def closes_table(statement):
    lines = []
    for epoch in statement.epochs:
        dates = epoch.dates()
        when = f"{dated(dates[0])} to {dated(dates[1])}" if dates else ""
        finality = epoch.finality
        lines.append(f'<tr><td>{epoch.number}</td><td class="left">{when}</td><td class="left">{title(epoch.fork)}</td><td>{epoch.slot}</td>'
                     f"<td>{finality.current_justified_checkpoint.epoch}</td><td>{finality.finalized_checkpoint.epoch}</td>"
                     f'<td>{grouped(epoch.validators)}</td><td class="left">{escape(epoch.name.rpartition("/")[2])}</td></tr>')
    head = ('<th>epoch</th><th class="left">dates</th><th class="left">rules</th><th>slot</th><th>justified</th><th>finalized</th>'
            '<th>all validators</th><th class="left">read from</th>')
    table = f"<table><thead><tr>{head}</tr></thead><tbody>{''.join(lines)}</tbody></table>"
    return f'<h2>Closes</h2>\n<div class="wide">{table}</div>\n'

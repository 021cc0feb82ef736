"""What came of all cases, as a table by step, with each case that is not equal below it."""
from collections import Counter

from .cases import skipped
from .compare import DIFFERENT, EQUAL, UNREADABLE, outcome
from .steps import STEPS

COLUMNS = ("run", EQUAL, DIFFERENT, UNREADABLE, "skipped")


def run(cases, settings):
    """Counts by (preset, fork, step), the lines to print below the table; settings are by preset."""
    counts, notes, reasons = {}, [], Counter()
    for case in cases:
        row = counts.setdefault((case.preset, case.fork, case.step), Counter())
        why = skipped(case)
        if why:
            row["skipped"] += 1
            reasons[case.preset, case.fork, case.step, why] += 1
            continue
        what, why = outcome(case, settings[case.preset])
        row[what] += 1
        row["run"] += what != UNREADABLE
        if why:
            notes.append(f"{what}: {case.name}: {why}")
    notes += [f"skipped: {preset} {fork} {step}: {why} ({count})" for (preset, fork, step, why), count in reasons.items()]
    return counts, notes


def table(counts):
    """The lines of the table, steps in the order of the close."""
    order = {step: k for k, step in enumerate(STEPS)}
    rows = sorted(counts, key=lambda row: (row[:2], order.get(row[2], len(order)), row[2]))
    lines = [("preset", "fork", "step", *COLUMNS)]
    lines += [(*row, *(str(counts[row][name]) for name in COLUMNS)) for row in rows]
    widths = [max(map(len, column)) for column in zip(*lines)]
    for line in lines:
        yield "  ".join(text.ljust(w) if k < 3 else text.rjust(w) for k, (text, w) in enumerate(zip(line, widths)))


def totals(counts):
    return {name: sum(row[name] for row in counts.values()) for name in COLUMNS}

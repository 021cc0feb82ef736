"""The balances of absent validators, epoch by epoch, as an SVG: with a title, units, the absences shaded, and every curve in the legend."""
from xml.sax.saxutils import escape

GWEI = 10**9
WIDE, LEFT, RIGHT, TOP = 900, 120, 24, 64
HIGH = 340  # of the curves themselves
COLUMN, LINE = 260, 18  # of the legend
MOST_POINTS = 1024


def colour(place, count):
    return f"hsl({360 * place // max(1, count)},65%,38%)"


def thinned(points):
    """At most so many, the first and the last among them."""
    if len(points) <= MOST_POINTS:
        return points
    return [points[k * (len(points) - 1) // (MOST_POINTS - 1)] for k in range(MOST_POINTS)]


def marks(low, high, count=5):
    """Whole numbers from low to high, the ends among them."""
    return sorted({low + (high - low) * i // (count - 1) for i in range(count)})


def svg(first_epoch, curves, absences, beside, dates=lambda epoch: ""):
    """`curves` and `beside` have for each absent validator its balances, in Gwei, from the record on: with the absence, and had it been there.
    The balance at first_epoch - 1 is the record's own."""
    closes = max(len(curve) for curve in curves.values()) - 1 if curves else 0
    begin, end = first_epoch - 1, first_epoch - 1 + max(1, closes)
    values = [n for curve in (*curves.values(), *beside.values()) for n in curve] or [0]
    low, high = min(values), max(values)
    if low == high:
        low, high = max(0, low - 1), high + 1
    legend = -(-(len(absences) + 1) * COLUMN // (WIDE - LEFT)) * LINE
    bottom = TOP + HIGH
    height = bottom + 84 + legend
    across = lambda epoch: LEFT + (WIDE - LEFT - RIGHT) * (epoch - begin) / (end - begin)
    upwards = lambda gwei: bottom - HIGH * (gwei - low) / (high - low)
    parts = [f'<svg xmlns="http://www.w3.org/2000/svg" width="{WIDE}" height="{height}" viewBox="0 0 {WIDE} {height}" '
             'font-family="sans-serif" font-size="12">',
             f'<rect width="{WIDE}" height="{height}" fill="white"/>',
             f'<text x="{LEFT}" y="26" font-size="17" font-weight="bold">What an absence costs: balances after each close</text>',
             f'<text x="{LEFT}" y="46" fill="#555">{escape(span_words(first_epoch, closes, dates))}</text>']
    for first, last in sorted({(first, last) for _, first, last in absences}):
        left, right = max(across(max(first - 0.5, begin)), LEFT), min(across(min(last + 0.5, end)), WIDE - RIGHT)
        if left < right:
            parts.append(f'<rect class="away" x="{left:.1f}" y="{TOP}" width="{right - left:.1f}" height="{HIGH}" '
                         'fill="#888" fill-opacity="0.13"/>')
    for gwei in marks(low, high):
        y = upwards(gwei)
        parts.append(f'<line x1="{LEFT}" x2="{WIDE - RIGHT}" y1="{y:.1f}" y2="{y:.1f}" stroke="#ddd"/>')
        parts.append(f'<text x="{LEFT - 8}" y="{y + 4:.1f}" text-anchor="end">{gwei // GWEI}.{gwei % GWEI:09d}</text>')
    for epoch in marks(begin, end):
        anchor = "end" if epoch == end else "middle"  # the last one within the picture
        parts.append(f'<text x="{across(epoch):.1f}" y="{bottom + 18}" text-anchor="{anchor}">{epoch}</text>')
        if dates(epoch):
            parts.append(f'<text x="{across(epoch):.1f}" y="{bottom + 33}" text-anchor="{anchor}" fill="#555" font-size="10">'
                         f"{dates(epoch)}</text>")
    parts.append(f'<text x="{(LEFT + WIDE - RIGHT) / 2}" y="{bottom + 52}" text-anchor="middle">epoch that was closed</text>')
    parts.append(f'<text transform="translate(16 {TOP + HIGH / 2}) rotate(-90)" text-anchor="middle">balance, ETH</text>')
    for place, (who, first, last) in enumerate(absences):
        ink = colour(place, len(absences))
        for kind, curve, dashes in ("there", beside.get(who, ()), ' stroke-dasharray="4 3" stroke-opacity="0.75"'), ("absent", curves[who], ""):
            points = " ".join(f"{across(begin + step):.1f},{upwards(gwei):.1f}" for step, gwei in thinned(list(enumerate(curve))))
            parts.append(f'<polyline class="{kind}" fill="none" stroke="{ink}" stroke-width="1.6"{dashes} points="{points}"/>')
    words = [(colour(k, len(absences)), "", f"{who}: away {first} to {last}") for k, (who, first, last) in enumerate(absences)]
    words.append(("#555", ' stroke-dasharray="4 3"', "dashed: had nobody been away"))
    each = max(1, (WIDE - LEFT) // COLUMN)
    for place, (ink, dashes, said) in enumerate(words):
        x, y = LEFT + COLUMN * (place % each), bottom + 76 + LINE * (place // each)
        parts.append(f'<line x1="{x}" x2="{x + 22}" y1="{y - 4}" y2="{y - 4}" stroke="{ink}" stroke-width="2"{dashes}/>')
        parts.append(f'<text class="legend" x="{x + 28}" y="{y}">{escape(said)}</text>')
    return "\n".join([*parts, "</svg>", ""])


def span_words(first_epoch, closes, dates):
    if not closes:
        return "no epoch was closed"
    words = f"epochs {first_epoch} to {first_epoch + closes - 1}"
    begun, ended = dates(first_epoch), dates(first_epoch + closes - 1)
    return f"{words}, {begun} to {ended}; shaded: the absences" if begun and ended else f"{words}; shaded: the absences"

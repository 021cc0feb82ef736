"""The charts of a page: plain SVG, coloured by the page's own classes."""


def short(number):
    """At most four digits and a letter, for a label."""
    for size, letter in (10**18, "E"), (10**15, "P"), (10**12, "T"), (10**9, "G"), (10**6, "M"), (10**3, "k"):
        if abs(number) >= size:
            return f"{number / size:.4g}{letter}".replace("-", "\u2212")
    return str(number).replace("-", "\u2212")


def svg(width, height, label, parts):
    head = f'<svg viewBox="0 0 {width} {height}" width="{width}" height="{height}" role="img" aria-label="{label}" '
    return head + f'font-size="12" font-family="inherit"><title>{label}</title>' + "".join(parts) + "</svg>"


def rules(bars):
    """(rule, given, taken): what was given to the right of the middle, what was taken to the left."""
    left, right, line, labels = 70, 500, 30, 66
    most = max([1, *(n for _, given, taken in bars for n in (given, taken))])
    losses = max([0, *(taken for _, _, taken in bars)])
    gains = max([0, *(given for _, given, _ in bars)])
    room = right - left - 2 * labels
    scale = room / max(1, gains + losses) if most > 1 else 1
    zero = left + labels + losses * scale
    parts, height = [], line * len(bars) + 12
    for k, (rule, given, taken) in enumerate(bars):
        y = 8 + line * k
        parts.append(f'<text x="0" y="{y + 15}">{rule}</text>')
        if given:
            parts.append(f'<rect class="up" x="{zero:.1f}" y="{y}" width="{max(1, given * scale):.1f}" height="20" rx="2"/>')
            parts.append(f'<text class="soft" x="{zero + given * scale + 5:.1f}" y="{y + 15}">+{short(given)}</text>')
        if taken:
            wide = max(1, taken * scale)
            parts.append(f'<rect class="down" x="{zero - wide:.1f}" y="{y}" width="{wide:.1f}" height="20" rx="2"/>')
            parts.append(f'<text class="soft" x="{zero - taken * scale - 5:.1f}" y="{y + 15}" text-anchor="end">{short(-taken)}</text>')
        if not given and not taken:
            parts.append(f'<text class="soft" x="{zero + 5:.1f}" y="{y + 15}">0</text>')
    parts.append(f'<line class="axis" x1="{zero:.1f}" x2="{zero:.1f}" y1="2" y2="{height - 4}"/>')
    return svg(right, height, "What each rule gave and took, in Gwei", parts)


def epochs(points):
    """(epoch, by the close, by blocks before it, in a gap before it): a group of bars for each epoch, above or below the line."""
    left, width, height, top, bottom = 70, 1040, 260, 34, 34
    values = [n for _, *numbers in points for n in numbers]
    low, high = min(0, *values), max(0, *values)
    span = max(1, high - low)
    y = lambda n: top + (height - top - bottom) * (high - n) / span
    step = (width - left - 10) / len(points)
    bar = max(0.5, min(18, step / 3.5))
    kinds = [("up", "closes"), ("other", "blocks"), ("gap", "gaps")]
    used = [k for k in range(3) if k < 2 or any(point[3] for point in points)]
    parts = []
    for mark in sorted({low, 0, high}):
        parts.append(f'<line class="axis" x1="{left}" x2="{width}" y1="{y(mark):.1f}" y2="{y(mark):.1f}"/>')
        parts.append(f'<text class="soft" x="{left - 6}" y="{y(mark) + 4:.1f}" text-anchor="end">{short(mark)}</text>')
    every = -(-len(points) // 12)
    for k, (epoch, *numbers) in enumerate(points):
        middle = left + step * (k + 0.5)
        for place, kind in enumerate(used):
            n = numbers[kind]
            x = middle + bar * (place - len(used) / 2)
            parts.append(f'<rect class="{kinds[kind][0]}" x="{x:.1f}" y="{min(y(0), y(n)):.1f}" width="{bar * 0.92:.1f}" '
                         f'height="{abs(y(n) - y(0)):.1f}"><title>epoch {epoch}, {kinds[kind][1]}: {n} Gwei</title></rect>')
        if k % every == 0:
            parts.append(f'<text class="soft" x="{middle:.1f}" y="{height - 12}" text-anchor="middle">{epoch}</text>')
    at = left
    for kind in used:
        colour, words = kinds[kind]
        parts.append(f'<rect class="{colour}" x="{at}" y="8" width="11" height="11" rx="2"/><text x="{at + 16}" y="18">{words}</text>')
        at += 90
    return svg(width, height, "Net change by epoch, in Gwei", parts)

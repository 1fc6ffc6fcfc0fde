"""The office's sums as one page: HTML with charts in SVG, without scripts and without other files.

`office audit --sums` writes it. It costs a bar a sum."""
from __future__ import annotations

import collections
import html
from collections.abc import Iterable

from office.tables import Row

STYLE = """
:root { color-scheme: light dark; font: 16px/1.4 system-ui, sans-serif; }
body { max-width: 64rem; margin: 1rem auto; padding: 0 1rem; }
table { border-collapse: collapse; font-variant-numeric: tabular-nums; }
th, td { padding: .2rem .6rem; text-align: right; border-bottom: 1px solid #8884; }
figure { margin: 1rem 0 2rem; } svg { width: 100%; height: auto; } svg text { fill: currentColor; }
.more { overflow-x: auto; }
"""
COLOURS = ("#0b6fb8", "#b8560b", "#2a8a3e", "#8a2a86", "#a08a00", "#4a5a6a")
# Of a chart, in its own units.
WIDTH, ROW, LEFT, RIGHT = 900, 26, 150, 170
MICROS = 1_000_000


def page(charges: list[Row], buckets: list[Row], findings: int) -> str:
    """The whole page."""
    found = "no finding" if not findings else f"<strong>{findings} findings</strong>"
    parts = [
        chart("Collected by month and rating group", charges, "month", "rating_group", "collected"),
        chart("Collected by month and book", charges, "month", "book", "collected"),
        chart("Collected by shard", charges, "shard", "rating_group", "collected"),
        chart("Left uncollected by month", charges, "month", "rating_group", "uncollected"),
        chart("Credited by month", money(buckets), "month", "shard", "credited"),
        table("Charges", charges),
        table("Buckets", buckets),
    ]
    return (
        '<!doctype html>\n<html lang="en"><head><meta charset="utf-8">\n'
        '<meta name="viewport" content="width=device-width">\n'
        f"<title>The office's sums</title><style>{STYLE}</style></head>\n<body>\n"
        f"<h1>The office's sums</h1>\n<p>The audit has {found}. Charts are in units of the "
        f"currency, tables in micro-units.</p>\n" + "\n".join(parts) + "\n</body></html>\n"
    )


def money(buckets: Iterable[Row]) -> list[Row]:
    """The rows of money."""
    return [row for row in buckets if row["kind"] == "money"]


def chart(title: str, rows: list[Row], by: str, part: str, column: str) -> str:
    """Bars by one key, each in parts by another."""
    sums = collections.defaultdict[str, collections.Counter[str]](collections.Counter)
    for row in rows:
        sums[str(row[by])][str(row[part])] += row[column]
    parts = sorted(
        {name for each in sums.values() for name in each}, key=lambda one: (len(one), one)
    )
    most = max((each.total() for each in sums.values()), default=0)
    bars = [bar(at, key, sums[key], parts, most, part) for at, key in enumerate(sorted(sums))] or [
        f'<text x="0" y="{ROW - 8}">nothing yet</text>'
    ]
    height = ROW * len(bars)
    told = ", ".join(f"{key}: {amount(sums[key].total())}" for key in sorted(sums))
    label = html.escape(f"{title}. {told}")
    return (
        f"<figure><figcaption><h2>{html.escape(title)}</h2></figcaption>\n"
        f'<svg viewBox="0 0 {WIDTH} {height}" role="img" aria-label="{label}">\n'
        + "\n".join(bars)
        + f"\n</svg><p>{legend(parts, part)}</p></figure>"
    )


def bar(
    at: int, key: str, sums: collections.Counter[str], parts: list[str], most: int, part: str
) -> str:
    """One bar with its name and its sum."""
    top, left, made = ROW * at, float(LEFT), []
    for name in parts:
        width = (WIDTH - LEFT - RIGHT) * sums[name] / most if most else 0.0
        title = f"{key}, {part} {name}: {amount(sums[name])}".replace("_", " ")
        made.append(
            f'<rect x="{left:.1f}" y="{top + 4}" width="{width:.1f}" height="{ROW - 8}" '
            f'fill="{colour(parts, name)}"><title>{html.escape(title)}</title></rect>'
        )
        left += width
    middle = top + ROW - 8
    made.append(f'<text x="0" y="{middle}">{html.escape(key)}</text>')
    made.append(f'<text x="{left + 8:.1f}" y="{middle}">{amount(sums.total())}</text>')
    return "".join(made)


def legend(parts: list[str], part: str) -> str:
    """Which colour is which part."""
    return " ".join(
        f'<span><span style="color:{colour(parts, name)}">&#9632;</span> '
        f"{html.escape(part.replace('_', ' '))} {html.escape(name)}</span>"
        for name in parts
    )


def colour(parts: list[str], name: str) -> str:
    """The colour of a part."""
    return COLOURS[parts.index(name) % len(COLOURS)]


def amount(micros: int) -> str:
    """Micro-units as units of the currency."""
    return f"{micros / MICROS:,.2f}"


def table(title: str, rows: list[Row]) -> str:
    """Rows as they are in the CSV."""
    if not rows:
        return f"<h2>{title}</h2><p>none</p>"
    names = list(dict.fromkeys(name for row in rows for name in row))
    head = "".join(f"<th>{html.escape(name.replace('_', ' '))}</th>" for name in names)
    cells = ([html.escape(str(row.get(name, ""))) for name in names] for row in rows)
    body = "\n".join("<tr>" + "".join(f"<td>{one}</td>" for one in row) + "</tr>" for row in cells)
    return f'<h2>{title}</h2>\n<div class="more"><table><tr>{head}</tr>\n{body}</table></div>'

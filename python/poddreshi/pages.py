"""Friday's sheet as one printable HTML page, with the picture of each chain."""
from typing import List, Sequence

from . import calls, pictures
from .sheets import Sheet, Trip, heading, steps, summary
from .svg import clean
from .texts import Fault

_STYLE = """\
body { font: 14px sans-serif; color: #111; margin: 2em auto; max-width: 62em; padding: 0 1em; }
h1 { font-size: 22px; } h2 { font-size: 16px; margin: 0 0 .4em; }
section { border-top: 1px solid #ccc; padding: 1em 0; break-inside: avoid; }
table { border-collapse: collapse; margin: .4em 0 .8em; } th, td { text-align: left; padding: 2px 14px 2px 0; }
th { font-weight: normal; color: #555; } td:first-child { text-align: right; font-weight: bold; }
svg { max-width: 100%; height: auto; } .none, .fault { color: #a33; }
@media print { body { margin: 0; max-width: none; } }"""
_COLUMNS = ("window", "name", "begin", "end", "hand over from", "until")


def _table(rows: Sequence[Sequence[str]]) -> str:
    head = "".join(f"<th>{clean(cell)}</th>" for cell in _COLUMNS)
    body = "\n".join("<tr>" + "".join(f"<td>{clean(cell)}</td>" for cell in row) + "</tr>" for row in rows)
    return f"<table>\n<tr>{head}</tr>\n{body}\n</table>"


def _section(sheet: Sheet, trip: Trip, tree: calls.Tree) -> List[str]:
    plan, name = sheet.plan, clean(heading(sheet.plan, trip))
    if trip.chain is None:
        return ["<section>", f'<h2 class="none">{name}</h2>', "</section>"]
    # In the order of travel the page tells it; the picture keeps the library's order, from the later window to the earlier.
    chain = trip.chain if trip.chain[0] >= trip.chain[-1] else trip.chain[::-1]
    scene = pictures.Scene(plan, tree, sorted(chain), (trip.present, trip.wanted), chain, chart=620)
    return ["<section>", f"<h2>{name}</h2>", _table(steps(plan, trip)), pictures.draw(scene), "</section>"]


def page(sheet: Sheet) -> str:
    title = f"Plan {sheet.plan.number}: chains"
    parts = [
        '<!DOCTYPE html>\n<html lang="en">\n<head>\n<meta charset="utf-8"/>',
        f"<title>{title}</title>\n<style>\n{_STYLE}\n</style>\n</head>\n<body>",
        f"<h1>{title}</h1>\n<p>{clean(summary(sheet))}</p>",
    ]
    tree = calls.build(sheet.plan.file)
    for each in sheet.in_order:
        if isinstance(each, Fault):
            parts.append(f'<section><h2 class="fault">{clean(str(each))}</h2></section>')
        else:
            parts += _section(sheet, each, tree)
    return "\n".join([*parts, "</body>\n</html>\n"])

"""The clearance sheet: one page of HTML that needs nothing else, to be read on a screen or printed."""
import datetime
import html
import os
from typing import NamedTuple

from desk import replies
from desk.files import Named


class Cleared(NamedTuple):
    """A book that was cleared, how the proved reader shows it, and by what it was cleared."""

    book: Named
    ranks: bytes
    shown: dict
    solver: str
    solver_version: str
    built: dict


STYLE = """
  body { font: 16px/1.5 system-ui, sans-serif; color: #1b2733; background: #fff; max-width: 46rem; margin: 0 auto; padding: 1.5rem 1rem 3rem }
  h1 { font-size: 1.5rem; margin: 0 } h2 { font-size: 1.1rem; margin: 2rem 0 .5rem }
  .verdict { border-left: .4rem solid #1f7a4d; background: #eef7f1; padding: .7rem 1rem; margin: 1rem 0 }
  .not { border-left: .4rem solid #b35c00; background: #fdf4e8; padding: .2rem 1rem .7rem; margin: 1rem 0 }
  .not h2 { margin-top: .6rem }
  table { border-collapse: collapse; width: 100% }
  th, td { text-align: left; vertical-align: top; padding: .25rem .6rem .25rem 0; border-bottom: 1px solid #dde3e8; overflow-wrap: anywhere }
  th { font-weight: 600; width: 9.5rem } .rules th { width: 2.5rem }
  code, td.term { font-family: ui-monospace, monospace; font-size: .9rem; overflow-wrap: anywhere }
  svg { display: block; width: 100%; max-width: 26rem; height: auto }
  @media (max-width: 30rem) { th { width: 6.5rem } }
  @media print { body { padding: 0; max-width: none } h2, .not { break-after: avoid } tr, svg { break-inside: avoid } }
"""

SAYS = """Every record over this book's symbols, without variables, comes to rest: there is a number that no sequence of steps exceeds, whichever
rule is applied at whichever place. The proved check decided so from the ranks below; the solver only proposed them."""

SAYS_NOT = (
    "that the date is right. The rules may name the wrong date and still come to rest; whether they say what the treatment needs is for a person "
    "to read from the rules.",
    "that a run stays below 256 nodes. A run stops as <code>too large</code> where the next term would pass them, before the record has come to rest.",
    "that any one budget is enough. A run that is <code>spent</code> has not come to rest yet.",
    "anything of other bytes. Another book, or this one after a change, has another sum and needs its own clearance.",
)


# ---- the order as a picture

ACROSS, WIDE, HIGH, GAP = 4, 76, 34, 30


def _row(names, top):
    """The symbols of one rank, four to a line."""
    boxes = []
    for at, name in enumerate(names):
        x, y = 84 + at % ACROSS * (WIDE + 8), top + at // ACROSS * (HIGH + 8)
        boxes.append(f'<rect x="{x}" y="{y}" width="{WIDE}" height="{HIGH}" rx="6" fill="#e8eff7" stroke="#3c6ea5"/>'
                     f'<text x="{x + WIDE // 2}" y="{y + 22}" text-anchor="middle">{name}</text>')
    lines = (len(names) - 1) // ACROSS + 1
    return "".join(boxes), lines * (HIGH + 8) - 8


def picture(ranks, arities):
    """The ranks from the highest down: a symbol is above those of every lower rank, and unrelated to those of its own."""
    parts, top, ranks_down = [], 8, sorted(set(ranks), reverse=True)
    for level, names in zip(ranks_down, replies.levels(ranks)):
        row, height = _row([f"{name}/{arities[name]}" for name in names], top)
        parts.append(f'<text x="4" y="{top + 22}" fill="#5a6772">rank {level}</text>{row}')
        top += height
        if level != ranks_down[-1]:
            parts.append(f'<path d="M122 {top + 3} v{GAP - 10} m-5 -6 l5 6 l5 -6" fill="none" stroke="#3c6ea5" stroke-width="1.5"/>'
                         f'<text x="134" y="{top + 19}" fill="#5a6772" font-size="12">above</text>')
            top += GAP
    return (f'<svg viewBox="0 0 424 {top + 8}" role="img" aria-label="{html.escape(replies.order(ranks))}" '
            f'font-family="ui-monospace, monospace" font-size="14">{"".join(parts)}</svg>')


# ---- the page

def _facts(cleared):
    built = cleared.built
    return (
        ("book", html.escape(os.path.basename(cleared.book.name))),
        ("its bytes", str(len(cleared.book.data))),
        ("its SHA-256", f"<code>{cleared.book.sum}</code>"),
        ("cleared on", datetime.datetime.now(datetime.timezone.utc).strftime("%Y-%m-%d %H:%M UTC")),
        ("ranks", f"<code>{' '.join(map(str, cleared.ranks)) or 'none: the book has no symbols'}</code>"),
        ("proposed by", html.escape(f"{cleared.solver} {cleared.solver_version}".strip())),
        ("checked by", html.escape(f"rulebook {built['version']}")),
        ("proved sources", f"SHA-256 <code>{built['sources']}</code>"),
        ("proved with", html.escape(built.get("kit", "not told"))),
    )


def _rules(rules):
    rows = "".join(f'<tr><th>{rule["number"]}</th><td class="term">{html.escape(rule["left"])} → {html.escape(rule["right"])}</td></tr>' for rule in rules)
    return f'<table class="rules">{rows}</table>' if rules else "<p>The book has no rules.</p>"


def page(cleared):
    name = html.escape(os.path.basename(cleared.book.name))
    arities = {symbol["name"]: symbol["arity"] for symbol in cleared.shown["symbols"]}
    facts = "".join(f"<tr><th>{label}</th><td>{value}</td></tr>" for label, value in _facts(cleared))
    return f"""<!DOCTYPE html>
<html lang="en">
<head>
<meta charset="utf-8">
<meta name="viewport" content="width=device-width, initial-scale=1">
<title>Clearance sheet: {name}</title>
<style>{STYLE}</style>
</head>
<body>
<h1>Clearance sheet: {name}</h1>
<div class="verdict"><strong>Cleared.</strong> {SAYS}</div>
<div class="not"><h2>What “cleared” does not say</h2><ul>{"".join(f"<li>{each}</li>" for each in SAYS_NOT)}</ul></div>
<h2>What was cleared, and by what</h2>
<table>{facts}</table>
<h2>The order of the symbols</h2>
<p>A symbol is above all symbols of a lower rank; symbols of one rank are unrelated. The number behind a name is its arity.</p>
{picture(cleared.ranks, arities) if cleared.ranks else "<p>The book has no symbols.</p>"}
<h2>The rules</h2>
<p>f1 is symbol 1, x0 is variable 0. A rule replaces its left side by its right side.</p>
{_rules(cleared.shown["rules"])}
</body>
</html>
"""

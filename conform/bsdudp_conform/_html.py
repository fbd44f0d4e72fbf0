"""The report as one HTML file, readable at a phone's width, in light and in dark."""
from __future__ import annotations

from html import escape
from typing import Dict, List, Sequence

from ._baseline import Known, is_known
from ._judge import Deviation, Judged, cases_of, title
from ._policy import Explained
from ._report import (
    MEANING,
    WORDS,
    causes_text,
    cell,
    choices,
    levels_of,
    policy_text,
    rules_of,
    rules_of_kind,
    shortest_of,
    steps_of,
    summary,
)
from ._rules import RULES
from ._verdict import LEVELS

STYLE = """
:root { color-scheme: light dark; --ink: #1c2024; --soft: #586069; --line: #d0d7de; --paper: #fff; --ok: #dff3e4; --bad: #ffe0dd;
  --mild: #fff3cf; --box: #f5f7f9; }
@media (prefers-color-scheme: dark) { :root { --ink: #e6e9ec; --soft: #a3adb7; --line: #3a424b; --paper: #14181c; --ok: #173a23;
  --bad: #551f1c; --mild: #4a3b10; --box: #1d2329; } }
* { box-sizing: border-box; }
body { margin: 0 auto; padding: 1rem; max-width: 72rem; background: var(--paper); color: var(--ink);
  font: 16px/1.5 system-ui, sans-serif; overflow-wrap: anywhere; }
h1 { font-size: 1.5rem; line-height: 1.2; } h2 { font-size: 1.2rem; margin-top: 2rem; }
p, li, td, th { hyphens: manual; } .soft { color: var(--soft); }
.scroll { overflow-x: auto; border: 1px solid var(--line); border-radius: 6px; }
table { border-collapse: collapse; width: 100%; font-size: .875rem; overflow-wrap: normal; }
th, td { padding: .3rem .6rem; text-align: left; border-top: 1px solid var(--line); vertical-align: top; }
thead th { border-top: 0; white-space: nowrap; } tbody th { font-weight: 600; white-space: nowrap;
  position: sticky; left: 0; background: var(--paper); }
.choices tbody th { white-space: normal; min-width: 9rem; } td.cases { text-align: right; } .ok { background: var(--ok); } .bad { background: var(--bad); } .mild { background: var(--mild); }
details { border: 1px solid var(--line); border-radius: 6px; margin: .6rem 0; padding: .5rem .8rem; }
summary { cursor: pointer; } .level { font-weight: 700; border-radius: 4px; padding: 0 .4em; }
dl { display: grid; grid-template-columns: max-content 1fr; gap: .2rem .8rem; margin: .6rem 0; }
dt { color: var(--soft); } dd { margin: 0; }
pre { background: var(--box); border-radius: 6px; padding: .6rem; overflow-x: auto; font-size: .8125rem; margin: .4rem 0; }
td .says { display: block; color: var(--soft); }
@media (max-width: 40rem) { td .says, td.source { display: none; } th.source { display: none; }
  dl { grid-template-columns: 1fr; } dd { margin-bottom: .4rem; } }
"""


def shade(text: str) -> str:
    """The class of a cell."""
    if text == "-":
        return ""
    return "ok" if text == "ok" else "mild" if text.startswith("should") else "bad"


def table(stacks: Sequence[Judged]) -> str:
    """The matrix: a row for each rule."""
    heads = "".join(f"<th scope=col>{escape(it.name)}</th>" for it in stacks)
    rows = []
    for rule in rules_of(stacks):
        said = RULES[rule]
        counts = [it.cell(rule) for it in stacks]
        cells = "".join(f'<td class="{shade(cell(it))}">{cell(it)}</td>' for it in counts)
        rows.append(
            f"<tr><th scope=row>{rule}</th><td class=source>{escape(said.sentence)}"
            f"<span class=says>{escape(said.source)}</span></td>"
            f"<td class=cases>{max(it['cases'] for it in counts) or ''}</td>{cells}</tr>"
        )
    return (
        "<div class=scroll tabindex=0 role=region aria-label='the matrix'><table><thead><tr><th scope=col>rule</th>"
        f"<th scope=col class=source>says, and where</th><th scope=col>cases</th>{heads}</tr></thead>"
        f"<tbody>{''.join(rows)}</tbody></table></div>"
    )


def kind_of(kind: List[Deviation], known: Known, captures: Dict[str, str]) -> str:
    """One kind of deviation, folded."""
    first, rule = kind[0], RULES[kind[0].breach.rule]
    breach, level = first.breach, WORDS[first.breach.level]
    old = " <span class=soft>known</span>" if all(is_known(it, known) for it in kind) else ""
    file = captures.get(first.case.name)
    capture = f"<dt>capture</dt><dd><a href='{escape(file)}'>{escape(file)}</a></dd>" if file else ""
    rows = {
        "the rule": escape(rules_of_kind(kind)),
        "expected": escape(breach.expected or rule.sentence),
        "seen": escape(breach.what),
        "shortest case": escape(shortest_of(kind)),
    }
    facts = "".join(f"<dt>{name}</dt><dd>{words}</dd>" for name, words in rows.items())
    names = cases_of(kind)
    others = ", ".join(names[1:13]) + (", .." if len(names) > 13 else "")
    more = f"<dt>also</dt><dd class=soft>{others}</dd>" if others else ""
    steps = escape("\n".join(steps_of(first.case, breach.step)))
    return (
        f'<details><summary><span class="level {shade(level)}">{levels_of(kind)}</span> <b>{escape(title(kind))}</b> '
        f"<span class=soft>({len(names)} case{'s' * (len(names) > 1)})</span>{old}</summary>"
        f"<dl>{facts}{capture}{more}</dl>"
        f"<pre tabindex=0>{steps}</pre></details>"
    )


def causes_part(judged: Judged, known: Known) -> str:
    """A stack's summary, with a line for each cause."""
    head, *lines = causes_text(judged, known).splitlines()
    items = "".join(f"<li>{escape(line.strip())}</li>" for line in lines)
    return f"<p><b>{escape(head)}</b></p><ul>{items}</ul>"


def stack_part(judged: Judged, explained: List[Explained], known: Known, captures: Dict[str, str]) -> str:
    """What is said of one stack."""
    kinds = "".join(kind_of(kind, known, captures) for kind in judged.kinds())
    left = sum(judged.left_out.values())
    out = f"<p class=soft>{left} cases don't apply, or need what its adapter doesn't have.</p>" if left else ""
    policy = "".join(f"<li>{escape(line)}</li>" for line in policy_text(explained))
    policies = f"<h3>Policy, where the RFCs leave one</h3><ul>{policy}</ul>" if policy else ""
    head = f"<h2>{escape(judged.name)}</h2><p>{escape(summary(judged, known))}.</p>"
    return f"<section>{head}{out}{kinds}{policies}</section>"


def choices_table(stacks: Sequence[Judged], policies: Dict[str, List[Explained]]) -> str:
    """The choices of several stacks, side by side."""
    rows = choices(stacks, policies) if len(stacks) > 1 else []
    if not rows:
        return ""
    heads = "".join(f"<th scope=col>{escape(it.name)}</th>" for it in stacks)
    cells = ["".join(f"<td>{escape(cell)}</td>" for cell in row[1:]) for row in rows]
    body = "".join(f"<tr><th scope=row>{escape(row[0])}</th>{it}</tr>" for row, it in zip(rows, cells))
    return (
        "<h2>Choices that the RFCs leave</h2><p>What explains nine of ten of a stack's cases.</p>"
        "<div class=scroll tabindex=0 role=region aria-label='the choices'><table class=choices><thead><tr>"
        f"<th scope=col>choice</th>{heads}</tr></thead><tbody>{body}</tbody></table></div>"
    )


def html(
    stacks: Sequence[Judged], policies: Dict[str, List[Explained]], known: Known, captures: Dict[str, Dict[str, str]]
) -> str:
    """The whole page. captures: each stack's files, by case."""
    legend = "".join(
        f'<li><span class="level {shade(WORDS[level])}">{WORDS[level]}</span> {MEANING[level]}</li>' for level in LEVELS
    )
    causes = "".join(causes_part(it, known) for it in stacks)
    parts = "".join(stack_part(it, policies.get(it.name, []), known, captures.get(it.name, {})) for it in stacks)
    names = escape(", ".join(it.name for it in stacks))
    return (
        "<!doctype html><html lang=en><meta charset=utf-8>"
        "<meta name=viewport content='width=device-width, initial-scale=1'>"
        f"<title>UDP/IPv4: {names}</title><style>{STYLE}</style><h1>UDP over IPv4: {names}</h1>{causes}"
        "<p>Each case is a sequence of packets. Two laws hold in every case; beyond them, the stack is compared with "
        "all machines that the RFCs permit. A cell counts the cases that deviate; a case may break another rule than "
        f"its own.</p><ul>{legend}</ul>{table(stacks)}{choices_table(stacks, policies)}{parts}</html>\n"
    )

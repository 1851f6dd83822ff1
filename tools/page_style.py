"""What every page of `tools/page` has beside its network: its colours, light, dark and on paper, and what the pointer and the keys do."""

# The picture's colours stand in its elements; here each gets its counterpart on a dark ground.
STYLE = """
:root { color-scheme: light dark; --paper: #ffffff; --ink: #1a1a1a; --muted: #595959; --faint: #b3b3b3; --line: #d9d9d9;
  --band: #f3f3f1; --lit: #fff3bf; --feed: #0072b2; --out: #b87a00; --direct: #595959; --mark: #b84a00; --accent: #00588c; --least: 999rem; }
@media (prefers-color-scheme: dark) { :root { --paper: #16181b; --ink: #ececea; --muted: #b4b4b0; --faint: #74746f; --line: #3b3e43;
  --band: #212429; --lit: #4a4310; --feed: #56b4e9; --out: #e69f00; --direct: #a9a9a5; --mark: #ff9a5c; --accent: #7cc4f0; } }
* { box-sizing: border-box; }
body { margin: 0; background: var(--paper); color: var(--ink); font: 16px/1.5 system-ui, "DejaVu Sans", Verdana, Arial, sans-serif; }
main, header, footer { max-width: 76rem; margin: 0 auto; padding: 0 1rem; }
header { padding-top: 1.5rem; } footer { padding-bottom: 2rem; color: var(--muted); font-size: 0.9rem; }
h1 { font-size: 1.6rem; line-height: 1.2; margin: 0 0 1rem; overflow-wrap: anywhere; }
h2 { font-size: 1.2rem; margin: 2.2rem 0 0.6rem; } h3 { font-size: 1rem; margin: 1.2rem 0 0.4rem; }
a { color: var(--accent); } p { max-width: 46rem; } code { overflow-wrap: anywhere; }
dl { display: grid; grid-template-columns: repeat(auto-fit, minmax(11rem, 1fr)); gap: 0.8rem; margin: 0 0 1rem; }
dl div { background: var(--band); border-left: 4px solid var(--accent); padding: 0.5rem 0.8rem; }
dt { color: var(--muted); font-size: 0.9rem; } dd { margin: 0; font-size: 1.5rem; font-variant-numeric: tabular-nums; overflow-wrap: anywhere; }
dd small { font-size: 0.9rem; color: var(--muted); }
.wide { overflow-x: auto; max-width: 100%; border: 1px solid var(--line); background: var(--paper); }
.wide:focus-visible, tr:focus-visible, a:focus-visible { outline: 3px solid var(--accent); outline-offset: -3px; }
figure { margin: 0; } figcaption { color: var(--muted); font-size: 0.9rem; margin-top: 0.3rem; }
.wide svg { display: block; margin: 0 auto; max-width: 100%; height: auto; }
table { border-collapse: collapse; font-variant-numeric: tabular-nums; font-size: 0.92rem; }
.wide table { min-width: 100%; }
th, td { padding: 0.25rem 0.7rem; text-align: left; border-bottom: 1px solid var(--line); white-space: nowrap; }
thead th { background: var(--band); color: var(--muted); font-weight: 600; border-bottom: 2px solid var(--line); }
tbody th { font-weight: 600; } .n { text-align: right; } tr.idle td, tr.idle th { color: var(--muted); font-weight: 400; }
.mark { color: var(--mark); font-weight: 600; }
[data-arc] { cursor: default; } tr.lit > * { background: var(--lit); }
svg path.lit { stroke-opacity: 1 !important; stroke: var(--mark) !important; stroke-dasharray: none !important; }
svg [fill="#000000"] { fill: var(--ink); } svg [fill="#595959"] { fill: var(--muted); } svg [fill="#ffffff"] { fill: var(--paper); }
svg [fill="#d9d9d9"] { fill: var(--line); } svg [fill="#0072b2"] { fill: var(--feed); } svg [fill="#d55e00"] { fill: var(--mark); }
svg [fill="#e69f00"] { fill: var(--out); }
svg [stroke="#000000"] { stroke: var(--ink); } svg [stroke="#595959"] { stroke: var(--direct); } svg [stroke="#ffffff"] { stroke: var(--paper); }
svg [stroke="#b3b3b3"] { stroke: var(--faint); } svg [stroke="#0072b2"] { stroke: var(--feed); } svg [stroke="#e69f00"] { stroke: var(--out); }
.box { stroke: var(--paper); stroke-width: 0.5; } .none { fill: var(--faint); opacity: 0.45; } .holds { stroke: var(--mark); stroke-width: 3; }
.b0 { fill: #08519c; } .b1 { fill: #2b7bba; } .b2 { fill: #549fcd; } .b3 { fill: #89bedc; } .b4 { fill: #bcd7ec; } .b5 { fill: #deebf7; }
@media print { :root { --paper: #ffffff; --ink: #000000; --muted: #404040; --faint: #909090; --line: #c0c0c0; --band: #f0f0f0; --feed: #0072b2; --out: #b87a00;
  --direct: #595959; --mark: #b84a00; --accent: #00588c; --least: 0px; }
  @page { size: A4; margin: 14mm; } body { font-size: 9.5pt; } main, header, footer { max-width: none; padding: 0; }
  .wide { overflow: visible; border: 0; } table { font-size: 7pt; } th, td { padding: 1pt 2pt; white-space: normal; overflow-wrap: anywhere; }
  tr, figure, dl div { break-inside: avoid; } h2, h3 { break-after: avoid; } nav { display: none; } }
"""

SCRIPT = """
"use strict";
const chosen = { pointer: null, focus: null };
function show(kind, event) {
  const part = event.target.closest && event.target.closest("[data-arc]");
  chosen[kind] = part && /over|in$/.test(event.type) ? part.dataset.arc : null;
  for (const lit of document.querySelectorAll(".lit")) lit.classList.remove("lit");
  for (const arc of Object.values(chosen)) if (arc) for (const lit of document.querySelectorAll('[data-arc="' + arc + '"]')) lit.classList.add("lit");
}
for (const name of ["pointerover", "pointerout"]) document.addEventListener(name, event => show("pointer", event));
for (const name of ["focusin", "focusout"]) document.addEventListener(name, event => show("focus", event));
document.addEventListener("keydown", event => {
  const row = event.target.closest && event.target.closest("tr[data-arc]");
  const next = row && { ArrowDown: row.nextElementSibling, ArrowUp: row.previousElementSibling }[event.key];
  if (next) { row.tabIndex = -1; next.tabIndex = 0; next.focus(); event.preventDefault(); }
});
"""

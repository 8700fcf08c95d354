"""The style and the script of the page that `sdjwt-keys inspect --html` writes.

The page allows just these two, by their hashes.
"""

STYLE = """
:root {
  --back: #ffffff; --card: #f6f7f9; --text: #1c2230; --dim: #5b6475; --edge: #d5dae3;
  --header: #b3261e; --payload: #7b2d9b; --signature: #1759b8; --open: #1a6f3c; --open-back: #e3f4e9;
  --closed: #8a5a00; --closed-back: #fdf1d8; --bad-back: #fbe4e2;
}
@media (prefers-color-scheme: dark) {
  :root {
    --back: #14171e; --card: #1e232d; --text: #e6e9f0; --dim: #a3acbd; --edge: #3a4252;
    --header: #ff9b91; --payload: #d9a2f3; --signature: #8db8ff; --open: #7ddba0; --open-back: #1a3526;
    --closed: #f2c264; --closed-back: #3a2e14; --bad-back: #4a2220;
  }
}
* { box-sizing: border-box; }
body { margin: 0; background: var(--back); color: var(--text); font: 16px/1.5 system-ui, sans-serif; }
header, main { max-width: 1560px; margin: 0 auto; padding: 0 clamp(12px, 3vw, 40px); }
h1 { font-size: 1.6rem; margin: 1.2rem 0 .4rem; }
h2 { font-size: 1.25rem; margin: 2rem 0 .2rem; }
h3 { font-size: 1rem; margin: 0 0 .4rem; }
small, .said, .facts { color: var(--dim); font-weight: normal; }
small { font-size: .85em; }
p { margin: .3rem 0; }
a { color: inherit; }
a:focus-visible { outline: 2px solid var(--signature); outline-offset: 2px; }
code, .compact, .json, .digest { font-family: ui-monospace, "DejaVu Sans Mono", Menlo, monospace; font-size: .84rem; }
code, .compact, .json, .digest, dd { overflow-wrap: anywhere; }
.warning, .outcome { padding: .6rem .9rem; border-radius: 8px; background: var(--closed-back); }
.outcome { margin-top: .5rem; background: var(--open-back); }
.outcome.refused { background: var(--bad-back); }
.header { color: var(--header); }
.payload { color: var(--payload); }
.signature { color: var(--signature); }
.open, .claim { color: var(--open); }
.binding { color: var(--signature); font-style: italic; }
.legend { display: flex; flex-wrap: wrap; gap: .2rem 1.2rem; font-size: .9rem; }
.legend span::before { content: "■ "; }
.compact { max-height: 16rem; overflow-y: auto; padding: .8rem; border: 1px solid var(--edge); border-radius: 8px; }
.join, .sides { position: relative; display: grid; gap: 16px clamp(40px, 7vw, 120px); grid-template-columns: 1fr 1fr; }
.sides { gap: 16px; }
.column { min-width: 0; }
.lines { position: absolute; inset: 0; width: 100%; height: 100%; pointer-events: none; overflow: visible; }
.lines path { fill: none; stroke: var(--open); stroke-width: 1.6; opacity: .55; }
.lines path.on { stroke-width: 3; opacity: 1; }
.lines circle { fill: var(--open); }
.block, .card, .sides .column { padding: .7rem .9rem; border-radius: 8px; background: var(--card);
  border: 1px solid var(--edge); }
.block { margin-bottom: 12px; border-left-width: 4px; }
.of-header { border-left-color: var(--header); }
.of-payload { border-left-color: var(--payload); }
.of-signature { border-left-color: var(--signature); }
.card { margin-bottom: 12px; border-left: 4px solid var(--open); }
.card:target, .digest:target { outline: 2px solid var(--open); }
.facts { font-size: .85rem; margin-top: .5rem; }
.in { padding-left: clamp(10px, 1.6vw, 22px); }
.row { padding: 1px 2px; border-radius: 4px; }
.row.opened { background: var(--open-back); }
.name { color: var(--payload); }
.from { font: .78rem system-ui, sans-serif; color: var(--open); white-space: nowrap; }
.digest { color: var(--closed); }
.digest.joined { color: var(--open); }
.unopened { padding: 0 .4em; border-radius: 4px; background: var(--closed-back); color: var(--closed);
  font: .78rem system-ui, sans-serif; white-space: nowrap; }
.cannot ul { margin: .3rem 0; padding-left: 1.2rem; }
dl { display: grid; grid-template-columns: auto 1fr; gap: 2px 14px; margin: .3rem 0 12px; }
dt { font-weight: 600; }
dd { margin: 0; }
.conditions { list-style: none; margin: .6rem 0; padding: 0; columns: 22rem; column-gap: 28px; }
.conditions li { break-inside: avoid; padding: .3rem .5rem; border-radius: 6px; }
.conditions p { margin: 0; font-size: .82rem; color: var(--dim); }
.conditions .holds .mark { color: var(--open); }
.conditions .fails { background: var(--bad-back); }
.conditions .not-judged, .conditions .not-asked { opacity: .75; }
footer { height: 2rem; }
@media (max-width: 800px) {
  .join, .sides { grid-template-columns: minmax(0, 1fr); }
  .join { padding-left: 26px; }
}
@media print { .compact { max-height: none; } }
"""

SCRIPT = """
"use strict";
(() => {
  // How many lines are drawn.
  const most = 400;
  const join = document.querySelector(".join");
  const picture = join.querySelector(".lines");
  const make = (name) => document.createElementNS("http://www.w3.org/2000/svg", name);
  const pairs = [];
  for (const card of [...join.querySelectorAll("[data-disclosure]")].slice(0, most)) {
    const number = card.dataset.disclosure;
    const site = document.getElementById("site-" + number);
    if (!site) continue;
    const line = make("path"), from = make("circle"), to = make("circle");
    picture.append(line, from, to);
    pairs.push({ card, site, line, from, to });
    for (const one of [card, site]) {
      one.addEventListener("pointerenter", () => line.classList.add("on"));
      one.addEventListener("pointerleave", () => line.classList.remove("on"));
    }
  }
  const dot = (circle, x, y) => {
    circle.setAttribute("cx", x);
    circle.setAttribute("cy", y);
    circle.setAttribute("r", 3);
  };
  // A line between two points: a curve over the gap of the columns, or, in one column, a way along the left edge.
  const draw = ({ card, site, line, from, to }, index, frame) => {
    // of a digest that is broken over several lines the longest piece
    const pieces = [...site.getClientRects()], whole = card.getBoundingClientRect();
    const text = pieces.reduce((longest, piece) => piece.width > longest.width ? piece : longest);
    const y1 = text.top + text.height / 2 - frame.top, y2 = whole.top + 20 - frame.top, x2 = whole.left - frame.left;
    if (text.right < whole.left) {
      const x1 = text.right + 3 - frame.left, bend = Math.max(30, (x2 - x1) / 2);
      line.setAttribute("d", `M${x1} ${y1} C${x1 + bend} ${y1} ${x2 - bend} ${y2} ${x2} ${y2}`);
      dot(from, x1, y1);
    } else {
      const x1 = text.left - 3 - frame.left, lane = x2 - 8 - 4 * (index % 4), turn = y2 > y1 ? 4 : -4;
      line.setAttribute("d", `M${x1} ${y1} H${lane + 4} Q${lane} ${y1} ${lane} ${y1 + turn}`
        + ` V${y2 - turn} Q${lane} ${y2} ${lane + 4} ${y2} H${x2}`);
      dot(from, x1, y1);
    }
    dot(to, x2, y2);
  };
  const drawAll = () => {
    const frame = join.getBoundingClientRect();
    pairs.forEach((pair, index) => draw(pair, index, frame));
  };
  new ResizeObserver(drawAll).observe(join);
  drawAll();
})();
"""

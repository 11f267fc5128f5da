"""How a page looks: on light and on dark ground, on paper and on a phone."""
STYLE = """
:root { --paper: #fff; --ink: #1d2429; --muted: #65707a; --line: #dfe3e7; --soft: #f5f6f8; --best: #1f5fa8; --bound: #b2511b; --use: #b9cfe8;
  --good: #1b7440; --warn: #8a5a00; --mark: #fdecc4; --edge: #e0a526; --given: #e4ecf5; --label: #1d2429;
  --task0: #9fbcdd; --task1: #9cc3e6; --task2: #f3bd8a; --task3: #a5d3a4; --task4: #eaa3a1; --task5: #c8b5e2; --task6: #d0b49f; --task7: #f2bcd6;
  --task8: #c3c9ce; --task9: #dcdb8c; --task10: #8ed2d8; }
@media (prefers-color-scheme: dark) { :root { --paper: #14181c; --ink: #e3e7ea; --muted: #97a2ac; --line: #2c343c; --soft: #1b2126; --best: #74b3f0;
  --bound: #eda06b; --use: #31506f; --good: #6cc38e; --warn: #e0b056; --mark: #4a3a12; --edge: #c79a36; --given: #22303d; --label: #14181c; } }
* { box-sizing: border-box; }
body { margin: 0; background: var(--paper); color: var(--ink); font: 16px/1.5 system-ui, -apple-system, "Segoe UI", "Liberation Sans", sans-serif; }
main { max-width: 58rem; margin: 0 auto; padding: 2.5rem 1.5rem 4rem; }
h1 { font-size: 1.75rem; line-height: 1.25; margin: 0 0 .25rem; overflow-wrap: anywhere; }
h2 { font-size: 1.15rem; margin: 0 0 .25rem; overflow-wrap: anywhere; }
p { margin: .25rem 0; }
section { margin-top: 2.5rem; }
.verdict { font-size: 1.15rem; overflow-wrap: anywhere; }
.checked { color: var(--good); font-weight: 600; }
.unproved { color: var(--warn); font-weight: 600; }
.note, figcaption { color: var(--muted); font-size: .9rem; overflow-wrap: anywhere; }
.facts { display: flex; flex-wrap: wrap; gap: .75rem 2.75rem; margin: 1.5rem 0 0; padding: .8rem 0; border: solid var(--line); border-width: 1px 0; }
.facts dt { color: var(--muted); font-size: .85rem; }
.facts dd { margin: 0; font-size: 1.2rem; font-variant-numeric: tabular-nums; }
pre, code, .code { font-family: ui-monospace, "SF Mono", "Liberation Mono", Menlo, Consolas, monospace; font-size: .85rem; }
pre { margin: .75rem 0 0; padding: .8rem 1rem; background: var(--soft); border: 1px solid var(--line); overflow: auto; max-height: 26rem; }
.wrapped { white-space: pre-wrap; overflow-wrap: anywhere; }
figure { margin: .75rem 0 0; }
.chart { overflow-x: auto; }
.chart svg { display: block; width: 100%; min-width: 620px; height: auto; }
.chart svg text { font-family: inherit !important; }
.wide { overflow-x: auto; margin-top: .75rem; }
table { border-collapse: collapse; font-size: .9rem; font-variant-numeric: tabular-nums; }
th, td { text-align: left; vertical-align: top; padding: .25rem 1.25rem .25rem 0; border-bottom: 1px solid var(--line); }
th { color: var(--muted); font-weight: 500; }
.number { text-align: right; white-space: nowrap; }
details { margin-top: .75rem; }
summary { cursor: pointer; color: var(--muted); font-size: .9rem; }
.sums { width: 100%; }
.sums td:last-child { font: .72rem/1.5 ui-monospace, "Liberation Mono", Menlo, Consolas, monospace; min-width: 28.5rem; padding-right: 0;
  padding-top: .35rem; word-break: break-all; color: var(--muted); }
.sums td { overflow-wrap: anywhere; }
.sums td:first-child { white-space: nowrap; }
.model { width: 100%; margin-top: .75rem; border: 1px solid var(--line); background: var(--soft); }
.model td { border: 0; padding: 0 .75rem; }
.model .code { white-space: pre-wrap; overflow-wrap: anywhere; line-height: 1.55; }
.model .line { width: 1%; text-align: right; color: var(--muted); user-select: none; padding-right: .5rem; }
.model .cases { width: 9.5rem; font-size: .85rem; line-height: 1.4; padding-top: .1rem; padding-bottom: .1rem; }
.model .clash td { background: var(--mark); }
.model mark { background: none; color: inherit; text-decoration: underline; text-decoration-color: var(--edge); text-decoration-thickness: 2px;
  text-underline-offset: 3px; }
.model .clash .line { box-shadow: inset 4px 0 var(--edge); color: var(--ink); }
.model .given td { background: var(--given); }
.model .gap td { color: var(--muted); }
.model tr:first-child td { padding-top: .5rem; }
.model tr:last-child td { padding-bottom: .5rem; }
.cases ul { margin: 0; padding: 0; list-style: none; }
.cases .muted { color: var(--muted); }
@media (max-width: 40rem) { .sums td:last-child { min-width: 14rem; } main { padding: 1.25rem .9rem 3rem; } .model td { padding: 0 .4rem; }
  .model, .model tbody { display: block; } .model tr { display: grid; grid-template-columns: 2.2rem 1fr; }
  .model .line, .model .cases { width: auto; } .model .cases { grid-column: 1 / 3; padding-left: 2.6rem; } .model .cases:empty { display: none; } }
@media print { :root { color-scheme: light; --paper: #fff; --ink: #000; --muted: #555; --line: #ccc; --soft: #fff; --best: #1f5fa8; --bound: #b2511b;
    --use: #b9cfe8; --good: #1b7440; --warn: #8a5a00; --mark: #fdecc4; --given: #eef2f6; --label: #000; }
  main { max-width: none; padding: 0; } pre { max-height: none; white-space: pre-wrap; } figure, .facts, tr { break-inside: avoid; } details:not([open]) { display: none; }
  .chart svg { min-width: 0; } body { font-size: 11pt; print-color-adjust: exact; -webkit-print-color-adjust: exact; } }
"""

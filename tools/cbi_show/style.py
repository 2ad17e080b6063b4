"""The style of the page of cbi-show: light and dark, wide and narrow, on screen and on paper. Not proved."""

STYLE = """
:root { color-scheme: light dark; --ink: #1a1a1a; --paper: #fff; --card: #f6f7f9; --quiet: #595959; --line: #c8c8c8; --mark: #fff3bf; --link: #0b57d0;
        --hot: 190 30 45; --context: #222; --word: #7b1fa2; --string: #0b6b3a; --note: #5f6368; }
@media (prefers-color-scheme: dark) { :root { --ink: #e6e6e6; --paper: #15171b; --card: #1f2228; --quiet: #a9afb8; --line: #464b54; --mark: #4a4115; --link: #8ab4f8;
        --hot: 230 70 70; --context: #9aa3ad; --word: #d7a8f0; --string: #8fd6a8; --note: #a3a9b1; } }
* { box-sizing: border-box; }
body { margin: 0 auto; max-width: 74rem; padding: 1.25rem; color: var(--ink); background: var(--paper); font: 16px/1.5 system-ui, "Liberation Sans", sans-serif;
       overflow-wrap: anywhere; }
h1 { font-size: 1.5rem; line-height: 1.3; margin: 0 0 .5rem; text-wrap: balance; } h2 { font-size: 1.2rem; margin: 2rem 0 .5rem; } h3, h4 { font-size: 1rem; margin: 0; } section section { margin-top: 1rem; } .card h3 { font-size: 1.2rem; margin-bottom: .3rem; }
code, pre, kbd { font: 14px/1.5 ui-monospace, "Liberation Mono", monospace; overflow-wrap: anywhere; }
h1 code { font-size: inherit; font-weight: 700; } h3 code, h4 code { font-size: 15px; font-weight: 700; } .card h3 code { font-size: inherit; }
a { color: var(--link); } a:focus-visible, summary:focus-visible { outline: 3px solid var(--link); outline-offset: 2px; }
.skip { position: absolute; left: -100rem; } .skip:focus { left: 1rem; top: 1rem; background: var(--paper); padding: .5rem; }
nav { margin: 1rem 0; } nav a { margin-right: 1rem; display: inline-block; } .quiet { color: var(--quiet); } p { margin: .4rem 0; text-wrap: pretty; } ul { margin: .3rem 0; padding-left: 1.2rem; }
.card { background: var(--card); border: 1px solid var(--line); border-radius: 8px; padding: 1rem 1.25rem; }
dl { display: grid; grid-template-columns: minmax(8rem, 16rem) minmax(0, 1fr); gap: .2rem 1rem; margin: .6rem 0 0; } dt { color: var(--quiet); } dd { margin: 0; } dd ul { padding-left: 0; list-style: none; margin: 0; }
dd code { white-space: pre-wrap; } .whole { white-space: nowrap; } .lines .only code { box-shadow: inset 3px 0 rgb(var(--hot) / .6); }
article.card { margin: 1rem 0; } .strong { list-style: none; padding: 0; } .strong li { display: grid; grid-template-columns: 3.2rem minmax(0, 16rem) minmax(0, 1fr); gap: 0 .8rem; padding: .15rem 0; }
.strong li > :first-child { color: var(--quiet); }
.row { border-top: 1px solid var(--line); padding: .7rem 0; display: grid; gap: .2rem 1rem; grid-template-columns: 2rem minmax(0, 1fr) 16rem; }
.row > :first-child { font-size: 1.2rem; text-align: right; color: var(--quiet); }
.row:target, p:target { background: var(--mark) !important; }
.together { border-left: 4px solid var(--line); padding-left: .5rem; margin: .5rem 0; }
.bar { display: flex; height: 1.2rem; min-width: 1rem; border: 1px solid var(--ink); background: var(--paper); margin-top: .2rem; print-color-adjust: exact; -webkit-print-color-adjust: exact; }
.bar span { height: 100%; } .bar span + span { border-left: 1px solid var(--paper); }
.context { background: var(--context); } .sure { background: repeating-linear-gradient(45deg, #b2182b 0 5px, #d1495b 5px 7px); }
.unsure { background: repeating-linear-gradient(-45deg, #fbb4c4 0 6px, #e88a9d 6px 9px); } .successful { background: var(--paper); }
.key { display: inline-block; width: 1.6rem; height: .8rem; border: 1px solid var(--ink); vertical-align: baseline; margin: 0 .3rem 0 .2rem; print-color-adjust: exact; -webkit-print-color-adjust: exact; }
.run dd:last-child code { user-select: all; -webkit-user-select: all; }
summary { cursor: pointer; color: var(--link); }
table { border-collapse: collapse; width: 100%; } td, th { padding: 0 .5rem; vertical-align: top; text-align: left; font-weight: 400; }
.lines { counter-reset: line; } .lines p { counter-increment: line; display: grid; grid-template-columns: 3rem minmax(0, 1fr) auto; gap: 0 .8rem; margin: 0; }
.lines p::before { content: counter(line); text-align: right; color: var(--quiet); font-size: 14px; } .lines code { white-space: pre-wrap; min-height: 1.5em; padding-left: 2ch; text-indent: -2ch; }
.lines span { font-size: 13px; max-width: 26rem; padding-right: .4rem; } .marked::before { font-weight: 700; } .gap { color: var(--quiet); padding: .3rem 0 .3rem 3.8rem; }
.marked, .marked::before, .marked i { color: var(--ink) !important; } .marked a { color: var(--ink); }
code b { font-weight: 400; color: var(--word); } code u { text-decoration: none; color: var(--string); } code i { font-style: normal; color: var(--note); }
.marked b, .marked u { color: var(--ink); }
.tall { height: .9rem; background: rgb(var(--hot) / .75); min-width: 2px; display: inline-block; vertical-align: middle; print-color-adjust: exact; -webkit-print-color-adjust: exact; }
.well .tall { background: var(--line); border: 1px solid var(--quiet); } .ends td:nth-child(2) { text-align: right; width: 5rem; } .ends td:last-child { width: 45%; }
@media screen and (max-width: 50rem) { body { padding: .75rem; } h1 { font-size: 1.25rem; } .row { grid-template-columns: 1.6rem minmax(0, 1fr); } .row > :last-child { grid-column: 2; } .card { padding: .75rem; }
  dl { grid-template-columns: minmax(0, 1fr); gap: 0; } dd { margin-bottom: .4rem; } .lines p { grid-template-columns: 2.2rem minmax(0, 1fr); gap: 0 .5rem; } .lines span { grid-column: 2; } .gap { padding-left: 2.7rem; }
  .ends td:last-child { width: 25%; } .strong li { grid-template-columns: 3.2rem minmax(0, 1fr); } .strong li > :last-child { grid-column: 2; } }
@media print { html { font-size: 10pt; } .skip, nav { display: none; } body { max-width: none; padding: 0 1px; font-size: 10pt; } code, .lines p::before, h3 code { font-size: 8.5pt; } .lines span { font-size: 8pt; }
  .row { grid-template-columns: 1.6rem minmax(0, 1fr) 9rem; padding: .4rem 0; } h2 { margin-top: 1rem; } .row, .card, .lines p, tr { break-inside: avoid; } .lines p { print-color-adjust: exact; -webkit-print-color-adjust: exact; } h2, h3 { break-after: avoid; }
  details::details-content { content-visibility: visible; display: block; } }
"""

"""How every page looks, by day and by night, on a wide screen, on a narrow one, and on paper."""
SHARED = """\
:root { color-scheme: light dark; --text: #1c2128; --back: #fff; --soft: #f3f4f7; \
--line: #d0d5dc; --dim: #545d6b; --kept: #8793a3; --lost: #a3201a; --gained: #17613a; \
--changed: #7a5200 }
@media (prefers-color-scheme: dark) { :root { --text: #e6e9ee; --back: #14171c; --soft: #1f242c; \
--line: #3b434f; --dim: #a9b2c0; --kept: #66748a; --lost: #ff8f85; --gained: #74d39b; \
--changed: #e3b341 } }
@media print { :root { color-scheme: light; --text: #000; --back: #fff; --soft: #f3f4f7; \
--line: #999; --dim: #444; --kept: #8793a3; --lost: #a3201a; --gained: #17613a; \
--changed: #7a5200 } }
* { box-sizing: border-box }
body { margin: 0; font: 15px/1.45 system-ui, "DejaVu Sans", sans-serif; color: var(--text); \
background: var(--back) }
main { max-width: 1180px; margin: 0 auto; padding: 1rem }
h1 { font-size: 1.6rem; line-height: 1.25; margin: .3rem 0 }
h2 { font-size: 1.15rem; margin: 1.8rem 0 .5rem }
.note, .legend { color: var(--dim); margin: .2rem 0 .7rem; overflow-wrap: anywhere }
.file { color: var(--text); font-weight: 600 }
.lost { color: var(--lost); fill: var(--lost) } \
.gained { color: var(--gained); fill: var(--gained) } \
.changed { color: var(--changed); fill: var(--changed) }
svg { display: block } \
svg text { font: 14px system-ui, "DejaVu Sans", sans-serif } \
svg text:not([class]) { fill: var(--text) } svg .track { fill: var(--soft) }
table { border-collapse: collapse; width: 100% }
th, td { padding: .35rem .5rem; border-bottom: 1px solid var(--line); \
font-variant-numeric: tabular-nums }
thead th { color: var(--dim); font-weight: 600; font-size: .85rem }
code { font: 13px ui-monospace, "DejaVu Sans Mono", monospace; background: var(--soft); \
padding: 0 .25rem; overflow-wrap: anywhere }
summary { cursor: pointer }
summary:focus-visible { outline: 2px solid var(--text); outline-offset: 1px }
ol { margin: .4rem 0 .6rem; padding-left: 2.6rem } li { margin: .45rem 0; overflow-wrap: anywhere }
@media (max-width: 720px) { ol { padding-left: 1.8rem } }
@media print { details { break-inside: avoid } \
details::details-content { content-visibility: visible; block-size: auto } }
"""

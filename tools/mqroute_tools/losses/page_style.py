"""What the page of `html_page.py` has of its own beside the style that all pages share."""
STYLE = """\
.files { color: var(--dim); margin: .2rem 0 .7rem; overflow-wrap: anywhere }
i.lost, i.gained, i.changed { font-style: normal; font-weight: 600 }
#totals { display: grid; grid-template-columns: repeat(auto-fit, minmax(128px, 1fr)); gap: .6rem; \
margin: 1rem 0 }
.card { border: 1px solid var(--line); border-radius: 6px; padding: .5rem .7rem; \
background: var(--soft) }
.card b { display: block; font-size: 1.35rem; font-variant-numeric: tabular-nums }
.card span { color: var(--dim); font-size: .85rem }
.axis { stroke: var(--dim) }
th, td { text-align: right } \
th:first-child, td:first-child { text-align: left; overflow-wrap: anywhere }
summary, .head { display: grid; gap: .75rem; padding: .4rem .5rem; \
border-bottom: 1px solid var(--line); align-items: baseline }
.head { color: var(--dim); font-weight: 600; font-size: .85rem }
summary { list-style: none } summary::-webkit-details-marker { display: none }
summary:hover, details[open] > summary { background: var(--soft) }
summary > span, .head > span { min-width: 0; overflow-wrap: anywhere }
summary .who::before { content: "▸ "; color: var(--dim) } \
details[open] > summary .who::before { content: "▾ " }
.head .who { padding-left: 1em }
.clients, .copies, .before, .after, .first-line { text-align: right; \
font-variant-numeric: tabular-nums }
#totals .before, #totals .after { text-align: left }
.copies-user { grid-template-columns: 1.3fr 3.6rem 1.6fr 4.2rem 4.8rem 3fr 4.8rem }
.copies-client { grid-template-columns: 1.3fr 1.9fr 4.2rem 4.8rem 3fr 4.8rem }
.refused-user { grid-template-columns: 1.3fr 3.6rem 2fr 4.8rem 4.8rem 3fr }
.refused-client { grid-template-columns: 1.3fr 2fr 4.8rem 4.8rem 3fr }
summary small { display: block; color: var(--dim) }
details > .note { padding-left: 1.3rem }
@media (max-width: 720px) {
  .head { display: none }
  details > summary[class] { grid-template-columns: 1fr auto auto; gap: .1rem .6rem }
  summary .who { grid-column: 1; grid-row: 1; font-weight: 600 }
  summary .what, summary .before { grid-column: 2; grid-row: 1 } \
summary .copies, summary .after { grid-column: 3; grid-row: 1 }
  summary .topic { grid-column: 1 / -1; grid-row: 2 } \
summary .because, summary .why { grid-column: 1 / -1; grid-row: 3 }
  summary .clients { grid-column: 1; grid-row: 4; text-align: left; color: var(--dim) } \
summary .clients::before { content: "clients: " }
  summary .first-line { grid-column: 2 / -1; grid-row: 4; color: var(--dim) } \
summary .first-line::before { content: "first line: " }
  summary .before::before { content: "before " } summary .after::before { content: "after " }
}
"""

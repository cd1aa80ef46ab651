"""What the page of a preview has of its own beside the style that all pages share."""
STYLE = """\
main { max-width: 64rem; overflow-wrap: break-word }
.about { color: var(--dim); margin: .2rem 0 .8rem; overflow-wrap: anywhere }
time { white-space: nowrap }
#verdict { font-size: 1.15rem; margin: 1rem 0; padding: .6rem .9rem; background: var(--soft); \
border-left: .3rem solid var(--changed); overflow-wrap: anywhere }
#verdict.loss { border-color: var(--lost) }
#verdict.none { border-color: var(--kept) }
.said { padding-left: 1.2rem; overflow-wrap: anywhere }
.kept { fill: var(--kept) } .cover { fill: var(--back) }
.key { display: inline-block; width: .8em; height: .8em; margin-left: .7em; \
background: var(--gained) }
.key.kept { background: var(--kept); margin-left: 0 } .key.lost { background: var(--lost) }
#picture { margin-bottom: 1rem }
#granted, #taken { table-layout: fixed }
#granted th:nth-child(2), #taken th:nth-child(2) { width: 20% } \
#granted th:nth-child(3), #taken th:nth-child(3) { width: 30% } \
#granted th:nth-child(4), #taken th:nth-child(4) { width: 34% }
caption { text-align: left; color: var(--dim); padding-bottom: .3rem; overflow-wrap: anywhere }
th, td { text-align: left; vertical-align: top; overflow-wrap: anywhere } \
thead th { overflow-wrap: normal }
th.n, td.n { text-align: right; white-space: nowrap }
td.may { white-space: nowrap; font-weight: 600 } td.warning { color: var(--changed) }
td.n.share { min-width: 7.5rem }
tbody th { font-weight: 600 }
tr.opens > td { padding-top: 0 } tr.above > th, tr.above > td { border-bottom: 0 }
summary { color: var(--dim); padding: .1rem 0 }
.hidden { position: absolute; width: 1px; height: 1px; overflow: hidden; clip-path: inset(50%) }
summary:hover { color: var(--text) }
.cause { margin: .5rem 0 .8rem; padding-left: .9rem; border-left: 2px solid var(--line) }
.cause p { margin: .15rem 0 }
.decides { display: grid; grid-template-columns: fit-content(55%) minmax(0, 1fr); gap: 0 .6rem; \
margin: .15rem 0 }
.decides dt { color: var(--dim); overflow-wrap: anywhere } .decides dd { margin: 0 }
.topics { list-style: none; margin: 0; padding: 0 } .topics li { margin: 0 }
.topics span, .placeholders, .such-as, .unused, .unknown { color: var(--dim); font-size: .9rem }
.command code { display: block; padding: .25rem .5rem; white-space: pre-wrap }
#summary { margin-top: 2rem; font-weight: 600 }
@media (max-width: 720px) {
  .stacks thead { position: absolute; width: 1px; height: 1px; overflow: hidden; \
clip-path: inset(50%) }
  .stacks tr { display: block; border-bottom: 1px solid var(--line); padding: .45rem 0 }
  .stacks tr.above { border-bottom: 0; padding-bottom: 0 }
  .stacks th, .stacks td { display: block; border: 0; padding: .1rem 0; white-space: normal; \
text-align: left }
  .stacks td[data-name]::before { content: attr(data-name) " "; color: var(--dim); \
font-size: .85rem; font-weight: 400 }
  .decides { grid-template-columns: 1fr }
}
@media print { main { max-width: none; padding: 0 } tr { break-inside: avoid } }
"""

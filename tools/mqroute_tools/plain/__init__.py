"""The plain reader: what mqroute answers, by another reading of docs/reference and of
docs/definitions, in Python's lists.

It has no tree, no index and no queue of turns: each command looks at every row of every list. It is
slow on long scripts, isn't proved, and owes nothing to mqroute's code. `python3 -m
mqroute_tools.plain` takes mqroute's arguments. Each module stands on those before it alone:
refusals, topics, access_lists, mosquitto_lists, lines, world, reader.
"""

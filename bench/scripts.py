#!/usr/bin/env python3
"""Writes a large script on standard output: scripts.py KIND NUMBERS..

five                          100,000 publishes to 5 subscribers of one filter
big BYTES                     publishes that nobody receives, until the script has BYTES bytes
rules LINES PUBLISHES [FIRST] PUBLISHES publishes for an access list of LINES lines, as `list`
                              writes it, which its first lines grant, or those from FIRST on
list LINES                    that access list
colleagues CLIENTS PUBLISHES FIRST  publishes to CLIENTS subscribers of the user of that list, which
                              its lines from FIRST on grant
users PUBLISHES               publishes to 5 subscribers for the access list that `userlist` writes
userlist USERS                an access list of ten lines each for USERS users
mixed CLIENTS USERS PUBLISHES publishes to CLIENTS subscribers of USERS users in turn
longlist USERS LINES [MARKS]  an access list of LINES lines each for USERS users, of which the last
                              grants these publishes, and of MARKS patterns of other topics that
                              have %c
others OTHERS PUBLISHES       publishes to 5 subscribers beside OTHERS subscriptions that
                              don't match
beside OTHERS                 a client with OTHERS subscriptions that match nothing of the other
                              scripts: it may come first
overlapping PUBLISHES         publishes to 5 subscribers, each by three filters with identifiers
groups GROUPS PUBLISHES       publishes to one of GROUPS shared subscriptions
leaving FILTERS LEAVES        a client that subscribes to FILTERS filters and leaves LEAVES of them
returning CLIENTS TURNS       CLIENTS clients that connect, that leave where TURNS is 2 or more, and
                              that come back where it is 3
refused PUBLISHES             publishes of a client that isn't connected
receivers CLIENTS PUBLISHES   publishes to CLIENTS subscribers of one filter
members COUNT AWAY PUBLISHES  publishes to a group of COUNT members, of which AWAY are away
retained TOPICS SUBSCRIBES    subscribes of which each is sent 10 of TOPICS retained messages
expiring TOPICS ADVANCES      advances of which each ends 10 retained messages, beside TOPICS that
                              stay
lasting TOPICS CLIENTS        CLIENTS clients that are each sent 10 of TOPICS retained messages, and
                              as many advances, which end all those messages
sessions AWAY PUBLISHES       publishes to 5 subscribers, of which two are away, beside AWAY clients
                              that are away
all TOPICS SUBSCRIBES         subscribes of which each is sent all of TOPICS retained messages
resuming AWAY RESUMES         clients of AWAY, for each of which 1,000 copies wait, that come back
"""
import json
import sys

write = sys.stdout.write


def line(**fields):
    write(json.dumps(fields, separators=(",", ":")) + "\n")


def five_subscribers():
    for i in range(5):
        line(do="connect", client=f"client-{i}")
        line(do="subscribe", client=f"client-{i}", filter="site/+/temperature", qos=1)


def five():
    others(0, 100_000)


def others(count, publishes):
    five_subscribers()
    beside(count)
    for i in range(publishes):
        line(do="publish", client="client-0", topic=f"site/{i % 100}/temperature", payload=f"v={i}",
             qos=1)


def beside(count):
    line(do="connect", client="other")
    for i in range(count):
        line(do="subscribe", client="other", filter=f"other/{i % 1000}/{i}/state")


def big(size):
    line(do="connect", client="client")
    text = json.dumps(
        {"do": "publish", "client": "client", "topic": "site/7/temperature", "payload": "x" * 100},
        separators=(",", ":")) + "\n"
    for _ in range(size // len(text)):
        write(text)


def rules(lines, publishes, first=0):
    line(do="connect", client="client", user="user-1")
    line(do="subscribe", client="client", filter="#")
    for i in range(publishes):
        line(do="publish", client="client", topic=f"area/{(first + i) % lines}/state")


def colleagues(clients, publishes, first):
    line(do="connect", client="sensor", user="user-1")
    for i in range(clients):
        line(do="connect", client=f"client-{i}", user="user-1")
        line(do="subscribe", client=f"client-{i}", filter="area/#")
    for i in range(publishes):
        line(do="publish", client="sensor", topic=f"area/{first + i}/state")


def access_list(lines):
    write("user user-1\n")
    for i in range(lines - 1):
        write(f"topic readwrite area/{i}/+\n")


def users(publishes):
    for i in range(5):
        line(do="connect", client=f"client-{i}", user=f"user-{i}")
        line(do="subscribe", client=f"client-{i}", filter="site/+/temperature", qos=1)
    for i in range(publishes):
        line(do="publish", client="client-0", topic=f"site/{i % 100}/temperature", payload=f"v={i}",
             qos=1)


def mixed(clients, users, publishes):
    line(do="connect", client="sensor", user="user-0")
    for i in range(clients):
        line(do="connect", client=f"client-{i}", user=f"user-{i % users}")
        line(do="subscribe", client=f"client-{i}", filter="site/#")
    for i in range(publishes):
        line(do="publish", client="sensor", topic="site/1/state")


def long_list(users, lines, marks=0):
    for i in range(marks):
        write(f"pattern read area/{i}/%c\n")
    for user in range(users):
        write(f"user user-{user}\n")
        for i in range(lines - 1):
            write(f"topic readwrite area/{i}/+\n")
        write("topic readwrite site/#\n")


def user_list(users):
    for user in range(users):
        write(f"user user-{user}\ntopic readwrite site/#\n")
        for i in range(9):
            write(f"topic readwrite area/{user}/{i}/+\n")


def overlapping(publishes):
    for i in range(5):
        line(do="connect", client=f"client-{i}")
        for id, filter in enumerate(["site/+/temperature", "site/#", "+/+/temperature"], 1):
            line(do="subscribe", client=f"client-{i}", filter=filter, qos=1, id=id)
    for i in range(publishes):
        line(do="publish", client="client-0", topic=f"site/{i % 100}/temperature", payload=f"v={i}",
             qos=1)


def groups(count, publishes):
    for i in range(3):
        line(do="connect", client=f"worker-{i}")
    for i in range(count):
        for worker in range(3):
            line(do="subscribe", client=f"worker-{worker}", filter=f"$share/crew/job/{i}", qos=1)
    for i in range(publishes):
        line(do="publish", client="worker-0", topic="job/7", payload=f"v={i}", qos=1)


def leaving(count, leaves):
    line(do="connect", client="client")
    for i in range(count):
        line(do="subscribe", client="client", filter=f"area/{i}/state")
    for i in range(leaves):
        line(do="unsubscribe", client="client", filter=f"area/{i * 7919 % count}/state")


def returning(clients, turns):
    for turn in ("connect", "disconnect", "connect")[:turns]:
        for i in range(clients):
            options = {"clean": False, "session_expiry": 3600} if turn == "connect" else {}
            line(do=turn, client=f"client-{i}", **options)


def refused(publishes):
    line(do="connect", client="client")
    for i in range(publishes):
        line(do="publish", client="nobody", topic="site/7/temperature", payload="x" * 100)


def receivers(clients, publishes):
    line(do="connect", client="sensor")
    for i in range(clients):
        line(do="connect", client=f"client-{i}")
        line(do="subscribe", client=f"client-{i}", filter="site/+/temperature", qos=1)
    for i in range(publishes):
        line(do="publish", client="sensor", topic=f"site/{i}/temperature", payload=f"v={i}", qos=1)


def members(count, away, publishes):
    line(do="connect", client="sensor")
    for i in range(count):
        line(do="connect", client=f"worker-{i}", session_expiry=3600)
        line(do="subscribe", client=f"worker-{i}", filter="$share/crew/job/7", qos=1)
    for i in range(away):
        line(do="disconnect", client=f"worker-{i}")
    for i in range(publishes):
        line(do="publish", client="sensor", topic="job/7", payload=f"v={i}", qos=1)


def retained_topics(topics):
    line(do="connect", client="client")
    for i in range(topics):
        line(do="publish", client="client", topic=f"area/{i // 10}/{i % 10}", payload="on",
             retain=True)


def retained(topics, subscribes):
    retained_topics(topics)
    for i in range(subscribes):
        line(do="subscribe", client="client", filter=f"area/{i % 100}/+")


def all_retained(topics, subscribes):
    retained_topics(topics)
    for i in range(subscribes):
        line(do="subscribe", client="client", filter="#")


def expiring(topics, advances):
    line(do="connect", client="client")
    for i in range(topics):
        line(do="publish", client="client", topic=f"stays/{i}", payload="on", retain=True,
             expiry=1_000_000 + i)
    for i in range(100_000):
        line(do="publish", client="client", topic=f"goes/{i}", payload="on", retain=True,
             expiry=1 + i // 10)
    for _ in range(advances):
        line(do="advance", seconds=1)


def lasting(topics, clients):
    line(do="connect", client="sensor")
    for i in range(topics):
        line(do="publish", client="sensor", topic=f"area/{i // 10}/{i % 10}", payload="on",
             retain=True, expiry=1 + i % clients)
    for i in range(clients):
        line(do="connect", client=f"client-{i}")
        line(do="subscribe", client=f"client-{i}", filter=f"area/{i % (topics // 10)}/+")
    for _ in range(clients):
        line(do="advance", seconds=1)


def sessions(away, publishes):
    five_subscribers()
    for i in range(2):
        line(do="connect", client=f"client-{i + 1}", clean=False, session_expiry=3600)
        line(do="subscribe", client=f"client-{i + 1}", filter="site/+/temperature", qos=1)
        line(do="disconnect", client=f"client-{i + 1}")
    for i in range(away):
        line(do="connect", client=f"away-{i}", session_expiry=3600)
        line(do="subscribe", client=f"away-{i}", filter=f"other/{i % 1000}/{i}/state", qos=1)
        line(do="disconnect", client=f"away-{i}")
    for i in range(publishes):
        line(do="publish", client="client-0", topic=f"site/{i % 100}/temperature", payload=f"v={i}",
             qos=1)


def resuming(away, resumes):
    line(do="connect", client="sensor")
    for i in range(away):
        line(do="connect", client=f"away-{i}", session_expiry=3600)
        line(do="subscribe", client=f"away-{i}", filter="alarm/#", qos=1)
        line(do="disconnect", client=f"away-{i}")
    for i in range(1000):
        line(do="publish", client="sensor", topic="alarm/fire", payload=f"v={i}", qos=1)
    for i in range(resumes):
        line(do="connect", client=f"away-{i}", clean=False, session_expiry=3600)


kinds = {"colleagues": colleagues, "overlapping": overlapping, "lasting": lasting,
         "sessions": sessions, "resuming": resuming, "five": five, "big": big, "users": users,
         "beside": beside,
         "userlist": user_list, "mixed": mixed, "longlist": long_list, "rules": rules,
         "list": access_list, "others": others, "groups": groups, "leaving": leaving,
         "retained": retained, "expiring": expiring, "returning": returning, "refused": refused,
         "receivers": receivers, "members": members, "all": all_retained}
kinds[sys.argv[1]](*(int(n) for n in sys.argv[2:]))

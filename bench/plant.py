#!/usr/bin/env python3
"""Writes a plant's day on standard output, the same each time: plant.py day CLIENTS SUBSCRIPTIONS
PUBLISHES, each client with so many subscriptions, and 50 groups of four; or plant.py list USERS,
the access list of its users."""
import json
import random
import sys

BUILDINGS, FLOORS, ROOMS, USERS, GROUPS = 20, 10, 20, 100, 50
KINDS = ["temperature", "humidity", "co2", "door", "light", "energy", "motion", "valve"]


def line(**fields):
    sys.stdout.write(json.dumps(fields, separators=(",", ":"), ensure_ascii=False) + "\n")


def topic(chance):
    levels = [f"building-{chance.randrange(BUILDINGS)}", f"floor-{chance.randrange(FLOORS)}",
              f"room-{chance.randrange(ROOMS)}", chance.choice(KINDS)]
    form = chance.random()
    if form < 0.4:
        levels.append(f"sensor-{chance.randrange(4)}")
    if form < 0.15:
        levels.append(chance.choice(["value", "raw", "state"]))
    if form > 0.9:
        levels.insert(0, "plant")
    return levels


def topic_filter(chance):
    levels = topic(chance)
    form = chance.random()
    if 0.85 <= form < 0.96:
        levels[chance.randrange(1, len(levels))] = "+"
    elif 0.96 <= form < 0.995:
        levels[3:] = ["#"]
    elif 0.995 <= form:
        levels = [levels[0], "+", "+", levels[3]]
    return "/".join(levels)


def payload(chance, number):
    fields = {"ts": 1_700_000_000 + number, "value": round(chance.uniform(0, 100), 2),
              "unit": chance.choice(["°C", "%", "ppm", "kWh"]),
              "quality": chance.choice(["good", "uncertain", "bad"]),
              "source": {"device": f"dev-{chance.randrange(2000)}", "fw": "2.4.1"}}
    if chance.random() < 0.5:
        fields["note"] = 'line one\nline "two" of C:\\data\\log ' + "x" * chance.randrange(60)
    if chance.random() < 0.3:
        fields["history"] = [round(chance.uniform(0, 100), 1) for _ in range(8)]
    return json.dumps(fields, ensure_ascii=False)


def day(clients, subscriptions, publishes):
    chance = random.Random(7)
    for i in range(clients):
        line(do="connect", client=f"client-{i:04}", user=f"user-{i % USERS}", clean=False,
             session_expiry=86_400)
        for _ in range(subscriptions):
            wanted, qos = topic_filter(chance), chance.randrange(3)
            options = {"id": chance.randrange(1, 1000)} if chance.random() < 0.1 else {}
            line(do="subscribe", client=f"client-{i:04}", filter=wanted, qos=qos, **options)
    for group in range(GROUPS):
        for member in range(4):
            wanted = f"building-{group % BUILDINGS}/floor-{group % FLOORS}/#"
            line(do="subscribe", client=f"client-{(group * 17 + member) % clients:04}", qos=1,
                 filter=f"$share/crew-{group}/{wanted}")
    for i in range(publishes):
        client, levels, text = chance.randrange(clients), topic(chance), payload(chance, i)
        qos = chance.choice([0, 0, 1, 1, 2])
        options = {"retain": True} if chance.random() < 0.1 else {}
        line(do="publish", client=f"client-{client:04}", topic="/".join(levels), payload=text,
             qos=qos, **options)


def access_list(users):
    print(
        "pattern readwrite clients/%c/#\npattern read users/%u/+/state\npattern readwrite plant/#")
    for user in range(users):
        print(f"user user-{user}\ntopic readwrite +/+/+/#")
        print(f"topic deny building-{user % BUILDINGS}/floor-{user % FLOORS}/room-3/door/#")


{"day": day, "list": access_list}[sys.argv[1]](*map(int, sys.argv[2:]))

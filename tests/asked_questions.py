"""Files of questions, each answer beside the test of its own client, user and topic."""
import json

from plain_lists import number_of
from plain_lists import allowed, deciding

MOST = 60  # questions of a file


def random_questions(chance, clients, users, topics):
    """Some of them twice, so that an answer in another's place shows."""
    asked = [(chance.choice(clients), chance.choice(users), chance.choice(topics),
              chance.choice(["read", "write"])) for _ in range(chance.randint(0, MOST))]
    return asked + chance.sample(asked, len(asked) // 3)


def line_of(chance, client, user, topic, access):
    """A question, its members in any order, perhaps behind a blank line."""
    members = [("client", client), ("topic", topic), ("access", access)]
    members += [] if user is None else [("user", user)]
    chance.shuffle(members)
    return chance.choice(["", "", "", " \t\r\n"]) + json.dumps(dict(members)) + "\n"


def right_answer(rules, rows, client, user, topic, access):
    row, grant = deciding(rules, rows, client, user, topic, access)
    deny = row if row and row.access == "deny" else None
    return (access, allowed(rules, rows, client, user, topic, access), number_of(deny),
            number_of(grant), rules.refuses(topic, access))


def shown_answer(line):
    found = json.loads(line)
    deny, grant = ((found[name] or {}).get("line") for name in ("deny", "grant"))
    return found["access"], found["allowed"], deny, grant, found.get("refused", False)


def faults_of_questions(rules, run, folder, chance, rows, names):
    """What is wrong with the answers to a file of questions about these rows, whose list stands in
    old.acl; `names` are the client ids, the user names and the topics."""
    asked = random_questions(chance, *names)
    text = "".join(line_of(chance, *one) for one in asked)
    done = run(["why", *rules.words, "--questions", "-", "old.acl"], folder, text)
    if done.returncode != 0 or done.stdout.count("\n") != len(asked):
        yield f"why --questions: status {done.returncode}: {done.stdout}{done.stderr}\n{text}"
        return
    for one, line in zip(asked, done.stdout.splitlines()):
        if shown_answer(line) != right_answer(rules, rows, *one):
            yield f"why --questions: {one}: {line}"
    barred = run(["why", *rules.words, "--questions", "-", "old.acl"], folder, f"{text}{{}}\n")
    if (barred.returncode, barred.stdout) != (2, ""):
        yield f"why --questions: {{}} is answered: {barred.stdout}"

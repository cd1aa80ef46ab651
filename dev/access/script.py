"""What mqroute is asked of a list."""
import json
import subprocess

from access.seen import PATIENCE, SEEDER, Fault, Seen, filters_of, seeded_of


class Script:
    """What mqroute is asked of a list."""

    def __init__(self, group, folder):
        self.clients = {client.name: place for place, client in enumerate(group.clients)}
        self.topics = {topic: place for place, topic in enumerate(group.topics)}
        self.before = [{"do": "connect", "client": SEEDER}]
        self.before += [{"do": "publish", "client": SEEDER, "topic": topic, "payload": "kept",
                         "retain": True} for topic in seeded_of(group)]
        for client in group.clients:
            user = {} if client.user is None else {"user": client.user}
            self.before.append({"do": "connect", "client": client.name, **user})
        self.after = [{"do": "subscribe", "client": client.name, "filter": one}
                      for client in group.clients for one in filters_of(group)]
        self.after += [{"do": "publish", "client": client.name, "topic": topic, "payload": "live",
                        "qos": 1} for client in group.clients for topic in group.topics]
        self.texts = [lines_of(self.before), lines_of(self.after)]
        self.file = folder / "script.jsonl"

    def begin(self, program, text):
        """mqroute, while mosquitto is asked."""
        access_list = lines_of([{"do": "acl", "text": text}])
        self.file.write_bytes(access_list.join(self.texts))
        return subprocess.Popen(
            [program, "--rules", "mosquitto", self.file], stdout=subprocess.PIPE)

    def seen(self, running):
        output, _ = running.communicate(timeout=PATIENCE)
        if running.returncode not in (0, 1):
            raise Fault(f"mqroute ended with status {running.returncode}")
        seen = Seen()
        for answer in map(json.loads, output.splitlines()):
            self.take(seen, answer, answer["line"] - len(self.before) - 2)
        return seen

    def take(self, seen, answer, place):
        """An answer to the line at this place behind the list."""
        if "refused" in answer and place == -1:
            seen.refused = f"line {answer['acl_line']}"
        elif "refused" in answer and (place < 0 or answer["code"] != 11):
            raise Fault(f"mqroute refuses a line of the script: {answer}")
        if place < 0 or "refused" in answer:
            return
        command = self.after[place]
        if "client" in answer:
            found = self.clients[answer["client"]], self.topics[answer["topic"]]
            if command["do"] == "subscribe":
                seen.read.add(found)
            else:
                seen.reached.add((*found, self.clients[command["client"]]))
        elif command["do"] == "publish":
            seen.write.add((self.clients[command["client"]], self.topics[command["topic"]]))


def lines_of(commands):
    return "".join(json.dumps(command) + "\n" for command in commands).encode()

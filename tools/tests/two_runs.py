"""Small scripts that the built program answers twice, and what who_loses shows of both answers."""
import json
import subprocess
import sys
import tempfile
import unittest
from pathlib import Path

from worked import HERE, PROGRAM

ALL = "pattern readwrite #\n"
NO_WRITING = ALL + "user meter\ntopic deny x\n"  # for meters
NO_READING = ALL + "user ops\ntopic deny x\n"


def connect(client: str, user: str | None = None, kept: bool = False) -> dict:
    return {"do": "connect", "client": client} | ({"user": user} if user else {}) | (
        {"clean": False, "session_expiry": 99} if kept else {})


def subscribe(client: str, filter: str = "x", **more) -> dict:
    return {"do": "subscribe", "client": client, "filter": filter} | more


def publish(client: str, topic: str = "x", **more) -> dict:
    return {"do": "publish", "client": client, "topic": topic, "payload": "p"} | more


def leave(client: str) -> dict:
    return {"do": "disconnect", "client": client}


P, R = connect("p", "meter"), connect("r", "ops")
# lines 1 to 5
AWAY = [P, connect("r", "ops", True), subscribe("r", qos=1), subscribe("r", "y", qos=1), leave("r")]
BACK = connect("r", "ops", True)


class Compared(unittest.TestCase):
    def compared(self, script: list[dict], before: str, after: str, *words: str,
                 options: tuple[list[str], list[str]] = ([], [])) -> subprocess.CompletedProcess:
        with tempfile.TemporaryDirectory() as folder:
            at = Path(folder)
            (at / "script").write_text(
                "".join(json.dumps(c) + "\n" for c in script), encoding="utf-8")
            for name, text, more in (("before", before, options[0]), ("after", after, options[1])):
                (at / f"{name}.acl").write_text(text, encoding="utf-8")
                done = subprocess.run(
                    [PROGRAM, "--acl-file", at / f"{name}.acl", *more, at / "script"],
                    capture_output=True)
                (at / name).write_bytes(done.stdout)
            return subprocess.run(
                [sys.executable, HERE / "who_loses.py", *words, "script", "before", "after"],
                cwd=folder,
                capture_output=True, text=True, encoding="utf-8")

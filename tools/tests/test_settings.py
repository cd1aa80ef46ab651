"""A small day on a live mosquitto under each of many settings of mosquitto.conf: a preview by that
configuration finds its list in force, says what it leaves out, or has no answer. What the broker
does is compared with mqroute's answers, line by line, by mqroute-replay: under the list, and under
the proposed one."""
import base64
import contextlib
import hashlib
import json
import os
import pwd
import re
import subprocess
import sys
import tempfile
import unittest
from collections.abc import Iterator
from concurrent.futures import ThreadPoolExecutor
from dataclasses import dataclass, field
from pathlib import Path

import mosquitto
from mosquitto import PAHO, wants_paho
from test_preview import wants_programs
from two_runs import connect, publish, subscribe
from worked import HERE, PROGRAM
from mqroute_tools.conf.reading import read_conf

PORTS = mosquitto.quiet_ports()
TOGETHER = 4  # brokers at once
PASSWORD = "secret"
WAITS = 15  # messages of QoS 1 for a client that is away
DYNSEC = "/usr/lib/x86_64-linux-gnu/mosquitto_dynamic_security.so"
LIST = """\
topic read werk/#
user guest
topic read werk/#
user plc
topic readwrite werk/#
user dev
topic read werk/none
user boss
topic readwrite dev/#
topic readwrite werk/hall/#
pattern write dev/%c/data
pattern read dev/%c/cmd
"""
PROPOSED = LIST.replace("topic read werk/#\n", "topic read werk/+\n").replace(
    "user dev\n", "user dev\ntopic write dev/other/data\n")
HEAD = "user @USER\nlog_dest file @D/mosquitto.log\nsys_interval 0\n"
ALL, TIMES = "log_type all\n", "log_timestamp_format %Y-%m-%dT%H:%M:%S\n"
LISTENS, ANYBODY, ACL = ("listener @P 127.0.0.1\n", "allow_anonymous true\n", "acl_file @D/acl\n")
USUAL = HEAD + ALL + TIMES + LISTENS + ANYBODY + ACL


def day(nameless: str | None = None, dev: str = "dev-7") -> list[dict]:
    """`nameless` is the user name of clients for which others have none."""
    def guest(client: str, **more: object) -> dict:
        return connect(client, nameless) | more if nameless else {
            "do": "connect", "client": client, **more}
    wall = guest("wall", clean=False, session_expiry=1000)
    return [
        wall, subscribe("wall", "werk/#", qos=1), guest("fast"),
        subscribe("fast", "werk/+/fast", qos=2), connect("plc", "plc"), connect(dev, "dev"),
        subscribe(dev, f"dev/{dev}/cmd", qos=1), connect("boss", "boss"),
        subscribe("boss", "dev/#", qos=1), subscribe("boss", "werk/hall/#", qos=1),
        publish("plc", "werk/a", qos=1, payload="a"),
        publish("plc", "werk/kept", qos=1, payload="kept", retain=True),
        publish("plc", "werk/x/fast", payload="0"), publish("plc", "werk/y/fast", qos=2,
                                                            payload="2"),
        publish(dev, f"dev/{dev}/data", qos=1, payload="d"),
        publish(dev, "dev/other/data", qos=1, payload="denied"),
        publish("boss", f"dev/{dev}/cmd", qos=1, payload="c"),
        publish("boss", "werk/hall/b", qos=1, payload="a long payload of the hall"),
        publish("fast", "werk/cmd", qos=1, payload="denied"),
        {"do": "disconnect", "client": "wall"},
        *[publish("plc", "werk/none", payload=f"0-{n}") for n in range(3)],
        *[publish("plc", "werk/much", qos=1, payload=f"{n:02}") for n in range(WAITS)],
        wall, guest("late"), subscribe("late", "werk/kept", qos=1),
        {"do": "disconnect", "client": "late"}]


@dataclass
class Setting:
    """What the preview says, and whether the broker does something else than mqroute."""
    conf: str
    status: int = 1  # of the preview: the lists differ
    says: str = ""  # a pattern, of its output or of standard error
    differs: bool = False
    script: list[dict] = field(default_factory=day)
    words: tuple[str, ...] = ()  # of mqroute-replay
    mounted: bool = False
    optional: bool = False  # not every mosquitto starts with it
    passwords: bool = False


def usual(more: str, **other: object) -> Setting:
    return Setting(USUAL + more, **other)


LEFT_OUT = "true: .*this answer leaves that out"
BY_NAME = day("guest", "dev")
SETTINGS = {
    "acl_file": usual(""),
    "port": Setting(HEAD + ALL + TIMES + "port @P\nbind_address 127.0.0.1\n" + ANYBODY + ACL),
    "include_dir": Setting(HEAD + ALL + TIMES + LISTENS + ANYBODY + "include_dir @D/conf.d\n"),
    "per_listener_settings": Setting(
        "per_listener_settings true\n" + HEAD + ALL + TIMES + LISTENS + ANYBODY + ACL),
    "an acl_file of no listener": Setting(
        "per_listener_settings true\n" + HEAD + ALL + TIMES + LISTENS + ANYBODY
        + "include_dir @D/conf.d\n", 2, "this acl_file is in force for no listener", True),
    "no acl_file": Setting(HEAD + ALL + TIMES + LISTENS + ANYBODY, 2,
                           "no listener has an acl_file", True),
    "plugin": usual(f"plugin {DYNSEC}\nplugin_opt_config_file @D/dynsec.json\n", status=2,
                    says="the plugin dynamic security decides", differs=True,
                    optional=True),
    "connection": usual("connection hq\naddress 127.0.0.1:@Q\ntopic werk/# out 1\n",
                        says="1 bridge of the broker's own: no list is asked"),
    "log_timestamp_format": Setting(
        HEAD + ALL + "log_timestamp_format %d.%m.%Y %H:%M:%S\n" + LISTENS + ANYBODY + ACL),
    "log_timestamp": Setting(HEAD + ALL + "log_timestamp false\n" + LISTENS + ANYBODY + ACL),
    "log_type": Setting(HEAD + TIMES + LISTENS + ANYBODY + ACL, 2, "log_type all is missing"),
    "log_type of kinds": Setting(
        HEAD + TIMES + LISTENS + ANYBODY + ACL + "".join(
            f"log_type {kind}\n" for kind in ("debug", "notice", "information", "subscribe",
                                              "unsubscribe"))),
    "connection_messages": usual("connection_messages false\n", status=2,
                                 says="connection_messages false: the log has no user names"),
    "max_queued_messages": usual("max_queued_messages 10\n"),
    "max_queued_messages 0": usual("max_queued_messages 0\n", says="this answer leaves that out",
                                   differs=True),
    "max_queued_bytes": usual("max_queued_bytes 1000\n",
                              says="max_queued_bytes 1000: .*this answer leaves that out"),
    "queue_qos0_messages": usual("queue_qos0_messages true\n", says=LEFT_OUT, differs=True),
    "upgrade_outgoing_qos": usual("upgrade_outgoing_qos true\n", says=LEFT_OUT, differs=True),
    "check_retain_source": usual("check_retain_source true\n", says=LEFT_OUT),
    "allow_anonymous": Setting(
        HEAD + ALL + TIMES + LISTENS + ACL + "allow_anonymous false\npassword_file @D/pw\n",
        says="1 right of clients without a user name left out", script=BY_NAME,
        words=("--password", PASSWORD), passwords=True),
    "use_username_as_clientid": Setting(
        HEAD + ALL + TIMES + LISTENS + "use_username_as_clientid true\n" + ANYBODY + ACL,
        script=[line for line in BY_NAME if line["client"] in ("plc", "dev", "boss")]),
    "protocol websockets": Setting(
        HEAD + ALL + TIMES + "listener @P\nprotocol websockets\n" + ANYBODY + ACL,
        words=("--websockets",), optional=True),
    "mount_point": Setting(  # the clients are sent the whole names
        HEAD + ALL + TIMES + LISTENS + "mount_point hall1/\n" + ANYBODY + ACL, differs=True,
        mounted=True),
    "max_inflight_messages": usual("max_inflight_messages 1\n"),
    "max_qos": usual("max_qos 1\n"),
    "retain_available": usual("retain_available false\n"),
    "message_size_limit": usual("message_size_limit 10\n", differs=True),
    "allow_duplicate_messages": usual("allow_duplicate_messages false\n"),
    "max_packet_size": usual("max_packet_size 1000\n"),
}


def hashed(password: str) -> str:
    """As mosquitto_passwd writes it."""
    salt, rounds = b"123456789012", 101
    found = hashlib.pbkdf2_hmac("sha512", password.encode(), salt, rounds)
    texts = (base64.b64encode(one).decode() for one in (salt, found))
    return "$".join(["", "7", str(rounds), *texts])


def mounted(text: str) -> str:
    return re.sub(r"^((?:topic|pattern) \S+ )", r"\1hall1/", text, flags=re.M)


@contextlib.contextmanager
def running(conf: Path, port: int) -> Iterator[None]:
    broker = subprocess.Popen([mosquitto.MOSQUITTO, "-c", conf], stderr=subprocess.DEVNULL)
    try:
        mosquitto.wait_for(port, broker)
        yield
    finally:
        broker.terminate()
        broker.wait()


Done = dict[str, subprocess.CompletedProcess]


class Plant:
    """A folder with a configuration, and the lists."""

    def __init__(self, folder: Path, setting: Setting) -> None:
        self.folder, self.setting = folder, setting
        self.port, self.other = next(PORTS), next(PORTS)
        text = setting.conf
        for mark, value in (("@USER", pwd.getpwuid(os.getuid()).pw_name), ("@D", str(folder)),
                            ("@P", str(self.port)), ("@Q", str(self.other))):
            text = text.replace(mark, value)
        (folder / "conf.d").mkdir()
        for name, written in (
                ("mosquitto.conf", text), ("conf.d/acl.conf", f"acl_file {folder}/acl\n"),
                ("other.conf", f"listener {self.other} 127.0.0.1\nallow_anonymous true\n"),
                ("list", LIST), ("proposed", PROPOSED), ("new.acl", self.live(PROPOSED)),
                ("dynsec.json", '{"defaultACLAccess": {"publishClientSend": true, '
                 '"publishClientReceive": true, "subscribe": true, "unsubscribe": true}}')):
            (folder / name).write_text(written, encoding="utf-8")
        self.write_script(setting.script)
        if setting.passwords:
            lines = (f"{name}:{hashed(PASSWORD)}\n" for name in ("guest", "plc", "dev", "boss"))
            (folder / "pw").write_text("".join(lines), encoding="utf-8")

    def write_script(self, script: list[dict]) -> None:
        text = "".join(json.dumps(line) + "\n" for line in script)
        (self.folder / "script").write_text(text, encoding="utf-8")

    def live(self, text: str) -> str:
        return mounted(text) if self.setting.mounted else text

    def broker(self, text: str) -> contextlib.AbstractContextManager[None]:
        (self.folder / "acl").write_text(self.live(text), encoding="utf-8")
        return running(self.folder / "mosquitto.conf", self.port)

    def replayed(self, name: str) -> subprocess.CompletedProcess:
        """The day on the broker, beside mqroute's answers under the list of this name."""
        most = read_conf(str(self.folder / "mosquitto.conf")).max_queued()
        words = [f"--acl-file={self.folder / name}", "--rules=mosquitto"]
        words += [] if most is None else [f"--max-queued={most}"]
        with open(self.folder / "output", "wb") as out:
            subprocess.run([PROGRAM, *words, self.folder / "script"], stdout=out, check=False)
        return self.run(PAHO, "replay.py", "--port", str(self.port), *words, *self.setting.words,
                        "script", "output")

    def run(self, python: str, tool: str, *words: str) -> subprocess.CompletedProcess:
        return subprocess.run([python, HERE / tool, *words], cwd=self.folder, capture_output=True,
                              encoding="utf-8", timeout=60)

    def played(self) -> Done | None:
        """None where the broker doesn't start."""
        with contextlib.ExitStack() as stack:
            if "@Q" in self.setting.conf:
                stack.enter_context(running(self.folder / "other.conf", self.other))
            try:
                return self.days()
            except mosquitto.NotStarted:
                return None

    def days(self) -> Done:
        with self.broker(LIST):
            now = self.replayed("list")
        (self.folder / "acl").write_text(self.live(LIST), encoding="utf-8")
        log = (self.folder / "mosquitto.log").read_bytes()
        preview = self.run(sys.executable, "preview.py", "--conf", "mosquitto.conf", "new.acl")
        with self.broker(PROPOSED):
            then = self.replayed("proposed")
        (self.folder / "mosquitto.log").write_bytes(log)
        return {"now": now, "preview": preview, "then": then}


@wants_paho
@wants_programs
@unittest.skipUnless(Path(mosquitto.MOSQUITTO).exists(), "there is no mosquitto")
class Settings(unittest.TestCase):
    def test_a_day_under_each(self):
        with tempfile.TemporaryDirectory() as folder:
            Path(folder).chmod(0o755)
            plants = {name: Plant(self.made(Path(folder, str(number))), setting)
                      for number, (name, setting) in enumerate(SETTINGS.items())}
            with ThreadPoolExecutor(TOGETHER) as pool:
                done = pool.map(Plant.played, plants.values())
                for (name, setting), found in zip(SETTINGS.items(), done):
                    with self.subTest(setting=name):
                        self.judge(setting, found)

    def test_a_restart_without_persistence(self):
        """The broker forgets what mqroute keeps: that is said, and the list isn't called wrong."""
        with tempfile.TemporaryDirectory() as folder:
            Path(folder).chmod(0o755)
            whole = day()
            back = whole.index(whole[0], 1)
            plant = Plant(Path(folder), Setting(USUAL, script=whole[:back]))
            with plant.broker(LIST):
                self.assertEqual(plant.replayed("list").returncode, 0)
            plant.write_script(whole[back:])
            with plant.broker(LIST):
                self.assertEqual(plant.replayed("list").returncode, 0)
            done = plant.run(sys.executable, "preview.py", "--conf", "mosquitto.conf", "new.acl")
            self.assertEqual(done.returncode, 2, done.stderr)
            self.assertRegex(done.stdout, r"\ANOT CHECKED .* stand behind .*, where the broker "
                             "read its configuration again")
            self.assertIn("the broker was restarted 1 time within the log, without persistence",
                          done.stdout)

    def made(self, folder: Path) -> Path:
        folder.mkdir()
        return folder

    def judge(self, setting: Setting, found: Done | None) -> None:
        if found is None:
            self.assertTrue(setting.optional)
            self.skipTest("this mosquitto doesn't start with it")
        for done in (found["now"], found["then"]):
            self.assertEqual(done.returncode, int(setting.differs), done.stdout + done.stderr)
        preview = found["preview"]
        said = preview.stdout + preview.stderr
        self.assertEqual(preview.returncode, setting.status, said)
        self.assertTrue(re.search(setting.says, said), said)
        if setting.status == 1:
            self.assertRegex(said, r"\Aunder \S+ (\d+) of \1 copies are as the log has them")


if __name__ == "__main__":
    unittest.main()

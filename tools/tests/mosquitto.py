"""A mosquitto of a test's own, on loopback; and a Python that has paho-mqtt to talk to it."""
import contextlib
import os
import shutil
import socket
import subprocess
import sys
import time
import unittest
from collections.abc import Iterator
from pathlib import Path

PYTHON = "/usr/bin/python3"  # which has Debian's python3-paho-mqtt
MOSQUITTO = os.environ.get("MOSQUITTO") or shutil.which("mosquitto") or "/usr/sbin/mosquitto"


def quiet_ports() -> Iterator[int]:
    """Free ones that no connection is given by chance, for many brokers side by side."""
    for port in range(20_000 + os.getpid() % 5_000, 32_000):
        with socket.socket() as free, contextlib.suppress(OSError):
            free.bind(("127.0.0.1", port))
            yield port


def has_paho(python: str) -> bool:
    return Path(python).exists() and subprocess.run(
        [python, "-c", "import paho.mqtt.client"], capture_output=True).returncode == 0


PAHO = next((p for p in (sys.executable, PYTHON) if has_paho(p)), None)
wants_paho = unittest.skipUnless(PAHO, "there is no python3-paho-mqtt")


def free_port() -> int:
    with socket.socket() as free:
        free.bind(("127.0.0.1", 0))
        return free.getsockname()[1]


def start(case: unittest.TestCase, conf: Path, port: int) -> int:
    """A broker until the end of the test, on the port that its configuration names: its process."""
    if not Path(MOSQUITTO).exists():
        case.skipTest("there is no mosquitto")
    broker = subprocess.Popen([MOSQUITTO, "-c", conf], stderr=subprocess.DEVNULL)
    case.addCleanup(broker.wait)
    case.addCleanup(broker.kill)
    wait_for(port, broker)
    return broker.pid


class NotStarted(AssertionError):
    """A broker that ended, or doesn't listen."""


def wait_for(port: int, broker: subprocess.Popen) -> None:
    """Until the broker listens there, half a minute at most."""
    for _ in range(600):
        if broker.poll() is not None:
            break
        with socket.socket() as probe:
            if probe.connect_ex(("127.0.0.1", port)) == 0:
                return
        time.sleep(0.05)
    raise NotStarted("the broker doesn't start")


def refuses(case: unittest.TestCase, conf: Path) -> bool:
    """Whether the broker ends at once, for want of a configuration that it takes."""
    if not Path(MOSQUITTO).exists():
        case.skipTest("there is no mosquitto")
    broker = subprocess.Popen([MOSQUITTO, "-c", conf], stderr=subprocess.DEVNULL)
    try:
        return broker.wait(2) != 0
    except subprocess.TimeoutExpired:
        broker.kill()
        broker.wait()
        return False

"""A program that is given its script piece by piece, and what a piece costs it."""
import fcntl
import glob
import os
import re
import struct
import subprocess
import tempfile
import termios
import time

# glibc clears and copies what is long by one instruction, which callgrind counts as one for each
# byte: the 16 KiB that are cleared for each line would be half of all that is counted. With these
# it does so by vectors, as what is short.
TUNABLES = "glibc.cpu.x86_rep_stosb_threshold=100000000:glibc.cpu.x86_rep_movsb_threshold=100000000"


class NothingCounted(Exception):
    """Of a dump of callgrind's that says so, or that isn't there."""


def instructions(dump):
    """What a dump of callgrind's counted. None is no number: then the program worked while nothing
    was counted, as on a machine that is too busy."""
    found = re.search(r"^totals: (\d+)", dump, re.MULTILINE)
    if found is None or int(found[1]) == 0:
        raise NothingCounted("callgrind's dump has no instructions: nothing was counted while the "
                             "program worked. Try again with less beside")
    return int(found[1])


class Program:
    """With `counted` it runs under callgrind, which counts instructions only while `count` gives it
    a piece: neither the start of the program nor what came before is in the number."""

    def __init__(self, command, counted=False):
        self.folder = tempfile.TemporaryDirectory()
        under = ["valgrind", "-q", "--tool=callgrind", "--instr-atstart=no",
                 f"--callgrind-out-file={self.folder.name}/counts"]
        self.process = subprocess.Popen(
            (under if counted else []) + command, stdin=subprocess.PIPE, stdout=subprocess.DEVNULL,
            env=dict(os.environ, GLIBC_TUNABLES=TUNABLES))

    def give(self, lines):
        """Returns when the program waits for more."""
        for line in lines:
            self.process.stdin.write(line)
        self.process.stdin.flush()
        while not self.waits():
            pass

    def waits(self):
        for _ in range(2):
            time.sleep(0.05)
            unread, = struct.unpack(
                "i", fcntl.ioctl(self.process.stdin, termios.FIONREAD, bytes(4)))
            with open(f"/proc/{self.process.pid}/stat") as stat:
                state = stat.read().rpartition(")")[2].split()[0]
            if unread or state != "S":
                return False
        return True

    def count(self, lines):
        """Instructions for these lines. Raises NothingCounted."""
        before = self.dumps()
        self.control("-i", "on")
        self.give(lines)
        self.control("-d")
        self.control("-i", "off")
        made = self.dumps() - before
        if len(made) != 1:
            raise NothingCounted(f"callgrind wrote {len(made)} dumps, and not one")
        with open(made.pop()) as dump:
            return instructions(dump.read())

    def dumps(self):
        return set(glob.glob(f"{self.folder.name}/counts.*"))

    def control(self, *what):
        subprocess.run(["callgrind_control", *what, str(self.process.pid)], check=True,
                       stdout=subprocess.DEVNULL,
                       stderr=subprocess.DEVNULL)

    def seconds(self):
        """User time so far."""
        with open(f"/proc/{self.process.pid}/stat") as stat:
            ticks = stat.read().rpartition(")")[2].split()[11]
        return int(ticks) / os.sysconf("SC_CLK_TCK")

    def peak(self):
        """Peak memory so far in bytes."""
        with open(f"/proc/{self.process.pid}/status") as status:
            return int(re.search(r"VmHWM:\s+(\d+)", status.read())[1]) * 1024

    def finish(self):
        self.process.stdin.close()
        self.process.wait()
        self.folder.cleanup()

"""Reads a mosquitto.conf as mosquitto 2.0 does (conf.c): included folders, listeners with settings
of their own, bridges. Of passwords and keys it keeps that there is one, and no more."""
import os
from pathlib import Path

from ..common.exit_status import Fault
from ..common.files import at, decoded
from ..common.texts import quoted
from . import words
from .mosquitto_conf import DEFAULT_PORT, Bridge, Conf, Listener, Section, Setting
from .places import place_of

BLANKS = " \t\v\f\r\n"
INCLUDED = ".conf"  # how the names of included files end
SHOWN = 20  # characters of a word that isn't known


class ConfFault(Fault):
    """A line with which mosquitto doesn't start, or a file that can't be read."""


def refused(place: str, why: str) -> ConfFault:
    return ConfFault(f"{place}: mosquitto doesn't start with this line: {why}")


def by_letter(name: str) -> list[tuple[str, bool]]:
    """The order of included files: 00 01 A a B b."""
    return [(each.lower(), each != each.upper()) for each in name]


def read_conf(path: str) -> Conf:
    """Raises ConfFault where mosquitto wouldn't start, and OSError of a file that can't be read."""
    reader = Reader(path)
    reader.file(path, included=False)
    reader.finish()
    return reader.conf


class Reader:
    def __init__(self, path: str) -> None:
        self.conf = Conf(path)
        self.default = Listener()
        # of the file that is read: what its lines below are of
        self.listener = self.default
        self.bridge: Bridge | None = None
        self.has_security = False  # whether a setting was met that may be of a listener alone

    def file(self, path: str, included: bool) -> None:
        """What stands in an included file is of no listener of the file around it."""
        text = decoded(Path(path).read_bytes(), path)
        self.conf.files.append(path)
        outer, self.listener, self.bridge = (self.listener, self.bridge), self.default, None
        for number, line in enumerate(text.split("\n"), 1):
            line = line.rstrip("\r")
            if line.startswith("#") or not line.strip(" "):
                continue
            word, _, rest = line.lstrip(" ").partition(" ")
            setting = Setting(rest.strip(BLANKS), path, number)
            if word == "include_dir":
                if not included:  # further down the broker passes it over
                    self.folder(setting)
            else:
                self.line(word, setting)
        self.listener, self.bridge = outer

    def folder(self, setting: Setting) -> None:
        folder = place_of(self.conf.path, setting.value)
        try:
            names = os.listdir(folder)
        except OSError as fault:
            raise ConfFault(f"{setting.place()}: {setting.value}: {fault.strerror}") from fault
        names = [one for one in names if one.endswith(INCLUDED) and one != INCLUDED]
        for one in sorted(names, key=by_letter):
            self.file(os.path.join(folder, one), included=True)

    def line(self, word: str, setting: Setting) -> None:
        place = setting.place()
        if word == "listener":
            self.listener = listener(setting)
            self.conf.listeners.append(self.listener)
        elif word == "connection":
            self.bridge = Bridge(name=setting.value)
            self.conf.bridges.append(self.bridge)
        elif not word.startswith(words.PLUGIN_OPTIONS):
            section = self.section(word, place)
            check(section, word, setting)
            kept = Setting("", setting.file, setting.line) if word in words.SECRET else setting
            section.settings.setdefault(word, []).append(kept)
            self.follow(word, place)

    def section(self, word: str, place: str) -> Section:
        """What the setting is of."""
        if word in words.SECURITY:
            self.has_security = True
            return self.listener if self.conf.per_listener() else self.conf.all
        if word in words.LISTENER:
            return self.listener
        if word in words.GLOBAL:
            return self.conf.all
        if word not in words.BRIDGE:
            raise refused(place, f"unknown word {quoted(word[:SHOWN])}")
        if self.bridge is None:
            raise refused(place, f"{word} needs a connection line above it")
        return self.bridge

    def follow(self, word: str, place: str) -> None:
        """What a line that was taken changes."""
        if word == "per_listener_settings" and self.conf.per_listener() and self.has_security:
            above = ", ".join(sorted(words.SECURITY))
            raise refused(place, f"per_listener_settings must stand above all of {above}")
        if word == "port":
            self.default.port = self.conf.all.number("port", DEFAULT_PORT)

    def finish(self) -> None:
        """Which listeners are opened: the default one too where a line is of it."""
        conf, default = self.conf, self.default
        opens = words.OPENING & conf.all.settings.keys() or (
            default.settings.keys() - words.NOT_OPENING)
        if not opens and conf.listeners:
            conf.dead = [(word, found[-1]) for word, found in default.settings.items()]
            return
        conf.local_only = not opens
        conf.listeners.append(default)


def listener(setting: Setting) -> Listener:
    port, _, address = setting.value.partition(" ")
    if not (port.isascii() and port.isdigit()):
        raise refused(setting.place(), "listener needs a port")
    address = address.strip(" ").partition(" ")[0]
    return Listener(port=int(port), address="" if address.startswith("#") else address)


def check(section: Section, word: str, setting: Setting) -> None:
    if not setting.value:
        raise refused(setting.place(), f"{word} is empty")
    if word in words.FLAGS and setting.first() not in words.TRUE + words.FALSE:
        raise refused(setting.place(), f"{word} is true or false")
    first = section.get(word) if word in words.ONCE else None
    if first:
        raise refused(
            setting.place(), f"{word} stands twice, first in {at(first.file, first.line)}")

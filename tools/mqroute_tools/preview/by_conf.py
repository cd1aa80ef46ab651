"""What a preview takes from a mosquitto.conf: lists by listener, the log and how it has times, how
many messages may wait; and what its answers leave out."""
import argparse
from collections.abc import Iterable
from dataclasses import dataclass, field
from functools import partial

from ..common.exit_status import Fault, UsageFault
from ..common.messages import counted, named
from ..common.tables import shown
from ..conf.limits import left_out, refuse_dead_list, refuse_plugins, refuse_shared_ports
from ..conf.mosquitto_conf import Conf, Listener
from ..conf.password_names import names_of
from ..conf.places import place_of
from ..log.options import logs_by_conf
from ..log.recording import Recorder
from ..log.report_line import Line
from ..losses.findings import Json
from ..script.conf_file import read_conf_file
from ..script.rules import OWN
from .findings import Preview
from .in_force import Found
from .list_rows import rows_of
from .listeners import OWN_BRIDGE, ClassLists, Classes, Listeners, Ported, Rows
from .password_users import name_others

NO_LIST = "no list"
# By these a user name is what a certificate or a key has, and no password is asked for.
NAMES_BY_CERTIFICATE = ("use_identity_as_username", "use_subject_as_username")


@dataclass
class ByConf:
    """A configuration, and the listener whose list is to be replaced."""
    conf: Conf
    target: Listener
    paths: dict[int, str | None]  # the list of each port, where it is here
    classes: Classes | None  # None: all clients are under one list
    connections: dict[int, int] = field(default_factory=dict)  # in the log, by port
    said: list[str] = field(default_factory=list)  # of what its answers are, and leave out
    reader: Recorder | None = None  # of the log
    users: list[str] | None = None  # all of a password file; None: there may be any

    def recorder(self) -> "partial[Recorder] | type[Recorder]":
        if self.classes is None:
            return Recorder
        return partial(Ported, self.classes, Listeners(self.conf, self.target))

    def lists(self) -> str:
        """Those in force, in words."""
        return " and ".join(sorted({named(path) for path in self.paths.values() if path}))

    def read(self, reader: Recorder) -> None:
        """Follows what the log shows. Raises Fault where a plugin decides for its clients."""
        used = [one for one in self.conf.listeners if reader.ports[one.port]]
        refuse_plugins(self.conf, used or self.conf.listeners)
        self.reader, self.connections = reader, dict(sorted(reader.ports.items()))
        if len(self.conf.listeners) > 1:
            self.said.append("clients came by " + ", ".join(
                f"port {port} ({counted(number, 'connections', ',')}, {self.list_name(port)})"
                for port, number in self.connections.items()))
        if isinstance(reader, Ported):
            self.say_of_classes(reader)
        self.said += left_out(self.conf)
        if reader.restarts and not self.conf.all.flag("persistence"):
            self.said.append(
                f"the broker was restarted {counted(len(reader.restarts), 'times', ',')} within "
                "the log, without persistence: it forgot sessions and retained messages then; this "
                "answer keeps them")

    def say_of_classes(self, reader: Ported) -> None:
        if reader.unknown:
            self.said.append(
                f"of {counted(len(reader.unknown), 'clients', ',')} the log has no port (they came "
                f"before it, or by a websocket): they are taken for clients of "
                f"{self.target.name()}")
        own = sum(port == OWN_BRIDGE for port in reader.port_of.values())
        if own:
            self.said.append(f"{counted(own, 'bridges', ',')} of the broker's own: no list is "
                             "asked for what they read and write")

    def list_name(self, port: int) -> str:
        path = self.paths.get(port)
        return named(path) if path else NO_LIST

    def tried(self, proposed: str) -> ClassLists | None:
        """Both lists by classes; none where all clients are under one list."""
        if self.classes is None:
            return None
        before = self.rows()
        after = dict(before)
        for port in self.replaced():
            after[port] = rows_of(proposed, proposed)
        return ClassLists(self.classes, before, after, (self.lists(), proposed))

    def replaced(self) -> list[int]:
        """The listeners whose list is that file."""
        target = self.paths[self.target.port]
        return [port for port, path in self.paths.items() if path == target]

    def rows(self) -> dict[int, Rows]:
        found: dict[int, Rows] = {port: rows_of(path, path) if path else None
                                  for port, path in self.paths.items()}
        return found | {OWN_BRIDGE: None}

    def lets_anonymous(self) -> bool:
        """Whether a client without a user name may connect where the list is asked."""
        return any(self.conf.lets_anonymous(one) for one in self.conf.listeners
                   if one.port in self.replaced())

    def password_file(self) -> str | None:
        """The file that has the names of all users of the list; none where there may be others."""
        files = {self.names_file(one) for one in self.conf.listeners
                 if one.port in self.replaced()}
        return files.pop() if len(files) == 1 else None

    def names_file(self, listener: Listener) -> str | None:
        setting = self.conf.security(listener).get("password_file")
        if setting is None or self.conf.plugins_of(listener) or any(
                listener.flag(word) for word in NAMES_BY_CERTIFICATE):
            return None
        return place_of(self.conf.path, setting.value)

    def name_users(self, found: Preview) -> None:
        """By the password file, where there is one."""
        file = self.password_file()
        if file is None:
            return
        unknown = "who other users are isn't known"
        try:
            users = names_of(file)
        except Fault as fault:
            found.said.append(f"{fault}: {unknown}")
            return
        strangers = sorted(self.reader.users.difference(users)) if self.reader else ()
        if strangers and len(set(map(self.names_file, self.conf.listeners))) == 1:
            found.said.append(f"{shown(strangers[0])} connects in the log, whom {named(file)} "
                              f"doesn't have: {unknown}")
            return
        self.users = users
        name_others(found, users, file)

    def leave_out(self, found: Preview) -> None:
        """Takes the rights of clients without a user name out, where none may connect."""
        if self.lets_anonymous():
            return
        before = len(found.granted) + len(found.taken)
        for one in found.granted + found.taken:
            one.clients = [client for client in one.clients if client.user is not None]
        found.granted, found.taken = (
            [one for one in rights if one.clients] for rights in (found.granted, found.taken))
        number = before - len(found.granted) - len(found.taken)
        if number:
            found.said.append(f"{counted(number, 'rights', ',')} of clients without a user name "
                              "left out: none may connect (allow_anonymous false)")

    def sets_aside(self, one: Found) -> bool:
        """Whether a setting explains the difference: another QoS, or messages of QoS 0 that waited
        for a client."""
        if not isinstance(one, Line):
            return False
        upgrades = self.conf.all.flag("upgrade_outgoing_qos")
        if upgrades and len(one.ours) == len(one.theirs):
            return True
        waits = upgrades or (self.conf.all.flag("queue_qos0_messages")
                             and all(copy.qos == 0 for copy in one.theirs))
        return waits and not one.ours and self.reader is not None and (
            self.reader.may_have_waited(*one.key, one.place))

    def json(self) -> Json:
        return {"file": self.conf.path, "port": self.target.port, "users": self.users,
                "lists": {str(port): path for port, path in self.paths.items()},
                "connections": {str(port): count for port, count in self.connections.items()}}


def prepare(options: argparse.Namespace) -> ByConf:
    """Puts what the conf says in the place of arguments and options that aren't given."""
    if options.rules == OWN:
        raise UsageFault("--conf goes by mosquitto's rules")
    if options.plan is not None:
        raise UsageFault("--plan goes by mqroute's own rules, and --conf by mosquitto's")
    conf = read_conf_file(options.conf)
    refuse_dead_list(conf)
    refuse_shared_ports(conf)
    proposed, *logs = [one for one in (options.current, options.proposed) if one is not None]
    logs = logs_by_conf(options, conf, [*logs, *options.source])
    paths = {one.port: path_of(conf, one) for one in conf.listeners}
    target = target_of(conf, paths, options.port, proposed)
    found = ByConf(conf, target, paths, None)
    if len(set(paths.values())) > 1 or conf.bridges:
        found.classes = Classes(found.rows())
    options.current, options.proposed, options.source = paths[target.port], proposed, logs
    if options.max_queued is None:
        options.max_queued = conf.max_queued()
    return found


def path_of(conf: Conf, listener: Listener) -> str | None:
    setting = conf.list_of(listener)
    return place_of(conf.path, setting.value) if setting else None


def target_of(conf: Conf, paths: dict[int, str | None], port: int | None,
              proposed: str) -> Listener:
    """The listener whose list is to be replaced."""
    def listed(ports: Iterable[int]) -> str:
        names = ((one, paths[one]) for one in ports)
        return ", ".join(f"port {one}: {named(path) if path else NO_LIST}" for one, path in names)
    if not any(paths.values()):
        raise Fault(f"{named(conf.path)}: no listener has an acl_file, so that everything is "
                    "allowed to everybody: there is no list for "
                    f"{named(proposed)} to take the place of")
    if port is None and len(set(paths.values())) > 1:
        raise Fault(f"{named(conf.path)}: {listed(paths)}: say by --port whose list is to be "
                    "replaced")
    if port is not None and not paths.get(port):
        raise Fault(f"{named(conf.path)}: no listener with a list on port {port}: {listed(paths)}")
    return next(one for one in conf.listeners if one.port == port or port is None)

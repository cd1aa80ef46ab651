"""What replay takes from the mosquitto.conf of the broker: where that listens, and the list, rules
and limits that mqroute had to have."""
import argparse

from ..common.exit_status import Fault
from ..common.messages import named, say
from ..conf.limits import left_out, refuse_dead_list, refuse_plugins, refuse_shared_ports
from ..conf.mosquitto_conf import DEFAULT_PORT, Conf, Listener
from ..conf.places import place_of
from ..script.conf_file import read_conf_file
from ..script.rules import MOSQUITTO
from .options import WEBSOCKETS


def take_conf(options: argparse.Namespace) -> None:
    """In place of options that aren't given; without a configuration the port is 1883. What the
    broker does otherwise than mqroute by it is said. The host isn't taken from it: what is tried on
    a broker has to be asked for."""
    if options.conf is None:
        options.port = options.port or DEFAULT_PORT
        return
    conf = read_conf_file(options.conf)
    refuse_dead_list(conf)
    refuse_shared_ports(conf)
    listener = listener_of(conf, options.port)
    refuse_plugins(conf, [listener])
    options.port = listener.port
    if listener.is_websocket():
        options.websockets = options.websockets or WEBSOCKETS
    options.tls = options.tls or listener.get("certfile") is not None
    for words in left_out(conf):
        say(words)
    if options.all is None:
        take_list(options, conf, listener)


def take_list(options: argparse.Namespace, conf: Conf, listener: Listener) -> None:
    """For when mqroute runs again."""
    setting = conf.list_of(listener)
    if options.acl_file is None and setting is not None:
        options.acl_file = place_of(conf.path, setting.value)
    options.rules = options.rules or MOSQUITTO
    if options.max_queued is None:
        options.max_queued = conf.max_queued()


def listener_of(conf: Conf, port: int | None) -> Listener:
    """The one of this port; without a port the only one. Raises Fault where there is none, or where
    there are several."""
    known = {one.port: one for one in conf.listeners if one.port}
    names = ", ".join(one.name() for one in known.values()) or "none has a port"
    if port is None and len(known) == 1:
        return next(iter(known.values()))
    if port is None:
        raise Fault(f"{named(conf.path)}: say by --port which listener to talk to: {names}")
    if port not in known:
        raise Fault(f"{named(conf.path)}: no listener on port {port}: {names}")
    return known[port]

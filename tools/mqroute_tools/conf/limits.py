"""What an answer by a script and lists leaves out of a broker with this mosquitto.conf, and where
there is no answer."""
from collections.abc import Iterable
from pathlib import Path

from ..common.exit_status import Fault
from .mosquitto_conf import Conf, Listener, Setting
from .places import place_of

NO_LISTENER = ("this acl_file is in force for no listener: per_listener_settings is true, and no "
               "listener stands above it in this file. The broker allows everything to everybody "
               "there")
# Settings that are true, with what they do that mqroute doesn't.
SAID = (
    ("queue_qos0_messages", "messages of QoS 0 wait for clients that are away"),
    ("upgrade_outgoing_qos", "copies have the QoS of the subscription, and not the lesser of both"),
    ("check_retain_source", "a retained message isn't sent if its publisher may no longer write"),
)


def refuse_dead_list(conf: Conf) -> None:
    """Raises Fault where an access list stands in the conf and is nobody's."""
    for word, setting in conf.dead:
        if word == "acl_file":
            raise Fault(f"{setting.place()}: {NO_LISTENER}")


def refuse_shared_ports(conf: Conf) -> None:
    """Raises Fault where listeners of one port, or without one, have different lists: a log has the
    port alone."""
    lists: dict[int, str | None] = {}
    for one in conf.listeners:
        setting = conf.list_of(one)
        name = setting.value if setting else None
        if lists.setdefault(one.port, name) != name:
            raise Fault(f"{conf.path}: listeners with {one.name()} have different access lists: "
                        "the log doesn't tell which of them a client came by")


def refuse_short_log(conf: Conf) -> None:
    """Raises Fault where the log that the conf names doesn't have what is needed."""
    if not conf.all.flag("connection_messages", True):
        place = place_of_setting(conf, "connection_messages")
        raise Fault(f"{place}: connection_messages false: the log has no user names. Set it to "
                    "true, reload the broker, and wait a day")
    if not conf.logs_copies():
        raise Fault(f"{conf.path}: log_type all is missing: the log doesn't say who was sent what. "
                    "Add it, reload the broker, and wait a day")


def refuse_plugins(conf: Conf, listeners: Iterable[Listener]) -> None:
    """Raises Fault where something else than a list decides for these."""
    for listener in listeners:
        for setting in conf.plugins_of(listener):
            raise Fault(f"{setting.place()}: on {listener.name()} the plugin "
                        f"{plugin_name(setting)} decides, which mqroute doesn't read")


def plugin_name(setting: Setting) -> str:
    name = Path(setting.first()).name
    return "dynamic security" if "dynamic_security" in name else name


def left_out(conf: Conf) -> list[str]:
    """What answers leave out, in words."""
    found = [f"{place_of_setting(conf, word)}: {word} true: {words}; this answer leaves that out"
             for word, words in SAID if conf.all.flag(word)]
    if conf.max_queued() is None:
        place = place_of_setting(conf, "max_queued_messages")
        found.append(f"{place}: max_queued_messages 0: a client whose publish of QoS 1 or 2 is "
                     "refused may be disconnected; this answer leaves that out")
    most = conf.all.number("max_queued_bytes", 0)
    if most:
        place = place_of_setting(conf, "max_queued_bytes")
        found.append(f"{place}: max_queued_bytes {most}: what is over it is dropped; this answer "
                     "leaves that out")
    return found


def place_of_setting(conf: Conf, word: str) -> str:
    setting = conf.all.get(word)
    return setting.place() if setting else conf.path


def only_list(conf: Conf) -> str | None:
    """The list of all listeners, where it is here; none where they have none. Raises Fault where
    they have different ones, or something else decides."""
    refuse_dead_list(conf)
    refuse_plugins(conf, conf.listeners)
    settings = [conf.list_of(one) for one in conf.listeners]
    names = {setting.value if setting else None for setting in settings}
    if len(names) > 1:
        raise Fault(f"{conf.path}: its listeners have different access lists: give --acl-file")
    [name] = names
    return None if name is None else place_of(conf.path, name)

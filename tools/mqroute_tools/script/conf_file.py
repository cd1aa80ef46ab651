"""A mosquitto.conf that was named on a command line."""
from ..conf.mosquitto_conf import Conf
from ..conf.reading import read_conf
from .file_kinds import ACCESS_LIST, CONF, HEAD, kind, wrong


def read_conf_file(name: str) -> Conf:
    """Raises Fault where it looks like something else, of which nothing is to be shown, and where
    mosquitto wouldn't start with it."""
    with open(name, "rb") as stream:
        head = stream.read(HEAD)
    # the first word of both may be `user`
    if kind(head) not in ("", CONF, ACCESS_LIST):
        raise wrong(name, head, "not a mosquitto.conf")
    return read_conf(name)

"""Where the files that a mosquitto.conf names are here."""
import os

from ..common.messages import say


def place_of(conf: str, name: str) -> str:
    """The file or folder itself; where it isn't here, one of this name beside the conf, as of a
    copy of /etc/mosquitto, or of a container's. That is said."""
    beside = os.path.join(os.path.dirname(conf), os.path.basename(name.rstrip("/")))
    if os.path.exists(name) or not os.path.exists(beside):
        return name
    if os.path.isabs(name):
        say(f"{name} isn't here: {beside} is taken for it")
    return beside

"""What a file that was given by mistake seems to be, by its beginning."""
import json
import re

from ..common.exit_status import Fault
from ..common.messages import named
from ..common.texts import escaped, lines as lines_of
from ..conf.words import is_word
from .syslog import PREFIX

HEAD = 1 << 14  # bytes that are looked at
SHOWN = 60  # characters of the first line
COMMENTS = ("#", "//")  # how a line begins that people take for one

PACKETS = ("CONNECT|CONNACK|PUBLISH|PUBACK|PUBREC|PUBREL|PUBCOMP|SUBSCRIBE|SUBACK"
           "|UNSUBSCRIBE|UNSUBACK|PINGREQ|PINGRESP|DISCONNECT|AUTH")
# Lines that mosquitto alone writes, without what stands before them.
MOSQUITTO = (r"(?:New (?:connection from|client connected from|bridge connected from) \S"
             rf"|(?:Sending|Received) (?:{PACKETS}) (?:to|from) \S|Denied PUBLISH from "
             r"|Dropped too large PUBLISH from "
             r"|Outgoing messages are being dropped for client |(?:No will|Will) message specified"
             r"|mosquitto version \S+ (?:starting|running|terminating)"
             r"|Client \S.* (?:disconnected|closed its connection|has exceeded timeout"
             r"|already connected|been disconnected)|Client connection from \S"
             r"|Bad socket read/write on client |Socket error on client "
             r"|Expiring client .* due to timeout"
             r"|Config loaded from |Loading config file |Reloading config\."
             r"|Saving in-memory database to "
             r"|Opening (?:ipv[46]|websockets|unix) (?:listen )?socket|Connecting bridge "
             r"|Bridge .* (?:doing local SUBSCRIBE|sending (?:CONNECT|SUBSCRIBE|UNSUBSCRIBE))"
             r"|ACL denying access to client with dangerous "
             r"|(?:Invalid|Empty) (?:un)?subscription string from )")
OF_MOSQUITTO = re.compile(MOSQUITTO)
SOMEWHERE = re.compile(rf"(?:^|: |\s){MOSQUITTO}", re.M)
LIST = re.compile(r"(?:topic|user|pattern) +\S")

LOG = "a mosquitto log"
ACCESS_LIST, CONF = "an access list", "a mosquitto.conf"
PASSWORDS, DYNAMIC = "a password file of mosquitto's", "mosquitto's dynamic security"
PASSWORD = re.compile(r"[^:\s]+:\$[67]\$")  # as mosquitto_passwd writes a line
DYNAMIC_WORDS = ('"defaultACLAccess"', '"roles"')
EMQX = re.compile(r"\{(?:allow|deny),")
SHOWN_LINES = 3  # of which the first words are looked at
# What may have passwords: nothing of it is shown.
SECRETS = {PASSWORDS, DYNAMIC, CONF}
BINARY = ((b"\x1f\x8b", "a file packed by gzip"), (b"BZh", "a file packed by bzip2"),
          (b"\xfd7zXZ\0", "a file packed by xz"), (b"\x28\xb5\x2f\xfd", "a file packed by zstd"),
          (b"PK\x03\x04", "a file packed by zip"), (b"\xff\xfe", "text in UTF-16"),
          (b"\xfe\xff", "text in UTF-16"))
BYTES = "a file of bytes that are not text"
NO_TEXTS = {BYTES, *(what for _, what in BINARY)}


def is_json(text: str) -> object:
    try:
        return json.loads(text)
    except (ValueError, RecursionError):
        return None


def of_json(line: str) -> str:
    """A script, an output, or other JSON; empty where the line doesn't begin like JSON."""
    value = is_json(line.rstrip().removesuffix(","))
    if isinstance(value, dict):
        if "do" in value:
            return "a script" if line.rstrip().endswith("}") else "JSON"
        if "line" in value and value.keys() & {"reason", "refused", "topic", "nodes"}:
            return "an output of mqroute"
        return "JSON"
    return "JSON" if line.lstrip()[:1] in ("{", "[") else ""


def kind(head: bytes) -> str:
    """What the file seems to be; empty where that isn't known."""
    for magic, what in BINARY:
        if head.startswith(magic):
            return what
    if b"\0" in head:
        return BYTES
    text = head.decode("utf-8", "replace")
    lines = [line for line in lines_of(text) if line.strip()]
    if not lines:
        return ""
    plain = [line for line in lines if not line.lstrip().startswith(COMMENTS)]
    if plain and of_mosquitto(plain, text):
        return of_mosquitto(plain, text)
    if plain and of_json(plain[0]):
        return of_json(plain[0])
    if SOMEWHERE.search(text):
        return LOG
    if PREFIX.match(lines[0]):
        return "a log of other programs"
    return ACCESS_LIST if plain and LIST.match(plain[0]) else ""


def of_mosquitto(lines: list[str], text: str) -> str:
    """Another of its files, or a list of another broker; `lines` are those without comments."""
    if PASSWORD.match(lines[0]):
        return PASSWORDS
    if lines[0].startswith("{") and any(word in text for word in DYNAMIC_WORDS):
        return DYNAMIC
    if EMQX.match(lines[0]):
        return "an access list of EMQX"
    first = [line.split(" ")[0] for line in lines[:SHOWN_LINES]]
    is_list = LIST.match(lines[0]) is not None
    return CONF if not is_list and all(map(is_word, first)) else ""


def first_line(head: bytes) -> str:
    """The first line that isn't blank, as far as it is shown."""
    text = head.decode("utf-8", "backslashreplace")
    line = next((line for line in lines_of(text) if line.strip()), "").strip()
    return escaped(line[:SHOWN]) + (" .." if len(line) > SHOWN else "")


def is_empty(head: bytes) -> bool:
    return not head.strip()


def wrong(name: str, head: bytes, lacks: str, hints: dict[str, str] = {}) -> Fault:
    """That another file was wanted: what this one lacks, what it looks like, its first line."""
    name = named(name)
    if is_empty(head):
        return Fault(f"{name}: {'empty' if not head else 'blank'}: {lacks}")
    what = kind(head)
    if what in NO_TEXTS:
        return Fault(f"{name}: {lacks}: looks like {what}")
    if what in SECRETS:
        return Fault(f"{name}: {lacks}: looks like {what} (nothing of it is shown)")
    if not what:
        return Fault(f"{name}: {lacks}: its first line: {first_line(head)}")
    hint = f": {hints[what]}" if what in hints else ""
    return Fault(f"{name}: {lacks}: looks like {what}{hint} (first line: {first_line(head)})")

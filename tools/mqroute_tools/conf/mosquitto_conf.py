"""A mosquitto.conf that was read, and what is in force by it."""
from dataclasses import dataclass, field

from ..common.files import at
from . import words

DEFAULT_PORT = 1883
MOST_QUEUED = 1000  # max_queued_messages where it isn't set


@dataclass
class Setting:
    """One line: `value` is what stands behind the word."""
    value: str
    file: str
    line: int

    def first(self) -> str:
        """The value of a word that takes one word; the rest isn't read."""
        return self.value.partition(" ")[0]

    def place(self) -> str:
        return at(self.file, self.line)


@dataclass
class Section:
    """Settings of one listener, of one bridge, or of all."""
    settings: dict[str, list[Setting]] = field(default_factory=dict)

    def all(self, word: str) -> list[Setting]:
        return self.settings.get(word, [])

    def get(self, word: str) -> Setting | None:
        """The last, which counts."""
        found = self.all(word)
        return found[-1] if found else None

    def text(self, word: str, default: str = "") -> str:
        found = self.get(word)
        return found.value if found else default

    def flag(self, word: str, default: bool = False) -> bool:
        found = self.get(word)
        return found.first() in words.TRUE if found else default

    def number(self, word: str, default: int) -> int:
        found = self.get(word)
        digits = found.first() if found else ""
        return int(digits) if digits.isascii() and digits.isdigit() else default


@dataclass
class Listener(Section):
    port: int = DEFAULT_PORT  # 0: a socket of the file system
    address: str = ""

    def name(self) -> str:
        return f"port {self.port}" if self.port else f"socket {self.address}"

    def is_websocket(self) -> bool:
        return self.text("protocol") == "websockets"


@dataclass
class Bridge(Section):
    name: str = ""

    def local_client(self) -> str:
        """The client id that the broker gives its own end, where a line or two names it."""
        remote = self.text("remote_clientid") or self.text("clientid")
        return self.text("local_clientid") or (f"local.{remote}" if remote else "")

    def is_client(self, client: str) -> bool:
        """Whether the bridge's own end has this id: by default `local.HOST.NAME`."""
        named = self.local_client()
        if named:
            return client == named
        return client.startswith("local.") and client.endswith(f".{self.name}")


@dataclass
class Conf:
    path: str
    all: Section = field(default_factory=Section)
    listeners: list[Listener] = field(default_factory=list)  # that are opened
    bridges: list[Bridge] = field(default_factory=list)
    files: list[str] = field(default_factory=list)  # that were read
    # with per_listener_settings: settings of no listener that is opened
    dead: list[tuple[str, Setting]] = field(default_factory=list)
    local_only: bool = False  # no listener is named: connections of this machine alone

    def per_listener(self) -> bool:
        return self.all.flag("per_listener_settings")

    def security(self, listener: Listener) -> Section:
        return listener if self.per_listener() else self.all

    def list_of(self, listener: Listener) -> Setting | None:
        """Its access list; none: everything is allowed to everybody."""
        return self.security(listener).get("acl_file")

    def plugins_of(self, listener: Listener) -> list[Setting]:
        section = self.security(listener)
        return section.all("plugin") + section.all("auth_plugin")

    def lets_anonymous(self, listener: Listener) -> bool:
        """Whether clients without a user name may connect: where no listener is named they may."""
        return self.security(listener).flag("allow_anonymous", self.local_only)

    def log_files(self) -> list[str]:
        kinds = (one.value.partition(" ") for one in self.all.all("log_dest"))
        return [name.strip() for kind, _, name in kinds if kind == "file" and name.strip()]

    def logs_copies(self) -> bool:
        """Whether the log has who was sent what, and who connects."""
        kinds = {one.first() for one in self.all.all("log_type")}
        return "all" in kinds or {"debug", "notice", "information", "subscribe",
                                  "unsubscribe"} <= kinds

    def max_queued(self) -> int | None:
        """How many messages may wait; none: any number."""
        return self.all.number("max_queued_messages", MOST_QUEUED) or None

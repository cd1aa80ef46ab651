"""Options of the tools that talk to a live broker."""
import argparse
from dataclasses import dataclass

from ..common.arguments import also_as
from ..common.option_values import amount, port
from .packets import MQTT_3_1_1, MQTT_5

PATIENCE = 5.0  # seconds
WEBSOCKETS = "/mqtt"  # the path


@dataclass(frozen=True)
class Tls:
    """As paho-mqtt takes it; without files the system's authorities are trusted."""
    ca_file: str | None = None
    cert_file: str | None = None
    key_file: str | None = None
    insecure: bool = False


@dataclass(frozen=True)
class BrokerOptions:
    """Where a broker is, how it is talked to, and how long it is waited for."""
    host: str
    port: int
    username: str | None = None
    password: str | None = None
    on_acl: str | None = None
    patience: float = PATIENCE  # seconds
    settle: float = 0
    protocol: str = MQTT_5
    any_member: bool = False  # of a group may be served
    tls: Tls | None = None
    websockets: str | None = None  # the path
    standard: bool = False  # by the standard's rules where mqroute's are others

    @classmethod
    def of(cls, options: argparse.Namespace) -> "BrokerOptions":
        files = options.ca_file, options.cert_file, options.key_file
        tls = Tls(*files, options.insecure) if options.tls or any(files) else None
        return cls(options.host, options.port, options.user, options.password, options.on_acl,
                   options.patience, options.settle, options.protocol, options.any_member, tls,
                   options.websockets, options.standard)

    def place(self) -> str:
        return f"the broker at {self.host} port {self.port}"


def add_broker(parser: argparse.ArgumentParser, of_user: str) -> None:
    """The options that say where a live broker is, and how it is talked to."""
    parser.add_argument("--host", metavar="HOST", default="127.0.0.1")
    parser.add_argument("--port", type=port, metavar="PORT", default=1883)
    also_as(parser, "--username", parser.add_argument("--user", metavar="NAME", help=of_user))
    parser.add_argument("--password", metavar="TEXT", help="password of all clients")
    parser.add_argument("--protocol", choices=(MQTT_5, MQTT_3_1_1), default=MQTT_5,
                        help="the version of MQTT that all clients speak (default 5); what 3.1.1 "
                        "doesn't have is left out, and not compared")
    parser.add_argument("--any-member", action="store_true",
                        help="a message for a group may go to any of its members that is "
                        "connected, whoever's turn it is")
    parser.add_argument("--standard", action="store_true",
                        help="go by the standard where mqroute has a rule of its own, and list at "
                        "the end where that was; any member of a group may be served then")
    parser.add_argument("--tls", action="store_true", help="talk to it by TLS")
    parser.add_argument("--ca-file", metavar="FILE",
                        help="by TLS: authorities in place of the system's")
    parser.add_argument("--cert-file", metavar="FILE", help="by TLS: the clients' certificate")
    parser.add_argument("--key-file", metavar="FILE", help="by TLS: the key for it")
    parser.add_argument("--insecure", action="store_true",
                        help="by TLS: the certificate may be of another host")
    parser.add_argument("--websockets", nargs="?", const=WEBSOCKETS, metavar="PATH",
                        help="talk to it by websockets (PATH is /mqtt by default)")


def add_waiting(parser: argparse.ArgumentParser) -> None:
    """The options that say how long a live broker is waited for."""
    parser.add_argument("--patience", type=amount, default=PATIENCE, metavar="SECONDS",
                        help="how long to wait for an acknowledgement (default 5)")
    parser.add_argument("--settle", type=amount, default=0, metavar="SECONDS",
                        help="wait after each line, for brokers that acknowledge before they route "
                        "(default 0)")

"""What a reload of the proposed list does to the broker that reads it."""
import grp
import os
import pwd
import stat
from dataclasses import dataclass

from ..common.files import STDIN, plain_file
from ..common.messages import named

OPENS = "a broker that can't read its list at a reload allows everything to everybody"


@dataclass
class Reload:
    """Of a list of which mosquitto takes each line; who may read the file, where not everybody."""
    name: str
    owner: str = ""
    group: str = ""

    def words(self) -> str:
        taken = f"a reload of {named(self.name)}: mosquitto 2.0.11 takes it"
        if self.group:
            return (f"{taken}; BUT only {self.owner} and the group {self.group} may read it, and "
                    f"{OPENS}")
        return f"{taken}; BUT only {self.owner} may read it, and {OPENS}" if self.owner else taken


def user_name(number: int) -> str:
    try:
        return pwd.getpwuid(number).pw_name
    except KeyError:
        return f"user {number}"


def group_name(number: int) -> str:
    try:
        return grp.getgrgid(number).gr_name
    except KeyError:
        return str(number)


def reload_of(name: str) -> Reload:
    found: os.stat_result | None = None if name == STDIN else plain_file(name)
    if found is None or found.st_mode & stat.S_IROTH:
        return Reload(name)
    by_group = group_name(found.st_gid) if found.st_mode & stat.S_IRGRP else ""
    return Reload(name, user_name(found.st_uid), by_group)

"""What a line is refused for."""
NAMES = ("LineTooLong BadJson BadCommand BadField ClientId UserName NotConnected TopicName "
         "TopicFilter SharedNoLocal NotAuthorized AclLine ClockTooFar RetainedFull").split()
CODES = {name: code for code, name in enumerate(NAMES, 1)}


class Refused(Exception):
    def __init__(self, name: str, acl_line: int | None = None) -> None:
        super().__init__(name)
        self.name = name
        self.acl_line = acl_line


def refuse_if(condition: bool, name: str) -> None:
    if condition:
        raise Refused(name)

"""What is compared with a live broker."""
import unittest

import worked  # noqa: F401  it knows where the tools are
from mqroute_tools.live.broker_diff import (
    Acknowledged, Copy, different_copies, different_order, different_reasons)
from mqroute_tools.script.output import Block
from mqroute_tools.script.sessions import Sessions

COPY = Copy("b", "x", 1, True, "p", [3, 7], 9)


class Copies(unittest.TestCase):
    OURS = [COPY._replace(qos=0, ids=[7]), COPY._replace(retain=False, ids=[3])]

    def differ(self, ours: list[Copy], theirs: list[Copy], *filters: str) -> list[str]:
        sessions = Sessions()
        for name in filters:
            sessions.follow({"do": "subscribe", "client": "b", "filter": name})
        return different_copies(ours, theirs, sessions)

    def test_joined(self):
        for theirs in (self.OURS, self.OURS[::-1], [c._replace(expiry=8) for c in self.OURS]):
            self.assertEqual(self.differ(self.OURS, theirs), [])

    def test_differs(self):
        for more in ({"qos": 0}, {"retain": False}, {"ids": [3]}, {"payload": "q"}, {"expiry": 5},
                     {"expiry": None}):
            self.assertEqual(len(self.differ([COPY], [COPY._replace(**more)])), 3, more)
        self.assertEqual(self.differ([COPY], [])[2], "      broker:  nothing")
        self.assertEqual(self.differ([], [COPY])[1], "      mqroute: nothing")

    def test_two_messages(self):
        """Each by itself, if their payloads differ."""
        first, second = COPY, COPY._replace(payload="q", retain=False, expiry=500)
        self.assertEqual(self.differ([first, second], [second, first]), [])
        for more in ({"expiry": 400}, {"expiry": None}, {"retain": True}, {"qos": 0}, {"ids": [3]}):
            for ours in ([first, second], [second, first]):
                theirs = [copy._replace(**more) if copy == second else copy for copy in ours]
                texts = self.differ(ours, theirs)
                self.assertEqual(len(texts), 3, more)
                self.assertTrue('"q"' in texts[1] and '"p"' not in texts[1], texts)

    def test_how_many(self):
        """One copy for each subscription that matches, and no more."""
        plain = COPY._replace(ids=[])
        self.assertEqual(self.differ([plain], [plain] * 3),
                         ["   b x", "      mqroute: 1 copy", "      broker:  3 copies"])
        self.assertEqual(self.differ([plain], [plain] * 3, "x", "#", "+"), [])
        self.assertEqual(len(self.differ([plain], [plain] * 3, "x", "#", "y")), 3)
        self.assertEqual(len(self.differ([plain] * 2, [plain])), 3)

    def test_order_of_what_waited(self):
        def messages(*texts: str, qos: int = 1) -> list[Copy]:
            return [COPY._replace(payload=t, qos=qos) for t in texts]
        self.assertEqual(different_order(messages("1", "2"), messages("1", "1", "2")), [])
        self.assertEqual(
            different_order(messages("1", "2"), messages("2", "1")),
            ["   b order", '      mqroute: x "1", x "2"', '      broker:  x "2", x "1"'])
        self.assertEqual(different_order(messages("1") + messages("2", qos=2),
                                         messages("2", qos=2) + messages("1")), [])


class Reasons(unittest.TestCase):
    def differ(self, do: str, ours: int | None, theirs: int | None, **more) -> list[str]:
        refused = "NotAuthorized" if ours is None else None
        return different_reasons(
            {"do": do}, Block(1, [], ours, refused), Acknowledged(theirs), False, **more)

    def test_same(self):
        for do, ours, theirs in (("unsubscribe", 17, 17), ("subscribe", 1, 1), ("publish", 16, 16),
                                 ("publish", None, 135), ("publish", 16, 0), ("publish", 16, None)):
            self.assertEqual(self.differ(do, ours, theirs), [], (do, ours, theirs))
        self.assertEqual(self.differ("subscribe", 2, 1, greatest_qos=1), [])

    def test_differs(self):
        for do, ours, theirs in (
                ("unsubscribe", 0, 17), ("unsubscribe", 17, 0), ("subscribe", 1, 128),
                ("publish", 0, 16), ("publish", 0, 135), ("publish", 16, 135)):
            self.assertEqual(
                self.differ(do, ours, theirs), [f"   reason: mqroute {ours}, broker {theirs}"])
        self.assertEqual(self.differ("publish", None, 0), ["   reason: mqroute 135, broker 0"])

    def test_session_present(self):
        block, connect = Block(1, [], 0, None), {"do": "connect", "client": "b"}
        self.assertEqual(different_reasons(connect, block, Acknowledged(0, True), True), [])
        self.assertEqual(different_reasons(connect, block, Acknowledged(0, True), False),
                         ["   session present: mqroute 0, broker 1"])

    def test_which_sessions_there_are(self):
        sessions = Sessions()
        again = {"do": "connect", "client": "b", "clean": False, "session_expiry": 9}
        leave = {"do": "disconnect", "client": "b"}
        for command, present in (
                (again, True), (leave, True), (again, True), (leave, True),
                ({"do": "advance", "seconds": 9}, False),
                (again | {"session_expiry": 0}, False), (leave, False), (again, True),
                (again | {"clean": True, "session_expiry": 0}, False)):
            sessions.follow(command)
            self.assertEqual(sessions.present(again), present, command)


if __name__ == "__main__":
    unittest.main()

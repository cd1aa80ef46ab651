"""The cause of each copy that is lost, gained or changed, on small scripts that
the built program answers."""
import json
import subprocess
import sys
import tempfile
import unittest
from pathlib import Path

from two_runs import (
    ALL, AWAY, BACK, NO_READING, NO_WRITING, Compared, P, R, connect, leave, publish, subscribe)
from worked import HERE, wants_program


@wants_program
class Causes(Compared):
    def causes(self, script: list[dict], before: str, after: str, **more) -> list[tuple]:
        """Client, topic, what, how many, why, and the lines (with the publish's) of each cause."""
        done = self.compared(script, before, after, "--why", "--json", **more)
        self.assertIn(done.returncode, (0, 1), done.stderr)
        return [
            (row["client"], row["topic"], c["what"], c["copies"], c["because"],
             [(at["line"], at["publish"]) if "publish" in at else at["line"] for at in c["lines"]])
            for row in json.loads(done.stdout)["copies"] for c in row["causes"]]

    def both_ways(self, script: list[dict], one: str, other: str, lost: list[tuple],
                  gained: list[tuple], options=([], [])) -> None:
        self.assertEqual(self.causes(script, one, other, options=options), lost)
        self.assertEqual(self.causes(script, other, one, options=options[::-1]), gained)

    def test_the_reader(self):
        script = [P, R, subscribe("r"), publish("p"), publish("p", "y")]
        self.both_ways(script, ALL, NO_READING, [("r", "x", "lost", 1, "may no longer read", [4])],
                       [("r", "x", "gained", 1, "may now read", [4])])

    def test_the_publisher(self):
        script = [P, R, subscribe("r"), publish("p"), connect("q"), publish("q")]
        self.both_ways(
            script, ALL, NO_WRITING,
            [("r", "x", "lost", 1, "publish by meter refused (NotAuthorized)", [4])],
            [("r", "x", "gained", 1, "publish by meter no longer refused (NotAuthorized)", [4])])

    def test_a_publisher_that_no_longer_reads_loses_by_its_publish(self):
        """The line that is refused is the cause, whatever the reader may."""
        script = [P, R, subscribe("r"), publish("p")]
        self.assertEqual(self.causes(script, ALL, NO_WRITING + "user ops\ntopic deny x\n"),
                         [("r", "x", "lost", 1, "publish by meter refused (NotAuthorized)", [4])])

    def test_the_store_is_full(self):
        script = [P, R, subscribe("r", "#"), publish("p", "x", retain=True),
                  publish("p", "y", retain=True)]
        self.assertEqual(self.causes(script, ALL, ALL, options=([], ["--max-retained", "1"])),
                         [("r", "y", "lost", 1, "publish by meter refused (RetainedFull)", [5])])

    def test_an_older_retained_message(self):
        script = [P, connect("q"), R, publish("q", retain=True, payload="old"),
                  publish("p", retain=True, payload="new"), subscribe("r")]
        cause = "retained message: publish by meter {} (NotAuthorized)"
        self.both_ways(
            script, ALL, NO_WRITING, [("r", "x", "changed", 1, cause.format("refused"), [(6, 5)])],
            [("r", "x", "changed", 1, cause.format("no longer refused"), [(6, 5)])])

    def test_no_retained_message(self):
        script = [P, R, publish("p", retain=True), subscribe("r")]
        self.assertEqual(self.causes(script, ALL, NO_WRITING),
                         [("r", "x", "lost", 1,
                           "retained message: publish by meter refused (NotAuthorized)", [(4, 3)])])

    def test_a_message_that_is_not_cleared(self):
        script = [P, connect("q"), R, publish("q", retain=True),
                  publish("p", retain=True, payload=""), subscribe("r")]
        self.assertEqual(self.causes(script, ALL, NO_WRITING),
                         [("r", "x", "gained", 1,
                           "retained message: publish by meter refused (NotAuthorized)", [(6, 5)])])

    def test_a_retained_message_that_may_not_be_read(self):
        """Also where the message is an older one, which nobody who may not read is sent; but not
        where it is the client's own, or over."""
        kept = [
            P, connect("q"), R, publish("q", retain=True, payload="old"), publish("p", retain=True)]
        self.assertEqual(self.causes([*kept, subscribe("r")], ALL, NO_READING),
                         [("r", "x", "lost", 1, "may no longer read", [(6, 5)])])
        both = NO_WRITING + "user ops\ntopic deny x\n"
        self.assertEqual(self.causes([*kept, subscribe("r")], ALL, both),
                         [("r", "x", "lost", 1, "may no longer read", [(6, 4)])])
        by_publish = "retained message: publish by meter refused (NotAuthorized)"
        own = [P, R, publish("r", retain=True, payload="old"), publish("p", retain=True),
               subscribe("r", no_local=True)]
        self.assertEqual(
            self.causes(own, ALL, NO_WRITING), [("r", "x", "lost", 1, by_publish, [(5, 4)])])
        over = [P, R, publish("r", retain=True, expiry=5), publish("p", retain=True),
                {"do": "advance", "seconds": 5}, subscribe("r")]
        self.assertEqual(
            self.causes(over, ALL, NO_WRITING), [("r", "x", "lost", 1, by_publish, [(6, 4)])])

    def test_the_same_message_again_heals(self):
        script = [P, connect("q"), R, publish("p", retain=True), publish("q", retain=True),
                  subscribe("r")]
        self.assertEqual(self.causes(script, ALL, NO_WRITING), [])

    def test_another_members_turn(self):
        group = [subscribe(client, "$share/g/x") for client in ("a", "b")]
        script = [P, connect("q"), connect("a"), connect("b"), *group, publish("p"), publish("q"),
                  publish("q")]
        found = self.causes(script, ALL, NO_WRITING)
        self.assertEqual(
            found, [("a", "x", "lost", 1, "publish by meter refused (NotAuthorized)", [7]),
                    ("a", "x", "lost", 1, "another member's turn", [9]),
                    ("a", "x", "gained", 1, "another member's turn", [8]),
                    ("b", "x", "lost", 1, "another member's turn", [8]),
                    ("b", "x", "gained", 1, "another member's turn", [9])])

    def test_a_group_that_may_not_read_at_all(self):
        script = [P, R, subscribe("r", "$share/g/x"), publish("p")]
        self.assertEqual(self.causes(script, ALL, NO_READING),
                         [("r", "x", "lost", 1, "may no longer read", [4])])

    def test_waited_and_was_refused(self):
        script = [*AWAY, publish("p", qos=1), publish("p", qos=0), publish("p", "y", qos=1), BACK]
        self.both_ways(
            script, ALL, NO_WRITING,
            [("r", "x", "lost", 1, "publish by meter refused (NotAuthorized)", [(9, 6)])],
            [("r", "x", "gained", 1, "publish by meter no longer refused (NotAuthorized)",
              [(9, 6)])])

    def test_waited_among_equal_ones(self):
        """Messages that say the same are kept apart by which of them were accepted."""
        script = [*AWAY, connect("q"), publish("q", qos=1), publish("p", qos=1),
                  publish("q", qos=1), BACK]
        self.assertEqual(
            self.causes(script, ALL, NO_WRITING),
            [("r", "x", "lost", 1, "publish by meter refused (NotAuthorized)", [(10, 8)])])

    def test_another_message_waited(self):
        one, other = ALL + "user meter\ntopic deny x\n", ALL + "user pump\ntopic deny x\n"
        script = [*AWAY, connect("q", "pump"), publish("q", qos=1, payload="q"),
                  publish("p", qos=1), BACK]
        self.assertEqual(
            self.causes(script, other, one),
            [("r", "x", "changed", 1, "publish by meter refused (NotAuthorized)", [(9, 8)])])

    def test_waited_and_may_not_be_read(self):
        """A later copy that found room shows it, or a copy while the client was connected, or a
        longer queue of another client."""
        room = [*AWAY, publish("p", qos=1), publish("p", "y", qos=1), BACK]
        self.both_ways(
            room, ALL, NO_READING, [("r", "x", "lost", 1, "may no longer read", [(8, 6)])],
            [("r", "x", "gained", 1, "may now read", [(8, 6)])])
        live = [*AWAY[:4], publish("p"), leave("r"), publish("p", qos=1), BACK]
        self.assertEqual(self.causes(live, ALL, NO_READING),
                         [("r", "x", "lost", 2, "may no longer read", [5, (8, 7)])])
        longer = [*AWAY, connect("s", kept=True), subscribe("s", qos=1), leave("s"),
                  publish("p", qos=1), BACK, connect("s", kept=True)]
        self.assertEqual(self.causes(longer, ALL, NO_READING),
                         [("r", "x", "lost", 1, "may no longer read", [(10, 9)])])

    def test_a_full_queue(self):
        script = [*AWAY, publish("p", qos=1), publish("p", qos=1), publish("p", qos=1), BACK]
        self.both_ways(script, ALL, ALL, [("r", "x", "lost", 2, "queue full", [(9, 7), (9, 8)])],
                       [("r", "x", "gained", 2, "queue no longer full", [(9, 7), (9, 8)])],
                       options=([], ["--max-queued", "1"]))

    def test_a_queue_of_none(self):
        """Copies while the client was connected show that it may read."""
        none = {"options": ([], ["--max-queued", "0"])}
        script = [*AWAY[:4], publish("p"), leave("r"), publish("p", qos=1), BACK]
        self.assertEqual(
            self.causes(script, ALL, ALL, **none), [("r", "x", "lost", 1, "queue full", [(8, 7)])])
        self.assertEqual(self.causes([*AWAY, publish("p", qos=1), BACK], ALL, ALL, **none),
                         [("r", "x", "lost", 1, "unknown", [(7, 6)])])

    def test_a_full_queue_elsewhere(self):
        """One client's queue shows the limit, and another's that was as long was full."""
        other = [connect("s", kept=True), subscribe("s", "z", qos=1), leave("s")]
        script = [*AWAY, *other, publish("p", qos=1), publish("p", qos=1), publish("p", "z", qos=1),
                  publish("p", "z", qos=1), BACK, connect("s", kept=True)]
        found = self.causes(script, ALL, ALL, options=([], ["--max-queued", "1"]))
        self.assertEqual([(f[0], f[4]) for f in found], [("r", "queue full"), ("s", "queue full")])

    def test_a_queue_that_has_room_again(self):
        """What is refused makes room."""
        script = [*AWAY, publish("p", qos=1), publish("p", "y", qos=1), BACK]
        found = self.causes(
            script, ALL, NO_WRITING, options=(["--max-queued", "1"], ["--max-queued", "1"]))
        self.assertEqual(
            found, [("r", "x", "lost", 1, "publish by meter refused (NotAuthorized)", [(8, 6)]),
                    ("r", "y", "gained", 1, "unknown", [(8, 7)])])

    def test_a_list_is_set_while_the_client_is_away(self):
        """Then nothing is shown of the right from other lines; equal messages of which a part
        waited can't be kept apart."""
        allow = {"do": "acl", "text": ALL}
        script = [*AWAY, publish("p", qos=1), allow, publish("p", qos=1), BACK]
        self.assertEqual(
            self.causes(script, ALL, NO_READING), [("r", "x", "lost", 1, "unknown", [9])])
        script = [
            *AWAY, publish("p", qos=1, payload="1"), allow, publish("p", qos=1, payload="2"), BACK]
        self.assertEqual(self.causes(script, ALL, NO_READING),
                         [("r", "x", "lost", 1, "may no longer read", [(9, 6)])])

    def test_what_is_over_did_not_come(self):
        script = [*AWAY, connect("q"), publish("p", qos=1, expiry=5), publish("q", qos=1),
                  {"do": "advance", "seconds": 5}, publish("q", "y", qos=1), BACK]
        self.assertEqual(self.causes(script, ALL, NO_WRITING + "user ops\ntopic deny x\n"),
                         [("r", "x", "lost", 1, "may no longer read", [(11, 8)])])


class Sessions(unittest.TestCase):
    def test_a_session_that_only_one_output_has(self):
        """One program refuses no connect that it accepts elsewhere; outputs of
        two programs may differ so."""
        script = [connect("r"), subscribe("r"), connect("p"), publish("p")]
        lines = ['{"line":1,"reason":0}', '{"line":2,"reason":0}', '{"line":3,"reason":0}',
                 '{"client":"r","line":4,"payload":"p","qos":0,"retain":false,"topic":"x"}',
                 '{"line":4,"reason":0}']
        other = ['{"code":5,"line":1,"refused":"ClientId"}',
                 '{"code":7,"line":2,"refused":"NotConnected"}', lines[2], '{"line":4,"reason":16}']
        with tempfile.TemporaryDirectory() as folder:
            for name, text in (
                    ("script", map(json.dumps, script)), ("before", lines), ("after", other)):
                Path(folder, name).write_text("".join(line + "\n" for line in text))
            done = subprocess.run(
                [sys.executable, HERE / "who_loses.py", "--why", "script", "before", "after"],
                cwd=folder, capture_output=True, text=True)
        self.assertIn("r       x           1      0     1       0        0  connect refused "
                      "(ClientId) 1\n", done.stdout)


if __name__ == "__main__":
    unittest.main()

"""A mosquitto.conf as mosquitto 2.0 reads it: what is in force for which listener. Each case was
tried on mosquitto 2.0.11."""
import tempfile
import unittest
from pathlib import Path

import mosquitto
import worked  # noqa: F401  it knows where the tools are
from mqroute_tools.common.exit_status import Fault
from mqroute_tools.conf.limits import (
    left_out, refuse_dead_list, refuse_plugins, refuse_shared_ports, refuse_short_log)
from mqroute_tools.conf.mosquitto_conf import Conf
from mqroute_tools.conf.password_names import names_of
from mqroute_tools.conf.reading import ConfFault, read_conf

NOT_STARTING = {
    "acl_file /a\nacl_file /b\n": ":2: mosquitto doesn't start with this line: acl_file stands "
    "twice",
    "acl_file /a\nper_listener_settings true\n": ":2: mosquitto doesn't start with this line: "
    "per_listener_settings must stand above all of acl_file, allow_anonymous, ",
    "\tacl_file /a\n": ":1: mosquitto doesn't start with this line: unknown word",
    "acl_file\n": ":1: mosquitto doesn't start with this line: acl_file is empty",
    "nonsense true\n": ':1: mosquitto doesn\'t start with this line: unknown word "nonsense"',
    "listener x\n": ":1: mosquitto doesn't start with this line: listener needs a port",
    "restart_timeout 5\n": ":1: mosquitto doesn't start with this line: restart_timeout needs a "
    "connection line above it",
    "allow_anonymous yes\n": ":1: mosquitto doesn't start with this line: allow_anonymous is true "
    "or false",
}


class ConfCase(unittest.TestCase):
    def setUp(self) -> None:
        folder = tempfile.TemporaryDirectory()
        self.addCleanup(folder.cleanup)
        self.folder = Path(folder.name)

    def conf(self, text: str, **included: str) -> Conf:
        (self.folder / "conf.d").mkdir(exist_ok=True)
        for name, content in included.items():
            (self.folder / "conf.d" / f"{name}.conf").write_text(content)
        path = self.folder / "mosquitto.conf"
        path.write_text(text.replace("@D", str(self.folder)))
        return read_conf(str(path))

    def lists(self, conf: Conf) -> dict[int, str | None]:
        found = {one.port: conf.list_of(one) for one in conf.listeners}
        return {port: setting.value if setting else None for port, setting in found.items()}


class Listeners(ConfCase):
    def test_one_list_for_all(self):
        found = self.conf("listener 1\nacl_file /a b\nlistener 2\n")
        self.assertEqual(self.lists(found), {1: "/a b", 2: "/a b"})

    def test_a_list_for_each(self):
        found = self.conf("per_listener_settings true\nlistener 1\nacl_file /a\nlistener 2\n")
        self.assertEqual(self.lists(found), {1: "/a", 2: None})

    def test_an_included_file_begins_without_a_listener(self):
        text = "per_listener_settings true\nlistener 1\ninclude_dir @D/conf.d\n"
        found = self.conf(text, acl="acl_file /a\n")
        self.assertEqual((self.lists(found), [word for word, _ in found.dead]),
                         ({1: None}, ["acl_file"]))
        with self.assertRaisesRegex(Fault, r"conf.d/acl.conf:1: this acl_file is in force for no "):
            refuse_dead_list(found)

    def test_behind_an_included_file_the_listener_goes_on(self):
        text = "per_listener_settings true\nlistener 1\ninclude_dir @D/conf.d\nacl_file /b\n"
        self.assertEqual(self.lists(self.conf(text, two="listener 2\n")), {1: "/b", 2: None})

    def test_above_the_listener(self):
        found = self.conf("per_listener_settings true\nacl_file /a\nlistener 1\n")
        self.assertEqual((self.lists(found), [word for word, _ in found.dead]),
                         ({1: None}, ["acl_file"]))

    def test_included_without_per_listener_settings(self):
        found = self.conf("listener 1\ninclude_dir @D/conf.d\n", acl="acl_file /a\n")
        self.assertEqual(self.lists(found), {1: "/a"})
        refuse_dead_list(found)

    def test_order_of_included_files(self):
        text = "include_dir @D/conf.d\n"
        found = self.conf(text, **dict.fromkeys(("b", "A", "01", "a", "B", "00"), ""))
        self.assertEqual([Path(one).stem for one in found.files[1:]],
                         ["00", "01", "A", "a", "B", "b"])

    def test_folders_beside_the_conf(self):
        """Of a copy of /etc/mosquitto, or of a container's."""
        found = self.conf("listener 1\ninclude_dir /nowhere/mosquitto/conf.d\n", x="acl_file /a\n")
        self.assertEqual(self.lists(found), {1: "/a"})
        with self.assertRaisesRegex(ConfFault, ":2: /nowhere/else: No such file or directory"):
            self.conf("listener 1\ninclude_dir /nowhere/else\n")

    def test_no_listener(self):
        found = self.conf("acl_file /a\n")
        self.assertTrue(found.local_only)
        self.assertEqual(self.lists(found), {1883: "/a"})
        self.assertTrue(found.lets_anonymous(found.listeners[0]))

    def test_the_default_listener_beside_others(self):
        found = self.conf("port 1884\nlistener 2\n")
        self.assertEqual(self.lists(found), {2: None, 1884: None})
        self.assertFalse(found.lets_anonymous(found.listeners[0]))

    def test_blanks_and_comments(self):
        found = self.conf("listener 1 127.0.0.1 # x\n  acl_file   /a  \r\n# c\n\n")
        self.assertEqual((self.lists(found), found.listeners[0].address), ({1: "/a"}, "127.0.0.1"))
        found = self.conf("listener 1\nacl_file /a # the list\n")
        self.assertEqual(self.lists(found), {1: "/a # the list"})

    def test_anonymous_by_listener(self):
        found = self.conf("per_listener_settings true\nlistener 1\nallow_anonymous true\n"
                          "listener 2\nallow_anonymous false\n")
        self.assertEqual([found.lets_anonymous(one) for one in found.listeners], [True, False])


class Settings(ConfCase):
    def test_with_these_it_does_not_start(self):
        for text, said in NOT_STARTING.items():
            with self.subTest(text=text), self.assertRaises(ConfFault) as raised:
                self.conf(text)
            self.assertIn(f"mosquitto.conf{said}", str(raised.exception))

    def test_bridges_and_secrets(self):
        found = self.conf("listener 1\nconnection hq\naddress x\nremote_password secret\n"
                          "topic # both 1\n")
        self.assertEqual([one.name for one in found.bridges], ["hq"])
        self.assertNotIn("secret", repr(found))

    def test_names_of_bridges(self):
        for more, client in (("", "local.plant.hq"), ("remote_clientid r\n", "local.r"),
                             ("clientid c\n", "local.c"), ("local_clientid l\n", "l")):
            [bridge] = self.conf(f"listener 1\nconnection hq\n{more}").bridges
            self.assertTrue(bridge.is_client(client), client)
            self.assertFalse(bridge.is_client("meter-1"))

    def test_log(self):
        found = self.conf("log_dest stderr\nlog_dest file /l x\nlog_type error\n")
        self.assertEqual((found.log_files(), found.logs_copies()), (["/l x"], False))
        self.assertTrue(self.conf("log_type all\n").logs_copies())
        kinds = ("debug", "notice", "information", "subscribe", "unsubscribe")
        self.assertTrue(self.conf("".join(f"log_type {one}\n" for one in kinds)).logs_copies())

    def test_short_logs(self):
        for text, said in (("log_type error\n", "log_type all is missing"),
                           ("log_type all\nconnection_messages false\n", ":2: connection_messages"),
                           ):
            with self.subTest(text=text), self.assertRaisesRegex(Fault, said):
                refuse_short_log(self.conf(text))
        refuse_short_log(self.conf("log_type all\n"))

    def test_what_may_wait(self):
        self.assertEqual(self.conf("listener 1\n").max_queued(), 1000)
        self.assertEqual(self.conf("max_queued_messages 10\n").max_queued(), 10)
        self.assertIsNone(self.conf("max_queued_messages 0\n").max_queued())

    def test_plugins(self):
        text = ("per_listener_settings true\nlistener 1\nacl_file /a\nlistener 2\n"
                "plugin /usr/lib/mosquitto_dynamic_security.so\nplugin_opt_config_file /d.json\n")
        found = self.conf(text)
        refuse_plugins(found, found.listeners[:1])
        with self.assertRaisesRegex(Fault, r":5: on port 2 the plugin dynamic security decides"):
            refuse_plugins(found, found.listeners)

    def test_listeners_of_one_port(self):
        """On different addresses: their clients can't be told apart."""
        text = ("per_listener_settings true\nlistener 1 127.0.0.1\nacl_file /a\n"
                "listener 1 192.0.2.1\n")
        with self.assertRaisesRegex(Fault, "listeners with port 1 have different access lists"):
            refuse_shared_ports(self.conf(text))
        refuse_shared_ports(self.conf(text + "acl_file /a\n"))
        refuse_shared_ports(self.conf("listener 1 127.0.0.1\nacl_file /a\nlistener 1 ::1\n"))

    def test_what_is_left_out(self):
        self.assertEqual(left_out(self.conf("listener 1\n")), [])
        text = ("upgrade_outgoing_qos true\nmax_queued_bytes 9\nqueue_qos0_messages false\n"
                "max_queued_messages 0\n")
        one, last, other = left_out(self.conf(text))
        self.assertIn("mosquitto.conf:1: upgrade_outgoing_qos true: ", one)
        self.assertIn("mosquitto.conf:2: max_queued_bytes 9: ", other)
        self.assertIn("mosquitto.conf:4: max_queued_messages 0: ", last)


class PasswordNames(ConfCase):
    def test_as_mosquitto_reads_it(self):
        path = self.folder / "pw"
        path.write_bytes(b"ana:$7$1$a$b\n#bob:$7$1$a$b\n  carl b :$7$1$a$b:c\r\ndora\nemil:\n"
                         b"\n:$7$1$a$b\nana:$7$1$c$d\nz\xff:$7$1$a$b")
        self.assertEqual(names_of(str(path)), ["ana", "carl b", "z\ufffd"])
        with self.assertRaisesRegex(Fault, "/none: No such file or directory$"):
            names_of(str(self.folder / "none"))


class AtMosquitto(ConfCase):
    def test_it_does_not_start(self):
        (self.folder / "a").write_text("topic read x\n")
        (self.folder / "b").write_text("topic read x\n")
        for text in ("allow_anonymous true\n", *NOT_STARTING):
            port = mosquitto.free_port()
            path = self.folder / "live.conf"
            lines = text.replace(" /", f" {self.folder}/")
            path.write_text(lines + f"listener {port} 127.0.0.1\n" if "per_" not in text else lines)
            with self.subTest(text=text):
                self.assertEqual(mosquitto.refuses(self, path), text in NOT_STARTING)


if __name__ == "__main__":
    unittest.main()

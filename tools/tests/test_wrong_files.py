"""A file of another kind in place of a log, a script or an output: what it looks like."""
import gzip
import unittest

from test_files import BEFORE, LOG, RECORDED, SCRIPT, Case
from mqroute_tools.common.messages import named
from mqroute_tools.log.time_stamps import LOOKED_AT, Stamps
from mqroute_tools.script.file_kinds import OF_MOSQUITTO, kind

A_LOG = LOG.format(1795358535, 1795358536)
EMQX = "2026-11-26T10:00:00.123456+00:00 [info] msg: client_connected, clientid: a\n"
SYSLOG = "Nov 24 18:40:00 host systemd[1]: Started Session 1 of user root.\n"
LIST = "# meters\nuser meter\ntopic write plant/#\n"
ARRAY = "[\n" + '  {"do":"connect","client":"a"},\n' * 50 + "]\n"
HASH = "7$101$SALTSALT$HASHHASH"
SECRETS = {  # nothing of them is shown
    f"# users\n\nops:${HASH}==\nplc:$6$x$y\n": "a password file of mosquitto's",
    '{\n"defaultACLAccess":{"publishClientSend":false},"clients":[{"password":"%s"}]}\n' % HASH:
    "mosquitto's dynamic security",
    f"# a broker\nlistener 1883\nacl_file acl\npassword {HASH}\n": "a mosquitto.conf"}
EMQX_LIST = '%% comment\n{allow, {user, "dashboard"}, subscribe, ["$SYS/#"]}.\n{deny, all}.\n'
ODD_TIMES = A_LOG.replace("1795358535", "24.11. 18:40").replace("1795358536", "24.11. 18:41")


class Kinds(unittest.TestCase):
    def test_kinds(self):
        for text, what in ((A_LOG, "a mosquitto log"), (SYSLOG + A_LOG, "a mosquitto log"),
                           (ODD_TIMES, "a mosquitto log"), (SCRIPT, "a script"),
                           ("\n" + SCRIPT, "a script"),
                           (" \r\n# a day\n" + SCRIPT, "a script"),
                           ("// a day\n\n" + SCRIPT, "a script"),
                           ("# a day\n", ""),
                           (BEFORE, "an output of mqroute"),
                           (ARRAY, "JSON"), ('{"time":1}\n', "JSON"), (LIST, "an access list"),
                           (SYSLOG, "a log of other programs"), (EMQX, "a log of other programs"),
                           ("user root\nlistener 1\n", "an access list"),
                           (EMQX_LIST.partition("\n")[2], "an access list of EMQX"),
                           ("listening on 1883\n", ""), ("log_type all\nsomething\n", ""),
                           *SECRETS.items(), ("", ""), ("x" * 1000, "")):
            self.assertEqual(kind(text.encode()), what, text)
        self.assertEqual(kind(gzip.compress(b"x")), "a file packed by gzip")
        self.assertEqual(kind("x\n".encode("utf-16")), "text in UTF-16")
        self.assertEqual(kind(b"\x7fELF\0\0"), "a file of bytes that are not text")

    def test_each_recorded_log_has_lines_of_mosquitto_alone(self):
        """In each stretch of a log that a broker wrote some line is known as its own."""
        for name in ("plain", "mixed", "sessions", "trixie"):
            text = (RECORDED / f"{name}.log").read_text(encoding="utf-8", errors="replace")
            lines = text.splitlines()
            stamps = Stamps()
            stamps.decide(lines[:LOOKED_AT])
            known = [bool(OF_MOSQUITTO.match(stamps.split(line)[1])) for line in lines]
            self.assertGreater(sum(known), 0.8 * len(known), name)


class Logs(Case):
    def refuses(self, text: str | bytes, said: str, *options: str) -> None:
        (self.folder / "log").write_bytes(text if isinstance(text, bytes) else text.encode())
        for words in (["log"], ["-"], ["--no-inference", "-"]):
            with open(self.folder / "log") as stream:
                done = self.run_tool("log_to_script", *options, *words, input=None, stdin=stream)
            name = named(words[-1])
            self.refused(done, f"log_to_script: {name}: {said}")
        done = self.run_tool("compare_log", *options, "log", "before")
        self.refused(done, f"compare_log: log: {said}")

    def test_no_line_of_mosquitto(self):
        lacks = "no line is read as mosquitto's: "
        others = f"{lacks}looks like a log of other programs (first line: "
        self.refuses("name,place\n", f"{lacks}its first line: name,place\n")
        self.refuses(EMQX, f"{others}{EMQX[:60]} ..)\n")
        self.refuses(SYSLOG, f"{others}Nov 24 18:40:00 host systemd[1]: ")
        self.refuses(SCRIPT, f"{lacks}looks like a script (first line: {SCRIPT.splitlines()[0]})\n")
        self.refuses(b"BZh91AY&SY", f"{lacks}looks like a file packed by bzip2\n")
        self.refuses(ODD_TIMES, f"{lacks}looks like a mosquitto log: give --time-format for what "
                     "its lines begin with")
        self.refuses("", "empty: no line is read as mosquitto's\n")
        self.refuses(gzip.compress(b""), "empty: no line is read as mosquitto's\n")

    def test_secrets(self):
        for text, what in SECRETS.items():
            said = f"no line is read as mosquitto's: looks like {what} (nothing of it is shown)\n"
            self.refuses(text, said)
            (self.folder / "script").write_text(text)
            done = self.run_tool("check", "script")
            self.assertNotIn("HASH", done.stdout + done.stderr)

    def test_a_log_without_a_command_is_one(self):
        self.write("log", "1795358535: mosquitto version 2.0.11 starting\n"
                   "1795358535: Config loaded from /etc/mosquitto.conf.\n")
        done = self.run_tool("log_to_script", "log")
        said = "log_to_script: 2 lines read, 0 commands written\n"
        self.assertEqual((done.returncode, done.stderr), (0, said))


class Scripts(Case):
    def refuses(self, text: str, said: str) -> None:
        """Each tool that reads one, whether its outputs are of this file or of another."""
        self.write("wrong", text)
        refusal = '{"code":2,"line":%d,"refused":"BadJson"}\n'
        for output in (BEFORE, "".join(refusal % (n + 1) for n in range(text.count("\n")))):
            self.write("output", output)
            done = self.run_tool("who_loses", "wrong", "output", "output")
            self.refused(done, f"who_loses: wrong: {said}")
        done = self.run_tool("check", "wrong")
        self.assertEqual((done.returncode, done.stderr.count("\n")), (2, 1))
        self.assertIn(f"check: wrong: {said}", done.stderr)
        if "JSON" not in said:
            self.assertEqual(done.stdout, "")

    def test_no_command(self):
        lacks = "no line is a command: "
        self.refuses(A_LOG, f"{lacks}looks like a mosquitto log: see mqroute-log-to-script "
                     "(first line: 1795358535: New client")
        self.refuses(ARRAY, f"{lacks}looks like JSON: a script has one command on each line "
                     "(first line: [)\n")
        self.refuses(LIST, f"{lacks}looks like an access list (first line: # meters)\n")
        self.refuses("", "empty: no line is a command\n")
        self.refuses(" \n\n", "blank: no line is a command\n")

    def test_one_command_is_enough(self):
        """Behind others that are none the fault is shown that there is."""
        self.write("wrong", "no json\n" * 3 + SCRIPT)
        done = self.run_tool("who_loses", "wrong", "before", "before")
        self.refused(done, "who_loses: wrong:3: answered in neither output")
        self.assertEqual(self.run_tool("check", "wrong").returncode, 1)

    def test_an_output_in_place_of_another(self):
        for name, text, what in (("log", A_LOG, "a mosquitto log"), ("script", SCRIPT, "a script"),
                                 ("list", "topic read #\n", "an access list")):
            self.write(name, text)
            self.write("alog", A_LOG)
            said = f"{name}:1: no answer of mqroute: looks like {what}\n"
            done = self.run_tool("who_loses", "script", name, "after")
            self.refused(done, f"who_loses: {said}")
            self.refused(self.run_tool("compare_log", "alog", name), f"compare_log: {said}")


class Check(Case):
    def test_a_file_that_is_no_script(self):
        """Its first faults, and how many more; all of a script with more commands than faults."""
        self.write("array", ARRAY.replace("]", '  {"do":"stat"}\n]'))
        done = self.run_tool("check", "array")
        self.assertEqual((done.returncode, done.stdout.count("array:")), (1, 20))
        self.assertEqual(done.stdout.splitlines()[-1], "and 32 more")
        self.write("array", ARRAY)
        done = self.run_tool("check", "array")
        self.assertEqual((done.returncode, done.stdout.count("array:")), (2, 20))
        self.write("script", SCRIPT * 50 + "no json\n" * 60)
        done = self.run_tool("check", "script")
        self.assertEqual((done.returncode, done.stdout.count("script:")), (1, 60))

    def test_another_file(self):
        """What it is, and nothing else; of a script without a right command its faults too."""
        self.write("log", A_LOG * 50)
        done = self.run_tool("check", "log")
        self.refused(done, "check: log: no line is a command: looks like a mosquitto log: ")
        self.write("script", '{"do":"conect","client":"a"}\n')
        done = self.run_tool("check", "script")
        said = 'script:1: there is no command "conect" (connect?)\n'
        self.assertEqual((done.returncode, done.stdout), (2, said))
        self.assertRegex(done.stderr, r"\Acheck: script: no line is a command: .*\n\Z")


if __name__ == "__main__":
    unittest.main()

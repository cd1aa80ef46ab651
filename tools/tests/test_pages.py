"""Each tool's manual page has the options that its --help has, and no other; those of the programs
explain each text that they print on standard error; and what is installed is what is taken out."""
import os
import re
import shutil
import subprocess
import sys
import tempfile
import unittest
from pathlib import Path

from test_command_line import help_behind_name
from worked import HERE, TOP
from mqroute_tools.common.version import version

# which make install needs
BUILT = [TOP / f"crates/{name}/out/{name}" for name in ("mqroute", "mqroute_acl")]
MQR = "mqr"
TOOLS = (MQR, "log_to_script", "who_loses", "why", "preview", "plan", "replay", "compare_log",
         "check", "search", "tools")
# Tools with commands, each of which has a --help of its own.
COMMANDS = {"plan": ("check", "name", "acl", "script", "retained", "compare")}
SECTIONS = ["NAME", "SYNOPSIS", "DESCRIPTION", "OPTIONS", "EXIT STATUS", "EXAMPLES", "SEE ALSO"]
PROGRAMS = ("mqroute", "mqroute-acl")
OVERVIEW = "mqroute.7"
# What each page has under SEE ALSO at least.
SEE_ALSO = {
    "mqroute": {"mqroute-acl"}, "mqroute-acl": {"mqroute"}, "mqroute-who-loses": set(PROGRAMS)}


def installed_name(tool: str) -> str:
    return MQR if tool == MQR else "mqroute-" + tool.replace("_", "-")


def completer(tool: str) -> str:
    """The function that completes its options."""
    return "_mqr" if tool == MQR else "_mqroute_tools"


def page(tool: str) -> str:
    """The page as it is read: without escapes."""
    return (TOP / f"docs/{installed_name(tool)}.1").read_text("utf-8").replace("\\-", "-")


def options(text: str) -> set[str]:
    return set(re.findall(r"(?<![\w-])--[a-z]+(?:-[a-z]+)*", text))


def options_of(tool: str) -> set[str]:
    """Those that its --help explains, and those of its commands."""
    texts = [help_of(tool), *(help_of(tool, name) for name in COMMANDS.get(tool, ()))]
    return set(re.findall(r"^  (?:-h, )?(--[a-z-]+)", "".join(texts), re.M))


def help_of(tool: str, *words: str) -> str:
    """Without python3-paho-mqtt, which no --help needs."""
    with tempfile.TemporaryDirectory() as folder:
        Path(folder, "paho.py").write_text("raise ImportError")
        done = subprocess.run([sys.executable, HERE / f"{tool}.py", *words, "--help"],
                              capture_output=True, text=True,
                              env=os.environ | {"PYTHONPATH": folder})
    assert done.returncode == 0, done.stderr
    return done.stdout


class Pages(unittest.TestCase):
    def test_options(self):
        for tool in TOOLS:
            with self.subTest(tool):
                text, known = page(tool), options_of(tool)
                described = options("\n".join(re.findall(r"^\.TP\n(\.BI? --.*)$", text, re.M)))
                self.assertIn("--help", known)
                self.assertEqual(described, known)
                self.assertEqual(options(text.split(".SH SYNOPSIS")[1].split(".SH")[0]), known)

    def test_sections(self):
        for tool in TOOLS:
            with self.subTest(tool):
                self.assertEqual(
                    [name.strip('"') for name in re.findall(r"^\.SH (.*)$", page(tool), re.M)],
                    SECTIONS)

    @unittest.skipUnless(shutil.which("man"), "there is no man")
    def test_man_takes_them(self):
        pages = [f"{name}.1" for name in (*PROGRAMS, *map(installed_name, TOOLS))] + [OVERVIEW]
        for page in pages:
            done = subprocess.run(["man", "--warnings", "-l", f"docs/{page}"], cwd=TOP,
                                  capture_output=True, text=True,
                                  env=os.environ | {"MANWIDTH": "80", "LC_ALL": "C.UTF-8"})
            self.assertEqual((done.returncode, done.stderr), (0, ""))
            self.assertIn(page.partition(".")[0], done.stdout)

    def test_examples(self):
        """Each page has an example with what it prints, which tests/readme.py runs where no broker
        is needed."""
        for name in (*PROGRAMS, *map(installed_name, TOOLS)):
            with self.subTest(name):
                text = (TOP / f"docs/{name}.1").read_text("utf-8")
                [examples] = re.findall(r"^\.SH EXAMPLES\n(.*?)^\.SH ", text, re.S | re.M)
                if name not in ("mqroute-replay", "mqroute-search"):
                    self.assertRegex(examples, r"(?m)^\.nf\n\$ .*\n")

    def test_overview(self):
        """It names each program and tool, above its SEE ALSO and in it."""
        text = (TOP / f"docs/{OVERVIEW}").read_text("utf-8").replace("\\-", "-")
        for part in text.split('.SH "SEE ALSO"\n'):
            named = set(re.findall(r"^\.BR (mqr\S*) \(1\)", part, re.M))
            self.assertEqual(named, {*PROGRAMS, *map(installed_name, TOOLS)})

    def test_see_also(self):
        """The programs name all, and each page those that its text speaks of; in order."""
        tools = {installed_name(tool) for tool in TOOLS}
        for name in (*PROGRAMS, *tools):
            with self.subTest(name):
                page = (TOP / f"docs/{name}.1").read_text("utf-8").replace("\\-", "-")
                text, _, see = page.partition('.SH "SEE ALSO"\n')
                named = re.findall(r"^\.BR (\S+) \(\d\),?$", see, re.M)
                spoken_of = set(re.findall(r"^\.BR (mqroute\S*) \(1\)", text, re.M))
                wanted = spoken_of | SEE_ALSO.get(name, {"mqroute"})
                wanted |= tools - {MQR} if name in PROGRAMS else set()
                self.assertLessEqual(wanted - {name}, set(named))
                ours = [one for one in named if one.startswith("mqroute-")]
                self.assertEqual(ours, sorted(ours))


# The programs, each with the source of the texts that it shows on standard error.
SHOWN_BY = {"mqroute": "mq_cli/src/failure.rt", "mqroute-acl": "mq_ask/src/failure.rt"}


def diagnostics(program: str) -> list[str]:
    """The lines of DIAGNOSTICS as they are read: words without macros, the parts of one macro
    without blanks between them where it joins them."""
    text = (TOP / f"docs/{program}.1").read_text("utf-8").split(".SH DIAGNOSTICS\n")[1].split(
        "\n.SH")[0].replace("\\-", "-")
    joined = re.compile(r"\.(?:BI|BR|IB|IR|RB|RI) ")
    return [re.sub(r'"((?:[^"]|"")*)" ?|(\S+) ?',
                   lambda part: (part[1] or "").replace('""', '"') + (part[2] or ""), line[4:])
            if joined.match(line) else re.sub(r"^\.[BI] ", "", line) for line in text.split("\n")]


def pattern(shown: str) -> str:
    """A text of the source, with any word or quoted word where a value is put in."""
    return r'"?\w+"?'.join(map(re.escape, re.split(r"\{[^}]*\}", shown)))


class Diagnostics(unittest.TestCase):
    def test_each_text_is_explained(self):
        for program, source in SHOWN_BY.items():
            shown = re.findall(
                r'#\[error\("(.*?)"(?:, .*)?\)\]', (TOP / "crates" / source).read_text("utf-8"))
            lines = diagnostics(program)
            self.assertGreater(len(shown), 8)
            for text in shown:
                with self.subTest(program, text=text):
                    self.assertTrue(
                        any(re.match(pattern(text) + r"[.;]?$", line) for line in lines))
            for line in (line for head, line in zip(lines, lines[1:]) if head == ".TP"):
                with self.subTest(program, line=line):
                    self.assertTrue(any(re.fullmatch(pattern(text), line) for text in shown))

    def test_each_kind_of_fault_is_explained(self):
        kinds = re.findall(r"^    (\w+),$", (TOP / "crates/mq_acl/src/fault.rt").read_text(
            "utf-8").split("enum AclKind {")[1].split("\n}")[0], re.M)
        self.assertIn("Keyword", kinds)
        words = {line.split()[0] for line in diagnostics("mqroute") if line}
        self.assertEqual({kind for kind in kinds if kind not in words}, {"Memory"})


@unittest.skipUnless(all(file.exists() for file in BUILT) and shutil.which("make")
                     and shutil.which("bash"), "nothing is built, or there is no make or bash")
class Installed(unittest.TestCase):
    def make(self, word: str, folder: str) -> None:
        done = subprocess.run(
            ["make", word, f"PREFIX={folder}"], cwd=TOP, capture_output=True, text=True)
        self.assertEqual(done.returncode, 0, done.stderr)

    def test_install(self):
        with tempfile.TemporaryDirectory() as folder:
            self.make("install", folder)
            for tool in map(installed_name, TOOLS):
                self.assertTrue(Path(folder, f"share/man/man1/{tool}.1").exists())
            self.assertTrue(Path(folder, f"share/man/man7/{OVERVIEW}").exists())
            for name in ("mqroute", "mqroute-acl"):
                self.assertTrue(Path(folder, f"share/man/man1/{name}.1").exists()
                                and os.access(f"{folder}/bin/{name}", os.X_OK))
            modules = Path(folder, "lib/mqroute/mqroute_tools")
            compiled = [*modules.rglob("*.pyc")]
            self.assertEqual(len(compiled), len([*modules.rglob("*.py")]))
            self.named_as_installed(folder)
            said = subprocess.run([f"{folder}/bin/mqroute-why", "--version"], capture_output=True,
                                  text=True)
            self.assertEqual(said.stdout, f"mqroute-why {version()}\n")
            self.subcommands(folder)
            self.completed(folder)
            self.make("uninstall", folder)
            self.assertEqual(
                [str(file) for file in Path(folder).rglob("*") if not file.is_dir()], [])

    def named_as_installed(self, folder: str) -> None:
        for words, said in (
                (["mqroute-check", "/nowhere/script"], r"mqroute-check: .*/nowhere/script"),
                (["mqr", "check", "/nowhere/script"], r"mqr check: .*/nowhere/script"),
                (["mqroute-log-to-script", "/nowhere/log"],
                 r"mqroute-log-to-script: .*/nowhere/log"),
                (["mqroute-who-loses", "one"],
                 r"usage: mqroute-who-loses (?s:.)*\nmqroute-who-loses: error: ")):
            done = subprocess.run(
                [f"{folder}/bin/{words[0]}", *words[1:]], capture_output=True, text=True)
            self.assertEqual((done.returncode, done.stdout), (2, ""))
            self.assertRegex(done.stderr, "^" + said)

    def subcommands(self, folder: str) -> None:
        """Each link has the help that `mqroute-tools` gives."""
        for name in map(installed_name, TOOLS[1:-1]):
            words = [f"{folder}/bin/mqroute-tools", name.removeprefix("mqroute-")]
            self.assertEqual(help_behind_name([f"{folder}/bin/{name}"], name),
                             help_behind_name(words, f"mqroute-tools {words[1]}"))

    def completed(self, folder: str) -> None:
        for tool in TOOLS:
            name = installed_name(tool)
            code = (f'. {folder}/share/bash-completion/completions/{name}; COMP_WORDS=({name} --); '
                    f'COMP_CWORD=1; {completer(tool)}; echo "${{COMPREPLY[*]}}"')
            done = subprocess.run(["bash", "-c", code], capture_output=True, text=True)
            self.assertEqual((set(done.stdout.split()), done.stderr), (options_of(tool), ""))


if __name__ == "__main__":
    unittest.main()

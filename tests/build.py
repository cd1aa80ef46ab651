#!/usr/bin/env python3
"""Runs dev/build.py over a small repository, with a stand-in for the toolchain."""
import hashlib
import os
import pathlib
import shutil
import signal
import subprocess
import sys
import tempfile
import time

TOP = pathlib.Path(__file__).resolve().parent.parent
CRATES = """words:
mqroute: words
mqroute_acl: words
tests_alone: words
"""
# What the toolchain does: it says how each crate ends, and leaves the programs.
RT = """#!/bin/sh
case "$*" in
help) echo "What a run passed $KEPT"; exit;;
version) echo rattle-kit-0 logic 0; exit;;
esac
[ "$*" = ci ] || exit 9
ls crates > "$SEEN"
for name in words mqroute mqroute_acl; do
    [ ! -e crates/$name/must-fail ] || exit 9
    sh -c "$STEP"
    echo "== $name"
    echo "rt: $name $ENDS"
    mkdir crates/$name/out
    echo $name > crates/$name/out/$name
done
echo "3 passed, 0 failed"
"""


TOOL = """import sys
print(sys.argv)
"""


def lay_out(top):
    shutil.copytree(TOP / "dev", top / "dev")
    (top / "tools/mqroute_tools").mkdir(parents=True)
    (top / "tools/mqroute_tools/__init__.py").touch()
    shutil.copytree(TOP / "tools/mqroute_tools/common", top / "tools/mqroute_tools/common")
    (top / "tools/who_hears.py").write_text(TOOL)
    (top / "tools/who_hears.py").chmod(0o755)
    (top / "crates.txt").write_text(CRATES)
    (top / "HANDLES").write_text("Handles allowed: none.\n")
    for line in CRATES.splitlines():
        (top / "crates" / line.partition(":")[0] / "must-fail").mkdir(parents=True)
    (top / "rt").write_text(RT)
    (top / "rt").chmod(0o755)


def started(top, ends, step=":", kept="is kept beside the kit"):
    env = os.environ | {"PATH": f"{top}:{os.environ['PATH']}", "XDG_CACHE_HOME": str(top / "cache"),
                        "SEEN": str(top / "seen"), "ENDS": ends, "STEP": step, "KEPT": kept}
    # a job in the background ignores Ctrl-C, and so do its tests
    return subprocess.Popen([sys.executable, "dev/build.py"], cwd=top, env=env, text=True,
                            stdout=subprocess.PIPE, stderr=subprocess.PIPE,
                            preexec_fn=lambda: signal.signal(signal.SIGINT, signal.SIG_DFL))


def check_without_toolchain(top):
    done = subprocess.run([sys.executable, "dev/build.py"], cwd=top, env={"PATH": ""}, text=True,
                          capture_output=True)
    assert (done.returncode, done.stdout) == (2, ""), done
    assert done.stderr.startswith("build: rt isn't on the PATH: "), done.stderr


def ended(*words):
    process = started(*words)
    out, err = process.communicate(timeout=60)
    return process.returncode, out, err


def check(top):
    status, out, err = ended(top, "proved")
    assert (status, err) == (0, ""), (status, out, err)
    assert [line.split(" after ")[0] for line in out.splitlines()[:3]] == [
        " 1 of 3  words           ", " 2 of 3  mqroute         ", " 3 of 3  mqroute_acl     "], out
    assert (top / "bin/mqroute-acl").read_text() == "mqroute_acl\n"
    # which build they are, by their checksums
    assert (top / "bin/PROGRAMS").read_text() == "".join(
        f"{hashlib.sha256((top / 'bin' / name).read_bytes()).hexdigest()}  {name}  "
        "unknown, proved by rattle-kit-0\n" for name in ("mqroute", "mqroute-acl")
    ), (top / "bin/PROGRAMS").read_text()
    # a tool has its own name, and isn't a link, at which the toolchain would stop
    tool = top / "bin/mqroute-who-hears"
    assert not tool.is_symlink()
    shown = subprocess.run([tool, "x"], capture_output=True, text=True, check=True).stdout
    assert shown == f"{[str(tool), 'x']}\n", shown
    assert (top / "seen").read_text().split() == ["mqroute", "mqroute_acl", "words"]

    status, out, _ = ended(top, "is kept: an earlier run proved the same")
    assert status == 0 and out.splitlines()[0].endswith("words            was proved before"), out

    status, out, _ = ended(top, "proved", ":", "is thrown away")
    assert (status, out.splitlines()[0]) == (
        0, "build: made for rattle-kit-13f; rattle-kit-0 keeps nothing of this for the gate or a "
        "later run"), out

    (top / "bin/mqroute").unlink()
    status, out, err = ended(top, "NOT PROVED")
    assert (status, out) == (1, ""), (status, out)
    assert err.splitlines()[-3:] == [
        "== words", "rt: words NOT PROVED",
        "build: words is not proved: all of the log is bin/build.log"], err
    assert not (top / "bin/mqroute").exists()

    process = started(top, "proved", f"touch {top}/begun; sleep 60")
    while not (top / "begun").exists():
        time.sleep(0.05)
    process.send_signal(signal.SIGINT)
    out, err = process.communicate(timeout=30)
    assert (process.returncode, err) == (
        130, "\nbuild: stopped; run again, it goes on where it was\n"), (process.returncode, err)


def main():
    with tempfile.TemporaryDirectory() as name:
        lay_out(pathlib.Path(name))
        check(pathlib.Path(name))
        check_without_toolchain(pathlib.Path(name))
    print("build: ok")


if __name__ == "__main__":
    main()

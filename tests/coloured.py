"""What mqroute-acl prints on a terminal: compare in colours, unless NO_COLOR is set."""
import os
import pathlib
import pty
import subprocess

PROGRAM = pathlib.Path(__file__).resolve().parent.parent / "bin/mqroute-acl"
GREEN, RED, PLAIN = "\x1b[32m", "\x1b[31m", "\x1b[0m"
OLD, NEW = "topic read a\n", "topic read b\n"
CASES = [([], {}, True), ([], {"NO_COLOR": ""}, True), ([], {"NO_COLOR": "1"}, False),
         (["--json"], {}, False)]


def on_terminal(words, folder, variables):
    """What the program prints on a terminal that is its standard output."""
    ours, its = pty.openpty()
    around = {name: value for name, value in os.environ.items() if name != "NO_COLOR"} | variables
    with subprocess.Popen([PROGRAM, *words], cwd=folder, stdout=its, env=around) as running:
        os.close(its)
        printed = b""
        while True:
            try:
                piece = os.read(ours, 65536)
            except OSError:  # the other end is closed
                break
            if not piece:
                break
            printed += piece
        running.wait(60)
    os.close(ours)
    return printed.decode().replace("\r\n", "\n")


def faults_of_colours(folder):
    pathlib.Path(folder, "old.acl").write_text(OLD)
    pathlib.Path(folder, "new.acl").write_text(NEW)
    words = ["compare", "--rules", "own", "old.acl", "new.acl"]
    piped = subprocess.run([PROGRAM, *words], cwd=folder, capture_output=True, text=True).stdout
    coloured = piped.replace("may no longer read  ", f"{RED}may no longer read  {PLAIN}").replace(
        "may now read        ", f"{GREEN}may now read        {PLAIN}")
    for more, variables, in_colours in CASES:
        printed = on_terminal([*words, *more], folder, variables)
        wanted = coloured if in_colours else piped
        if (printed != wanted) if not more else "\x1b" in printed:
            yield f"compare {' '.join(more)} on a terminal with {variables}: {printed!r}"
    if "\x1b" in piped or coloured.count(GREEN) != 1 or coloured.count(RED) != 1:
        yield f"compare into a pipe: {piped!r}"

"""Which toolchain there is, and what its `rt` can do."""
import functools
import pathlib
import subprocess

# The one that the programs are proved with (docs/explanation/proved.md).
MADE_FOR = "rattle-kit-13f"


def said(*words: str) -> str:
    """What `rt` says; nothing where there is none. Some kits write their help to standard error."""
    try:
        done = subprocess.run(["rt", *words], stdout=subprocess.PIPE, stderr=subprocess.STDOUT,
                              text=True, errors="replace")
    except OSError:
        return ""
    return done.stdout


@functools.cache
def version() -> str:
    """The name of the kit; nothing where there is none."""
    return (said("version").split() or [""])[0]


@functools.cache
def ci_takes_names() -> bool:
    """Whether `rt ci CRATE` proves a crate with those below it, as the kit of MADE_FOR does; older
    ones prove all or nothing."""
    return "rt ci NAME" in said("help")


@functools.cache
def ci_keeps() -> bool:
    """Whether what `rt ci` proves is kept on the machine for later runs. Older kits prove again."""
    return "is kept beside the kit" in " ".join(said("help").split())


def folder() -> pathlib.Path | None:
    """Where the kit stands."""
    first_page = said("doc").strip()
    return pathlib.Path(first_page).parent if first_page else None

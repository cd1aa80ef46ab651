"""Makes a wheel of these tools, for `pip install ./tools`: the standard library does, so that
neither an index nor setuptools is needed. pip calls it by pyproject.toml."""
import base64
import hashlib
import tomllib
import zipfile
from collections.abc import Iterator
from pathlib import Path
from typing import Any

from mqroute_tools.common import version

HERE = Path(__file__).resolve().parent
TOP = HERE.parent
# What stands beside the tools in a clone, and below share/mqroute where they are installed.
SHARED = {"conformance": "conformance", "brokers/differences": "differences", "schemas": "schemas"}


def project() -> dict[str, Any]:
    held = tomllib.loads((HERE / "pyproject.toml").read_text("utf-8"))
    return {**held["project"], "modules": held["tool"]["wheel_builder"]["modules"]}


def stem(about: dict[str, Any]) -> str:
    return f"{about['name'].replace('-', '_')}-{about['version']}"


def metadata(about: dict[str, Any]) -> str:
    lines = ["Metadata-Version: 2.1", f"Name: {about['name']}", f"Version: {about['version']}",
             f"Summary: {about['description']}", f"Requires-Python: {about['requires-python']}"]
    for extra, needed in about.get("optional-dependencies", {}).items():
        lines.append(f"Provides-Extra: {extra}")
        lines += [f'Requires-Dist: {one}; extra == "{extra}"' for one in needed]
    return "\n".join([*lines, ""])


def entry_points(about: dict[str, Any]) -> str:
    lines = [f"{name} = {place}" for name, place in about["scripts"].items()]
    return "\n".join(["[console_scripts]", *lines, ""])


def modules(about: dict[str, Any]) -> Iterator[tuple[str, bytes]]:
    files = [*(HERE / f"{name}.py" for name in about["modules"]),
             *(HERE / "mqroute_tools").rglob("*.py")]
    for file in sorted(files):
        yield file.relative_to(HERE).as_posix(), file.read_bytes()
    yield f"mqroute_tools/{version.NAME}", f"{version.version()}\n".encode()


def shared(about: dict[str, Any]) -> Iterator[tuple[str, bytes]]:
    for folder, name in SHARED.items():
        for file in sorted((TOP / folder).rglob("*")):
            place = file.relative_to(TOP / folder)
            if file.is_file() and file.suffix != ".py" and "__pycache__" not in place.parts:
                yield (f"{stem(about)}.data/data/share/mqroute/{name}/{place.as_posix()}",
                       file.read_bytes())


def digest(content: bytes) -> str:
    return base64.urlsafe_b64encode(hashlib.sha256(content).digest()).rstrip(b"=").decode()


def build_wheel(wheel_directory: str, config_settings: object = None,
                metadata_directory: str | None = None) -> str:
    """The name of the file, as pip asks for it (PEP 517)."""
    about = project()
    info = f"{stem(about)}.dist-info"
    wheel = "Wheel-Version: 1.0\nGenerator: mqroute\nRoot-Is-Purelib: true\nTag: py3-none-any\n"
    files = [*modules(about), *shared(about), (f"{info}/METADATA", metadata(about).encode()),
             (f"{info}/WHEEL", wheel.encode()),
             (f"{info}/entry_points.txt", entry_points(about).encode())]
    record = [f"{name},sha256={digest(content)},{len(content)}" for name, content in files]
    lines = "\n".join([*record, f"{info}/RECORD,,", ""])
    name = f"{stem(about)}-py3-none-any.whl"
    with zipfile.ZipFile(Path(wheel_directory, name), "w", zipfile.ZIP_DEFLATED) as archive:
        for place, content in [*files, (f"{info}/RECORD", lines.encode())]:
            archive.writestr(place, content)
    return name

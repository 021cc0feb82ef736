#!/usr/bin/env python3
"""The wheel of altair_close, with the shared library in it, by Python's standard library alone and without a network:

  bindings/python/build_wheel.py FOLDER      writes FOLDER/altair_close-VERSION-py3-none-linux_x86_64.whl

The library is target/altair/libaltair.so, which `make` builds, or the one that ALTAIR_LIBRARY names. The same sources and library
give the same bytes. pip calls `build_wheel` for `pip install bindings/python` (PEP 517)."""
import base64
import hashlib
import os
import re
import sys
import zipfile
from pathlib import Path

HERE = Path(__file__).resolve().parent
ROOT = HERE.parents[1]
TAG = "py3-none-linux_x86_64"


def project(key):
    """A value of pyproject.toml, where it stands on a line of its own."""
    return re.search(rf'^{key} = (?:\{{ text = )?"(.*?)"', (HERE / "pyproject.toml").read_text(), re.M)[1]


def library():
    path = Path(os.environ.get("ALTAIR_LIBRARY") or ROOT / "target/altair/libaltair.so")
    if not path.is_file():
        raise OSError(
            f"the shared library is missing: there is no file {path}. `make`, run in the repository, makes it; "
            "ALTAIR_LIBRARY=PATH names one that stands elsewhere."
        )
    return path.read_bytes()


def metadata():
    lines = [
        "Metadata-Version: 2.1",
        f"Name: {project('name')}",
        f"Version: {project('version')}",
        f"Summary: {project('description')}",
        f"License: {project('license')}",
        f"Requires-Python: {project('requires-python')}",
        *(f"Classifier: {name}" for name in re.findall(r'^    "(.* :: .*)",$', (HERE / "pyproject.toml").read_text(), re.M)),
    ]
    return "\n".join(lines).encode() + b"\n"


def contents(info):
    """Every file of the wheel but the list of them."""
    for path in sorted([*(HERE / "altair_close").glob("*.py"), HERE / "altair_close/py.typed"]):
        yield f"altair_close/{path.name}", path.read_bytes()
    yield "altair_close/libaltair.so", library()
    for name in ("LICENSE.md", "NOTICE"):
        yield f"{info}/{name}", (ROOT / name).read_bytes()
    scripts = (HERE / "pyproject.toml").read_text().split("[project.scripts]\n")[1]
    yield f"{info}/entry_points.txt", ("[console_scripts]\n" + scripts.replace('"', "")).encode()
    yield f"{info}/METADATA", metadata()
    yield f"{info}/WHEEL", f"Wheel-Version: 1.0\nGenerator: build_wheel\nRoot-Is-Purelib: false\nTag: {TAG}\n".encode()


def build_wheel(wheel_directory, config_settings=None, metadata_directory=None):
    """Writes the wheel and answers its file name."""
    stem = f"{project('name').replace('-', '_')}-{project('version')}"
    info, name = f"{stem}.dist-info", f"{stem}-{TAG}.whl"
    files = dict(contents(info))
    listed = [
        f"{path},sha256={base64.urlsafe_b64encode(hashlib.sha256(data).digest()).decode().rstrip('=')},{len(data)}\n"
        for path, data in files.items()
    ]
    files[f"{info}/RECORD"] = "".join([*listed, f"{info}/RECORD,,\n"]).encode()
    target = Path(wheel_directory, name)
    target.parent.mkdir(parents=True, exist_ok=True)
    made = target.with_suffix(".new")
    with zipfile.ZipFile(made, "w", zipfile.ZIP_STORED) as wheel:
        for path, data in files.items():
            entry = zipfile.ZipInfo(path)  # of 1980, and with no other trace of when and where
            entry.external_attr = 0o100644 << 16
            wheel.writestr(entry, data)
    made.replace(target)
    return name


def build_sdist(sdist_directory, config_settings=None):
    raise SystemExit("build_wheel: there is no source distribution: the library is proved and built in the repository")


if __name__ == "__main__":
    if len(sys.argv) != 2 or sys.argv[1].startswith("-"):
        print(__doc__, file=sys.stderr)
        sys.exit(2)
    try:
        print(Path(sys.argv[1], build_wheel(sys.argv[1])), flush=True)
    except OSError as error:
        print(f"build_wheel: {error}", file=sys.stderr)
        os._exit(2)  # what could not be written is not tried again

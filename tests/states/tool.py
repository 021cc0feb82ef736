"""Running tools/state from a test: in this process, where a traceback fails the test, or by itself."""
import contextlib
import io
import subprocess
import sys
import tempfile
from pathlib import Path
from typing import NamedTuple

ROOT = Path(__file__).resolve().parents[2]
sys.path[:0] = [str(ROOT / place) for place in ("tools", "tests", "bindings/python")]

from altair_close._command import status_of  # noqa: E402
from beacon_state import command  # noqa: E402


class Said(NamedTuple):
    code: int
    err: str
    out: bytes = b""


class Directory:
    """A directory that goes when the test ends."""

    def __enter__(self):
        self.made = tempfile.TemporaryDirectory()
        self.path = Path(self.made.name)
        return self

    def __exit__(self, *_):
        self.made.cleanup()

    def __truediv__(self, name):
        return self.path / name

    def write(self, name, data):
        (self / name).write_bytes(data)

    def read(self, name):
        return (self / name).read_bytes()

    def names(self):
        return sorted(path.name for path in self.path.iterdir())


def run(*words):
    err = io.StringIO()
    with contextlib.redirect_stderr(err):
        code = status_of("state", command.work, [str(word) for word in words])
    return Said(code, err.getvalue())


def run_alone(*words, **options):
    done = subprocess.run([str(ROOT / "tools/state"), *map(str, words)], capture_output=True, **options)
    return Said(done.returncode, done.stderr.decode(), done.stdout)

"""The cases of a checkout or an unpacked archive: tests/PRESET/FORK/epoch_processing/STEP/SUITE/CASE."""
from pathlib import Path
from typing import NamedTuple

from beacon_state.settings import PRESETS

from .steps import STEPS

# Capella's eight steps are Bellatrix's; a later fork has steps of its own
FORKS = ("altair", "bellatrix", "capella")


class Case(NamedTuple):
    preset: str
    fork: str
    step: str
    path: Path

    @property
    def name(self):
        return "/".join(self.path.parts[-6:])


def find(root):
    """The cases below a directory, in order."""
    root = Path(root)
    base = root / "tests" if (root / "tests").is_dir() else root
    for path in sorted(base.glob("*/*/epoch_processing/*/*/*")):
        preset, fork, _, step = path.parts[len(base.parts) :][:4]
        if path.is_dir():
            yield Case(preset, fork, step, path)


def skipped(case):
    """Why a case is not run, or ''."""
    if case.preset not in PRESETS:
        return f"no preset {case.preset} here"
    if case.fork not in FORKS:
        return f"no fork {case.fork} here"
    if case.step not in STEPS:
        return "not one of the eight steps"
    return ""

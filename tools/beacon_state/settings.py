"""The settings of a network, under the names that nodes use: the two presets, and files.

A file is a node's config.yaml, a preset's file (phase0.yaml, altair.yaml, bellatrix.yaml), or the JSON that a node answers to
/eth/v1/config/spec. Of YAML only lines `NAME: value` are read. Mainnet's sizes are those of phase0/presets/mainnet.rs; the sync
committee's, the later forks' and minimal's are from knowledge of the published presets, versions 1.4.0 to 1.6.0."""
import json
import re

import altair_close

from .containers import FORKS, OTHERS, from_on
from .errors import Bad

# what the state's layout and Bellatrix ask for besides the nineteen numbers of the Python package
BESIDES = {
    "EPOCHS_PER_HISTORICAL_VECTOR": 65536,
    "HISTORICAL_ROOTS_LIMIT": 2**24,
    "VALIDATOR_REGISTRY_LIMIT": 2**40,
    "EPOCHS_PER_ETH1_VOTING_PERIOD": 64,
    "SYNC_COMMITTEE_SIZE": 512,
    "BYTES_PER_LOGS_BLOOM": 256,
    "MAX_EXTRA_DATA_BYTES": 32,
    "INACTIVITY_PENALTY_QUOTIENT_BELLATRIX": 2**24,
    "PROPORTIONAL_SLASHING_MULTIPLIER_BELLATRIX": 3,
}
OF_MINIMAL = {"EPOCHS_PER_HISTORICAL_VECTOR": 64, "EPOCHS_PER_ETH1_VOTING_PERIOD": 4, "SYNC_COMMITTEE_SIZE": 32}
# bounds of the later forks' lists: of a file that names none, mainnet's
BOUNDS = {
    "MIN_SEED_LOOKAHEAD": 1,
    "PENDING_DEPOSITS_LIMIT": 2**27,
    "PENDING_PARTIAL_WITHDRAWALS_LIMIT": 2**27,
    "PENDING_CONSOLIDATIONS_LIMIT": 2**18,
}
BOUNDS_OF_MINIMAL = {"PENDING_PARTIAL_WITHDRAWALS_LIMIT": 64, "PENDING_CONSOLIDATIONS_LIMIT": 64}
# what a later fork's close, an exit or the clock asks for: missed only where it is asked for
LATER = {
    "MIN_ACTIVATION_BALANCE": 32 * 10**9,
    "MAX_EFFECTIVE_BALANCE_ELECTRA": 2048 * 10**9,
    "MAX_PENDING_DEPOSITS_PER_EPOCH": 16,
    "MAX_PER_EPOCH_ACTIVATION_CHURN_LIMIT": 8,
    "MIN_PER_EPOCH_CHURN_LIMIT_ELECTRA": 128 * 10**9,
    "MAX_PER_EPOCH_ACTIVATION_EXIT_CHURN_LIMIT": 256 * 10**9,
    "SHARD_COMMITTEE_PERIOD": 256,
    "SECONDS_PER_SLOT": 12,
}
LATER_OF_MINIMAL = {
    "MAX_PER_EPOCH_ACTIVATION_CHURN_LIMIT": 4,
    "MIN_PER_EPOCH_CHURN_LIMIT_ELECTRA": 64 * 10**9,
    "MAX_PER_EPOCH_ACTIVATION_EXIT_CHURN_LIMIT": 128 * 10**9,
    "SHARD_COMMITTEE_PERIOD": 64,
    "SECONDS_PER_SLOT": 6,
}
NUMBERS = tuple(name.upper() for name in altair_close.Settings._fields)
NEEDED = (*NUMBERS, *BESIDES)
# the fork versions, in the forks' order: mainnet's are 0x00000000, 0x01000000 .., minimal's 0x00000001, 0x01000001 ..
VERSIONS = tuple("GENESIS_FORK_VERSION" if fork == "phase0" else f"{fork.upper()}_FORK_VERSION" for fork in (OTHERS[0], *FORKS, OTHERS[1]))


class Settings(dict):
    """Settings by name; one that is asked for and missing is a fault of the files."""

    def __init__(self, values, named="the settings", versions=()):
        super().__init__(values)
        self.named, self.versions = named, dict(versions)

    def __missing__(self, name):
        raise Bad(f"{self.named}: {name} missing")

    def fork_named(self, version):
        """The fork whose version these four bytes are, or None."""
        return self.versions.get(bytes(version))


def _preset(numbers, last, *more):
    values = dict(zip(NUMBERS, numbers))
    for part in more:
        values.update(part)
    return Settings(values, versions=zip((bytes([k, 0, 0, last]) for k in range(len(VERSIONS))), (OTHERS[0], *FORKS, OTHERS[1])))


MAINNET = _preset(altair_close.MAINNET, 0, BESIDES, BOUNDS, LATER)
MINIMAL = _preset(altair_close.MINIMAL, 1, BESIDES, OF_MINIMAL, BOUNDS, BOUNDS_OF_MINIMAL, LATER, LATER_OF_MINIMAL)
PRESETS = {"mainnet": MAINNET, "minimal": MINIMAL}
# what stands in config.yaml and in no preset: never taken from a preset where a file is given
CONFIG = """INACTIVITY_SCORE_BIAS INACTIVITY_SCORE_RECOVERY_RATE MIN_VALIDATOR_WITHDRAWABILITY_DELAY EJECTION_BALANCE
MIN_PER_EPOCH_CHURN_LIMIT CHURN_LIMIT_QUOTIENT MAX_PER_EPOCH_ACTIVATION_CHURN_LIMIT MIN_PER_EPOCH_CHURN_LIMIT_ELECTRA
MAX_PER_EPOCH_ACTIVATION_EXIT_CHURN_LIMIT SHARD_COMMITTEE_PERIOD SECONDS_PER_SLOT""".split()
# lengths of vectors, and how long one may be here
VECTORS = """SLOTS_PER_HISTORICAL_ROOT EPOCHS_PER_HISTORICAL_VECTOR EPOCHS_PER_SLASHINGS_VECTOR SYNC_COMMITTEE_SIZE
BYTES_PER_LOGS_BLOOM""".split()
LONGEST = 2**24
PAIR = ("INACTIVITY_PENALTY_QUOTIENT", "PROPORTIONAL_SLASHING_MULTIPLIER")

LINE = re.compile(r"""(?P<name>[A-Za-z0-9_]+)[ \t]*:(?:[ \t]+(?P<value>'[^']*'|"[^"]*"|[^#]*)[ \t]*(?:#.*)?)?""")


def of_record(settings, fork="altair"):
    """The nineteen numbers of a record, with the two of a fork in the places of Altair's: from Bellatrix on they stay."""
    values, pair = dict(settings), "BELLATRIX" if from_on(fork, "bellatrix") else "ALTAIR"
    for name in PAIR:
        values[f"{name}_ALTAIR"] = settings[f"{name}_{pair}"]
    return tuple(values[name] for name in NUMBERS)


def from_files(files):
    """The settings of one or more files, given as (name, bytes). What no file names is PRESET_BASE's, where that is known."""
    values = {}
    for file, data in files:
        for name, (value, where) in _named(file, data).items():
            if values.setdefault(name, (value, where))[0] != value:
                raise Bad(f"{where}: {name} is {value}, and {values[name][0]} at {values[name][1]}")
    base = values.get("PRESET_BASE", ("", ""))[0]
    named = ", ".join(file for file, _ in files)
    settings = Settings({**BOUNDS, **{name: value for name, value in PRESETS.get(base, {}).items() if name not in CONFIG}}, named)
    settings.versions = _versions(values)
    for name in MAINNET:
        if name in values:
            settings[name] = _number(name, *values[name])
    if "SECONDS_PER_SLOT" not in settings and "SLOT_DURATION_MS" in values:
        settings["SECONDS_PER_SLOT"] = _number("SLOT_DURATION_MS", *values["SLOT_DURATION_MS"]) // 1000
    missing = [name for name in NEEDED if name not in settings]
    if missing:
        raise Bad(f"{named}: {_named_some(missing)} missing{_of_base(base)}")
    for name in VECTORS:
        if not 1 <= settings[name] <= LONGEST:
            raise Bad(f"{values[name][1]}: {name} is {settings[name]}, and 1 to 2^24 is wanted")
    return settings


def _versions(values):
    """version -> fork, of those that the files name as 0x and four bytes."""
    found = {}
    for name, fork in zip(VERSIONS, (OTHERS[0], *FORKS, OTHERS[1])):
        text = values.get(name, ("", ""))[0]
        if re.fullmatch("0x[0-9a-fA-F]{8}", text):
            found.setdefault(bytes.fromhex(text[2:]), fork)
    return found


def _named_some(names, most=6):
    return ", ".join(names[:most]) + (f" and {len(names) - most} more" if len(names) > most else "")


def _of_base(base):
    if base in PRESETS:
        return ""
    return f"; the preset {base!r} is not known here" if base else "; there is no PRESET_BASE"


def _number(name, value, where):
    if not re.fullmatch("[0-9]{1,20}", value) or int(value) >= 2**64:
        raise Bad(f"{where}: {name} is {value[:40]!r}, and a number from 0 to 2^64 - 1 is wanted")
    return int(value)


def _named(file, data):
    """name -> (value, place) of a file's settings; values are texts."""
    try:
        text = data.decode("utf-8")
    except UnicodeDecodeError as error:
        raise Bad(f"{file}, byte {error.start}: not UTF-8") from None
    named = {}
    for name, value, where in _json(file, text) if text.lstrip().startswith("{") else _yaml(file, text):
        if name in named:
            raise Bad(f"{where}: {name} is named twice")
        named[name] = (value, where)
    return named


def _json(file, text):
    try:
        pairs = json.loads(text, object_pairs_hook=tuple, parse_int=str)
    except (ValueError, RecursionError) as error:
        raise Bad(f"{file}: not JSON: {error}") from None
    inner = dict(pairs).get("data")
    for name, value in inner if isinstance(inner, tuple) else pairs:
        if isinstance(value, str):
            yield name, value, file


def _yaml(file, text):
    for k, line in enumerate(text.split("\n"), 1):
        # without the spaces around it, so that the pattern has nothing to try twice
        found = LINE.fullmatch(line.strip())
        if found and not line.startswith((" ", "\t")):
            value = (found["value"] or "").strip()
            yield found["name"], value[1:-1] if value[:1] in ("'", '"') else value, f"{file}, line {k}"
        elif found is None and line.strip() and not line.lstrip().startswith(("#", "---", "-", "...")):
            raise Bad(f"{file}, line {k}: not a line NAME: value: {line.strip()[:40]!r}")

"""Settings from files: a node's config.yaml, preset files and the JSON of /eth/v1/config/spec."""
import json
import random
import time
import unittest

import encoder
from tool import Directory, run

from beacon_state.settings import PRESETS, of_record

NAMES = """SLOTS_PER_EPOCH SLOTS_PER_HISTORICAL_ROOT EPOCHS_PER_SLASHINGS_VECTOR EFFECTIVE_BALANCE_INCREMENT MAX_EFFECTIVE_BALANCE
HYSTERESIS_QUOTIENT HYSTERESIS_DOWNWARD_MULTIPLIER HYSTERESIS_UPWARD_MULTIPLIER BASE_REWARD_FACTOR
MIN_EPOCHS_TO_INACTIVITY_PENALTY INACTIVITY_SCORE_BIAS INACTIVITY_SCORE_RECOVERY_RATE INACTIVITY_PENALTY_QUOTIENT_ALTAIR
PROPORTIONAL_SLASHING_MULTIPLIER_ALTAIR MAX_SEED_LOOKAHEAD MIN_VALIDATOR_WITHDRAWABILITY_DELAY EJECTION_BALANCE
MIN_PER_EPOCH_CHURN_LIMIT CHURN_LIMIT_QUOTIENT""".split()
CONFIG = b"""# a network of our own
PRESET_BASE: 'minimal'
CONFIG_NAME: "ours"   # a comment
GENESIS_FORK_VERSION: 0x00000001
TERMINAL_TOTAL_DIFFICULTY: 115792089237316195423570985008687907853269984665640564039457584007913129638912
BLOB_SCHEDULE:
  - EPOCH: 5
    MAX_BLOBS_PER_BLOCK: 6

INACTIVITY_SCORE_BIAS: 5
INACTIVITY_SCORE_RECOVERY_RATE: "17"
MIN_VALIDATOR_WITHDRAWABILITY_DELAY:   300 # more
EJECTION_BALANCE: 17000000000
MIN_PER_EPOCH_CHURN_LIMIT: 7
CHURN_LIMIT_QUOTIENT: 33
"""
PRESET = b"BASE_REWARD_FACTOR: 65\r\nSLOTS_PER_EPOCH: 8\r\n"
SIZES = dict(EPOCHS_PER_HISTORICAL_VECTOR=64, HISTORICAL_ROOTS_LIMIT=2**24, VALIDATOR_REGISTRY_LIMIT=2**40)
SIZES.update(EPOCHS_PER_ETH1_VOTING_PERIOD=4, SYNC_COMMITTEE_SIZE=32, BYTES_PER_LOGS_BLOOM=256, MAX_EXTRA_DATA_BYTES=32)
SIZES.update(INACTIVITY_PENALTY_QUOTIENT_BELLATRIX=101, PROPORTIONAL_SLASHING_MULTIPLIER_BELLATRIX=102)


class Settings(unittest.TestCase):
    def made(self, *files, words=(), others=1, fork="altair"):
        """What is said, and the record's nineteen numbers; None where it is refused."""
        state = encoder.random_state(random.Random(1), "minimal", fork, 2, others)
        with Directory() as at:
            at.write("state", encoder.ssz(state))
            for k, file in enumerate(files):
                at.write(f"file{k}", file)
            given = [word for k in range(len(files)) for word in ("--settings", at / f"file{k}")]
            said = run("record", *given, *words, at / "state", at / "made")
            if said.code == 0:
                numbers = encoder.struct.unpack_from("<19Q", at.read("made"), 80)
                self.assertEqual(at.read("made"), encoder.record(state, numbers))
                return said.err, numbers
            self.assertEqual((said.code, said.err.count("\n")), (1, 1), said.err)
            return said.err, None

    def expected(self, **changed):
        numbers = dict(zip(NAMES, encoder.SETTINGS["minimal"]))
        return tuple({**numbers, **changed}.values())

    OURS = dict(INACTIVITY_SCORE_BIAS=5, INACTIVITY_SCORE_RECOVERY_RATE=17, MIN_VALIDATOR_WITHDRAWABILITY_DELAY=300)
    OURS.update(EJECTION_BALANCE=17 * 10**9, MIN_PER_EPOCH_CHURN_LIMIT=7, CHURN_LIMIT_QUOTIENT=33)

    def test_a_config_and_a_preset(self):
        self.assertEqual(self.made(CONFIG)[1], self.expected(**self.OURS))
        self.assertEqual(self.made(CONFIG, PRESET)[1], self.expected(**self.OURS, BASE_REWARD_FACTOR=65))
        self.assertEqual(self.made(PRESET, CONFIG)[1], self.expected(**self.OURS, BASE_REWARD_FACTOR=65))

    def test_every_setting_has_its_place(self):
        numbers = {name: 1000 + k for k, name in enumerate(NAMES)}
        numbers.update(SLOTS_PER_EPOCH=8, SLOTS_PER_HISTORICAL_ROOT=64, EPOCHS_PER_SLASHINGS_VECTOR=64)
        everything = {**numbers, **SIZES}
        answer = json.dumps({"data": {**{name: str(v) for name, v in everything.items()}, "DOMAIN": "0x00", "LIST": [1]}})
        yaml = "".join(f"{name}: {value}\n" for name, value in everything.items())
        # with every name given, the preset may be one that is not known
        for file in answer, json.dumps(everything), yaml, yaml + "PRESET_BASE: other\n":
            self.assertEqual(self.made(file.encode())[1], tuple(numbers.values()))
        numbers.update(INACTIVITY_PENALTY_QUOTIENT_ALTAIR=101, PROPORTIONAL_SLASHING_MULTIPLIER_ALTAIR=102)
        made = self.made(yaml.encode(), words=("--pair", "bellatrix"), fork="bellatrix")
        self.assertEqual(made[1], tuple(numbers.values()))

    def test_the_presets(self):
        for name, numbers in encoder.SETTINGS.items():
            self.assertEqual(of_record(PRESETS[name]), numbers)

    def test_what_is_refused(self):
        for files, said in [
            ([CONFIG.replace(b"EJECTION_BALANCE", b"EJECTION_BALANCES")], "EJECTION_BALANCE missing"),
            ([CONFIG.replace(b"'minimal'", b"'other'")], "and 16 more missing; the preset 'other' is not known here"),
            ([CONFIG.replace(b"PRESET_BASE", b"PRESET")], "and 16 more missing; there is no PRESET_BASE"),
            ([CONFIG, b"SLOTS_PER_EPOCH: 8\nSLOTS_PER_EPOCH: 8\n"], "file1, line 2: SLOTS_PER_EPOCH is named twice"),
            ([CONFIG, PRESET, b"SLOTS_PER_EPOCH: 9"], "file2, line 1: SLOTS_PER_EPOCH is 9, and 8 at"),
            ([CONFIG, b"SLOTS_PER_EPOCH: 0x08"], "file1, line 1: SLOTS_PER_EPOCH is '0x08', and a number"),
            ([CONFIG, b"SLOTS_PER_EPOCH: 18446744073709551616"], "and a number from 0 to 2^64 - 1"),
            ([CONFIG, b"SLOTS_PER_EPOCH: \xd9\xa3"], "and a number from 0 to 2^64 - 1"),
            ([CONFIG, b"SLOTS_PER_HISTORICAL_ROOT: 0"], "SLOTS_PER_HISTORICAL_ROOT is 0, and 1 to 2^24"),
            ([CONFIG, b"SYNC_COMMITTEE_SIZE: 16777217"], "SYNC_COMMITTEE_SIZE is 16777217"),
            ([CONFIG, b"SLOTS_PER_EPOCH 8"], "file1, line 1: not a line"),
            ([CONFIG, b"SLOTS_PER_EPOCH:8"], "file1, line 1: not a line"),
            ([b"\xff"], "file0, byte 0: not UTF-8"),
            ([b"{"], "file0: not JSON"),
            ([b'{"data": ' + b"[" * 10**6], "file0: not JSON"),
            ([b""], "missing"),
        ]:
            with self.subTest(said=said):
                self.assertIn(said, self.made(*files)[0])

    def test_spaces_and_odd_lines(self):
        """Spaces cost no more than their number; only a newline ends a line; what is quoted may hold a #."""
        began = time.monotonic()
        spaces = b" " * 2**17
        odd = b"SLOTS_PER_EPOCH:" + spaces + b"8" + spaces + b"# eight" + spaces + b"\nA" + spaces + b":" + spaces + b"\n"
        self.assertEqual(self.made(CONFIG, odd)[1], self.expected(**self.OURS))
        self.assertIn("file1, line 1: not a line", self.made(CONFIG, b"x" + spaces + b"y")[0])
        self.assertLess(time.monotonic() - began, 10)
        quoted = "NAME: \"a # b\"   # c \u2028 SLOTS_PER_EPOCH 9\nBASE_REWARD_FACTOR: '65' # d".encode()
        self.assertEqual(self.made(CONFIG, quoted)[1], self.expected(**self.OURS, BASE_REWARD_FACTOR=65))

    def test_no_slots_in_an_epoch(self):
        """A setting that the library refuses under its number is written as it is."""
        said, numbers = self.made(CONFIG, b"SLOTS_PER_EPOCH: 0", others=0)
        self.assertEqual((said, numbers), ("", self.expected(**self.OURS, SLOTS_PER_EPOCH=0)))


if __name__ == "__main__":
    unittest.main()

"""tools/state on states of the tests' own encoder: both presets and forks, SSZ and JSON, there and back."""
import json
import random
import unittest

import encoder
from tool import Directory, run

KINDS = [(preset, fork) for preset in ("minimal", "mainnet") for fork in ("altair", "bellatrix", "capella", "deneb")]
LENGTHS = [(0, 0), (1, 1), (37, 5), (0, 3), (3, 0)]


def states(seed, mainnet=True):
    """(preset, fork, state) with every list empty, of one entry and of many."""
    rng = random.Random(seed)
    for preset, fork in KINDS:
        for validators, others in LENGTHS if preset == "minimal" else LENGTHS[:3] if mainnet else []:
            yield preset, fork, encoder.random_state(rng, preset, fork, validators, others)


def closed(rng, state):
    """The state with everything changed that a close may change."""
    other = encoder.random_state(rng, "minimal", "altair", len(state["validators"]), 0)
    changed = {name: other[name] for name in other if name.endswith(("_checkpoint", "_participation"))}
    changed["slashings"] = [rng.getrandbits(64) if rng.random() < 0.1 else x for x in state["slashings"]]
    for name in "balances", "inactivity_scores", "justification_bits":
        changed[name] = other[name]
    keep = ("pubkey", "withdrawal_credentials")
    changed["validators"] = [
        old if rng.random() < 0.3 else {**new, **{name: old[name] for name in keep}}
        for old, new in zip(state["validators"], other["validators"])
    ]
    return {**state, **changed}


class Records(unittest.TestCase):
    def test_ssz_to_record(self):
        for preset, fork, state in states(1):
            with self.subTest(preset=preset, fork=fork, validators=len(state["validators"])), Directory() as at:
                at.write("state", encoder.ssz(state))
                said = run("record", "--preset", preset, "--pair", "altair", at / "state", at / "made")
                self.assertEqual(said.code, 0, said.err)
                self.assertEqual(at.read("made"), encoder.record(state, encoder.SETTINGS[preset]))

    def test_json_to_record(self):
        for preset, fork, state in states(2):
            layouts = [dict(version=fork), dict(indent=1), dict(version=fork, separators=(",", ":"), sort_keys=True)]
            for layout in layouts if preset == "minimal" else layouts[:1]:
                with self.subTest(preset=preset, fork=fork, layout=layout), Directory() as at:
                    at.write("state", encoder.text(state, **layout))
                    said = run("record", "--preset", preset, "--pair", "altair", at / "state", at / "made")
                    self.assertEqual(said.code, 0, said.err)
                    self.assertEqual(at.read("made"), encoder.record(state, encoder.SETTINGS[preset]))

    def test_the_pair(self):
        """A Bellatrix state is never taken for an Altair one in silence, nor the other way."""
        altair, bellatrix = (encoder.random_state(random.Random(3), "minimal", fork, 2, 1) for fork in ("altair", "bellatrix"))
        numbers = list(encoder.SETTINGS["minimal"])
        numbers[12:14] = encoder.BELLATRIX_PAIR
        with Directory() as at:
            at.write("state", encoder.ssz(bellatrix))
            said = run("record", "--preset", "minimal", at / "state", at / "made")
            self.assertEqual((said.code, at.names()), (2, ["state"]))
            self.assertIn("say --pair bellatrix or --pair altair", said.err)
            self.assertEqual(run("record", "--preset", "minimal", "--pair", "bellatrix", at / "state", at / "made").code, 0)
            self.assertEqual(at.read("made"), encoder.record(bellatrix, numbers))
            at.write("state", encoder.ssz(altair))
            said = run("record", "--preset", "minimal", "--pair", "bellatrix", "--force", at / "state", at / "made")
            self.assertEqual((said.code, said.err), (2, "state: an Altair state, and --pair bellatrix\n"))

    def test_the_end_of_an_epoch(self):
        for slot, ended in (127, True), (126, False), (128, False), (95, True):
            state = encoder.random_state(random.Random(4), "minimal", "altair", 1, 1)
            with Directory() as at:
                at.write("state", encoder.ssz({**state, "slot": slot}))
                said = run("record", "--preset", "minimal", at / "state", at / "made")
                self.assertEqual(("has not ended" in said.err, said.code), (not ended, 0))

    def test_ssz_back(self):
        rng = random.Random(5)
        for preset, fork, state in states(5):
            with self.subTest(preset=preset, fork=fork, validators=len(state["validators"])), Directory() as at:
                after = closed(rng, state)
                at.write("state", encoder.ssz(state))
                at.write("closed", encoder.record(after, encoder.SETTINGS[preset]))
                said = run("back", "--unchecked", "--preset", preset, at / "state", at / "closed", at / "made")
                self.assertEqual((said.code, said.err), (0, ""))
                self.assertEqual(at.read("made"), encoder.ssz(after))

    def test_json_back(self):
        rng = random.Random(6)
        for preset, fork, state in states(6, mainnet=False):
            for layout in dict(version=fork), dict(indent=3), dict(separators=(" ,", "  : ")):
                with self.subTest(preset=preset, fork=fork, layout=layout), Directory() as at:
                    after = closed(rng, state)
                    at.write("state", b" \n" + encoder.text(state, **layout) + b"\n\n")
                    at.write("closed", encoder.record(after, encoder.SETTINGS[preset]))
                    said = run("back", "--unchecked", "--preset", preset, at / "state", at / "closed", at / "made")
                    self.assertEqual((said.code, said.err), (0, ""))
                    self.assertEqual(at.read("made"), b" \n" + encoder.text(after, **layout) + b"\n\n")

    def test_nothing_changed(self):
        state = encoder.random_state(random.Random(7), "mainnet", "bellatrix", 9, 2)
        for form in encoder.ssz(state), encoder.text(state, "bellatrix"):
            with Directory() as at:
                at.write("state", form)
                run("record", "--pair", "bellatrix", at / "state", at / "made")
                said = run("back", "--unchecked", at / "state", at / "made", at / "again")
                self.assertEqual((said.code, said.err), (0, ""))
                self.assertEqual(at.read("again"), form)

    def test_json_names_spelt_with_escapes(self):
        state = encoder.random_state(random.Random(12), "minimal", "altair", 2, 1)
        after = closed(random.Random(13), state)
        with Directory() as at:
            at.write("state", encoder.text(state).replace(b'"exit_epoch"', b'"\\u0065xit_epoch"'))
            at.write("closed", encoder.record(after, encoder.SETTINGS["minimal"]))
            self.assertEqual(run("back", "--unchecked", "--preset", "minimal", at / "state", at / "closed", at / "made").code, 0)
            self.assertEqual(json.loads(at.read("made")), json.loads(encoder.text(after)))

    def test_a_long_json(self):
        """Longer than the window, which then moves on inside every list."""
        state = encoder.random_state(random.Random(8), "minimal", "altair", 6000, 3)
        everywhere = closed(random.Random(9), state)
        ejected = [{**v, "exit_epoch": 77} if i % 97 == 0 else v for i, v in enumerate(state["validators"])]
        here_and_there = {**state, "validators": ejected, "balances": state["balances"][:-1] + [5]}
        with Directory() as at:
            at.write("state", encoder.text(state, "altair"))
            self.assertGreater((at / "state").stat().st_size, 2 * 2**20)
            self.assertEqual(run("record", "--preset", "minimal", at / "state", at / "made").code, 0)
            self.assertEqual(at.read("made"), encoder.record(state, encoder.SETTINGS["minimal"]))
            for k, after in enumerate([everywhere, here_and_there]):
                at.write("closed", encoder.record(after, encoder.SETTINGS["minimal"]))
                self.assertEqual(run("back", "--unchecked", "--preset", "minimal", at / "state", at / "closed", at / f"again{k}").code, 0)
                self.assertEqual(at.read(f"again{k}"), encoder.text(after, "altair"))

    def test_a_value_at_the_edge_of_the_window(self):
        """Numbers, names and strings that the window cuts anywhere are read whole."""
        whole = encoder.text(encoder.random_state(random.Random(14), "minimal", "altair", 1, 1), "altair")
        with Directory() as at:
            for k in range(16):
                before = b'{"other": ' + b" " * (2**20 - 18 + k - 10) + b'123456, "name": "text", '
                at.write("state", before + whole[1:])
                self.assertEqual(run("record", "--preset", "minimal", "--force", at / "state", at / "made").code, 0)
                self.assertEqual(run("back", "--unchecked", "--preset", "minimal", "--force", at / "state", at / "made", at / "again").code, 0)
                self.assertEqual(at.read("again"), at.read("state"))


if __name__ == "__main__":
    unittest.main()

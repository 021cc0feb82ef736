"""The fork of a state: told by its layout, its version and --fork; another one is refused by name. And Electra's record of a state."""
import random
import struct
import unittest

import encoder
from tool import Directory, run

from beacon_state import electra, opening
from beacon_state.containers import beacon_state
from beacon_state.settings import PRESETS, from_files
from beacon_state.statement.choice import Choice

VERSIONS = {fork: bytes([k, 0, 0, 1]) for k, fork in enumerate(("phase0", *encoder.FORKS, "gloas"))}
WORDS = ("record", "--preset", "minimal", "--pair", "altair")


def minimal(fork, seed=1, **changed):
    return {**encoder.random_state(random.Random(seed), "minimal", fork, 3, 2), **changed}


def versioned(state, fork):
    return {**state, "fork": {**state["fork"], "current_version": VERSIONS[fork]}}


def read(data, settings=PRESETS["minimal"], fork=None):
    """As the commands read it; SSZ is read from a file, whose size is asked for."""
    with Directory() as at:
        at.write("state", data)
        with open(at / "state", "rb") as file:
            return opening.state_of(file, settings, fork)


# bytes of a state's fixed part at mainnet's preset, as the generated SSZ code of public clients has them, from knowledge
FIXED = {"altair": 2736629, "bellatrix": 2736633, "capella": 2736653, "deneb": 2736653, "electra": 2736713, "fulu": 2737225}


class Forks(unittest.TestCase):
    def said(self, data, *words):
        with Directory() as at:
            at.write("state", data)
            said = run(*WORDS, *words, at / "state", at / "made")
            self.assertEqual(said.err.count("\n"), 1 if said.code else said.err.count("note:"), said.err)
            return said.code, said.err.split("state: ", 2)[-1]

    def test_each_is_told(self):
        for preset in "minimal", "mainnet":
            for fork in encoder.FORKS:
                state = encoder.random_state(random.Random(2), preset, fork, 4, 3)
                for data in encoder.ssz(state), encoder.text(state), encoder.text(state, fork, sort_keys=True):
                    with self.subTest(preset=preset, fork=fork):
                        self.assertEqual(read(data, PRESETS[preset]).fork, fork)
                self.assertEqual(read(encoder.ssz(state), PRESETS[preset], fork).fork, fork)

    def test_the_length_of_the_fixed_part(self):
        for fork, length in FIXED.items():
            state = encoder.random_state(random.Random(1), "mainnet", fork, 0, 0)
            self.assertEqual(struct.unpack_from("<I", encoder.ssz(state), 524464)[0], length)
            self.assertEqual(beacon_state(fork, PRESETS["mainnet"]).fixed, length)

    def test_every_byte_of_the_layout(self):
        """Of every fork the record, the keys and the rest are those that the encoder wrote."""
        for fork in encoder.FORKS:
            state = minimal(fork, 3)
            for data in encoder.ssz(state), encoder.text(state):
                found = read(data)
                file = b"".join(opening.record_file.pieces(found.record(encoder.SETTINGS["minimal"])))
                self.assertEqual(file, encoder.record(state, encoder.SETTINGS["minimal"]))
                self.assertEqual([found.keys()[i] for i in range(3)], [v["pubkey"] for v in state["validators"]])
                self.assertEqual(list(found.credentials()), [v["withdrawal_credentials"][0] for v in state["validators"]])
                self.assertEqual(found.number("genesis_time"), state["genesis_time"])

    def test_lists_of_electra_are_tested(self):
        for fork in "electra", "fulu":
            data = encoder.ssz(minimal(fork))
            self.assertIn("pending_consolidations, byte ", self.said(data[:-1])[1])
            self.assertIn("no whole number of entries of 16", self.said(data + b"\0")[1])
            state = minimal(fork)
            text = encoder.text({**state, "pending_deposits": [{**state["pending_deposits"][0], "signature": bytes(95)}]})
            self.assertIn("pending_deposits[0].signature, byte ", self.said(text)[1])
        state = minimal("fulu")
        short = encoder.text({**state, "proposer_lookahead": state["proposer_lookahead"][1:]})
        self.assertIn("proposer_lookahead, byte ", self.said(short)[1])

    def test_another_fork_by_its_name(self):
        gloas = minimal("fulu")
        bid = {**{name: gloas[name] for name in gloas if name != "latest_execution_payload_header"}, "latest_execution_payload_bid": {}}
        for data in encoder.text(gloas, "gloas"), encoder.text(bid), encoder.ssz(versioned(gloas, "gloas")) + b"":
            self.assertEqual((self.said(data)[0], "this is a Gloas state; states of Altair to Fulu are read" in self.said(data)[1]), (1, True))
        # a layout that is not read at all, and fork versions that name it
        longer = lambda fork: patched(encoder.ssz(versioned(minimal("fulu"), fork)), 4272, 1)
        self.assertIn("this is a Gloas state", self.said(longer("gloas"))[1])
        self.assertIn("this is a phase0 state", self.said(longer("phase0"))[1])
        self.assertIn("this is an Electra state by its fork version, but its fixed part", self.said(longer("electra"))[1])
        self.assertIn("Another fork or preset?", self.said(patched(encoder.ssz(minimal("fulu")), 4272, 1))[1])
        self.assertIn("this is a phase0 state", self.said(encoder.text({**minimal("altair"), "previous_epoch_attestations": []}))[1])

    def test_words_that_contradict(self):
        state = versioned(minimal("capella"), "bellatrix")
        code, said = self.said(encoder.ssz(state))
        self.assertEqual(code, 1)
        self.assertIn("fork.current_version, byte 52: Bellatrix, and the layout is that of Capella; --fork capella", said)
        self.assertEqual(self.said(encoder.ssz(state), "--fork", "capella")[0], 0)
        self.assertIn("--fork says Deneb", self.said(encoder.ssz(minimal("electra")), "--fork", "deneb")[1])
        self.assertIn("version, byte", self.said(encoder.text(minimal("capella"), "deneb"))[1])
        self.assertIn("no state of Deneb", self.said(encoder.text(minimal("bellatrix")), "--fork", "deneb")[1])
        header = minimal("capella")["latest_execution_payload_header"]
        mixed = encoder.text(minimal("electra", latest_execution_payload_header=header))
        self.assertIn("the fields are those of Capella, and the state is of Electra", self.said(mixed)[1])

    def test_versions_of_a_network(self):
        """A network's own fork versions, of its settings."""
        config = b"PRESET_BASE: minimal\nCAPELLA_FORK_VERSION: 0x90000072\nGLOAS_FORK_VERSION: 0x90000076\n"
        config += b"".join(b"%s: 4\n" % name for name in b"""INACTIVITY_SCORE_BIAS INACTIVITY_SCORE_RECOVERY_RATE CHURN_LIMIT_QUOTIENT
            MIN_VALIDATOR_WITHDRAWABILITY_DELAY EJECTION_BALANCE MIN_PER_EPOCH_CHURN_LIMIT""".split())
        settings = from_files([("config", config)])
        self.assertEqual(settings.fork_named(bytes.fromhex("90000076")), "gloas")
        self.assertIsNone(settings.fork_named(VERSIONS["gloas"]))
        with self.assertRaisesRegex(Exception, "config: SHARD_COMMITTEE_PERIOD missing"):
            settings["SHARD_COMMITTEE_PERIOD"]

    def test_no_record_file(self):
        """Of a Deneb state there is none that is closed as Altair; test_electra.py has those of Electra and Fulu."""
        with Directory() as at:
            at.write("state", encoder.ssz(minimal("deneb")))
            for words in ["--pair", "bellatrix"], []:
                said = run("record", "--preset", "minimal", *words, at / "state", at / "made")
                self.assertEqual((said.code, at.names()), (2, ["state"]))
                self.assertIn("say --pair altair, and close the record by altair-close --fork deneb", said.err)


class Electra(unittest.TestCase):
    def test_the_record(self):
        """Document 03, F-2, worked out from the encoder's values."""
        for seed, fork in [(k, fork) for k in range(6) for fork in ("electra", "fulu")]:
            state = encoder.random_state(random.Random(seed), "minimal", fork, 4, 6)
            keys, numbered = [v["pubkey"] for v in state["validators"]], []
            unknown = {}
            for place, d in enumerate(state["pending_deposits"]):
                key = keys.index(d["pubkey"]) if d["pubkey"] in keys else unknown.setdefault(d["pubkey"], 4 + len(unknown))
                valid = int(place not in (1, 5))
                numbered += [key, int(d["withdrawal_credentials"][0] == 2), d["amount"], d["slot"], valid]
            for data in encoder.ssz(state), encoder.text(state):
                found = read(data)
                made = electra.record(found.keys(), found.credentials(), found.queues(), Choice(["1,5"], "these").places)
                self.assertEqual(list(made.compounding), [int(v["withdrawal_credentials"][0] == 2) for v in state["validators"]])
                self.assertEqual(list(made.deposits), numbered)
                self.assertTrue(max(numbered[::5]) < 4 + len(state["pending_deposits"]))
                self.assertEqual(list(made.consolidations), [c[n] for c in state["pending_consolidations"] for n in ("source_index", "target_index")])
                for name in electra.QUEUES:
                    self.assertEqual(getattr(made, name), state[name])

    def test_valid(self):
        """A deposit is taken as valid unsaid; one may be named by its place or key, and a place or key that the queue has not is refused."""
        state = minimal("electra")
        found = read(encoder.ssz(state))
        record = lambda *words: electra.record(found.keys(), found.credentials(), found.queues(), Choice(words, "these").places)
        self.assertEqual(list(record().deposits[4::5]), [1, 1, 1, 1])
        self.assertEqual(list(record("0-1").deposits[4::5]), [0, 0, 1, 1])
        keys = [deposit["pubkey"] for deposit in state["pending_deposits"]]
        self.assertEqual(list(record("0x" + keys[2].hex()).deposits[4::5]), [int(key != keys[2]) for key in keys])
        with self.assertRaisesRegex(Exception, "these: there is no deposit 4: the queue has 4"):
            record("3-4")
        with self.assertRaisesRegex(Exception, "these: no deposit of the queue has the public key 0x0505"):
            record("05" * 48)


def patched(data, at, more):
    """With so much more in the offset that stands there."""
    return data[:at] + struct.pack("<I", struct.unpack_from("<I", data, at)[0] + more) + data[at + 4 :]


if __name__ == "__main__":
    unittest.main()

"""States that are damaged: a message with the field and the byte, never a traceback.

STATE_DAMAGES=COUNT in the environment asks for COUNT random ones."""
import os
import random
import struct
import unittest

import encoder
from tool import Directory, run

COUNT = int(os.environ.get("STATE_DAMAGES", "100"))
SETTINGS = encoder.SETTINGS["minimal"]
# where things stand in a minimal Altair state: the fixed part's offsets by name, and its length
FIXED = 10229
OFFSETS = {
    "historical_roots": 4272,
    "eth1_data_votes": 4348,
    "validators": 4360,
    "balances": 4364,
    "previous_epoch_participation": 6928,
    "current_epoch_participation": 6932,
    "inactivity_scores": 7057,
}
BITS = 6936


def minimal(fork="altair", validators=3, others=2, seed=1):
    return encoder.random_state(random.Random(seed), "minimal", fork, validators, others)


class Damaged(unittest.TestCase):
    def refused(self, data, *parts):
        """The state is refused in one line that has these parts, and nothing is written."""
        with Directory() as at:
            at.write("state", data)
            said = run("record", "--preset", "minimal", "--pair", "altair", at / "state", at / "made")
            self.assertEqual((said.code, at.names()), (1, ["state"]), said.err)
            self.assertEqual(said.err.count("\n"), 1, said.err)
            for part in parts:
                self.assertIn(part, said.err)

    def patched(self, data, at, new):
        return data[:at] + new + data[at + len(new) :]

    def test_the_offsets(self):
        data = encoder.ssz(minimal())
        self.assertEqual(struct.unpack_from("<I", data, OFFSETS["historical_roots"])[0], FIXED)
        for name, at in OFFSETS.items():
            right = struct.unpack_from("<I", data, at)[0]
            for wrong in 0, FIXED - 1, len(data) + 1, 2**32 - 1:
                self.refused(self.patched(data, at, struct.pack("<I", wrong)), f"{name}, byte {at}: ")
            # one further: this list and the one before it are no longer whole, or not as many as the validators
            self.refused(self.patched(data, at, struct.pack("<I", right + 1)), "byte")

    def test_the_values(self):
        data = encoder.ssz(minimal())
        validators = struct.unpack_from("<I", data, OFFSETS["validators"])[0]
        at = validators + 2 * 121 + 88
        self.refused(self.patched(data, at, b"\2"), "validators[2].slashed", f"byte {at}", "2, and at most 1")
        self.refused(self.patched(data, BITS, b"\x10"), "justification_bits", f"byte {BITS}", "16, and at most 15")

    def test_the_counts(self):
        state = minimal()
        for name in "balances", "previous_epoch_participation", "current_epoch_participation", "inactivity_scores":
            for data in encoder.ssz({**state, name: state[name][1:]}), encoder.text({**state, name: state[name][1:]}):
                self.refused(data, f"{name}, byte ", "2 entries, and there are 3 validators")
        self.refused(encoder.ssz(minimal(others=33)), "eth1_data_votes, byte ", "33 entries, and at most 32")
        self.refused(encoder.text(minimal(others=33)), "eth1_data_votes, byte ", "33 entries, and at most 32")
        for name in "block_roots", "slashings", "randao_mixes":
            self.refused(encoder.text({**state, name: state[name][1:]}), f"{name}, byte ", "63 entries, and 64 are wanted")

    def test_cuts(self):
        data = encoder.ssz(minimal())
        self.refused(b"", "genesis_time, byte 0", "bytes 0 to 7 are wanted, and 0 bytes are there")
        self.refused(data[:1000], "block_roots, byte 1000")
        self.refused(data[:-1], "inactivity_scores", "no whole number of entries of 8")
        self.refused(data[:-8], "inactivity_scores", "2 entries, and there are 3 validators")
        self.refused(data + b"\0", "inactivity_scores")

    def test_the_payload_header(self):
        data = encoder.ssz(minimal("bellatrix"))
        extra = minimal("bellatrix")["latest_execution_payload_header"]["extra_data"]
        begin = len(data) - len(extra) - 536
        at = begin + 436
        self.refused(self.patched(data, at, struct.pack("<I", 535)), "latest_execution_payload_header.extra_data", f"byte {at}")
        self.refused(data + bytes(33), "latest_execution_payload_header.extra_data", "at most 32")
        self.refused(data[: begin + 500], "latest_execution_payload_header.block_hash", f"byte {begin + 500}")

    def test_another_preset_or_fork(self):
        mainnet = encoder.random_state(random.Random(1), "mainnet", "altair", 1, 1)
        self.refused(encoder.ssz(mainnet), "historical_roots, byte 4272", "preset?")
        self.refused(encoder.text(minimal(), "phase0"), "this is a phase0 state")
        self.refused(encoder.text(minimal(), "bellatrix"), "version")
        self.refused(encoder.text({**minimal(), "next_withdrawal_index": 5}), "no state of Capella: latest_execution_payload_header, ")
        self.refused(encoder.text({**minimal(), "next_withdrawal_index": 5}, "altair"), "version, byte 1: Altair, and the layout is that of Cap")
        self.refused(encoder.text({**minimal(), "balance": 5}), "'balance', byte ")

    def test_json_values(self):
        state = minimal()
        v = state["validators"][1]
        for name, value, said in [
            ("slot", True, "in quotes is wanted, not true"),
            ("slot", -1, "below 2^64"),
            ("slot", 2**64, "below 2^64"),
            ("balances", [1, 2**64, 3], "balances[1], byte "),
            ("previous_epoch_participation", [1, 2, 256], "previous_epoch_participation[2], byte "),
            ("validators", [v, {**v, "slashed": 1}, v], "validators[1].slashed, byte "),
            ("validators", [v, {**v, "pubkey": bytes(47)}, v], "validators[1].pubkey, byte "),
            ("validators", [v, {**v, "key": 1}, v], "the name 'key' is not known"),
            ("validators", [v, {k: v[k] for k in v if k != "exit_epoch"}, v], "exit_epoch missing"),
            ("validators", [v, [], v], "validators[1], byte "),
            ("validators", {}, "validators, byte "),
            ("block_roots", [bytes(32)] * 63 + [bytes(31)], "block_roots[63], byte "),
            ("justification_bits", b"\x10", "16, and at most 15"),
            ("justification_bits", b"\1\1", "justification_bits, byte "),
            ("finalized_checkpoint", {"epoch": 1}, "finalized_checkpoint, byte "),
            ("finalized_checkpoint", {"epoch": 1, "root": bytes(33)}, "finalized_checkpoint.root, byte "),
            ("current_sync_committee", {"pubkeys": [], "aggregate_pubkey": bytes(48)}, "current_sync_committee.pubkeys, byte "),
        ]:
            with self.subTest(name=name, value=value):
                self.refused(encoder.text({**state, name: value}, "altair"), said)
        self.refused(encoder.text({k: state[k] for k in state if k != "fork"}), "fork missing")

    def test_json_texts(self):
        whole = encoder.text(minimal(), "altair")
        for text, said in [
            (b"{", "byte 1"),
            (b"{}", "missing"),
            (b"  {]", "byte 3"),
            (b'{"data": 5}', "byte 9"),
            (b'{"data": {"slot": NaN}}', "slot, byte 18"),
            (b'{"data": {"slot": ' + b"9" * 9999 + b"}}", "slot, byte 18"),
            (b'{"x": ' + b"[" * 10**6, "x, byte 6"),
            (b'{"slot": "1", "slot": "1"}', "slot, byte"),
            (whole + b"x", f"byte {len(whole)}"),
            (whole.replace(b'"slot"', b'"sl\xc3\xb6t"', 1), "not ASCII"),
            (whole.replace(b'"slot"', b"5", 1), "a name is wanted"),
            (whole.replace(b",", b";", 1), "byte"),
            (whole.replace(b'"slot": "', b'"slot": "x', 1), "slot, byte "),
            (whole.replace(b'"slashed": ', b'"slashed": true, "slashed": ', 1), "the name slashed stands there twice"),
            (b'{"slot": 5}', "slot, byte 9: a number below 2^64 in quotes is wanted, not 5"),
            (b'{"slot": "\xd9\xa3"}', "not ASCII"),
            (b'{"slot": "\\u0663"}', "slot, byte 9"),
            (b'{"slot": "\\ud800"}', "slot, byte 9"),
        ]:
            with self.subTest(text=text[:40]):
                self.refused(text, said)

    def test_random_damages(self):
        """A damaged state is refused, or is a state; then it has a record and comes back from it."""
        rng, taken = random.Random(10), 0
        forms = [form(minimal(fork)) for fork in ("altair", "bellatrix", "deneb") for form in (encoder.ssz, encoder.text)]
        places = list(OFFSETS.values())
        for k in range(COUNT):
            data = bytearray(forms[k % len(forms)])
            if rng.random() < 0.3:
                del data[rng.randrange(len(data)) :][: rng.choice([1, 8, 100, len(data)])]
            if rng.random() < 0.8:
                for _ in range(rng.choice([1, 1, 2, 9])):
                    near = rng.choice(places) + rng.randrange(4) if rng.random() < 0.3 else rng.randrange(len(data))
                    data[min(near, len(data) - 1)] ^= 1 << rng.randrange(8)
            else:
                cut = rng.randrange(len(data))
                data = data[:cut] + rng.randbytes(rng.choice([0, 1, 4, 50])) + data[cut + rng.choice([0, 1, 7]) :]
            with self.subTest(k=k), Directory() as at:
                at.write("state", data)
                said = run("record", "--preset", "minimal", "--pair", "altair", at / "state", at / "made")
                if said.code == 0:
                    taken += 1
                    self.assertEqual(run("back", "--unchecked", "--preset", "minimal", at / "state", at / "made", at / "again").code, 0)
                    self.assertEqual(at.read("again"), bytes(data))
                else:
                    self.assertEqual((said.code, at.names(), said.err.count("\n")), (1, ["state"], 1), said.err)
                    self.assertRegex(said.err, "byte [0-9]+:|missing|version")
        self.assertTrue(COUNT < 50 or 0 < taken < COUNT)

    def test_damaged_records(self):
        """A closed record that is no close of the state is refused; every other byte of it may be anything."""
        state = minimal()
        good = encoder.record(state, SETTINGS)
        rng = random.Random(11)
        with Directory() as at:
            at.write("state", encoder.ssz(state))

            def back(record):
                at.write("closed", record)
                return run("back", "--unchecked", "--preset", "minimal", "--force", at / "state", at / "closed", at / "made")

            for at_byte, new, part in [
                (0, b"\3", "header, byte 0: 3, and 1 or 2 is wanted"),
                (0, b"\1", "header, byte 8: "),
                (16, b"\4", "header, byte 8"),
                (232, bytes([good[232] ^ 1]), "slot, byte 232"),
                (240, b"\x10", "justification_bits, byte 240: 16"),
                (384 + 8, b"\2", "validators[0].slashed, byte 392: 2"),
                (384 + 80 + 56 + 1, b"\1", "validators[1].previous_epoch_participation, byte 520"),
                (384 + 160 + 64 + 7, b"\x80", "validators[2].current_epoch_participation, byte 608"),
                (384 + 240 + 33, bytes([good[384 + 240 + 33] ^ 1]), "block_roots[1], byte 656"),
            ]:
                said = back(self.patched(good, at_byte, new))
                self.assertEqual(said.code, 1)
                self.assertIn(f"closed: {part}", said.err)
            for other in minimal(validators=4), {**state, "slashings": [1] * 63}, {**state, "block_roots": [bytes(32)] * 65}:
                self.assertIn("and the state has", back(encoder.record(other, SETTINGS)).err)
            for k in range(COUNT):
                record = bytearray(good)
                record[rng.randrange(len(record))] ^= 1 << rng.randrange(8)
                said = back(record[: rng.randrange(len(record))] if k % 5 == 0 else record)
                self.assertTrue(said.code == 0 or (said.code, said.err.count("\n")) == (1, 1), said.err)


if __name__ == "__main__":
    unittest.main()

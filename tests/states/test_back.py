"""tools/state back: the closed record goes back into its state, and no other record does."""
import unittest

import encoder
import network
from test_statement import CLOSABLE, closed
from tool import Directory, run

import altair_close as altair

SETTINGS = encoder.SETTINGS["minimal"]
NAMES = "effective_balance slashed activation_eligibility_epoch activation_epoch exit_epoch withdrawable_epoch".split()


def put(state, close):
    """The state with the close's numbers, by the encoder's names."""
    rows = [close.registry[10 * i : 10 * i + 10] for i in range(len(state["validators"]))]
    made = {**state, "slashings": list(close.slashings), "justification_bits": bytes([close.finality.justification_bits])}
    made["validators"] = [{**v, **dict(zip(NAMES, row)), "slashed": bool(row[1])} for v, row in zip(state["validators"], rows)]
    for name, place in ("balances", 6), ("previous_epoch_participation", 7), ("current_epoch_participation", 8), ("inactivity_scores", 9):
        made[name] = [row[place] for row in rows]
    for name in "previous_justified_checkpoint", "current_justified_checkpoint", "finalized_checkpoint":
        made[name] = getattr(close.finality, name)._asdict()
    return made


def file_of(state, close, numbers=SETTINGS):
    return encoder.record(put(state, close), numbers)


class Back(unittest.TestCase):
    def back(self, at, *words):
        return run("back", "--preset", "minimal", "--force", *words, at / "state", at / "closed", at / "made")

    def test_the_close_of_each_fork(self):
        for fork in CLOSABLE:
            state = network.state("minimal", fork, 9, 20)
            state["inactivity_scores"] = [1000] * 20  # so that the pair shows
            close = closed(state, "minimal", fork)
            for form in encoder.ssz, encoder.text:
                with Directory() as at:
                    at.write("state", form(state))
                    at.write("closed", file_of(state, close))
                    self.assertEqual(self.back(at), (0, "", b""))
                    self.assertEqual(at.read("made"), form(put(state, close)))

    def test_another_record_s_close(self):
        state = network.state("minimal", "bellatrix", 9, 20)
        state["inactivity_scores"] = [1000] * 20
        close, as_altair = closed(state, "minimal", "bellatrix"), closed(state, "minimal", "altair")
        other = {**state, "balances": [b + 1 for b in state["balances"]]}
        opening = altair.Record.read(encoder.record(state, SETTINGS))
        for record, said in [
            (opening.write(), "justification_bits: 7, and the close of this state under its own rules has 15"),
            (file_of(state, as_altair), "validators[3].balance: "),
            (file_of(other, closed(other, "minimal", "bellatrix")), "validators[0].balance: "),
            (file_of(state, close._replace(slashings=[1] + list(close.slashings)[1:])), "slashings[0]: 1, and "),
        ]:
            with self.subTest(said=said), Directory() as at:
                at.write("state", encoder.ssz(state))
                at.write("closed", record)
                found = self.back(at)
                self.assertEqual((found.code, at.names(), found.err.count("\n")), (1, ["closed", "state"], 1), found.err)
                self.assertIn(said, found.err)
                self.assertEqual(self.back(at, "--unchecked").code, 0)

    def test_a_state_that_cannot_be_closed(self):
        state = network.state("minimal", "altair", 9, 4)
        state["balances"] = [2**64 - 1] * 4
        with Directory() as at:
            at.write("state", encoder.ssz(state))
            at.write("closed", encoder.record(state, SETTINGS))
            found = self.back(at)
            self.assertEqual(found.code, 1)
            self.assertIn("the library refuses to close this state (refused 5", found.err)


if __name__ == "__main__":
    unittest.main()

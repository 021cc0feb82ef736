"""Electra's whole close: the worked record of samples/electra.json, its file, and what is refused of one, held to the library."""
import pickle
import random
import struct
import unittest
from array import array
from pathlib import Path

from altair_close import *
from altair_close import Refused, _electra_file, _layout, electra_close, text
from altair_close.text import Bad

ROOT = Path(__file__).resolve().parents[3]
ETH = 10**9
FAR = FAR_FUTURE_EPOCH


def sample(name="electra"):
    return (ROOT / f"samples/{name}.json").read_text()


FILE = text.write(sample())
RECORD = ElectraRecord.read(FILE)


class Close(unittest.TestCase):
    def test_the_worked_record(self):
        """A top-up, a new key, a deposit of one that leaves now, a key whose deposit is too much; a consolidation that is due and one that is not."""
        closed = RECORD.close()
        self.assertEqual([booked.deposited for booked in closed.booked()], [ETH, 0, 0, 0, 0, 0, 33 * ETH])
        self.assertEqual([(booked.consolidated_out, booked.consolidated_in) for booked in closed.booked()][2:4], [(0, 31500000000), (31500000000, 0)])
        opening = [*RECORD.registry[BALANCE::10], 0]
        for before, after, booked in zip(opening, closed.registry[BALANCE::10], closed.booked()):
            self.assertEqual(before + booked.net, after)
        self.assertEqual((closed.registry[40 + EXIT_EPOCH], closed.registry[40 + WITHDRAWABLE_EPOCH]), (8, 264))
        self.assertEqual((closed.churn, closed.numbers), (ExitChurn(112 * ETH, 8), DepositNumbers(94 * ETH, 6, 6)))
        self.assertEqual(list(closed.compounding), [0, 0, 1, 0, 0, 0, 1])
        self.assertEqual(list(closed.registry[60:]), [33 * ETH, 0, FAR, FAR, FAR, FAR, 33 * ETH, 0, 0, 0])
        self.assertEqual(list(closed.closed.deposits), [6, 0, 100 * ETH, 16, 1, 4, 0, 2 * ETH, 9, 1])
        self.assertEqual(list(closed.deposits), [7, 0, 100 * ETH, 16, 1, 4, 0, 2 * ETH, 9, 1])
        self.assertEqual((list(closed.consolidations), closed.test, closed.raised), ([4, 0], 4, Raised(False, False, False)))
        self.assertEqual(list(RECORD.listing(closed)), (ROOT / "tests/electra.listing").read_text().splitlines())
        self.assertEqual(list(RECORD.listing(closed)), list(RECORD.listing(RECORD.closing())))
        again = closed._replace(finality=closed.finality._replace(slot=39)).close()
        self.assertEqual((len(again.compounding), list(again.booked())[7].deposited), (8, 100 * ETH))
        self.assertEqual(list(again.deposits), [4, 0, 2 * ETH, 9, 1])
        self.assertRaises(ValueError, again._replace(roots=again.roots).booked)

    def test_what_is_lent(self):
        """Buffers of the caller's, of which what stands behind stays; and what a refused close leaves in them."""
        out = [array("Q", [7] * count) for count in (100, 10, 64, 20, 4, 120)]
        closed = RECORD.closing(out=out)
        self.assertEqual([len(view) for view in closed[3:9]], [70, 7, 64, 10, 2, 84])
        for lent, view in zip(out, closed[3:9]):
            self.assertEqual(list(lent), [*view, *[7] * (len(lent) - len(view))])
        refused = ElectraRecord.read(text.write(sample("electra_refused_5")))
        out = [array("Q", [7] * count) for count in (70, 7, 64, 5, 0, 84)]
        with self.assertRaises(Refused) as caught:
            refused.closing(out=out)
        self.assertEqual(caught.exception.number, 5)
        for lent, opening in zip(out, (refused.registry, refused.compounding, refused.slashings, refused.deposits, refused.consolidations, [0] * 72)):
            self.assertEqual(list(lent), [*opening, *[7] * (len(lent) - len(opening))])
        for place, argument in enumerate(("closing_registry", "closing_compounding", "closing_slashings", "closing_deposits", "closing_consolidations", "amounts")):
            wrong = [None] * 6
            wrong[place] = array("Q", [0] * 1000)
            with self.assertRaises(Refused) as caught:
                RECORD.closing(out=wrong)
            self.assertEqual((caught.exception.number, caught.exception.fault.argument), (1, argument))
        self.assertRaises(TypeError, electra_close, *RECORD, out=(None,) * 5)

    def test_it_can_be_pickled(self):
        closed = RECORD.close()
        for value in RECORD, closed:
            again = pickle.loads(pickle.dumps(value))
            self.assertEqual((type(again), again.write()), (type(value), value.write()))
        again = pickle.loads(pickle.dumps(closed))
        self.assertEqual((list(again.booked()), again.raised, again.test), (list(closed.booked()), closed.raised, closed.test))

    def test_nobody(self):
        nothing = RECORD._replace(registry=[], compounding=[], deposits=[], consolidations=[])
        closed = nothing.close()
        self.assertEqual((list(closed.booked()), len(closed.registry)), ([], 0))
        self.assertEqual(ElectraRecord.read(nothing.write()).write(), nothing.write())
        first = nothing._replace(deposits=[1, 0, ETH, 0, 1, 0, 1, ETH, 0, 0, 0, 0, ETH, 0, 1])  # of key 0 one that is not valid, then one that is
        self.assertEqual([booked.deposited for booked in first.close().booked()], [ETH, ETH])


class File(unittest.TestCase):
    def test_there_and_back(self):
        self.assertEqual(RECORD.write(), FILE)
        self.assertTrue(_electra_file.is_electra(FILE))
        self.assertFalse(_electra_file.is_electra(FILE[:-1]))
        closed = RECORD.close()
        self.assertEqual(ElectraRecord.read(closed.write()).write(), closed.write())
        self.assertEqual(text.write("".join(text.show(closed.write()))), closed.write())
        with self.assertRaises(Refused) as caught:
            Record.read(FILE)
        self.assertEqual(caught.exception.number, 6)

    def test_the_text(self):
        import json

        def bad(change, begins):
            given = json.loads(sample())
            change(given)
            with self.assertRaisesRegex(Bad, begins):
                text.write(json.dumps(given))

        bad(lambda given: given.pop("pending_deposits"), 'the record: the key "pending_deposits" is missing')
        bad(lambda given: given["validators"][2].pop("compounding"), r'validators\[2\]: the key "compounding" is missing')
        bad(lambda given: given["settings"].pop("min_activation_balance"), 'settings: the key "min_activation_balance" is missing')
        bad(lambda given: given["pending_deposits"][1].update(pubkey=10), r"pending_deposits\[1\].pubkey: a key below 10")
        bad(lambda given: given["pending_deposits"][1].update(valid=2), r"pending_deposits\[1\].valid: 0 or 1 is wanted, not 2")
        bad(lambda given: given["pending_deposits"][3].update(slot=2**48), r"pending_deposits\[3\].slot: a slot below 2\^48")
        bad(lambda given: given["pending_consolidations"][1].update(target_index=6), r"pending_consolidations\[1\].target_index: .* not 6")
        bad(lambda given: given["validators"][0].update(compounding=2), r"validators\[0\].compounding: 0 or 1 is wanted, not 2")
        bad(lambda given: given["settings"].update(max_pending_deposits_per_epoch=2**48), "settings.max_pending_deposits_per_epoch: ")
        bad(lambda given: given["settings"].update(min_per_epoch_churn_limit_electra=1), "settings.min_per_epoch_churn_limit_electra: at least")
        bad(lambda given: given["settings"].update(max_per_epoch_activation_exit_churn_limit=0), "settings.max_per_epoch_activation_exit_churn_limit: ")
        bad(lambda given: given.update(pending_consolidations=7), "pending_consolidations: a list is wanted")
        bad(lambda given: given.update(earliest_exit_epoch=-1), "earliest_exit_epoch: a number from 0")

    def test_the_same_is_refused_as_by_the_close(self):
        """Of a file with numbers changed in its part, the number that the library's close refuses under by tests 1, 2 and 3; else it is read."""
        pick, seen = random.Random(1), set()
        part = _electra_file.begins(FILE)
        places = (len(FILE) - part) // 8
        for _ in range(3000):
            file = bytearray(FILE)
            for _ in range(pick.choice([1, 1, 2])):
                at = part + 8 * pick.choice([*range(3, 15), *range(3, places)])
                struct.pack_into("<Q", file, at, pick.choice([0, 1, 2, 6, 9, 10, 10**9 - 1, 2**48 - 1, 2**48, FAR]))
            found = _electra_file.fault(memoryview(bytes(file)))
            made = _electra_file.Part(bytes(file))
            rules = ElectraRules(RECORD.rules.settings, made.of(Bellatrix), made.of(Electra))
            lent = RECORD._replace(rules=rules, churn=made.of(ExitChurn), numbers=made.of(DepositNumbers), compounding=made.compounding(),
                                   deposits=made.deposits(), consolidations=made.consolidations())
            try:
                lent.closing()
                number = 0
            except Refused as refused:
                number = refused.number
            seen.add(number)
            self.assertEqual(found.refusal if found else 0, number if number in (1, 2, 3) else 0)
        self.assertLessEqual({0, 1, 2, 3}, seen)

    def test_other_bytes(self):
        part = _electra_file.begins(FILE)
        for wrong in (FILE[:part], FILE[: part + 1], FILE[: part + 119], FILE[:-1], FILE + b"\0", FILE[:part] + b"\2" + FILE[part + 1 :],
                      FILE[: part + 8] + b"\5" + FILE[part + 9 :], b"", FILE[:79], b"\3" + FILE[1:]):
            with self.assertRaises(Refused) as caught:
                ElectraRecord.read(wrong)
            self.assertEqual(caught.exception.number, 6)
        self.assertEqual(_layout.fault(FILE).field, "header: length")


if __name__ == "__main__":
    unittest.main()

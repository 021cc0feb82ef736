"""Records, closes by steps and shelves: any shape of buffer, names in every error, figures of the close, and what goes from process to process."""
import copy
import pickle
import unittest
from array import array

import altair_close as altair
from altair_close import Bellatrix, Checkpoint, Closed, ClosedRecord, Desk, Finality, MINIMAL, Record, Refused, Rules, Store

FAR = altair.FAR_FUTURE_EPOCH
HIT = [32 * 10**9, 0, 0, 0, FAR, FAR, 32 * 10**9, 7, 7, 0]
RECORD = Record(MINIMAL, Finality(31, 3, Checkpoint(1), Checkpoint(2), Checkpoint(1)), array("Q", HIT * 5), array("Q", [0] * 64), bytes(32 * 64))
RICH = MINIMAL._replace(effective_balance_increment=10**12)  # by which every total is raised


def in_rows(numbers, row):
    return memoryview(bytearray(array("Q", numbers))).cast("B").cast("Q", shape=[len(numbers) // row, row])


def run(desk):
    while desk.running.done < 8:
        desk.step()
    desk.carry_out(0)
    return desk.closed()


class Records(unittest.TestCase):
    def wrongly(self, named, function, *arguments, **keywords):
        with self.assertRaises((TypeError, ValueError)) as caught:
            function(*arguments, **keywords)
        self.assertRegex(str(caught.exception), rf"^{named}[\[:.]")
        return type(caught.exception)

    def test_a_close_by_steps_takes_rows(self):
        plain = run(Desk(RECORD, MINIMAL, 1))
        store = Store.of((0, MINIMAL))
        rows = RECORD._replace(registry=in_rows(RECORD.registry, 10), slashings=list(RECORD.slashings), roots=memoryview(RECORD.roots))
        in_a_row = Store(in_rows(store.numbers, 23), 1)
        for record in RECORD, rows:
            for by in MINIMAL, Rules(MINIMAL), store, in_a_row:
                self.assertEqual(run(Desk(record, by, 1)), plain)
                self.assertEqual(list(record.closing(store=by).registry), list(plain.registry))
        self.assertEqual(in_a_row.rules_at(3), store.rules_at(3))
        self.assertEqual((list(in_a_row.entries()), in_a_row.adding(9, MINIMAL).count), (list(store.entries()), 2))

    def test_what_is_wrong_with_a_desk_is_named(self):
        self.assertIs(self.wrongly("record", Desk, MINIMAL, MINIMAL, 1), TypeError)
        self.assertIs(self.wrongly("room", Desk, RECORD, MINIMAL, -1), ValueError)
        self.assertIs(self.wrongly("room", Desk, RECORD, MINIMAL, 1.5), TypeError)
        self.assertIs(self.wrongly("store", Desk, RECORD, 7, 1), TypeError)
        self.assertIs(self.wrongly("store.settings.slots_per_epoch", Desk, RECORD, MINIMAL._replace(slots_per_epoch=-1), 1), ValueError)
        self.assertIs(self.wrongly("record.registry", Desk, RECORD._replace(registry=[0.5]), MINIMAL, 1), TypeError)
        self.assertIs(self.wrongly("record.slashings", Desk, RECORD._replace(slashings=b"1"), MINIMAL, 1), TypeError)
        desk = Desk(RECORD, MINIMAL, 1)
        self.assertIs(self.wrongly("validator", desk.order, "1", 0), TypeError)
        self.assertIs(self.wrongly("start", desk.order, 1, -1), ValueError)
        self.assertIs(self.wrongly("shard_committee_period", desk.carry_out, None), TypeError)

    def test_what_is_wrong_with_a_record_or_store_is_named(self):
        self.assertIs(self.wrongly("fork", RECORD.closing, fork="1"), TypeError)
        self.assertIs(self.wrongly("fork", RECORD.close, fork=-1), ValueError)
        self.assertIs(self.wrongly("bellatrix", RECORD.closing, bellatrix=(1, 2)), TypeError)
        self.assertIs(self.wrongly("bellatrix.proportional_slashing_multiplier_bellatrix", RECORD.closing, bellatrix=Bellatrix(1, -1)), ValueError)
        self.assertIs(self.wrongly("store", RECORD.closing, store=b""), TypeError)
        self.assertIs(self.wrongly("closed", lambda: list(RECORD.listing(None))), TypeError)
        self.assertIs(self.wrongly("roots", RECORD._replace(roots="").write), TypeError)
        self.assertIs(self.wrongly("entries", Store.of, 3), TypeError)
        self.assertIs(self.wrongly("start", Store.of, (-1, MINIMAL)), ValueError)
        self.assertIs(self.wrongly("rules", Store.of, (1, 2)), TypeError)
        self.assertIs(self.wrongly("start", Store().adding, None, MINIMAL), TypeError)
        self.assertIs(self.wrongly("epoch", Store().rules_at, -1), ValueError)
        self.assertIs(self.wrongly("numbers", lambda: list(Store("text", 1).entries())), TypeError)
        self.assertIs(self.wrongly("count", Store([0] * 23, "1").adding, 1, MINIMAL), TypeError)
        self.assertIs(self.wrongly("count", lambda: list(Store([0] * 23, -1).entries())), ValueError)
        self.assertIs(self.wrongly("amounts", RECORD.closing()._replace(amounts=b"").booked), TypeError)

    def test_close_files_takes_whatever_can_be_gone_through(self):
        file = RECORD.write()
        closed = RECORD.close().write()
        for files in [file, file], (file, file), (each for each in (file, bytearray(file))), iter([memoryview(file), file]), {1: file, 2: file}.values():
            self.assertEqual(altair.close_files(files), [closed, closed])
        self.assertEqual(altair.close_files([]), [])
        self.assertIs(self.wrongly("files", altair.close_files, 3), TypeError)
        self.assertIs(self.wrongly("files", altair.close_files, [file, "text"]), TypeError)
        self.assertIs(self.wrongly("fork", altair.close_files, [file], fork="1"), TypeError)
        self.assertIs(self.wrongly("bellatrix", altair.close_files, [file], bellatrix=None), TypeError)

    def test_a_listing_has_the_figures_of_its_close(self):
        """A store whose increment raises every total, beside a record whose own does not."""
        store = Store.of((0, RICH))
        closed = RECORD.close(store=store)
        self.assertEqual((closed.raised, next(RECORD.listing(closed))[-6:]), ((True, True, True), " 1 1 1"))
        self.assertEqual(next(RECORD.listing(RECORD.close()))[-6:], " 0 0 0")
        self.assertEqual(next(RECORD.listing(RECORD.closing(store=store)))[-6:], " 1 1 1")
        self.assertEqual(next(RECORD.listing(run(Desk(RECORD, store, 0))))[-6:], " 1 1 1")
        again = Record.read(closed.write())  # it knows its close no more, and is listed by the record's settings
        self.assertEqual(next(RECORD.listing(again))[-6:], " 0 0 0")
        altered = closed._replace(finality=closed.finality)
        self.assertEqual((next(RECORD.listing(altered))[-6:], pickle.loads(pickle.dumps(altered))), (" 0 0 0", altered))
        self.assertRaisesRegex(ValueError, "^closed: ", lambda: altered.raised)
        # a store of longer epochs than the record's: epoch and charged are by the store as well
        longer = Store.of((0, MINIMAL._replace(slots_per_epoch=4)))
        by_four = RECORD._replace(finality=Finality(31)).close(store=longer)
        self.assertTrue(next(RECORD.listing(by_four)).startswith("epoch 7 "))
        self.assertEqual((closed.closed.rules.settings, by_four.closed.rules), (RICH, longer.rules_at(7)))

    def test_what_is_closed_can_be_pickled(self):
        store = Store.of((0, RICH))
        for value in (RECORD, RECORD.close(store=store), RECORD.closing(store=store), RECORD.close(), store, run(Desk(RECORD, store, 1)), Record.read(RECORD.write()),
                      altair.process_registry_updates(MINIMAL, 31, 1, None, RECORD.registry), Desk(RECORD, store, 1).running):
            for other in pickle.loads(pickle.dumps(value)), copy.deepcopy(value):
                self.assertEqual(other, value)
                self.assertIs(type(other), type(value))
        closed = pickle.loads(pickle.dumps(RECORD.close(store=store)))
        self.assertIsInstance(closed, ClosedRecord)
        self.assertEqual((list(RECORD.listing(closed)), closed.write()), (list(RECORD.listing(RECORD.close(store=store))), RECORD.close(store=store).write()))
        self.assertEqual(next(closed.booked()), next(RECORD.closing(store=store).booked()))
        self.assertIsInstance(closed.closed, Closed)

    def test_orders_stay_after_a_close_that_was_refused(self):
        rich = array("Q", RECORD.registry)
        rich[6] = FAR
        desk = Desk(RECORD._replace(registry=rich), MINIMAL, 2)
        desk.step()
        desk.order(1, 0)
        desk.step()
        with self.assertRaises(Refused) as caught:
            desk.step()  # rewards
        self.assertEqual((caught.exception.number, desk.running.done, desk.running.orders, list(desk.orders)), (5, 9, 1, [1, 0, 0, 0]))


class Why(unittest.TestCase):
    """Refused with 1: the argument and the length called for."""

    def fault(self, function, *arguments, **keywords):
        with self.assertRaises(Refused) as caught:
            function(*arguments, **keywords)
        fault = caught.exception.fault
        self.assertEqual(caught.exception.number, 1)
        self.assertTrue(str(caught.exception).endswith(f": {fault.argument}: {fault.wanted} ({fault.number})"), caught.exception)
        self.assertEqual(pickle.loads(pickle.dumps(caught.exception)).fault, fault)
        return fault.argument, fault.number

    def test_of_each_kind(self):
        r, vast = RECORD, MINIMAL._replace(slots_per_historical_root=65537)
        close = lambda **other: r._replace(**other).closing
        self.assertEqual(self.fault(close(roots=bytes(31))), ("roots", 2048))
        self.assertEqual(self.fault(close(slashings=[0] * 63)), ("slashings", 64))
        self.assertEqual(self.fault(close(registry=HIT * 5 + [1])), ("registry", 50))
        self.assertEqual(self.fault(r.closing, fork=2), ("store", 1))
        self.assertEqual(self.fault(r.closing, out=(array("Q", [0] * 49), None, None)), ("closing_registry", 50))
        self.assertEqual(self.fault(r.closing, out=(None, array("Q", [0] * 63), None)), ("closing_slashings", 64))
        self.assertEqual(self.fault(r.closing, out=(None, None, array("Q", [0] * 44))), ("amounts", 45))
        self.assertEqual(self.fault(altair.get_current_epoch, vast, 1), ("settings", 65536))
        self.assertEqual(self.fault(altair.is_active_validator, HIT[1:], 1), ("validator", 10))
        self.assertEqual(self.fault(altair.get_flag_index_deltas, MINIMAL, 31, 1, 3, 0, r.registry), ("flag_index", 2))
        self.assertEqual(self.fault(altair.get_flag_index_deltas, MINIMAL, 31, 1, 2, 5, r.registry), ("index", 5))
        self.assertEqual(self.fault(altair.process_registry_updates_to, 6, MINIMAL, 31, 1, None, r.registry), ("stop", 5))
        self.assertEqual(self.fault(altair.get_base_reward_per_increment, MINIMAL, 0), ("total", 1))
        self.assertEqual(self.fault(altair.get_participating_balance, MINIMAL, 31, 1, 1, r.registry), ("epoch", 3))
        self.assertEqual(self.fault(altair.unknown_votes, MINIMAL, r.roots, r.finality, r.registry, [0] * 4), ("marks", 5))
        self.assertEqual(self.fault(altair.has_flag, 1, 8), ("flag_index", 7))
        self.assertEqual(self.fault(altair.add_rules, Store(), 1, MINIMAL), ("store", 23))
        self.assertEqual(self.fault(altair.read_rules, Store([0] * 22, 0), 1), ("store", 0))
        self.assertEqual(self.fault(altair.close_shelf, b"ab", [1], 0, Bellatrix(0, 0)), ("lengths", 2))
        self.assertEqual(self.fault(altair.write_file, *r[:2], None, r.registry, r.roots, r.slashings, out=bytearray(9)), ("file", len(r.write())))
        desk = Desk(r, MINIMAL, 0)
        self.assertEqual(self.fault(desk.order, 1, 0), ("running", 1))
        self.assertEqual(self.fault(desk.carry_out, 0), ("running", 8))

    def test_of_another_refusal_there_is_none(self):
        with self.assertRaises(Refused) as caught:
            altair.get_current_epoch(MINIMAL, 2**48)
        self.assertEqual((caught.exception.number, caught.exception.fault), (3, None))


if __name__ == "__main__":
    unittest.main()

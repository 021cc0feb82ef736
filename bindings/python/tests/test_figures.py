"""Every function, at document 01's figures."""
import unittest
from array import array

import altair_close as altair
from altair_close import *

ETH = 10**9
FAR = altair.FAR_FUTURE_EPOCH
HIT = [32 * ETH, 0, 0, 0, FAR, FAR, 32 * ETH, 7, 7, 0]
RECORD = Record(MINIMAL, Finality(31, 3, Checkpoint(1), Checkpoint(2), Checkpoint(1)), HIT * 5, [0] * 64, bytes(32 * 64))


def changed(numbers, **places):
    """numbers with some set, by the names of a validator's places; `at` is the validator"""
    numbers, at = list(numbers), 10 * places.pop("at", 0)
    for name, value in places.items():
        numbers[at + getattr(altair, name.upper())] = value
    return numbers


class Figures(unittest.TestCase):
    def refused(self, number, function, *arguments):
        with self.assertRaises(Refused) as caught:
            function(*arguments)
        self.assertEqual(caught.exception.number, number)
        return caught.exception

    def test_slots_and_epochs(self):
        self.assertEqual(altair.version(), altair.VERSION)
        self.assertEqual(integer_sqrt(160 * ETH), 400000)
        self.assertEqual(integer_sqrt(2**64 - 1), 4294967295)
        self.assertEqual(compute_epoch_at_slot(MAINNET, 127), 3)
        self.assertEqual(compute_start_slot_at_epoch(MAINNET, 3), 96)
        self.refused(5, compute_start_slot_at_epoch, MAINNET, FAR)
        self.assertEqual(compute_activation_exit_epoch(MAINNET, 3), 8)
        self.assertEqual(get_current_epoch(MAINNET, 127), 3)
        self.assertEqual(get_previous_epoch(MAINNET, 127), 2)
        self.assertEqual(get_previous_epoch(MAINNET, 31), 0)
        self.refused(3, get_current_epoch, MAINNET, 2**48)
        self.refused(2, get_current_epoch, MAINNET._replace(slots_per_epoch=0), 127)
        self.refused(1, get_current_epoch, MAINNET._replace(slots_per_historical_root=0), 127)

    def test_opening_hours(self):
        clock, ends = MAINNET_CLOCK, Clock(0, 1, 1)
        self.assertEqual(slot_at_time(clock, 1606824023), 0)
        self.refused(14, slot_at_time, clock, 1606824022)
        self.assertEqual(epoch_at_time(clock, 1635332566), 74240)
        self.assertEqual([is_in_closing_window(clock, 1635332554 + i) for i in (0, 1, 12, 13)], [False, True, True, False])
        self.assertEqual(first_second_of_slot(clock, 2375680), 1635332183)
        self.assertEqual(last_second_of_slot(clock, 2375680), 1635332194)
        self.assertEqual(first_second_of_epoch(clock, 74240), 1635332183)
        self.assertEqual(last_second_of_epoch(clock, 74240), 1635332566)
        self.assertEqual(last_second_of_slot(ends, 2**64 - 1), 2**64 - 1)
        self.refused(5, last_second_of_slot, ends._replace(genesis_time=1), 2**64 - 1)
        self.refused(15, slot_at_time, Clock(9, 0, 0), 8)
        self.refused(2, slot_at_time, Clock(9, 1, 2**48), 8)
        self.refused(14, slot_at_time, Clock(9, 1, 1), 8)

    def test_votes_not_yet_counted(self):
        settings = MAINNET._replace(slots_per_epoch=8, slots_per_historical_root=64, epochs_per_slashings_vector=64)
        standing, roots = Finality(31, 2, Checkpoint(1), Checkpoint(2)), bytes(32 * 64)
        none, some, every = altair.PASSES_IN_NONE, altair.PASSES_IN_SOME, altair.PASSES_IN_ALL
        told = {altair.BOTH_KNOWN: ((2,), every, every), altair.PREVIOUS_UNKNOWN: ((0, 2), some, every),
                altair.CURRENT_UNKNOWN: ((1, 2), every, some), altair.BOTH_UNKNOWN: ((0, 1, 2), some, some)}
        for mark, votes in told.items():
            self.assertEqual(unknown_votes(settings, roots, standing, HIT * 5, [mark] * 5), altair.Votes(*votes))
        early = Finality(8, finalized_checkpoint=Checkpoint(5))
        self.assertEqual(unknown_votes(settings, roots, early, HIT * 5, [3] * 5), ((5,), none, none))
        self.refused(1, unknown_votes, settings, roots, standing, HIT * 5, [0] * 4)
        self.refused(3, unknown_votes, settings, roots, standing, HIT * 5, [4, 0, 0, 0, 0])
        heavy = changed(HIT * 5, effective_balance=FAR)
        self.refused(5, unknown_votes, settings, roots, standing, heavy, [0] * 5)
        self.refused(4, unknown_votes, settings, roots, standing._replace(slot=24), heavy, [0] * 5)

    def test_one_validator(self):
        self.assertTrue(is_active_validator(HIT, 3))
        self.refused(1, is_active_validator, HIT[1:], 3)
        self.assertTrue(is_eligible(MAINNET, 127, HIT))
        self.assertTrue(is_unslashed_participating(MAINNET, 127, 1, 2, HIT))
        self.refused(1, is_unslashed_participating, MAINNET, 127, 1, 1, HIT)
        self.assertEqual(get_base_reward(MAINNET, 160 * ETH, HIT), 5120000)
        self.refused(1, get_base_reward, MAINNET, 0, HIT)
        self.assertEqual(list(increase_balance(HIT, 5)), changed(HIT, balance=32 * ETH + 5))
        self.refused(5, increase_balance, HIT, 2**64 - 1)
        self.assertEqual(list(decrease_balance(HIT, 33 * ETH)), changed(HIT, balance=0))
        waiting = changed(HIT, activation_epoch=FAR)
        self.assertFalse(is_active_validator(waiting, 3))
        self.assertTrue(is_eligible_for_activation(0, waiting))
        self.assertFalse(is_eligible_for_activation_queue(MAINNET, waiting))
        new = changed(waiting, activation_eligibility_epoch=FAR)
        self.assertTrue(is_eligible_for_activation_queue(MAINNET, new))
        self.refused(3, is_eligible_for_activation_queue, MAINNET, changed(new, slashed=2))
        self.assertTrue(has_flag(6, 1))
        self.assertFalse(has_flag(6, 0))
        self.refused(1, has_flag, 6, 8)
        self.assertEqual(add_flag(5, 1), 7)
        missed = changed(HIT, previous_epoch_participation=5, inactivity_score=100)
        self.assertEqual(get_inactivity_penalty_deltas(MAINNET, 127, missed), Deltas(0, 15894))
        bellatrix = Rules(MAINNET, FORK_BELLATRIX, MAINNET_BELLATRIX)
        self.assertEqual(get_inactivity_penalty_deltas(bellatrix, 127, missed), Deltas(0, 47683))
        # the pair is tested under fork 1 alone, the Altair two under either
        bad = Bellatrix(0, FAR)
        self.refused(2, get_inactivity_penalty_deltas, bellatrix._replace(bellatrix=bad), 127, missed)
        self.assertEqual(get_inactivity_penalty_deltas(Rules(MAINNET, FORK_ALTAIR, bad), 127, missed), Deltas(0, 15894))
        none = MAINNET._replace(inactivity_penalty_quotient_altair=0)
        self.refused(2, get_inactivity_penalty_deltas, bellatrix._replace(settings=none), 127, missed)
        self.refused(1, get_inactivity_penalty_deltas, Rules(MAINNET, 2), 127, missed)

    def test_block_roots_and_finality(self):
        roots = bytearray(32 * 8192)
        roots[:32] = bytes([9] * 32)
        roots[32 * 64 : 32 * 65] = bytes([7] * 32)
        for lent in roots, bytes(roots):
            self.assertEqual(get_block_root_at_slot(MAINNET, lent, 8192, 0), bytes([9] * 32))
            self.refused(4, get_block_root_at_slot, MAINNET, lent, 8193, 0)
            self.assertEqual(get_block_root(MAINNET, lent, 127, 2), bytes([7] * 32))
            self.refused(5, get_block_root, MAINNET, lent, 127, FAR)
        # total 3 * 10^9: target 2 * 10^9 justifies, 1999999999 does not
        after = weigh_justification_and_finalization(MAINNET, roots, Finality(127), 3 * ETH, 2 * ETH, 1999999999)
        self.assertEqual(after, Finality(127, 2, current_justified_checkpoint=Checkpoint(2, bytes([7] * 32))))
        self.refused(1, weigh_justification_and_finalization, MAINNET, b"", Finality(127), 3 * ETH, 2 * ETH, 0)
        self.assertEqual(get_finality_delay(MAINNET, 127, 1), 1)
        self.refused(5, get_finality_delay, MAINNET, 127, 3)
        self.assertFalse(is_in_inactivity_leak(MAINNET, 127, 1))
        self.assertTrue(is_in_inactivity_leak(MAINNET, 32 * 6, 0))

    def test_the_registry(self):
        registry = HIT * 5
        self.assertEqual(charged(MAINNET, 127, registry), 5)
        self.assertEqual(charged(MAINNET, 31, registry), 0, "epoch 0 charges nobody")
        slashed = registry[:]
        slashed[41], slashed[44], slashed[45] = 1, 1, 4
        self.assertEqual(charged(MAINNET, 127, slashed), 5, "slashed and gone, withdrawable ahead")
        slashed[45] = 3
        self.assertEqual(charged(MAINNET, 127, slashed), 4, "withdrawable next")
        self.assertEqual(get_total_active_balance(MAINNET, 127, registry), altair.Total(160 * ETH, False))
        self.assertEqual(get_total_active_balance(MAINNET, 127, []), altair.Total(ETH, True), "a total of nobody")
        one = changed(HIT, effective_balance=ETH)
        self.assertEqual(get_total_active_balance(MAINNET, 127, one), altair.Total(ETH, False), "a sum of one increment")
        self.assertEqual(get_participating_balance(MAINNET, 127, 1, 2, registry), altair.Total(160 * ETH, False))
        self.assertEqual(get_validator_churn_limit(MAINNET, 127, registry), 4)
        self.assertEqual(get_base_reward_per_increment(MAINNET, 160 * ETH), 160000)
        self.assertEqual(get_flag_index_deltas(MAINNET, 127, 1, 1, 4, registry), Deltas(2080000, 0))
        missed = changed(registry, at=4, previous_epoch_participation=0)
        self.assertEqual(get_flag_index_deltas(MAINNET, 127, 1, 1, 0, missed), Deltas(1664000, 0))
        self.assertEqual(get_flag_index_deltas(MAINNET, 127, 1, 1, 4, missed), Deltas(0, 2080000))
        self.refused(1, get_flag_index_deltas, MAINNET, 127, 1, 1, 5, missed)
        self.assertEqual(exit_queue(registry), ExitQueue(0, 0))
        left, queue = initiate_validator_exit(MAINNET, 127, 1, None, registry)
        self.assertEqual(list(left), changed(registry, at=1, exit_epoch=8, withdrawable_epoch=264))
        self.assertEqual((queue, exit_queue(left)), (ExitQueue(8, 1), ExitQueue(8, 1)))
        self.assertEqual(exit_queue(initiate_validator_exit(MAINNET, 127, 2, queue, left).registry), ExitQueue(8, 2))
        self.refused(1, initiate_validator_exit, MAINNET, 127, 5, None, registry)
        self.refused(8, initiate_validator_exit, MAINNET, 127, 1, queue, registry)
        self.refused(1, exit_queue, registry[1:])
        self.refused(3, exit_queue, changed(registry, slashed=2))
        self.assertEqual(exit_queue(changed(registry, exit_epoch=0)), ExitQueue(0, 1), "an exit epoch of 0 is counted")

    def test_the_steps(self):
        registry = HIT * 5
        after = process_justification_and_finalization(MAINNET, bytes(32 * 8192), Finality(127), registry)
        self.assertEqual((after.finality.justification_bits, after.finality.current_justified_checkpoint.epoch), (3, 3))
        self.assertEqual((after.raised, after.test), (altair.Raised(False, False, False), 0))
        raised = lambda slot: process_justification_and_finalization(MAINNET, bytes(32 * 8192), Finality(slot), []).raised
        self.assertEqual(raised(127), altair.Raised(True, True, True))
        self.assertEqual(raised(63), altair.Raised(False, False, False), "up to epoch 1")
        scored = changed(registry, inactivity_score=10)
        self.assertEqual(list(process_inactivity_updates(MAINNET, 127, 1, scored)), registry)
        self.refused(5, process_inactivity_updates, MAINNET, 127, 3, scored)
        paid = process_rewards_and_penalties(MAINNET, 127, 1, registry)
        self.assertEqual(paid[BALANCE], 32 * ETH + 1120000 + 2080000 + 1120000)
        waiting = changed(registry, at=1, activation_epoch=FAR)
        none, activated = ExitQueue(0, 0), changed(waiting, at=1, activation_epoch=8)
        updated = process_registry_updates(MAINNET, 127, 1, None, waiting)
        self.assertEqual((list(updated.registry), updated.queue), (activated, none))
        self.assertEqual(list(process_registry_updates_to(2, MAINNET, 127, 1, none, waiting).registry), activated)
        self.assertEqual(list(process_registry_updates_to(1, MAINNET, 127, 1, none, waiting).registry), waiting)
        self.refused(1, process_registry_updates_to, 6, MAINNET, 127, 1, none, waiting)
        self.refused(8, process_registry_updates, MAINNET, 127, 1, ExitQueue(8, 1), waiting)
        ejected = process_registry_updates(MAINNET, 127, 1, none, changed(waiting, at=2, effective_balance=16 * ETH))
        self.assertEqual((ejected.registry[20 + EXIT_EPOCH], ejected.queue), (8, ExitQueue(8, 1)))
        slashings = [0] * 8192
        slashings[3] = 32 * ETH
        slashed = changed(registry, slashed=1, withdrawable_epoch=3 + 8192 // 2)
        self.assertEqual(list(process_slashings(MAINNET, 127, slashings, slashed)), changed(slashed, balance=20 * ETH))
        bellatrix = Rules(MAINNET, FORK_BELLATRIX, MAINNET_BELLATRIX)
        self.assertEqual(list(process_slashings(bellatrix, 127, slashings, slashed)), changed(slashed, balance=13 * ETH))
        low = changed(changed(registry, balance=31749999999), at=1, balance=31750000000)
        self.assertEqual(list(process_effective_balance_updates(MAINNET, low)), changed(low, effective_balance=31 * ETH))
        reset = process_slashings_reset(MAINNET, 127, slashings[:4] + [6] + slashings[5:])
        self.assertEqual(list(reset), slashings)
        turned = process_participation_flag_updates(changed(HIT, current_epoch_participation=5))
        self.assertEqual(list(turned), changed(HIT, previous_epoch_participation=5, current_epoch_participation=0))
        self.refused(1, process_participation_flag_updates, HIT[1:])

    def test_deneb(self):
        """Document 03, F-1: by a churn limit of 10 ten leave in an epoch and eight are activated; by one of 4, four."""
        self.assertEqual((MAINNET_DENEB.max_per_epoch_activation_churn_limit, MINIMAL_DENEB.max_per_epoch_activation_churn_limit), (8, 4))
        leaving, waiting = changed(HIT, effective_balance=16 * ETH), changed(HIT, activation_eligibility_epoch=1, activation_epoch=FAR)
        counted = lambda numbers, place, epoch: list(numbers[place::10]).count(epoch)
        forty = leaving * 20 + HIT * 20 + waiting * 20
        smaller = MAINNET_DENEB._replace(settings=MAINNET._replace(churn_limit_quotient=4))
        for rules, leave, enter in (smaller, 10, 8), (MAINNET_DENEB, 4, 4), (smaller._replace(max_per_epoch_activation_churn_limit=0), 10, 0):
            registry, queue = deneb_process_registry_updates(rules, 127, 1, None, forty)
            self.assertEqual((counted(registry, EXIT_EPOCH, 8), counted(registry, ACTIVATION_EPOCH, 8)), (leave, enter))
            self.assertEqual(queue, exit_queue(registry))
            finality = Finality(127, 0, Checkpoint(0), Checkpoint(0), Checkpoint(1))
            closed = deneb_close(rules, finality, None, forty, [0] * 8192, bytes(32 * 8192))
            self.assertEqual((counted(closed.registry, EXIT_EPOCH, 8), counted(closed.registry, ACTIVATION_EPOCH, 8)), (leave, enter))
            self.assertEqual((closed.queue, closed.rules), (queue, rules))
            for before, after, booked in zip(forty[BALANCE::10], closed.registry[BALANCE::10], closed.booked()):
                self.assertEqual(before + booked.net, after)
        self.refused(2, deneb_process_registry_updates, MAINNET_DENEB._replace(max_per_epoch_activation_churn_limit=2**48), 127, 1, None, forty)

    def test_deneb_at_mainnet_size(self):
        """A churn limit of 10 by 655360 that are active."""
        leaving, waiting = changed(HIT, effective_balance=16 * ETH), changed(HIT, activation_eligibility_epoch=1, activation_epoch=FAR)
        registry = array("Q", leaving) * 20 + array("Q", HIT) * 655340 + array("Q", waiting) * 20
        closing, queue = deneb_process_registry_updates(MAINNET_DENEB, 127, 1, None, registry)
        self.assertEqual(closing[EXIT_EPOCH:200:10].tolist(), [8] * 10 + [9] * 10)
        self.assertEqual(closing[-200 + ACTIVATION_EPOCH :: 10].tolist(), [8] * 8 + [FAR] * 12)
        self.assertEqual(queue, ExitQueue(9, 10))

    def test_a_deneb_record(self):
        """A record closed by Deneb's rules: what Bellatrix's give it where nobody waits."""
        pair = Rules(MINIMAL, FORK_BELLATRIX, MAINNET_BELLATRIX)
        closed = RECORD.close(store=MINIMAL_DENEB)
        self.assertEqual(closed.write(), RECORD.close(store=pair).write())
        self.assertEqual(list(RECORD.listing(closed)), list(RECORD.listing(RECORD.close(store=pair))))

    def test_the_store(self):
        later = MAINNET._replace(min_per_epoch_churn_limit=8)
        bellatrix = Rules(later, FORK_BELLATRIX, MAINNET_BELLATRIX)
        store = Store.of((10, MAINNET), (20, bellatrix))
        self.assertEqual([entry.start for entry in store.entries()], [10, 20])
        self.assertEqual([rules for _, rules in store.entries()], [Rules(MAINNET), bellatrix])
        self.assertEqual((read_rules(store, 19), read_rules(store, FAR)), (Rules(MAINNET), bellatrix))
        self.assertEqual(read_rules(Rules(MAINNET), 0), Rules(MAINNET), "rules alone start at epoch 0")
        self.refused(13, store.rules_at, 9)
        self.refused(13, Store().rules_at, 9)
        self.refused(12, store.adding, 20, MAINNET)
        self.refused(1, store.adding, 30, MAINNET._replace(slots_per_epoch=8))
        self.refused(1, store.adding, 30, Rules(MAINNET, 2))
        self.refused(2, store.adding, 30, bellatrix._replace(bellatrix=Bellatrix(0, 3)))
        self.refused(1, add_rules, store, 30, MAINNET)  # a full store
        self.refused(1, read_rules, Store(store.numbers, 3), 9)
        self.refused(1, read_rules, Store(list(store.numbers)[1:], 1), 9)
        self.refused(1, read_rules, Store([*list(store.numbers)[23:], *list(store.numbers)[:23]], 2), 9)
        # what lies beyond the count is not looked at, and what is handed in stays
        roomy = Store([*list(store.numbers), *[FAR] * 23], 2)
        grown = add_rules(roomy, 30, MAINNET)
        self.assertEqual((read_rules(roomy, 40).fork, grown.count, read_rules(grown, 40).fork), (1, 3, 0))
        self.assertEqual([read_rules(grown, epoch) for epoch in (10, 29)], [read_rules(roomy, epoch) for epoch in (10, 29)])

        settings, record = MINIMAL, RECORD
        store = Store.of((2, settings._replace(base_reward_factor=1)), (3, settings), (4, settings._replace(base_reward_factor=1)))
        self.assertEqual(record.closing(store=store), record.closing())
        self.assertEqual(record.closing(store=Rules(settings)), record.closing())
        self.refused(13, lambda: record.closing(store=Store.of((4, settings))))
        self.refused(13, lambda: record._replace(roots=b"").closing(store=Store()))  # no setting says how many roots are wanted
        self.refused(1, lambda: record._replace(roots=b"").closing(store=store))
        self.refused(13, lambda: record._replace(finality=Finality(2**48)).closing(store=Store.of((2**46, settings))))

    def test_the_shelf(self):
        record = RECORD
        rich = record._replace(registry=changed(HIT * 5, balance=FAR))
        good, overflowing, damaged = record.write(), rich.write(), bytes(80)
        closed = record.close().write()
        found = close_files([good, overflowing, damaged, b"", good])
        self.assertEqual((found[0], found[4]), (closed, closed))
        self.assertEqual([refused.number for refused in found[1:4]], [5, 6, 6])
        self.assertEqual(close_files([]), [])
        under = dict(fork=FORK_BELLATRIX, bellatrix=MAINNET_BELLATRIX)
        self.assertEqual(close_files([good], **under), [record.close(**under).write()])
        self.assertEqual([close_files([good], fork=2)[0].number, close_files([good], fork=1)[0].number], [1, 2])
        # parts of their own: 4 and 5 leave the file's bytes, other refusals the part as it was, and a bad shelf everything
        files, lengths = good + overflowing + damaged, [len(good), len(overflowing), 80]
        closing, answers = bytearray(b"\7" * len(files)), [9, 9, 9]
        shelf = close_shelf(files, lengths, FORK_ALTAIR, Bellatrix(0, 0), out=(closing, None, None, None))
        self.assertEqual((bytes(shelf.closing), list(shelf.answers)), (closed + overflowing + b"\7" * 80, [0, 5, 6]))
        self.refused(1, close_shelf, files, lengths[:2], FORK_ALTAIR, Bellatrix(0, 0))
        self.refused(1, close_shelf, files, [*lengths[:2], 81], FORK_ALTAIR, Bellatrix(0, 0))
        self.refused(1, close_shelf, files[:-1], lengths, FORK_ALTAIR, Bellatrix(0, 0))
        with self.assertRaises(Refused) as caught:
            close_shelf(files, lengths, FORK_ALTAIR, Bellatrix(0, 0), out=(closing, memoryview(bytearray(8)).cast("Q"), None, None))
        self.assertEqual((caught.exception.number, closing[-1]), (1, 7))

    def test_a_close_by_steps(self):
        record = RECORD
        desk = Desk(record, MINIMAL, room=3)
        self.refused(1, desk.order, 1, 0)
        for step in range(8):
            desk.step()
            self.assertEqual(desk.running.done, step + 1)
            if step in (0, 4, 7):
                desk.order(step, 3 if step < 7 else 4)
        self.refused(11, desk.order, 1, 0)
        whole = record.closing()
        self.assertEqual((desk.registry.tobytes(), desk.amounts.tobytes()), (whole.registry.tobytes(), whole.amounts.tobytes()))
        self.assertEqual((desk.running.finality, desk.running.queue, desk.running.test), (whole.finality, whole.queue, whole.test))
        self.assertIsNone(desk.closed())
        self.refused(1, desk.step)
        self.refused(2, desk.carry_out, 2**48)
        self.assertEqual(desk.carry_out(3), [0, 0, 9])
        self.assertEqual((desk.closed().queue, desk.running.orders), (ExitQueue(8, 2), 0))
        for call in (desk.step, lambda: desk.order(1, 0), lambda: desk.carry_out(3)):
            self.assertRaises(altair.Ended, call)
        # a close that is refused: the opening is put back, and the orders stay
        rich = record._replace(registry=changed(HIT * 5, balance=FAR))
        desk = Desk(rich, MINIMAL, room=1)
        desk.step(), desk.order(1, 0), desk.step()
        self.refused(5, desk.step)
        self.assertEqual((desk.running.done, desk.running.refusal, desk.running.orders), (9, 5, 1))
        self.assertEqual((list(desk.registry), set(desk.amounts), desk.closed()), (rich.registry, {0}, None))
        self.assertRaises(altair.Ended, desk.carry_out, 3)
        # what is wrong with an argument is told with its name
        with self.assertRaisesRegex(TypeError, "^store"):
            Desk(record, None, room=1).step()
        for bad in (None, 1, (0,) * 7, altair.Running(done=-1), altair.Running(raised=(1, 0, 0)), altair.Running(queue=None)):
            with self.assertRaisesRegex((TypeError, ValueError), "^running"):
                altair.take_order(bad, 1, 0, desk.orders)
        with self.assertRaisesRegex(TypeError, "^out"):
            altair.take_order(altair.Running(), 1, 0, None)
        with self.assertRaisesRegex(TypeError, "orders"):
            altair.take_order(altair.Running(), 1, 0, [0, 0])

    def test_a_close_by_steps_by_a_store(self):
        record = RECORD
        other = MINIMAL._replace(base_reward_factor=1)
        late, store = Store.of((4, MINIMAL)), Store.of((2, other), (3, MINIMAL), (4, other))
        desk, whole = Desk(record, store, room=1), record.closing()
        for step in range(8):
            desk.step()
            # without an entry for the epoch a later call is turned away alone, also where the record so far is of an earlier epoch
            running = desk.running
            early = running._replace(finality=running.finality._replace(slot=15))
            for desk.store, desk.running in (late, running), (Store(), running), (store, early):
                before = desk.running
                self.refused(13, *([desk.step] if step < 7 else [desk.carry_out, 3]))
                self.assertEqual(desk.running, before)
            desk.store, desk.running = store, running
        self.assertEqual((desk.registry.tobytes(), desk.amounts.tobytes()), (whole.registry.tobytes(), whole.amounts.tobytes()))
        self.assertEqual((desk.carry_out(3), desk.closed().finality), ([], whole.finality))
        # and the first call ends the close as the whole close is refused, and writes nothing
        for none, roots in (late, record.roots), (Store(), b""):
            desk = Desk(record._replace(roots=roots), none, room=1)
            desk.amounts[0] = 7
            self.refused(13, desk.step)
            self.assertEqual((desk.running, desk.amounts[0]), (altair.Running(9, 13, record.finality, ExitQueue(0, 0)), 7))
            self.assertRaises(altair.Ended, desk.step)
        self.refused(1, Desk(record._replace(roots=b""), store, room=1).step)

    def test_net_changes(self):
        """Both ends of the range, and one beyond either."""
        for opening, closing, change in [(7, 7, 0), (32 * ETH, 31996800000, -3200000), (0, 2**63 - 1, 2**63 - 1),
                                         (2**63, 0, -2**63), (2**64 - 1, 2**63 - 1, -2**63)]:
            self.assertEqual(net_change(opening, closing), change)
        for opening, closing in [(0, 2**63), (2**63 + 1, 0), (0, 2**64 - 1), (2**64 - 1, 0)]:
            self.refused(7, net_change, opening, closing)

    def test_the_file_and_the_close(self):
        settings = MAINNET._replace(slots_per_epoch=8, slots_per_historical_root=64, epochs_per_slashings_vector=64)
        finality = Finality(31, 3, Checkpoint(1), Checkpoint(2), Checkpoint(1))
        registry = changed(HIT * 5, at=4, previous_epoch_participation=0, current_epoch_participation=0)
        slashings, roots = [0] * 64, bytes(32 * 64)
        file = write_file(settings, finality, None, registry, roots, slashings)
        self.refused(8, write_file, settings, finality, ExitQueue(7, 0), registry, roots, slashings)
        self.assertEqual(tuple(read_header(file)), (5, 64, 64))
        record = read_file(file)
        self.assertEqual(record, Record.read(file))
        self.assertEqual(record.write(), bytes(file))
        self.assertEqual((record.settings, record.finality, record.roots), (settings, finality, roots))
        self.assertEqual((list(record.registry), list(record.slashings)), (registry, slashings))

        closed = close(settings, finality, record.queue, registry, slashings, roots)
        self.assertEqual(record.close(), Record(settings, closed.finality, closed.registry, closed.slashings, roots, closed.queue))
        self.assertEqual((closed.queue, closed.test), (ExitQueue(0, 0), 4))
        hit, missed = Amounts(896000, 0, 1664000, 0, 896000, 0, 0, 0, 0), Amounts(0, 1120000, 0, 2080000, 0, 0, 0, 0, 0)
        self.assertEqual(list(closed.booked()), [hit] * 4 + [missed])
        self.assertEqual((hit.net, missed.net, list(record.closing().booked())), (3456000, -3200000, [hit] * 4 + [missed]))
        self.assertEqual(record.charged(), 5)
        self.assertEqual(list(closed.registry[BALANCE::10]), [32003456000] * 4 + [31996800000])
        self.assertEqual(closed.finality.finalized_checkpoint.epoch, 2)
        self.assertEqual(list(closed.slashings), slashings)
        head = listing_head(settings, 31, closed.finality, registry)
        self.assertEqual(head, altair.Head(3, 3, 2, 7, 5, altair.Raised(False, False, False)))
        self.assertEqual(closed.raised, head.raised)
        self.assertEqual(next(record.listing(closed)), "epoch 3 justified 3 finalized 2 bits 7 charged 5 0 0 0")
        nobody = record._replace(registry=[0 if i % 10 == CURRENT_EPOCH_PARTICIPATION else n for i, n in enumerate(registry)])
        self.assertTrue(next(nobody.listing(nobody.close())).endswith(" charged 5 0 0 1"))
        last = changed(closed.registry, at=4, effective_balance=8, inactivity_score=9)
        self.assertEqual(listing_line(registry, last, 4), altair.Line(4, 32 * ETH, 31996800000, 8, 9, -3200000))
        self.refused(1, listing_line, registry, last, 5)
        lines = [listing_line(registry, closed.registry, index) for index in range(5)]
        self.assertEqual(list(listing_lines(registry, closed.registry)), lines)
        self.assertEqual(list(record.listing(closed))[5], "4 32000000000 31996800000 32000000000 0 -3200000")
        wide = record._replace(registry=changed(closed.registry, at=4, balance=2**64 - 1))
        self.refused(7, listing_line, registry, wide.registry, 4)
        lines = record.listing(wide)
        self.refused(7, next, lines)  # before the head
        self.refused(5, close, settings, finality, None, changed(registry, balance=2**64 - 1), slashings, roots)
        self.refused(3, close, settings, finality._replace(slot=2**48), None, registry, slashings, roots)
        self.refused(1, close, settings, finality, None, registry, slashings, roots[1:])
        self.refused(8, close, settings, finality, ExitQueue(0, 1), registry, slashings, roots)

        # the second validator's flags are bad: reading stops there
        at = 384 + 80 + 8 * altair.CURRENT_EPOCH_PARTICIPATION
        bad = bytearray(file)
        bad[at + 1] = 1
        self.assertEqual(self.refused(3, read_file, bad).position, at)
        self.assertEqual(self.refused(6, read_file, file[1:]).position, 80)
        self.assertEqual(self.refused(6, read_file, b"").position, 0)
        self.refused(6, read_header, b"")
        self.refused(1, write_file, settings, finality, None, registry[1:], roots, slashings)


if __name__ == "__main__":
    unittest.main()

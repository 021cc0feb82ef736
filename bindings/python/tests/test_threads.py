"""The same closes from many threads as from one, and C runs without the interpreter's lock."""
import sys
import threading
import time
import unittest
from array import array
from concurrent.futures import ThreadPoolExecutor

import altair_close as altair
from altair_close import Checkpoint, Desk, Finality, MINIMAL, Record, Refused, Store, _signatures

FAR = altair.FAR_FUTURE_EPOCH
STORE = Store.of((0, MINIMAL), (4, MINIMAL._replace(base_reward_factor=65)))


def record(place):
    registry = array("Q")
    for i in range(40 + 30 * place):
        n = (1000 * place + i) * 0x9E3779B97F4A7C15 % 2**64 >> 33
        balance = (16 + n % 17) * 10**9
        registry.extend([balance, int(n % 31 == 0), 0, 0, 9 if n % 29 == 0 else FAR, 35 if n % 31 == 0 else FAR, balance + n % 10**9, n % 8, n // 8 % 8, n % 100])
    if place == 3:
        registry[6], registry[7] = FAR, 7  # one that is refused with 5
    return Record(MINIMAL, Finality(31 + 8 * (place % 3), 3, Checkpoint(1), Checkpoint(2)), registry, array("Q", [0] * 63 + [64 * 10**9]), bytes([place]) * 32 * 64)


def closed(opening):
    """All that a thread is handed back of a record: whole, by steps with an order, of a shelf, and the listing."""
    try:
        whole = opening.close(store=STORE)
        desk = Desk(opening, STORE, 1)
        desk.step()
        desk.order(7, 0)
        while desk.running.done < 8:
            desk.step()
        return whole, list(opening.listing(whole)), desk.carry_out(0), desk.closed(), altair.close_files([opening.write()])
    except Refused as refused:
        return refused.number


class Threads(unittest.TestCase):
    def test_the_same_closes(self):
        records = [record(place) for place in range(10)]
        alone = [closed(opening) for opening in records]
        self.assertEqual([place for place, given in enumerate(alone) if given == 5], [3])
        orders = [(5 * thread + 7 * i) % 10 for thread in range(8) for i in range(30)]
        with ThreadPoolExecutor(8) as pool:
            self.assertEqual(list(pool.map(lambda place: closed(records[place]), orders)), [alone[place] for place in orders])

    def test_the_lock_is_let_go(self):
        """While C runs, another thread counts on. No thread is made to give up the lock within the test's time, so that a tick within a call
        is there only where the call has let it go."""
        validators = 200_000
        registry = array("Q", [32 * 10**9, 0, 0, 0, FAR, FAR, 32 * 10**9, 7, 7, 0]) * validators
        out = array("Q", bytes(80 * validators)), array("Q", bytes(8 * 64)), array("Q", bytes(72 * validators))
        opening = MINIMAL, Finality(31, 3, Checkpoint(1), Checkpoint(2)), altair.exit_queue(registry), registry, array("Q", [0] * 64), bytes(32 * 64)
        lent, ticks, ended = {}, [], threading.Event()
        words, close = _signatures.lend("close", (*opening, *out), lent), _signatures.function("close")

        def count():
            while not ended.is_set():
                ticks.append(time.perf_counter())
                time.sleep(0)  # the lock is let go here, and nowhere else

        interval, counting = sys.getswitchinterval(), threading.Thread(target=count)
        sys.setswitchinterval(1000)
        counting.start()
        try:
            for _ in range(20):
                begun = time.perf_counter()
                answer = close(*words)
                end = time.perf_counter()
                self.assertEqual(answer.word0, 0)
                if any(begun < tick < end for tick in ticks):
                    return
            self.fail(f"no tick of {len(ticks)} lies within one of 20 calls")
        finally:
            ended.set()
            time.sleep(0)
            counting.join()
            sys.setswitchinterval(interval)


if __name__ == "__main__":
    unittest.main()

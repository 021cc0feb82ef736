#!/usr/bin/env python3
"""What a close costs from Python, beside the C function: bindings/python/benchmark.py [VALIDATORS] [ROUNDS]

A close into buffers that are lent is held to the C function on the same buffers. One that makes its buffers is held to the C function with
three of malloc's that are freed behind it, as a C program would: memory that is new costs both the same. The rounds alternate, so that what
disturbs one disturbs all, their number is fixed, and the least of each is compared. It exits with 1 where a call costs more than 1.3 times
what it is held to."""
import ctypes
import sys
import time
from array import array

import altair_close
from altair_close import FAR_FUTURE_EPOCH, MAINNET, Checkpoint, ExitQueue, Finality, _signatures

LIMIT = 1.3
LENT, NEW = "the C function, lent buffers", "the C function, new buffers"


def record(validators):
    """Mainnet settings, final two epochs ago, 99 of 100 hit every flag."""
    hit = [32 * 10**9, 0, 0, 0, FAR_FUTURE_EPOCH, FAR_FUTURE_EPOCH, 32 * 10**9, 7, 7, 0]
    missed = hit[:7] + [0, 0, 0]
    registry = array("Q", (hit * 99 + missed) * (validators // 100 + 1))[: 10 * validators]
    for place in range(validators):
        registry[10 * place + altair_close.BALANCE] += place * 7919 % 10**9
    finality = Finality(32 * 200 - 1, 3, Checkpoint(197), Checkpoint(198), Checkpoint(197))
    return MAINNET, finality, ExitQueue(0, 0), registry, array("Q", bytes(8 * 8192)), bytes(32 * 8192)


def least(rounds, calls):
    """The least time of each call in milliseconds."""
    times = dict.fromkeys(calls, float("inf"))
    for _ in range(rounds):
        for name, (call, _) in calls.items():
            began = time.perf_counter()
            call()
            times[name] = min(times[name], 1000 * (time.perf_counter() - began))
    return times


def calls(opening):
    """Each call, and the one that it is held to."""
    settings, finality, queue, registry, slashings, roots = opening
    out = array("Q", bytes(8 * len(registry))), array("Q", bytes(8 * 8192)), array("Q", bytes(72 * (len(registry) // 10)))
    lent = {}
    words = _signatures.lend("close", (*opening, *out), lent)
    close = _signatures.function("close")
    rows = memoryview(registry).cast("B").cast("Q", shape=[len(registry) // 10, 10])
    libc = ctypes.CDLL(None)
    libc.malloc.restype, libc.malloc.argtypes, libc.free.restype, libc.free.argtypes = ctypes.c_void_p, [ctypes.c_size_t], None, [ctypes.c_void_p]
    read, lengths = words[:-6], words[-5::2]

    def new():
        made = [libc.malloc(8 * length) for length in lengths]
        refusal = close(*read, *(word for pair in zip(made, lengths) for word in pair)).word0
        for buffer in made:
            libc.free(buffer)
        return refusal

    made = {
        LENT: (lambda: (close(*words).word0, lent)[0], LENT),  # what is lent stays where it is
        NEW: (new, NEW),
        "close, with out": (lambda: altair_close.close(*opening, out=out), LENT),
        "close, new buffers": (lambda: altair_close.close(*opening), NEW),
        "close, a memoryview of two dimensions": (lambda: altair_close.close(settings, finality, queue, rows, slashings, roots, out=out), LENT),
    }
    try:
        import numpy
    except ImportError:
        return made
    table = numpy.frombuffer(registry, dtype=numpy.uint64).reshape(-1, 10)
    room = numpy.zeros_like(table), numpy.zeros(8192, dtype=numpy.uint64), numpy.zeros((len(table), 9), dtype=numpy.uint64)
    made["close, numpy"] = lambda: altair_close.close(settings, finality, queue, table, slashings, roots, out=room), LENT
    return made


def main(validators=100000, rounds=100):
    made = calls(record(validators))
    assert made[LENT][0]() == made[NEW][0]() == 0, "the record is closed"
    found = least(rounds, made)
    over = False
    for name, milliseconds in found.items():
        ratio = milliseconds / found[made[name][1]]
        over = over or ratio > LIMIT
        print(f"{name:40} {milliseconds:8.3f} ms  {ratio:5.2f}", flush=True)
    return over


if __name__ == "__main__":
    sys.exit(main(*map(int, sys.argv[1:3])))

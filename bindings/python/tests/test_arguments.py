"""No argument of a wrong kind reaches C: each raises TypeError or ValueError with the argument's name."""
import unittest
from array import array
from decimal import Decimal

import altair_close as altair
from altair_close import Checkpoint, Finality, MAINNET, Refused, _arguments as kinds, _signatures

FAR = altair.FAR_FUTURE_EPOCH
VALIDATOR = array("Q", [32 * 10**9, 0, 0, 0, FAR, FAR, 32 * 10**9, 7, 7, 0])
ROOTS = bytes(32 * 8192)


class Odd:
    """What cannot be turned into anything."""

    def __index__(self):
        raise TypeError("odd")


def good(kind):
    """An argument that each function takes, or refuses under a number: a struct's preset where it has one, else one of good parts."""
    if isinstance(kind, kinds.Numbers):
        return VALIDATOR
    if isinstance(kind, kinds.Bytes):
        return ROOTS
    if isinstance(kind, kinds.Struct):
        presets = [value for value in vars(altair).values() if type(value) is kind.given]
        return presets[0] if presets else kind.given(*map(good, kind.parts))
    if isinstance(kind, kinds.Octets):
        return bytes(kind.count)
    if isinstance(kind, kinds.Several):
        return (1,) * kind.count
    values = {kinds.STORE: altair.Rules(MAINNET), kinds.CHANGED_STORE: altair.Store([0] * 23, 0)}
    return values.get(kind, 1)


NEITHER = [1.5, "1", "far", {}, {1}, object(), Odd(), Exception, True, [[1]], [None], [1.0], [-1], [2**64], [True]]
OTHER_BUFFERS = [array("q", range(10)), array("I", range(20)), array("d", range(10)), memoryview(VALIDATOR)[::2]]


def wrong(kind):
    """Arguments of other kinds."""
    if isinstance(kind, kinds.Numbers):
        return [*NEITHER, *OTHER_BUFFERS, 1, MAINNET._asdict(), ROOTS,
                memoryview(bytearray(81))[1:].cast("Q"),  # not aligned
                memoryview(bytearray(80)).cast("Q", shape=[2, 5] if kind.row == 2 else [5, 2]),
                memoryview(bytearray(80)).cast("Q", shape=[1, 1, 10])]
    if isinstance(kind, kinds.Bytes):
        return [*NEITHER, *OTHER_BUFFERS, 1, MAINNET, VALIDATOR, [0] * 32, array("b", [0] * 32)]
    if isinstance(kind, kinds.Number):
        above = [256] if kind is kinds.FLAGS else []
        return [*NEITHER, *OTHER_BUFFERS, None, -1, 2**64, 10**5000, VALIDATOR, ROOTS, MAINNET, Finality(1), *above]
    if isinstance(kind, kinds.Store):
        return [each for each in NEITHER if not isinstance(each, list)] + [None, 1, VALIDATOR, ROOTS, tuple(MAINNET), Finality(127), (127, 0),
                (array("q", [0] * 23), 0), ([0] * 23, -1), ([0] * 23, None), ([0.5], 1), altair.ExitQueue(0, 0), altair.MAINNET_BELLATRIX]
    none = [] if kind.given is altair.ExitQueue else [None]  # of a pair it means that it is worked out
    return [*NEITHER, *OTHER_BUFFERS, *none, 1, VALIDATOR, ROOTS, tuple(MAINNET), list(MAINNET), (127, 0)]


BY_STEPS = "close_step", "take_order", "carry_out"


class Arguments(unittest.TestCase):
    def wrongly(self, named, function, *arguments, **out):
        """The message, of a TypeError or ValueError that begins with the argument's name."""
        with self.assertRaises((TypeError, ValueError)) as caught:
            function(*arguments, **out)
        message = str(caught.exception)
        self.assertRegex(message, rf"^{named}[\[:.]")
        return message

    def test_every_function_with_every_wrong_argument(self):
        tried = 0
        for name, signature in _signatures.SIGNATURES.items():
            if name in BY_STEPS:
                continue  # their buffers stay from call to call: test_figures.py
            read = {argument: kind for argument, kind in signature.arguments.items() if not getattr(kind, "written", None)}
            function = getattr(altair, name)
            for place, (argument, kind) in enumerate(read.items()):
                for value in wrong(kind):
                    arguments = [good(kind) for kind in read.values()]
                    arguments[place] = value
                    with self.subTest(name, argument=argument, value=type(value)):
                        self.wrongly(argument, function, *arguments)
                    tried += 1
        self.assertGreater(tried, 1000)

    def test_every_function_with_good_ones(self):
        for name, signature in _signatures.SIGNATURES.items():
            if name in BY_STEPS:
                continue
            read = [kind for kind in signature.arguments.values() if not getattr(kind, "written", None)]
            try:
                getattr(altair, name)(*map(good, read))
            except Refused:
                pass

    def test_the_calls_that_went_wrong(self):
        v = list(VALIDATOR)
        self.assertEqual(self.wrongly("delta", altair.increase_balance, v, v), "delta: a whole number is wanted, not list")
        self.wrongly("delta", altair.increase_balance, VALIDATOR, VALIDATOR)
        weigh = altair.weigh_justification_and_finalization
        self.wrongly("roots", weigh, MAINNET, Finality(127), ROOTS, 3, 2, 1)
        self.wrongly("total", weigh, MAINNET, ROOTS, Finality(127), VALIDATOR, 2, 1)
        self.wrongly("settings", weigh, Finality(127), ROOTS, MAINNET, 3, 2, 1)
        self.assertRaises(TypeError, weigh, MAINNET, ROOTS, Finality(127), 3, 2)
        self.assertRaises(TypeError, weigh, MAINNET, ROOTS, Finality(127), 3, 2, 1, 0)

    def test_the_field_is_named(self):
        epoch = altair.get_current_epoch
        for field in MAINNET._fields:
            for value in (-1, 2**64, 10**5000):
                self.wrongly(f"settings.{field}", epoch, MAINNET._replace(**{field: value}), 0)
            for value in (None, 1.0, "1", [1], True):
                self.wrongly(f"settings.{field}", epoch, MAINNET._replace(**{field: value}), 0)
        head = lambda finality: altair.listing_head(MAINNET, 127, finality, VALIDATOR)
        for field in ("slot", "justification_bits"):
            self.wrongly(f"closing.{field}", head, Finality(1)._replace(**{field: -1}))
            self.wrongly(f"closing.{field}", head, Finality(1)._replace(**{field: "1"}))
        for field in Finality._fields[2:]:
            self.wrongly(f"closing.{field}", head, Finality(1)._replace(**{field: (1, bytes(32))}))
            for epoch in (-1, None, 2**64, 1.0):
                self.wrongly(f"closing.{field}.epoch", head, Finality(1)._replace(**{field: Checkpoint(epoch)}))
            for root in (None, "0" * 32, 32, [0] * 32, bytes(33), b""):
                self.wrongly(f"closing.{field}.root", head, Finality(1)._replace(**{field: Checkpoint(1, root)}))

    def test_named_tuples_of_another_length(self):
        head = altair.listing_head
        self.wrongly("settings", head, tuple.__new__(altair.Settings, MAINNET[:18]), 0, Finality(1), VALIDATOR)
        self.wrongly("closing", head, MAINNET, 0, tuple.__new__(Finality, (1, 2)), VALIDATOR)
        checkpoint = tuple.__new__(Checkpoint, (1,))
        self.wrongly("closing.finalized_checkpoint", head, MAINNET, 0, Finality(1, finalized_checkpoint=checkpoint), VALIDATOR)

    def test_the_item_is_named(self):
        registry = list(VALIDATOR)
        registry[6] = -1
        self.assertTrue(self.wrongly("registry", altair.charged, MAINNET, 127, registry).startswith("registry[6]: "))

    def test_numbers_of_other_classes(self):
        class Index:
            def __index__(self):
                return 127

        self.assertEqual(altair.get_current_epoch(MAINNET, Index()), 3)
        self.assertEqual(altair.process_slashings_reset(altair.MINIMAL, Index(), [Index()] * 64)[1], 127)
        self.wrongly("validator", altair.is_active_validator, [Decimal("1.5")] * 10, 0)


if __name__ == "__main__":
    unittest.main()

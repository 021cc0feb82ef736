"""The long lists of a state's JSON, read many at a time, say what they say read value by value: values, and what is wrong with them.

STATE_DAMAGES=COUNT in the environment asks for ten times as many random damages."""
import io
import json
import os
import random
import re
import unittest
from array import array
from unittest import mock

import encoder
import tool  # noqa: F401  the tools' folder
from beacon_state import bulk, settings
from beacon_state.errors import Bad
from beacon_state.state_json import MOST, PLACES, ROOTS, Read
from beacon_state.window import Window

COUNT = 10 * int(os.environ.get("STATE_DAMAGES", "100"))
SETTINGS = settings.MINIMAL
ODD = ['"', ",", "{", "}", "[", "]", ":", "0", "00", "-0", "+1", "1_0", " 1", "1 ", "1.0", "1e2", "true", "null", "x", "0x", "\\u0031", " ", "\n", "\x01",
       "18446744073709551616", "99999999999999999999", "256", '","', '"},{"', "é", '"slashed":true,', '"exit_epoch":"', "A"]


def read(text):
    """What is read of a text, or what is said of it."""
    try:
        made = Read(io.BytesIO(text.encode()), SETTINGS)
        return made.registry, bytes(made.keys().data), bytes(made.credentials()), made.slashings, made.roots
    except Bad as bad:
        return str(bad)


def in_short_runs(text):
    with mock.patch.object(bulk, "RUN", 999):
        return read(text)


def by_regular_expression(text):
    with mock.patch.object(bulk, "RUN", 0):
        return read(text)


def by_value(text):
    with mock.patch.multiple(bulk, numbers=lambda *_: 0, roots=lambda *_: 0, validators=lambda *_: 0):
        return read(text)


def spaced(text, *places):
    """Texts with two spaces each in the place of two digits."""
    return [text[: at + 2] + "  " + text[at + 4 :] for at in places]


class Bulk(unittest.TestCase):
    def setUp(self):
        self.rng = random.Random(7)
        self.texts = []
        for count in 12, 20:
            state = encoder.random_state(random.Random(3), "minimal", "altair", count, 2)
            if count == 20:  # as on a network: most validators alike, and numbers of one digit
                for each in state["validators"][2:]:
                    each.update({name: state["validators"][0][name] for name in bulk.SIX})
                for name in list(PLACES)[1:]:
                    state[name] = [self.rng.randrange(10) for _ in range(count)]
            self.texts.append(encoder.text(state, "altair", separators=(",", ":")).decode())
        self.text = self.texts[0]

    def damaged(self):
        """A text with one place or two that are not as they were, in a list that is read many at a time."""
        text = self.rng.choice(self.texts)
        begins = [text.index(f'"{name}":[') for name in ("validators", *MOST, *ROOTS)]
        lists = [(begin, text.index("]", begin)) for begin in begins]
        for _ in range(self.rng.choice((1, 1, 2))):
            begin, end = self.rng.choice(lists)
            at = self.rng.randrange(begin, end)
            kind = self.rng.randrange(4)
            if kind == 0:
                text = text[:at] + self.rng.choice(ODD) + text[at:]
            elif kind == 1:
                text = text[:at] + text[at + self.rng.choice((1, 1, 2, 20)) :]
            elif kind == 2:
                text = text[:at] + self.rng.choice(ODD) + text[at + 1 :]
            else:  # a piece of the list stands there again
                other = self.rng.randrange(begin, end)
                text = text[:at] + text[other : other + self.rng.randrange(1, 60)] + text[at:]
        return text

    def test_a_plain_text_is_taken_in_runs(self):
        begin = self.text.index('"validators":[')
        keys, first, six = bytearray(), bytearray(), array("Q")
        window = Window(io.BytesIO(self.text[begin + len('"validators":[') :].encode()).read)
        with mock.patch.object(bulk, "VALIDATOR", lambda text, at: None):
            self.assertEqual((bulk.validators(window, keys, first, six), len(keys), len(first), len(six)), (11, 11 * 48, 11, 66))

    def test_the_same_is_read(self):
        for text in self.texts:
            self.assertNotIsInstance(self.read_alike(text), str)

    def read_alike(self, text):
        wanted = by_value(text)
        for way in read, in_short_runs, by_regular_expression:
            found = way(text)
            self.assertTrue(found == wanted, f"{str(found)[:200]}, and {str(wanted)[:200]} is wanted")
        return wanted

    def test_what_is_near_to_plain(self):
        """A key's last digit before the credentials' first, two more behind them, which the number before could take, and spaces for two."""
        for text in self.texts:
            for at in list(re.finditer('"0x([0-9a-f]{96})","withdrawal_credentials":"0x([0-9a-f]{64})"', text))[:3]:
                key, credentials = at.span(1), at.span(2)
                moved = text[: key[1] - 1] + text[key[1] : credentials[0]] + text[key[1] - 1] + text[credentials[0] :]
                behind = [text[: credentials[1]] + other + text[credentials[1] :] for other in ("12", '":')]
                marked = text[: credentials[1]] + '":' + text[credentials[1] + 2 :]
                for turned in moved, marked, *behind, *spaced(text, key[0], credentials[0]):
                    self.assertIsInstance(self.read_alike(turned), str)
            for at in re.finditer('"}', text[: text.index('"balances":[')]):  # a number more than six, and one that does not end
                mark, brace = at.start(), at.end() - 1
                for turned in text[:brace] + ',"effective_balance":"5"' + text[brace:], text[:mark] + text[brace:]:
                    self.assertIsInstance(self.read_alike(turned), str)
            for turned in spaced(text, *(text.index('"0x', text.index(f'"{name}":[')) + 3 for name in ROOTS)):
                self.assertIsInstance(self.read_alike(turned), str)
            begin = text.index('["', text.index('"current_epoch_participation":[')) + 1
            for at in range(begin, begin + 12):
                self.assertIsInstance(self.read_alike(f"{text[:at]}x{text[at + 1:]}"), str)

    def test_what_is_damaged(self):
        good = bad = 0
        for _ in range(COUNT):
            wanted = self.read_alike(self.damaged())
            good, bad = good + (not isinstance(wanted, str)), bad + isinstance(wanted, str)
        self.assertGreater(min(good, bad), COUNT // 50)

    def test_what_is_spelt_otherwise_is_not_tried_again_and_again(self):
        state = json.loads(self.text)
        turned = [dict(reversed(list(each.items()))) for each in state["data"]["validators"]]
        state["data"]["validators"] = turned * 200
        for name in PLACES:
            state["data"][name] *= 200
        with mock.patch.object(bulk, "between_middles", side_effect=bulk.between_middles) as tried:
            made = Read(io.BytesIO(json.dumps(state, separators=(",", ":")).encode()), SETTINGS)
        self.assertEqual(len(made.registry), 80 * 12 * 200)
        self.assertTrue(0 < tried.call_count < 40, tried.call_count)


if __name__ == "__main__":
    unittest.main()

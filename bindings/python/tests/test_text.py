"""The text of a record and the command over it: what is no record gets a message with its place, and never a traceback."""
import contextlib
import io
import json
import os
import random
import subprocess
import sys
import tempfile
import unittest
from pathlib import Path

from altair_close import _layout, _record_command, text
from altair_close.text import Bad

ROOT = Path(__file__).resolve().parents[3]
EXAMPLE = (ROOT / "samples/example.json").read_text()


def with_(path, value, source=EXAMPLE):
    """The text of the example with one value changed."""
    data = json.loads(source)
    *places, last = path
    at = data
    for place in places:
        at = at[place]
    if value is None:
        del at[last]
    else:
        at[last] = value
    return json.dumps(data)


class Text(unittest.TestCase):
    def bad(self, given, begins):
        with self.assertRaises(Bad) as caught:
            text.write(given)
        message = str(caught.exception)
        self.assertTrue(message.startswith(begins), message)
        self.assertLess(len(message), 1000)
        return message

    def test_there_and_back(self):
        for sample in sorted((ROOT / "samples").glob("*.json")):
            for version in (1, 2):
                if version == 1 and sample.stem == "refused_8":
                    self.assertRaises(Bad, text.write, sample.read_text(), unchecked=True, version=1)
                    continue
                file = text.write(sample.read_text(), unchecked=True, version=version)
                shown = "".join(text.show(file))
                self.assertEqual(text.write(shown, unchecked=True, version=version), file, sample)
                self.assertEqual("exit_queue" in json.loads(shown), version == 2)

    def test_the_exit_queue(self):
        two = with_(["validators", 1, "exit_epoch"], 9, with_(["validators", 3, "exit_epoch"], 9))
        file = text.write(two)
        self.assertEqual(_layout.numbers(file, 368, 2), (9, 2))
        self.assertEqual(text.write(with_(["exit_queue"], {"last_epoch": 9, "number": 2}, two)), file)
        for last, number, said in ((9, 1, "exit_queue.number: it is 1"), (8, 2, "exit_queue.last_epoch: it is 8")):
            self.bad(with_(["exit_queue"], {"last_epoch": last, "number": number}, two), said)
        self.bad(with_(["exit_queue"], {"last_epoch": 9}, two), 'exit_queue: the key "number" is missing')
        self.bad(with_(["exit_queue"], 9, two), "exit_queue: an object with the keys last_epoch, number is wanted")

    def test_one_set_of_limits(self):
        for name in ("slots_per_historical_root", "epochs_per_slashings_vector"):
            for number in (0, 65537, 2**24, 2**64 - 1):
                self.bad(with_(["settings", name], number), f"settings.{name}: 1 to 65536 is wanted")
        for name in _layout.NOT_ZERO:
            self.bad(with_(["settings", name], 0), f"settings.{name}: ")
        self.bad(with_(["settings", "max_effective_balance"], 2**48), "settings.max_effective_balance: ")
        self.bad(with_(["slot"], 2**48), "slot: ")
        self.bad(with_(["justification_bits"], 16), "justification_bits: ")
        self.bad(with_(["finalized_checkpoint", "epoch"], "far"), "finalized_checkpoint.epoch: ")
        self.bad(with_(["validators", 0, "current_epoch_participation"], 256), "validators[0].current_epoch_participation: ")
        self.bad(with_(["validators", 4, "slashed"], 2), "validators[4].slashed: ")
        self.bad(with_(["exit_queue"], {"last_epoch": 0, "number": 1}), "exit_queue.number: ")
        self.bad(with_(["slashings"], [0] * 65), "slashings: at most 64")
        self.assertEqual(len(text.write(with_(["validators", 4, "slashed"], 2), unchecked=True)), 3344)

    def test_keys(self):
        twice = EXAMPLE.rstrip().rstrip("}") + ', "slot": 31}'
        self.bad(twice, 'the record: the key "slot" stands there twice')
        again = json.dumps(json.loads(EXAMPLE)).replace('"slashed": 0', '"slashed": 0, "slashed": 1', 1)
        self.bad(again, 'validators[0]: the key "slashed" stands there twice')
        self.bad(with_(["slot"], None), 'the record: the key "slot" is missing')
        self.bad(with_(["settings", "more"], 1), 'settings: no key "more" is known')
        self.bad(with_(["settings", "x" * 10**6], 1), 'settings: no key "xxx')

    def test_roots(self):
        for root in (" " + "0" * 63, "00 " * 32, "0" * 63, "0" * 65, "g" * 64, "0" * 64 + "\n", "0x" + "0" * 63, "", 1, [],
                     "\u0660" * 64):
            self.bad(with_(["finalized_checkpoint", "root"], root), "finalized_checkpoint.root: 64 hexadecimal digits")
            self.bad(with_(["block_roots"], ["0" * 64, root]), "block_roots[1]: 64 hexadecimal digits")
        text.write(with_(["finalized_checkpoint", "root"], "0x" + "aB" * 32))

    def test_numbers(self):
        slot = lambda digits: json.dumps(json.loads(EXAMPLE)).replace('"slot": 31', f'"slot": {digits}')
        for digits in ("-1", "-0", "1.0", "1e3", "1e400", "NaN", "Infinity", "18446744073709551616", "9" * 5000, "9" * 10**6,
                       "-" + "9" * 10**6, "0." + "1" * 10**6, "true", "null", '"31"', '"FAR"', "[31]", "{}"):
            self.bad(slot(digits), "slot: a number from 0 to 2^64 - 1")

    def test_what_is_not_json(self):
        for given in ("", "{", "[", "nul", "\ufeff{}", '{"slot": 031}', "{'slot': 31}", EXAMPLE + "x", '"\x01"', '"\\ud800', "\0"):
            self.bad(given, "not JSON: ")
        for given in ("[" * 10**6, '{"a":' * 10**6, "[" * 900 + "]" * 900, with_(["slot"], 1).replace("1", "[" * 10**5, 1)):
            self.bad(given, "")
        for given in ("[]", "1", '"x"', "null", "true", "[" * 90 + "]" * 90):
            self.bad(given, "the record: an object with the keys")

    def test_bent_texts(self):
        """Text bent at random makes a file that is a record, or a message."""
        random_ = random.Random(7)
        pieces = [*'{}[],:"\\-.e0 \n\0', "9" * 30, "null", "true", '"far"', '"slot"', "\ud800"]
        accepted = 0
        short = json.dumps({**json.loads(EXAMPLE), "validators": json.loads(EXAMPLE)["validators"][:1]})
        for _ in range(6000):
            given = short
            for _ in range(random_.choice((1, 1, 2, 5))):
                at = random_.randrange(len(given) + 1)
                given = given[:at] + random_.choice(pieces) + given[at + random_.choice((0, 1, 2, 10)) :]
            try:
                file = text.write(given)
            except Bad as error:
                self.assertLess(len(str(error)), 1000)
            else:
                accepted += 1
                self.assertIsNone(_layout.fault(file))
        self.assertGreater(accepted, 20)


class Command(unittest.TestCase):
    def run_(self, *words, given=b"", **more):
        done = subprocess.run([sys.executable, ROOT / "tools/record", *words], input=given, capture_output=True, **more)
        self.assertNotIn(b"Traceback", done.stderr)
        self.assertNotIn(b"Exception", done.stderr)
        return done.returncode, done.stdout, done.stderr.decode()

    def test_help(self):
        for words in (["--help"], ["-h"], ["write", "--help"]):
            status, out, error = self.run_(*words)
            self.assertEqual((status, error), (0, ""))
            self.assertIn(b"tools/record write", out)
        for words in ([], ["write"], ["write", "a"], ["show", "a", "b", "c"], ["--nothing"], ["write", "--x", "-", "-"],
                      ["show", "--unchecked", "-", "-"], ["write", "--version", "3", "-", "-"], ["write", "-", "-", "--version"],
                      ["show", "--version", "1", "-", "-"]):
            status, out, error = self.run_(*words)
            self.assertEqual((status, out), (2, b""))
            self.assertIn("tools/record write", error)

    def test_there_and_back(self):
        status, file, error = self.run_("write", "-", "-", given=EXAMPLE.encode())
        self.assertEqual((status, error, len(file)), (0, "", 3344))
        status, old, error = self.run_("write", "--version", "1", "-", "-", given=EXAMPLE.encode())
        self.assertEqual((status, error, len(old), old[0]), (0, "", 3328, 1))
        self.assertEqual(self.run_("check", "-", given=old), (0, b"", ""))
        status, shown, error = self.run_("show", "-", "-", given=file)
        self.assertEqual((status, error, json.loads(shown)["slot"]), (0, "", 31))
        self.assertEqual(self.run_("check", "-", given=file), (0, b"", ""))
        bad = bytearray(file)
        bad[449] = 1
        for words in (["check", "-"], ["show", "-", "-"]):
            status, _, error = self.run_(*words, given=bytes(bad))
            self.assertEqual(status, 1)
            self.assertIn("under 3, at byte 448: validators[0].current_epoch_participation: 0 to 255 is wanted, not 263", error)
        bad = bytearray(file)
        bad[376] = 2
        status, _, error = self.run_("check", "-", given=bytes(bad))
        self.assertEqual(status, 1)
        self.assertIn("under 8, at byte 368: exit_queue.number: it is 2, and that of the validators is 0", error)

    def test_what_cannot_be_read_or_written(self):
        with tempfile.TemporaryDirectory() as folder:
            good = Path(folder, "good.json")
            good.write_text(EXAMPLE)
            kept = Path(folder, "kept")
            kept.write_bytes(b"kept")
            Path(folder, "latin").write_bytes(b'{"\xe4": 1}')
            for words, status in (
                (["write", Path(folder, "none"), "-"], 2), (["write", folder, "-"], 2), (["write", good, folder], 2),
                (["write", good, "/dev/full"], 2), (["show", kept, "-"], 1), (["write", kept, kept], 1),
                (["write", Path(folder, "latin"), kept], 1),
            ):
                found, out, error = self.run_(*words)
                self.assertEqual((found, out), (status, b""), words)
                self.assertTrue(error.startswith("record: ") and error.count("\n") == 1, error)
            limited = f"ulimit -f 1; {sys.executable} {ROOT}/tools/record write {good} {kept}"  # 1024 bytes: a full disk
            done = subprocess.run(["bash", "-c", limited], capture_output=True)
            self.assertEqual((done.returncode, done.stderr[:8]), (2, b"record: "))
            self.assertEqual(kept.read_bytes(), b"kept")
            self.assertEqual(sorted(os.listdir(folder)), ["good.json", "kept", "latin"])
            for words in (f"write {good} - >&-", f"write {good} - >/dev/full", "write - - <&-", "--help >&-",
                          f"write {good} - | true", f"write {kept} - 2>&-", f"write {kept} - 2>/dev/full"):
                line = f"{sys.executable} {ROOT}/tools/record {words}"
                done = subprocess.run(["bash", "-c", line], capture_output=True)
                self.assertNotIn(b"Traceback", done.stderr, words)
                self.assertNotIn(b"Exception", done.stderr, words)

    def test_bent_files(self):
        random_, file = random.Random(3), text.write(EXAMPLE)
        with tempfile.TemporaryDirectory() as folder, contextlib.redirect_stderr(io.StringIO()):
            path, out = os.path.join(folder, "file"), os.path.join(folder, "text")
            for _ in range(1500):
                bent = bytearray(file)
                for _ in range(random_.choice((1, 2, 9))):
                    bent[random_.randrange(random_.choice((80, 448, len(bent))))] = random_.randrange(256)
                Path(path).write_bytes(bent[: random_.choice((len(bent), random_.randrange(len(bent))))])
                for words in (["show", path, out], ["check", path], ["write", path, out]):
                    self.assertIn(_record_command.main(words), (0, 1))


if __name__ == "__main__":
    unittest.main()

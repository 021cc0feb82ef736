"""tools/state as a command: names, exit codes, what is there already, full disks and closed pipes."""
import os
import random
import subprocess
import unittest

import encoder
from tool import ROOT, Directory, run_alone

STATE = encoder.random_state(random.Random(1), "minimal", "altair", 3, 2)
RECORD = encoder.record(STATE, encoder.SETTINGS["minimal"])
MINIMAL = ("--preset", "minimal")


class Commands(unittest.TestCase):
    def setUp(self):
        self.at = Directory().__enter__()
        self.addCleanup(self.at.__exit__)
        self.at.write("state", encoder.ssz(STATE))

    def said(self, code, part, *words, **options):
        said = run_alone(*words, **options)
        self.assertEqual(said.code, code, said.err)
        self.assertIn(part, said.err)
        self.assertNotIn("Traceback", said.err)
        return said

    def test_help_and_wrong_command_lines(self):
        for words in ["--help"], ["record", "--help"], ["back", "--help"]:
            self.assertIn(b"usage: tools/state", self.said(0, "", *words).out)
        for words in [], ["other"], ["record"], ["record", "x"], ["back", "x", "y"], ["record", "x", "y", "z"]:
            self.said(2, "usage", *words)
        self.said(2, "invalid choice", "record", "--preset", "other", "x", "y")

    def test_standard_input_and_output(self):
        for form in encoder.ssz(STATE), encoder.text(STATE, "altair"):
            said = self.said(0, "", "record", *MINIMAL, "-", "-", input=form)
            self.assertEqual(said.out, RECORD)
            self.at.write("closed", RECORD)
            self.assertEqual(self.said(0, "", "back", "--unchecked", *MINIMAL, "-", self.at / "closed", "-", input=form).out, form)
        self.assertEqual(self.said(0, "", "back", "--unchecked", *MINIMAL, self.at / "state", "-", "-", input=RECORD).out, encoder.ssz(STATE))
        self.said(1, "standard input: genesis_time, byte 0", "record", "-", "-", input=b"")
        self.said(2, "cannot both be", "back", "-", "-", "-", input=b"")

    def test_what_is_there_stays(self):
        self.at.write("made", b"old")
        self.said(2, "made is there already; --force", "record", *MINIMAL, self.at / "state", self.at / "made")
        self.assertEqual(self.at.read("made"), b"old")
        os.chmod(self.at / "made", 0o640)
        self.said(0, "", "record", *MINIMAL, "--force", self.at / "state", self.at / "made")
        self.assertEqual(self.at.read("made"), RECORD)
        self.assertEqual((self.at / "made").stat().st_mode & 0o777, 0o640)
        # the state itself may be replaced by its own new form
        self.said(0, "", "back", "--unchecked", *MINIMAL, "--force", self.at / "state", self.at / "made", self.at / "state")
        self.assertEqual(self.at.read("state"), encoder.ssz(STATE))
        self.assertEqual(self.at.names(), ["made", "state"])
        # a name that stands for another file keeps doing so
        os.symlink("made", self.at / "link")
        self.said(2, "link is there already", "record", *MINIMAL, self.at / "state", self.at / "link")
        self.said(0, "", "record", *MINIMAL, "--force", self.at / "state", self.at / "link")
        self.assertTrue((self.at / "link").is_symlink())

    def test_names_that_cannot_be(self):
        self.said(2, "nowhere: No such file", "record", self.at / "nowhere", "-")
        self.said(2, "Is a directory", "record", self.at.path, "-")
        self.said(2, "Is a directory", "record", *MINIMAL, self.at / "state", self.at.path)
        self.said(2, "No such file", "record", *MINIMAL, self.at / "state", self.at / "nowhere/made")
        self.said(2, "nowhere: No such file", "record", "--settings", self.at / "nowhere", self.at / "state", "-")
        self.said(2, "exclude each other", "record", "--settings", "x", *MINIMAL, self.at / "state", "-")
        self.assertEqual(self.at.names(), ["state"])

    @unittest.skipUnless(os.path.exists("/dev/full"), "no /dev/full here")
    def test_a_full_disk(self):
        self.said(2, "No space left on device", "record", *MINIMAL, self.at / "state", "/dev/full")
        with open("/dev/full", "wb") as full:
            words = [ROOT / "tools/state", "record", *MINIMAL, self.at / "state", "-"]
            done = subprocess.run(words, stdout=full, stderr=subprocess.PIPE)
        self.assertEqual((done.returncode, done.stderr.count(b"\n")), (2, 2), done.stderr)
        self.assertIn(b"No space left on device", done.stderr)

    def test_no_standard_streams(self):
        """Closed ones, as some schedulers leave them."""
        for words, code, said in [
            ("record --preset minimal - made <&-", 2, b"standard input: it is closed"),
            ("record --preset minimal state - >&-", 2, b"standard output: it is closed"),
            ("record --preset minimal state made 2>&-", 0, b""),
            ("record --preset minimal --force state made 2</dev/null", 0, b""),
        ]:
            done = subprocess.run(["sh", "-c", f"'{ROOT}/tools/state' {words}"], cwd=self.at.path, capture_output=True)
            self.assertEqual((done.returncode, done.stdout), (code, b""), done.stderr)
            self.assertIn(said, done.stderr)
        self.assertEqual(self.at.read("made"), RECORD)

    def test_a_closed_pipe(self):
        reading, writing = os.pipe()
        os.close(reading)
        words = [ROOT / "tools/state", "record", *MINIMAL, self.at / "state", "-"]
        done = subprocess.run(words, stdout=writing, stderr=subprocess.PIPE)
        os.close(writing)
        self.assertEqual(done.returncode, 2)
        self.assertTrue(done.stderr.endswith(b"state: standard output: Broken pipe\n"), done.stderr)


if __name__ == "__main__":
    unittest.main()

"""Reading has a bound, and what is written is there whole or not at all, under no name that may be another's."""
import os
import stat
import tempfile
import unittest
from pathlib import Path
from unittest import mock

from altair_close import Record, Refused, _files, text
from altair_close._errors import Bad

ROOT = Path(__file__).resolve().parents[3]
FILE = text.write((ROOT / "samples/example.json").read_text())


class Files(unittest.TestCase):
    def setUp(self):
        made = tempfile.TemporaryDirectory()
        self.addCleanup(made.cleanup)
        self.folder = Path(made.name)
        self.path = self.folder / "file"

    def names(self):
        return sorted(os.listdir(self.folder))

    def test_the_name_of_another_is_left_alone(self):
        other = self.folder / f"file.{os.getpid()}.new"
        other.write_bytes(b"another's")
        Record.read(FILE).save(self.path)
        self.assertEqual((self.path.read_bytes(), other.read_bytes()), (FILE, b"another's"))
        self.assertEqual(len(self.names()), 2)

    def test_fsync_before_and_after(self):
        done = []
        real = {name: getattr(os, name) for name in ("fsync", "replace")}

        def fsync(handle):
            done.append("folder" if stat.S_ISDIR(os.fstat(handle).st_mode) else "file")
            real["fsync"](handle)

        def replace(*names):
            done.append("moved")
            real["replace"](*names)

        with mock.patch("os.fsync", fsync), mock.patch("os.replace", replace):
            Record.read(FILE).save(self.path)
        self.assertEqual(done, ["file", "moved", "folder"])

    def test_what_fails_leaves_what_stood_there(self):
        self.path.write_bytes(b"kept")

        def parts():
            yield b"half"
            raise KeyboardInterrupt

        with self.assertRaises(KeyboardInterrupt):
            _files.write_whole(self.path, parts())
        self.assertEqual((self.path.read_bytes(), self.names()), (b"kept", ["file"]))
        with mock.patch("os.fsync", side_effect=OSError(28, "No space left on device")), self.assertRaises(OSError) as caught:
            _files.write_whole(self.path, [b"new"])
        self.assertEqual((caught.exception.filename, self.path.read_bytes(), self.names()), (str(self.path), b"kept", ["file"]))

    def test_links_rights_and_what_is_there(self):
        self.path.write_bytes(b"old")
        os.chmod(self.path, 0o640)
        link, dangling = self.folder / "link", self.folder / "dangling"
        link.symlink_to("file")
        dangling.symlink_to("nowhere")
        _files.write_whole(link, [b"new"])
        self.assertTrue(link.is_symlink())
        self.assertEqual((self.path.read_bytes(), stat.S_IMODE(self.path.stat().st_mode)), (b"new", 0o640))
        with self.assertRaises(FileNotFoundError):
            _files.write_whole(dangling, [b"new"])
        for taken in (self.path, link):
            with self.assertRaises(FileExistsError):
                _files.write_whole(taken, [b"newer"], replace=False)
        self.assertEqual((self.names(), self.path.read_bytes()), (["dangling", "file", "link"], b"new"))

        # one that comes while it is written is not replaced either
        with self.assertRaises(FileExistsError), _files.target(self.folder / "late", replace=False) as write:
            write(b"mine")
            (self.folder / "late").write_bytes(b"another's")
        self.assertEqual((self.folder / "late").read_bytes(), b"another's")
        self.assertEqual(len(self.names()), 4)
        was = os.umask(0o027)
        try:
            _files.write_whole(self.folder / "fresh", [b"x"], replace=False)
        finally:
            os.umask(was)
        self.assertEqual(stat.S_IMODE((self.folder / "fresh").stat().st_mode), 0o640)

    def test_reading_has_a_bound(self):
        with self.assertRaises(Refused) as caught:
            Record.open("/dev/zero")
        self.assertEqual(caught.exception.number, 6)
        with self.assertRaises(Refused):
            Record.open("/dev/urandom")
        for reading in (_files.read, _files.read_text):
            self.path.write_bytes(b"x" * 1000)
            self.assertEqual(len(reading(self.path, 1000)), 1000)
            with self.assertRaisesRegex(Bad, "more than 999 bytes"):
                reading(self.path, 999)
        self.path.write_bytes(FILE + b"\0" * 10**6)
        self.assertEqual(_files.read_record(self.path), FILE + b"\0")
        self.path.write_bytes(FILE)
        self.assertEqual((_files.read_record(self.path), _files.read_record_or_text(self.path)), (FILE, (FILE, False)))
        self.path.write_bytes(b" \n" * 200 + b"{}")
        self.assertEqual(_files.read_record_or_text(self.path)[1], True)
        for most in (999, 1000, 10**6):
            self.path.write_bytes(b"x" * 1000)
            if most < 1000:
                self.assertRaises(Bad, _files.source(self.path, most).__enter__)
            else:
                with _files.source(self.path, most) as file:
                    self.assertEqual(bytes(_files.whole(file)), b"x" * 1000)
        self.assertRaises(Bad, _files.source("/dev/zero", 2**21).__enter__)


if __name__ == "__main__":
    unittest.main()

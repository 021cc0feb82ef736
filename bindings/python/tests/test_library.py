"""The library that is opened, what is said where it is none, and the examples of bindings/README.md."""
import ast
import os
import pickle
import re
import shutil
import subprocess
import sys
import tempfile
import unittest
from pathlib import Path
from unittest import mock

from altair_close import VERSION, Refused, _library, text

ROOT = Path(__file__).resolve().parents[3]


def run(code, **more):
    """What a Python of its own prints, and says last."""
    environment = {**os.environ, "PYTHONPATH": str(ROOT / "bindings/python")}
    done = subprocess.run([sys.executable, "-B", "-c", code], capture_output=True, text=True, env={**environment, **more})
    return done.stdout, done.stderr.strip().split("\n")[-1]


class Library(unittest.TestCase):
    def test_one_that_is_none(self):
        call = "import altair_close; altair_close.version()"
        with tempfile.TemporaryDirectory() as folder:
            Path(folder, "text.so").write_text("no library")
            for name, said in (("none.so", "is missing"), ("text.so", "is not the library of the close")):
                path = str(Path(folder, name))
                out, last = run(call, ALTAIR_LIBRARY=path)
                self.assertTrue(last.startswith("ImportError: altair_close: ") and said in last and path in last, last)
        other = next((line.split()[-1] for line in Path("/proc/self/maps").read_text().splitlines() if "libc.so" in line), None)
        if other:
            self.assertIn("is not the library of the close", run(call, ALTAIR_LIBRARY=other)[1])

    def test_a_relative_name_is_that_file_and_no_other(self):
        """dlopen searches the system for a name without a folder: libc.so.6 beside us is none, and must not be the system's."""
        call = "import altair_close; print(altair_close.version())"
        with tempfile.TemporaryDirectory() as folder:
            os.symlink(_library.path(), Path(folder, "mine.so"))
            Path(folder, "libc.so.6").write_text("no library")
            there = f"import os; os.chdir({folder!r}); "
            self.assertEqual(run(there + call, ALTAIR_LIBRARY="mine.so"), (f"{VERSION}\n", ""))
            self.assertEqual(run(there + call, ALTAIR_LIBRARY="./mine.so"), (f"{VERSION}\n", ""))
            self.assertIn(f"{folder}/libc.so.6 is not the library of the close", run(there + call, ALTAIR_LIBRARY="libc.so.6")[1])
            self.assertIn(f"no file {folder}/libm.so.6", run(there + call, ALTAIR_LIBRARY="libm.so.6")[1])

    def test_it_is_imported_wherever_it_stands(self):
        for here in "/altair_close", "/app/altair_close", "/a/b/c/d/e/altair_close":
            with mock.patch.multiple(_library, HERE=Path(here), BESIDE=Path(here, "libaltair.so")), mock.patch.dict(os.environ):
                os.environ.pop("ALTAIR_LIBRARY", None)
                self.assertEqual(_library.places(), [Path(here, "libaltair.so")])
                self.assertRaisesRegex(ImportError, f"no file {here}/libaltair.so. ", _library.path)
        with tempfile.TemporaryDirectory(dir="/tmp") as folder:
            shutil.copytree(ROOT / "bindings/python/altair_close", Path(folder, "altair_close"))
            shutil.copy(_library.path(), Path(folder, "altair_close/libaltair.so"))
            self.assertEqual(run("import altair_close; print(altair_close.version())", PYTHONPATH=folder, ALTAIR_LIBRARY=""), (f"{VERSION}\n", ""))

    def test_another_version(self):
        call = "import altair_close._signatures as s; s.VERSION = 99; s.call('version')"
        self.assertIn("of the interface, and 99 is wanted", run(call)[1])

    def test_a_function_that_is_missing(self):
        call = "import altair_close._signatures as s; s.SIGNATURES['nothing'] = s.SIGNATURES['version']; s.call('version')"
        self.assertIn("has no function altair_nothing", run(call)[1])

    def test_nothing_is_opened_before_the_first_call(self):
        printed = run("import altair_close; print(altair_close.MAINNET.slots_per_epoch)", ALTAIR_LIBRARY="/none")
        self.assertEqual(printed, ("32\n", ""))

    def test_the_syntax_of_every_version(self):
        """Python 3.8 to 3.13 by syntax: the parser of this one takes what that of each has."""
        commands = [path for path in (ROOT / "tools").glob("*") if path.is_file() and "python3" in path.read_text().partition("\n")[0]]
        self.assertGreater(len(commands), 5)
        for path in sorted([*commands, *(ROOT / "tools").glob("**/*.py"), *(ROOT / "bindings/python").glob("**/*.py")]):
            for minor in range(8, 14):
                ast.parse(path.read_text(), str(path), feature_version=(3, minor))

    def test_refused_goes_from_process_to_process(self):
        refused = pickle.loads(pickle.dumps(Refused(3, 432, "slot")))
        self.assertEqual((refused.number, refused.position, refused.field), (3, 432, "slot"))
        self.assertEqual(str(refused), str(Refused(3, 432, "slot")))

    def test_the_example_of_the_readme(self):
        readme = (ROOT / "bindings/README.md").read_text()
        code = re.search(r"^    from altair_close import Record, Refused\n(?:    .*\n|\n)*", readme, re.M)[0]
        code = re.sub("^    ", "", code, flags=re.M)
        with tempfile.TemporaryDirectory() as folder:
            for sample, printed in (("example", (ROOT / "tests/example.listing").read_text()), ("first_slot", "refused 4: ")):
                file = text.write((ROOT / f"samples/{sample}.json").read_text())
                Path(folder, "my.record").write_bytes(file)
                out, last = run(f"import os; os.chdir({folder!r})\n{code}", ALTAIR_LIBRARY=str(_library.path()))
                self.assertEqual((out[: len(printed)], last), (printed, ""))


if __name__ == "__main__":
    unittest.main()

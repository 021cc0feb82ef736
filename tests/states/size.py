"""A state of mainnet's size, a million validators, SSZ and JSON, to a page with ten of them: in one command, under 10 seconds and 1 GB."""
import os
import subprocess
import sys
import time
import unittest

from tool import ROOT, Directory

SECONDS, KILOBYTES = 10, 2**20
WORDS = ["--validators", "0,7,99999,500000-500005,999999", "--exit", "0"]


class Size(unittest.TestCase):
    def test_a_million_validators(self):
        self.a_page_of("state")

    def test_a_million_validators_in_json(self):
        self.a_page_of("state.json")

    def test_of_the_later_forks(self):
        for fork in "deneb", "fulu":
            self.a_page_of("state", fork)

    def a_page_of(self, name, fork="capella"):
        with Directory() as at:
            subprocess.run([ROOT / "tests/states/large_state", "1000", at / name, fork], check=True)
            began = time.monotonic()
            child = subprocess.Popen([ROOT / "tools/statement", *WORDS, "--out", at / "page.html", at / name], stderr=subprocess.PIPE)
            said = child.stderr.read()
            _, status, used = os.wait4(child.pid, 0)
            child.returncode = os.waitstatus_to_exitcode(status) if hasattr(os, "waitstatus_to_exitcode") else status
            child.stderr.close()
            took = time.monotonic() - began
            print(f"{name}, {fork}: {took:.1f} s, of them {used.ru_utime + used.ru_stime:.1f} s of the processor, {used.ru_maxrss // 1024} MB", file=sys.stderr)
            self.assertEqual((child.returncode, said), (0, b""))
            self.assertEqual(at.read("page.html").count(b'<tr><td class="left"><b>'), 10)
            self.assertLess(took, SECONDS)
            self.assertLess(used.ru_maxrss, KILOBYTES)


if __name__ == "__main__":
    unittest.main()

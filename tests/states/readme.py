"""The README's way from a node to a statement, command by command, against a node that serves a state of the tests."""
import http.server
import json
import os
import re
import subprocess
import threading
import unittest

import encoder
import worked
from tool import ROOT, Directory

from beacon_state.settings import CONFIG, MAINNET

LISTING = (ROOT / "tests/example.listing").read_text()


def commands():
    section = (ROOT / "README.md").read_text().split("## From a node to a statement\n")[1].split("\n## ")[0]
    return re.findall(r"^    (.+)$", section, re.M)


class Node(http.server.BaseHTTPRequestHandler):
    """A node that has one state, and serves it in the form that is asked for."""

    state, slot = None, 127

    def do_GET(self):
        if self.path == "/eth/v1/config/spec":
            self.send_response(200)
            self.end_headers()
            self.wfile.write(json.dumps({"data": {"PRESET_BASE": "mainnet", **{name: str(MAINNET[name]) for name in CONFIG}}}).encode())
            return
        found = self.path == f"/eth/v2/debug/beacon/states/{self.slot}"
        self.send_response(200 if found else 404)
        self.end_headers()
        if found:
            binary = self.headers["Accept"] == "application/octet-stream"
            self.wfile.write(encoder.ssz(self.state) if binary else encoder.text(self.state, "altair"))

    def log_message(self, *_):
        pass


class Readme(unittest.TestCase):
    def setUp(self):
        self.at = Directory().__enter__()
        self.addCleanup(self.at.__exit__)
        for name in "tools", "target":
            os.symlink(ROOT / name, self.at / name)
        missed = [7, 7, 7, 7, 0]
        Node.state = worked.set_(
            worked.state("mainnet", "altair"), previous_epoch_participation=missed, current_epoch_participation=missed
        )
        server = http.server.HTTPServer(("127.0.0.1", 0), Node)
        threading.Thread(target=server.serve_forever, daemon=True).start()
        self.addCleanup(server.server_close)
        self.addCleanup(server.shutdown)
        self.environment = {**os.environ, "NODE": f"http://127.0.0.1:{server.server_port}", "SLOT": "127", "EPOCH": "3", "no_proxy": "*"}

    def sh(self, command):
        done = subprocess.run(["sh", "-c", command], cwd=self.at.path, env=self.environment, capture_output=True)
        self.assertEqual((done.returncode, done.stderr), (0, b""), command)
        return done.stdout.decode()

    def test_from_a_node_to_a_statement(self):
        page, fetch, statement, record, close, out, back = commands()
        self.assertEqual((self.sh(page), self.sh(fetch)), ("", ""))
        text = self.at.read("statement.html").decode()
        self.assertIn("Statement of epoch 3", text)
        self.assertEqual(text.count("<tr><td class=\"left\"><b>"), 5)
        said = [line.split() for line in self.sh(statement).splitlines()]
        self.assertEqual([line[-6] for line in said if line and line[0].isdigit()], ["32003456000"] * 4 + ["31996800000"])
        self.assertEqual(self.sh(record), "")
        self.assertEqual(self.sh(close), LISTING)
        self.sh(out)
        self.sh(back)
        before, after = Node.state, {**Node.state}
        after["balances"] = [32003456000] * 4 + [31996800000]
        after["previous_epoch_participation"], after["current_epoch_participation"] = [7, 7, 7, 7, 0], [0] * 5
        after["justification_bits"] = b"\7"
        after["previous_justified_checkpoint"] = after["finalized_checkpoint"] = before["current_justified_checkpoint"]
        after["current_justified_checkpoint"] = {"epoch": 3, "root": before["block_roots"][96]}
        self.assertEqual(self.at.read("closed.ssz"), encoder.ssz(after))

    def test_in_json(self):
        _, fetch, _, record, close, *_ = commands()
        self.sh(fetch.replace("-H 'Accept: application/octet-stream' ", ""))
        self.assertTrue(self.at.read("state.ssz").startswith(b"{"))
        self.sh(record)
        self.assertEqual(self.sh(close), LISTING)


if __name__ == "__main__":
    unittest.main()

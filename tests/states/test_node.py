"""tools/statement --node, against nodes that have one state, keep it to themselves, have pruned it, or break off."""
import http.server
import json
import threading
import unittest

import encoder
import network
from test_statement import Case, run

NUMBERS = """SLOTS_PER_EPOCH SLOTS_PER_HISTORICAL_ROOT EPOCHS_PER_SLASHINGS_VECTOR EFFECTIVE_BALANCE_INCREMENT MAX_EFFECTIVE_BALANCE
HYSTERESIS_QUOTIENT HYSTERESIS_DOWNWARD_MULTIPLIER HYSTERESIS_UPWARD_MULTIPLIER BASE_REWARD_FACTOR
MIN_EPOCHS_TO_INACTIVITY_PENALTY INACTIVITY_SCORE_BIAS INACTIVITY_SCORE_RECOVERY_RATE INACTIVITY_PENALTY_QUOTIENT_ALTAIR
PROPORTIONAL_SLASHING_MULTIPLIER_ALTAIR MAX_SEED_LOOKAHEAD MIN_VALIDATOR_WITHDRAWABILITY_DELAY EJECTION_BALANCE
MIN_PER_EPOCH_CHURN_LIMIT CHURN_LIMIT_QUOTIENT""".split()
SPEC = {"PRESET_BASE": "minimal", "SECONDS_PER_SLOT": "6", "SHARD_COMMITTEE_PERIOD": "64", "CAPELLA_FORK_VERSION": "0x03000001"}
SPEC.update({name: str(n) for name, n in zip(NUMBERS, encoder.SETTINGS["minimal"])})


class Server(http.server.BaseHTTPRequestHandler):
    """`answers` has bytes or a status by path; `cut` sends half of what it announces."""

    answers, cut, asked = {}, False, []

    def do_GET(self):
        self.asked.append((self.path, self.headers["Accept"]))
        answer = self.answers.get(self.path, 404)
        self.send_response(answer if isinstance(answer, int) else 200)
        if not isinstance(answer, int):
            self.send_header("Content-Length", len(answer))
        self.end_headers()
        if not isinstance(answer, int):
            self.wfile.write(answer[: len(answer) // 2] if self.cut and "/states/" in self.path else answer)

    def log_message(self, *_):
        pass


class Nodes(Case):
    def setUp(self):
        super().setUp()
        server = http.server.ThreadingHTTPServer(("127.0.0.1", 0), Server)
        threading.Thread(target=server.serve_forever, daemon=True).start()
        self.addCleanup(server.server_close)
        self.addCleanup(server.shutdown)
        self.url = f"http://127.0.0.1:{server.server_port}"
        Server.answers = {"/eth/v1/config/spec": json.dumps({"data": SPEC}).encode(), **self.syncing(200)}
        Server.cut, Server.asked = False, []

    def syncing(self, head):
        return {"/eth/v1/node/syncing": json.dumps({"data": {"head_slot": str(head)}}).encode()}

    def serve(self, epoch, fork="capella"):
        state = network.state("minimal", fork, epoch, 12)
        Server.answers[f"/eth/v2/debug/beacon/states/{8 * epoch + 7}"] = encoder.ssz(state)
        return state

    def test_an_epoch(self):
        path = self.put("state", self.serve(9))
        code, out, err = run("--node", self.url, "--epoch", "9", "--format", "json")
        self.assertEqual((code, err), (0, ""))
        self.assertEqual(json.loads(out)["validators"], self.made(path)["validators"])
        self.assertEqual(Server.asked, [("/eth/v1/config/spec", "application/json"), ("/eth/v2/debug/beacon/states/79", "application/octet-stream")])
        # settings that are named are not asked for
        Server.asked.clear()
        self.assertEqual(run("--node", self.url + "/", "--epoch", "9", "--preset", "minimal")[0], 0)
        self.assertEqual(len(Server.asked), 1)

    def test_a_range(self):
        for epoch in 9, 10, 11:
            self.serve(epoch)
        code, out, err = run("--node", self.url, "--epoch", "9-11", "--format", "json")
        self.assertEqual((code, err), (0, ""))
        self.assertEqual([epoch["epoch"] for epoch in json.loads(out)["epochs"]], ["9", "10", "11"])

    def test_why_not(self):
        asked = ("--node", self.url, "--epoch", "9")
        self.refused(2, "it has no state at slot 79 (404 Not Found): an archive node keeps", *asked)
        Server.answers["/eth/v1/beacon/states/79/root"] = b'{"data": {"root": "0x00"}}'
        for status in 404, 405, 501:
            Server.answers["/eth/v2/debug/beacon/states/79"] = status
            self.refused(2, f"does not serve it ({status}): its debug interface is off", *asked)
        Server.answers.update(self.syncing(70))
        self.refused(2, "slot 79 is ahead: the node's head is slot 70, and the epoch has not ended", *asked)
        self.serve(9)
        Server.cut = True
        self.refused(2, "/eth/v2/debug/beacon/states/79: ", *asked)
        Server.answers.clear()
        self.refused(2, "/eth/v1/config/spec: no answer: --preset or --settings", *asked)
        self.refused(2, "Connection refused", "--node", "http://127.0.0.1:9", "--epoch", "9")

    def test_a_state_of_another_fork(self):
        self.serve(9, "electra")
        Server.answers["/eth/v2/debug/beacon/states/79"] = b"\0" * 20000
        self.refused(1, "slot 79: historical_roots", "--node", self.url, "--epoch", "9")


if __name__ == "__main__":
    unittest.main()

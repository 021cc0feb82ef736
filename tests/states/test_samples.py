"""samples/store_mainnet.txt: mainnet's settings by starting epoch, and a close by it."""
import json
import subprocess
import unittest

import encoder
import network
from test_statement import Case
from tool import ROOT


class MainnetStore(Case):
    def setUp(self):
        super().setUp()
        subprocess.run([ROOT / "tools/store", "write", ROOT / "samples/store_mainnet.txt", self.at / "store"], check=True)

    def at_epoch(self, epoch):
        done = subprocess.run([ROOT / "tools/store", "at", self.at / "store", str(epoch)], capture_output=True)
        return done.returncode, dict(line.split() for line in done.stdout.decode().splitlines())

    def test_what_holds_when(self):
        self.assertEqual(self.at_epoch(74239), (1, {}))
        for epoch, fork in (74240, "altair"), (144895, "altair"), (144896, "bellatrix"), (194048, "bellatrix"):
            code, rules = self.at_epoch(epoch)
            self.assertEqual((code, rules.pop("fork")), (0, fork))
            pair = [rules.pop(name, None) for name in ("inactivity_penalty_quotient_bellatrix", "proportional_slashing_multiplier_bellatrix")]
            self.assertEqual(pair, [None, None] if fork == "altair" else list(map(str, encoder.BELLATRIX_PAIR)))
            self.assertEqual(list(rules.values()), list(map(str, encoder.SETTINGS["mainnet"])))

    def test_a_close_by_it(self):
        """altair-close by the store gives the amounts that a statement gives of the state, under either fork."""
        for fork, epoch in ("altair", 144895), ("bellatrix", 144896), ("capella", 194048):
            state = network.state("mainnet", fork, epoch, 20)
            state["inactivity_scores"] = [1000] * 20
            self.at.write("record", encoder.record(state, encoder.SETTINGS["mainnet"]))
            words = [ROOT / "target/altair/altair-close", "--amounts", "--json", "--store", self.at / "store", self.at / "record"]
            listed = json.loads(subprocess.run(words, capture_output=True, check=True).stdout)["validators"]
            for line, right in zip(listed, self.made(self.put("state", state), preset="mainnet")["validators"], strict=True):
                self.assertEqual({name: str(line[name]) for name in right["amounts"]}, right["amounts"])
            self.assertNotEqual({line["inactivity_taken"] for line in listed}, {0})


if __name__ == "__main__":
    unittest.main()

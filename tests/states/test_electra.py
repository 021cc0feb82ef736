"""Electra and Fulu from a state to a statement, by the library's call; what it is handed is looked at, and what it gives is held to the model of
tests/later_forks."""
import csv
import io
import json
import unittest
import unittest.mock
from array import array
from typing import Any, NamedTuple

import encoder
import network
import tool
from test_statement import Case

import altair_close as altair
from beacon_state.errors import Stopped
from beacon_state.statement import command
from later_forks import calls

ETH, FAR = network.ETH, network.FAR


class Given(NamedTuple):
    finality: Any
    churn: Any
    deposit_balance_to_consume: int
    registry: Any
    compounding: Any
    slashings: Any
    deposits: Any
    consolidations: Any
    amounts: Any


def words(root):
    return [int.from_bytes(root[at : at + 8], "little") for at in range(0, 32, 8)]


def modelled(rules, finality, churn, numbers, **lent):
    """What the model gives for a call of electra_close."""
    points = finality.previous_justified_checkpoint, finality.current_justified_checkpoint, finality.finalized_checkpoint
    flat = {name: bytes(value) if name == "roots" else list(value) for name, value in lent.items()}
    n, d = len(flat["registry"]) // 10, len(flat["deposits"]) // 5
    room = dict(closing_registry=10 * (n + d), closing_compounding=n + d, closing_slashings=len(flat["slashings"]), closing_deposits=5 * d,
                closing_consolidations=len(flat["consolidations"]), amounts=12 * (n + d), places=d)
    (refusal, *answer), written = calls.wanted(dict(
        name="electra_close", rules=[*rules.settings, *rules.bellatrix, *rules.electra], churn=list(churn), numbers=list(numbers),
        finality=[finality.slot, finality.justification_bits, *(word for point in points for word in (point.epoch, *words(point.root)))],
        **flat, **{name: [0] * count for name, count in room.items()}))
    if refusal:
        raise altair.Refused(refusal)
    slot, bits, *rest = answer[:17]
    point = lambda at: altair.Checkpoint(rest[at], b"".join(word.to_bytes(8, "little") for word in rest[at + 1 : at + 5]))
    validators, deposits, consolidations, left, *queue = answer[21:]
    front = lambda name, count: memoryview(array("Q", written[name][:count]))
    return Given(altair.Finality(slot, bits, point(0), point(5), point(10)), altair.ExitChurn(*queue), left, front("closing_registry", 10 * validators),
                 front("closing_compounding", validators), front("closing_slashings", len(flat["slashings"])), front("closing_deposits", 5 * deposits),
                 front("closing_consolidations", 2 * consolidations), front("amounts", 12 * validators))


def key(number):
    return bytes([number]) * 48


def deposit(pubkey, amount, slot=0, first=1):
    return dict(pubkey=pubkey, withdrawal_credentials=bytes([first]) + bytes(31), amount=amount, signature=bytes(96), slot=slot)


def state(fork="electra", validators=20, epoch=9, **changed):
    """Deposits: a top-up of validator 0, a new key's, one of a validator that leaves, a second new key's. One consolidation that is due."""
    made = network.state("minimal", fork, epoch, validators)
    keys = [v["pubkey"] for v in made["validators"]]
    made["validators"][1].update(exit_epoch=epoch - 1, withdrawable_epoch=epoch)
    pending = [deposit(keys[0], ETH), deposit(key(1), 32 * ETH, first=2), deposit(keys[7], 2 * ETH), deposit(key(2), 33 * ETH)]
    made.update(eth1_deposit_index=5, deposit_requests_start_index=5, deposit_balance_to_consume=0, exit_balance_to_consume=0,
                earliest_exit_epoch=0, pending_deposits=pending, pending_consolidations=[dict(source_index=1, target_index=9)])
    return {**made, **changed}


class Electra(Case):
    def setUp(self):
        super().setUp()
        self.handed, close = [], altair.electra_close

        def held_to_the_model(rules, **lent):
            self.handed.append(lent)
            closed, wanted = close(rules, **lent), modelled(rules, **lent)
            for name in Given._fields:
                self.assertEqual(getattr(closed, name), getattr(wanted, name), name)
            return closed

        patch = unittest.mock.patch.object(altair, "electra_close", held_to_the_model)
        patch.start()
        self.addCleanup(patch.stop)

    def text(self, form, *words):
        name = self.at / f"made.{form}"
        command.work(["--preset", "minimal", "--force", "--out", str(name), *map(str, words)])
        return name.read_bytes().decode()

    def made(self, *words):
        return json.loads(self.text("json", *words))

    def test_the_state_as_it_is_handed_in(self):
        for fork in "electra", "fulu":
            for form in encoder.ssz, encoder.text:
                made = self.made(self.put("state", state(fork), form))
                self.assertEqual([epoch["fork"] for epoch in made["epochs"]], [fork])
                lent = self.handed.pop()
                self.assertEqual(lent["deposits"].tolist(), [0, 0, ETH, 0, 1, 20, 1, 32 * ETH, 0, 1, 7, 0, 2 * ETH, 0, 1, 21, 0, 33 * ETH, 0, 1])
                self.assertEqual(lent["consolidations"].tolist(), [1, 9])
                self.assertEqual(lent["compounding"].tolist(), [int(i % 10 == 9) for i in range(20)])
                self.assertEqual((lent["churn"], lent["numbers"]), (altair.ExitChurn(0, 0), altair.DepositNumbers(0, 5, 5)))

    def test_each_line(self):
        """Opening balance, 0 of a new validator, with the twelve amounts is the closing balance; new ones have their deposits' keys."""
        opened = state()
        made = self.made(self.put("state", opened))
        lines = made["validators"]
        # the churn limit is 64 ETH: 1 + 32 are taken, that of the one who leaves is postponed, and 33 more are too much
        self.assertEqual(len(lines), 21)
        self.assertEqual(lines[20]["pubkey"], "0x" + key(1).hex())
        self.assertEqual((lines[20]["opening_balance"], lines[20]["closing_balance"], lines[20]["status"]), ("0", str(32 * ETH), "pending_initialized"))
        self.assertEqual((lines[0]["deposits"], lines[7]["deposits"], lines[20]["deposits"]), (str(ETH), "0", str(32 * ETH)))
        moved = int(lines[9]["consolidations"])
        self.assertEqual((int(lines[1]["consolidations"]), moved > 31 * ETH), (-moved, True))
        for i, line in enumerate(lines):
            by_rule = sum(map(int, line["rewards"].values())) + int(line["deposits"]) + int(line["consolidations"])
            self.assertEqual(int(line["net_change"]), by_rule)
            self.assertEqual(int(line["closing_balance"]) - int(line["opening_balance"]), by_rule)
            self.assertEqual(int(line["opening_balance"]), opened["balances"][i] if i < 20 else 0)
            self.assertEqual(len(line["amounts"]), 12)
        self.assertEqual(sum(int(line["net_change"]) for line in lines), int(made["totals"]["net_change"]))
        self.assertIn("1 validator was made by a deposit; signatures of deposits are not checked here", made["note"])

    def test_named_as_invalid(self):
        path = self.put("state", state())
        for which in "1", "0x" + key(1).hex():
            made = self.made("--invalid-deposits", which, path)
            self.assertEqual((len(made["validators"]), made["note"]), (20, ""))
            self.assertEqual(self.handed[-1]["deposits"].tolist()[4::5], [1, 0, 1, 1])
        with self.assertRaisesRegex(Stopped, "a state before Electra has no pending deposits"):
            command.work(["--preset", "minimal", "--invalid-deposits", "1", str(self.put("state", network.state("minimal", "capella", 9, 4)))])

    def test_those_left_in_the_queue(self):
        """floor(k / p) + max(1, ceil(K / c)), with p 16 and c 64 ETH."""
        made = self.made(self.put("state", state()))
        shown = [(one["place"], one["pubkey"], one["ahead"], one["sum"], one["closes"], one["latest"]) for one in made["pending_deposits"]]
        keys = [v["pubkey"] for v in state()["validators"]]
        self.assertEqual(shown, [("0", "0x" + key(2).hex(), "0", str(33 * ETH), "1", "11"), ("1", "0x" + keys[7].hex(), "1", str(35 * ETH), "1", "11")])
        many = state(pending_deposits=[deposit(key(k), 10 * ETH) for k in range(100, 140)])
        pending = self.made(self.put("state", many))["pending_deposits"]
        self.assertEqual(len(pending), 34)  # 64 ETH took six
        self.assertEqual([one["closes"] for one in pending], [str(k // 16 + max(1, -(-10 * (k + 1) // 64))) for k in range(34)])
        # chosen by a public key that no validator has yet, of a slot that is not finalized
        late = state(pending_deposits=[deposit(key(1), ETH, 70)])
        made = self.made("--validators", "0x" + key(1).hex(), self.put("state", late))
        self.assertEqual((made["validators"], len(made["pending_deposits"])), ([], 1))
        self.assertIn("counted from the close that finds epoch 9 finalized; epoch 8 is now", made["pending_deposits"][0]["why"])
        # the bridge's deposits come first
        waits = state(deposit_requests_start_index=6, pending_deposits=[deposit(key(1), ETH, 8)])
        self.assertIn("the bridge's deposits come first", self.made(self.put("state", waits))["pending_deposits"][0]["why"])

    def test_an_exit_by_balance(self):
        """32 ETH of a limit of 64 ETH, in the closed record: what one that leaves first has used up counts."""
        opened = state(validators=200, epoch=99)
        first = self.made("--exit", "0", self.put("state", opened))["exits"][0]
        self.assertEqual(first["exit_epoch"], str(99 + 1 + 1 + 4))
        self.assertEqual(int(first["withdrawable_epoch"]) - int(first["exit_epoch"]), 256)
        opened = state(validators=200, epoch=99, earliest_exit_epoch=110, exit_balance_to_consume=31 * ETH)
        self.assertEqual(self.made("--exit", "0", self.put("state", opened))["exits"][0]["exit_epoch"], "111")
        opened["exit_balance_to_consume"] = 33 * ETH
        self.assertEqual(self.made("--exit", "0", self.put("state", opened))["exits"][0]["exit_epoch"], "110")

    def test_every_form(self):
        path = self.put("state", state())
        text = self.text("txt", path)
        self.assertIn("- taken + deposited - consolidated_out + consolidated_in = closing balance", text)
        self.assertIn("pending deposits (bounds, not forecasts", text)
        rows = list(csv.DictReader(io.StringIO(self.text("csv", path))))
        self.assertEqual((len(rows), rows[20]["deposited_gwei"], rows[20]["pubkey"]), (21, str(32 * ETH), "0x" + key(1).hex()))
        page = self.text("html", path)
        for part in "Pending deposits", "deposits that the close applied", "taken as valid", key(1).hex(), "moved to another":
            self.assertIn(part, page)

    def test_a_run_over_the_fork(self):
        """Deneb's close and Electra's in one statement: the amounts that Deneb has not are 0."""
        first = network.state("minimal", "deneb", 9, 20)
        made = self.made("--by-epoch", self.put("first", first), self.put("second", state(epoch=10)))
        self.assertEqual([epoch["fork"] for epoch in made["epochs"]], ["deneb", "electra"])
        lines = made["validators"]
        self.assertEqual({len(line["amounts"]) for line in lines}, {12})
        self.assertEqual({line["deposits"] for line in lines if line["first_epoch"] == "9"}, {"0"})
        whole = self.made(self.put("first", first), self.put("second", state(epoch=10)))
        for line in whole["validators"]:
            parts = sum(map(int, line["rewards"].values())) + sum(int(line[name]) for name in ("deposits", "consolidations", "blocks"))
            self.assertEqual(int(line["net_change"]), parts)


class Files(Case):
    """Record files with Electra's queues behind them: from a state, closed by the command, and to a statement."""

    def made(self, *words):
        command.work(["--preset", "minimal", "--format", "json", "--force", "--out", str(self.at / "made"), *map(str, words)])
        return json.loads(self.at.read("made"))

    def state(self, verb, *words, fails=False):
        said = tool.run(verb, "--preset", "minimal", *words)
        self.assertEqual((said.code != 0, fails or not said.err), (fails, True), said)
        return said.err

    def test_the_record_of_a_state(self):
        for fork in "electra", "fulu":
            for form in encoder.ssz, encoder.text:
                path = self.put("state", state(fork), form)
                self.state("record", "--force", self.at / "state", self.at / "record")
                by_state, by_record = self.made(path), self.made("--fork", fork, self.at / "record")
                for lines in by_state["validators"], by_record["validators"]:
                    for line in lines:
                        line.pop("pubkey", None)
                self.assertEqual(by_state["validators"], by_record["validators"])
                shown = lambda made: [{name: one[name] for name in one if name not in ("pubkey", "date")} for one in made["pending_deposits"]]
                self.assertEqual(shown(by_state), shown(by_record))
                self.assertEqual([one["pubkey"] for one in by_record["pending_deposits"]], ["key 21", "key 7"])
        record = altair.ElectraRecord.open(self.at / "record")
        self.assertEqual(record.deposits.tolist(), [0, 0, ETH, 0, 1, 20, 1, 32 * ETH, 0, 1, 7, 0, 2 * ETH, 0, 1, 21, 0, 33 * ETH, 0, 1])
        self.assertEqual((record.rules.electra, record.numbers, record.churn), (altair.MINIMAL_ELECTRA, altair.DepositNumbers(0, 5, 5), altair.ExitChurn(0, 0)))
        self.assertEqual(len(record.close().compounding), 21)
        # which of the two a deposit is, the record says itself
        self.state("record", "--force", "--invalid-deposits", "1", self.at / "state", self.at / "record")
        self.assertEqual(altair.ElectraRecord.open(self.at / "record").deposits.tolist()[4::5], [1, 0, 1, 1])
        made = self.made(self.at / "record")
        self.assertEqual((len(made["validators"]), made["note"]), (20, ""))

    def test_what_is_refused(self):
        self.put("state", state())
        for words, said in ((["--pair", "bellatrix"], "whose record has Bellatrix's pair behind it"), (["--invalid-deposits", "4"], "there is no deposit 4")):
            self.assertIn(said, self.state("record", "--force", *words, self.at / "state", self.at / "record", fails=True))
        self.state("record", "--force", self.at / "state", self.at / "record")
        said = self.state("back", self.at / "state", self.at / "record", self.at / "new", fails=True)
        self.assertIn("its close adds validators and moves its queues, which is not put back", said)
        self.refused(1, "Electra's queues stand behind this record: it is no Deneb record", "--preset", "minimal", "--fork", "deneb", self.at / "record")
        self.refused(2, "a record file says itself which deposits are valid", "--preset", "minimal", "--invalid-deposits", "1", self.at / "record")
        self.at.write("plain", encoder.record(network.state("minimal", "altair", 9, 3), encoder.SETTINGS["minimal"]))
        self.refused(1, "Fulu's queues do not stand behind this record", "--preset", "minimal", "--fork", "fulu", self.at / "plain")
        self.at.write("plain", self.at.read("record") + b"\0")
        self.refused(1, "refused 6: header: length", "--preset", "minimal", self.at / "plain")


if __name__ == "__main__":
    unittest.main()

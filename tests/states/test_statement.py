"""tools/statement, held to the library's own close of the record that the tests' encoder makes of the same state."""
import csv
import io
import json
import os
import subprocess
import unittest
import unittest.mock

import encoder
import network
from tool import ROOT, Directory

import altair_close as altair
from beacon_state.containers import FORKS
from beacon_state.opening import state_of
from beacon_state.settings import PRESETS
from beacon_state.statement import command
from beacon_state.statement.epoch import Opening, close, dated, status
from beacon_state.statement.plain import wait_words
from beacon_state.statement.waiting import waits

COMMAND = ROOT / "tools/statement"
CLOSABLE = ("altair", "bellatrix", "capella", "deneb")  # by Altair's call and Deneb's; test_electra.py has the others
ETH = network.ETH
PAIR = altair.Bellatrix(*encoder.BELLATRIX_PAIR)
DENEB = {"mainnet": 8, "minimal": 4}


def run(*words, **options):
    done = subprocess.run([str(COMMAND), *map(str, words)], capture_output=True, **options)
    return done.returncode, done.stdout.decode(), done.stderr.decode()


def closed(state, preset, fork):
    """The library's close of the encoder's record."""
    record = altair.Record.read(encoder.record(state, encoder.SETTINGS[preset]))
    if fork == "deneb":
        return record.closing(store=altair.DenebRules(record.settings, PAIR, DENEB[preset]))
    how = dict(fork=altair.FORK_ALTAIR if fork == "altair" else altair.FORK_BELLATRIX, bellatrix=PAIR)
    return record.closing(**how)


def amounts_of(close, index):
    return [str(n) for n in close.amounts[9 * index : 9 * index + 9]]


def after(state, close, fork, epochs=1):
    """The state some epochs later, as the network could have it: closed, with flags, and some balances changed by blocks."""
    rows = [close.registry[10 * i : 10 * i + 10] for i in range(len(state["validators"]))]
    names = "effective_balance slashed activation_eligibility_epoch activation_epoch exit_epoch withdrawable_epoch".split()
    slots = encoder.SIZES["minimal"][0]
    made = {**state, "slot": state["slot"] + epochs * slots}
    made["validators"] = [{**v, **dict(zip(names, row)), "slashed": bool(row[1])} for v, row in zip(state["validators"], rows)]
    made["balances"] = [row[6] + (1000 if i == 0 else -70 if i == 1 else 0) for i, row in enumerate(rows)]
    made["previous_epoch_participation"] = state["current_epoch_participation"]
    made["inactivity_scores"] = [row[9] for row in rows]
    epoch = made["slot"] // slots
    for name, back in ("previous_justified", 2), ("current_justified", 1), ("finalized", 2):
        made[f"{name}_checkpoint"] = {"epoch": epoch - back, "root": bytes(32)}
    return made


class Case(unittest.TestCase):
    def setUp(self):
        self.at = Directory().__enter__()
        self.addCleanup(self.at.__exit__)

    def put(self, name, state, form=encoder.ssz):
        self.at.write(name, form(state))
        return self.at / name

    def made(self, *words, preset="minimal"):
        code, out, err = run("--preset", preset, "--format", "json", *words)
        self.assertEqual((code, err), (0, ""))
        return json.loads(out)

    def refused(self, code, part, *words, **options):
        got, out, err = run(*words, **options)
        self.assertEqual((got, err.count("\n"), out), (code, 1, ""), err)
        self.assertIn(part, err)
        self.assertTrue(err.startswith("statement: "))
        self.assertEqual(err.count(f"{self.at.path}/state: "), int(f"{self.at.path}/state: " in err), err)


class Figures(Case):
    def test_each_fork_and_form(self):
        for preset, forks in ("minimal", CLOSABLE), ("mainnet", CLOSABLE[2:]):
            for fork in forks:
                state = network.state(preset, fork, 9, 20)
                right = closed(state, preset, fork)
                for form in encoder.ssz, encoder.text, lambda s: encoder.text(s, fork, indent=1):
                    made = self.made(self.put("state", state, form), preset=preset)
                    self.assertEqual([epoch["fork"] for epoch in made["epochs"]], [fork])
                    self.assertEqual(len(made["validators"]), 20)
                    for i, line in enumerate(made["validators"]):
                        self.assertEqual((line["index"], line["pubkey"]), (str(i), "0x" + state["validators"][i]["pubkey"].hex()))
                        self.assertEqual(line["opening_balance"], str(state["balances"][i]))
                        self.assertEqual(line["closing_balance"], str(right.registry[10 * i + 6]))
                        self.assertEqual(list(line["amounts"].values()), amounts_of(right, i))
                        self.assertEqual(int(line["net_change"]), sum(map(int, line["rewards"].values())))
                    self.assertEqual(int(made["totals"]["closing_balance"]), sum(right.registry[6::10]))

    def test_a_worked_figure(self):
        """The scope document's example, as a record file: 896000, 1664000 and 896000 to each of four, and 3200000 of the fifth."""
        subprocess.run([ROOT / "tools/record", "write", ROOT / "samples/example.json", self.at / "record"], check=True)
        code, out, err = run(self.at / "record")
        self.assertEqual((code, err), (0, ""))
        lines = [line.split() for line in out.split("\n\n")[1].splitlines()]
        self.assertEqual(lines[2], "0 active_ongoing 32000000000 896000 0 1664000 0 896000 0 0 0 0 32003456000 +3456000 32.000000000 32.003456000 0.003456000".split())
        self.assertEqual(lines[6][-2:], ["31.996800000", "-0.003200000"])
        self.assertEqual(lines[7][0], "total")
        self.assertIn("amounts are in Gwei; 1 ETH is 1000000000 Gwei", out)
        self.assertEqual(set(lines[1]), {"Gwei", "ETH"})

    def test_the_pair_is_the_fork_s(self):
        """A slashed validator pays three times, and not twice, what was slashed with it, from Bellatrix on."""
        taken = {}
        for fork in CLOSABLE:
            state = network.state("minimal", fork, 9, 10)
            state["slashings"] = [0] * 63 + [32 * ETH]
            state["validators"][0].update(slashed=True, withdrawable_epoch=9 + 32)
            taken[fork] = self.made("--validators", "0", self.put("state", state))["validators"][0]["amounts"]["slashing_taken"]
        # 8 of 10 are active: 32 of 256 increments, doubled or tripled, of 32 ETH
        self.assertEqual(taken, {fork: str((8 if fork == "altair" else 12) * ETH) for fork in CLOSABLE})

    def test_every_fork_that_is_read_is_closed(self):
        for fork in FORKS:
            for form in encoder.ssz, encoder.text:
                made = self.made(self.put("state", network.state("minimal", fork, 9, 40), form))
                self.assertEqual([epoch["fork"] for epoch in made["epochs"]], [fork])
                self.assertGreaterEqual(len(made["validators"]), 40)  # from Electra on deposits make more

    def test_deneb_s_limit(self):
        """By a churn limit of 10 and Deneb's 8, of ten that wait eight are activated, and ten as Capella; by Deneb's 4, four."""
        def activated(fork, limit, form=encoder.ssz):
            state = network.state("minimal", fork, 9, 100)
            self.at.write("config.yaml", b"PRESET_BASE: minimal\nMAX_PER_EPOCH_ACTIVATION_CHURN_LIMIT: %d\n" % limit + b"".join(
                b"%s: %d\n" % pair for pair in [(b"INACTIVITY_SCORE_BIAS", 4), (b"INACTIVITY_SCORE_RECOVERY_RATE", 16), (b"CHURN_LIMIT_QUOTIENT", 8),
                    (b"MIN_VALIDATOR_WITHDRAWABILITY_DELAY", 256), (b"EJECTION_BALANCE", 16 * ETH), (b"MIN_PER_EPOCH_CHURN_LIMIT", 2),
                    (b"SECONDS_PER_SLOT", 6)]))
            code, out, err = run("--settings", self.at / "config.yaml", "--format", "json", self.put("state", state, form))
            self.assertEqual((code, err), (0, ""))
            return sum(wait.get("closes") == "0" for wait in json.loads(out)["waiting"])

        self.assertEqual([activated("capella", 8), activated("deneb", 8), activated("deneb", 8, encoder.text), activated("deneb", 4)], [10, 8, 8, 4])

    def test_dates(self):
        made = self.made(self.put("state", network.state("mainnet", "capella", 194048, 4)), preset="mainnet")
        epoch = made["epochs"][0]
        # mainnet's first Capella epoch, as it was announced: 12 April 2023, 22:27:35 UTC
        self.assertEqual((epoch["first_date"], epoch["first_second"]), ("2023-04-12 22:27:35 UTC", "1681338455"))
        self.assertEqual(epoch["last_date"], "2023-04-12 22:33:58 UTC")

    def test_record_files_and_their_dates(self):
        state = network.state("mainnet", "altair", 74240, 3)
        self.at.write("record", encoder.record(state, encoder.SETTINGS["mainnet"]))
        self.assertEqual(self.made(self.at / "record", preset="mainnet")["epochs"][0]["first_date"], "2021-10-27 10:56:23 UTC")
        self.at.write("other", encoder.record(network.state("minimal", "altair", 9, 3), encoder.SETTINGS["minimal"]))
        self.assertNotIn("first_date", self.made(self.at / "other")["epochs"][0])
        self.assertEqual(self.made("--genesis-time", "0", self.at / "other")["epochs"][0]["first_second"], str(9 * 8 * 6))
        # a record that is closed as Bellatrix by a word, and by the pair in its own settings
        state = network.state("minimal", "bellatrix", 9, 10)
        state["inactivity_scores"] = [1000] * 10
        numbers = list(encoder.SETTINGS["minimal"])
        self.at.write("plain", encoder.record(state, numbers))
        numbers[12:14] = encoder.BELLATRIX_PAIR
        self.at.write("paired", encoder.record(state, numbers))
        said = self.made("--fork", "bellatrix", self.at / "plain")["validators"]
        self.assertEqual(said, self.made(self.at / "paired")["validators"])
        self.assertNotEqual(said, self.made(self.at / "plain")["validators"])

    def test_statuses(self):
        """The nine of the Beacon API, each at its first epoch."""
        far = network.FAR
        for epochs, slashed, balance, expected in [
            ((far, far, far, far), 0, 1, "pending_initialized"),
            ((5, far, far, far), 0, 1, "pending_queued"),
            ((5, 11, far, far), 0, 1, "pending_queued"),
            ((5, 10, far, far), 0, 1, "active_ongoing"),
            ((5, 10, 11, 300), 0, 1, "active_exiting"),
            ((5, 10, 11, 300), 1, 1, "active_slashed"),
            ((5, 6, 10, 11), 0, 1, "exited_unslashed"),
            ((5, 6, 10, 11), 1, 1, "exited_slashed"),
            ((5, 6, 9, 10), 1, 1, "withdrawal_possible"),
            ((5, 6, 9, 10), 0, 0, "withdrawal_done"),
        ]:
            names = "activation_eligibility_epoch activation_epoch exit_epoch withdrawable_epoch".split()
            columns = {**{name: [n] for name, n in zip(names, epochs)}, "slashed": [slashed], "closing_balance": [balance]}
            self.assertEqual(status(columns, 0, 10), expected)


class Choices(Case):
    def setUp(self):
        super().setUp()
        self.made_of = network.state("minimal", "capella", 9, 30)
        self.state = self.put("state", self.made_of)
        self.key = lambda i: "0x" + self.made_of["validators"][i]["pubkey"].hex()

    def chosen(self, *words):
        return [int(line["index"]) for line in self.made(*(w for word in words for w in ("--validators", word)), self.state)["validators"]]

    def test_numbers_ranges_keys_and_files(self):
        self.assertEqual(self.chosen(), list(range(30)))
        self.assertEqual(self.chosen("3"), [3])
        self.assertEqual(self.chosen("7,3-5,4", "0"), [0, 3, 4, 5, 7])
        self.assertEqual(self.chosen(self.key(11), self.key(2)[2:].upper() + ",29"), [2, 11, 29])
        self.at.write("pool", f"# ours\n1 2, 3\r\n{self.key(9)}   # the last\n\n20-21\n".encode())
        self.assertEqual(self.chosen(str(self.at / "pool")), [1, 2, 3, 9, 20, 21])

    def test_what_is_refused(self):
        self.refused(1, "there is no validator 30: the record has 30", "--preset", "minimal", "--validators", "5,30", self.state)
        self.refused(1, "there is no validator 30: the record has 30", "--preset", "minimal", "--validators", "5-40", self.state)
        self.refused(1, "no validator has the public key 0x0000", "--preset", "minimal", "--validators", "0" * 96, self.state)
        self.refused(2, "the smaller one first", "--validators", "5-3", self.state)
        self.refused(2, "names none", "--validators", ",", self.state)
        self.refused(2, "nothere: No such file", "--validators", "nothere", self.state)
        self.at.write("pool", b"1\n2 x\n")
        self.refused(1, "pool, line 2: 'x' is no validator's number", "--validators", self.at / "pool", self.state)
        self.at.write("record", encoder.record(self.made_of, encoder.SETTINGS["minimal"]))
        self.refused(2, "a record file has no public keys", "--validators", self.key(1), self.at / "record")


class Forms(Case):
    def setUp(self):
        super().setUp()
        self.state = self.put("state", network.state("minimal", "bellatrix", 9, 12))

    def test_csv_says_what_json_says(self):
        code, out, err = run("--preset", "minimal", "--format", "csv", self.state)
        self.assertEqual((code, err), (0, ""))
        lines = list(csv.DictReader(io.StringIO(out)))
        for line, right in zip(lines, self.made(self.state)["validators"], strict=True):
            for name in "index", "pubkey", "status", "first_epoch":
                self.assertEqual(line[name], right[name])
            for name in "opening_balance", "closing_balance", "net_change":
                self.assertEqual((line[f"{name}_gwei"], line[f"{name}_eth"]), (right[name], right[f"{name}_eth"]))
            for name, amount in right["amounts"].items():
                self.assertEqual(line[f"{name}_gwei"], amount)

    def test_text_says_what_json_says(self):
        code, out, err = run("--preset", "minimal", self.state)
        self.assertEqual((code, err), (0, ""))
        names, units, *lines = out.split("\n\n")[1].splitlines()
        self.assertEqual((len(names.split()), units.split().count("Gwei"), units.split().count("ETH")), (18, 12, 3))
        for line, right in zip(lines, self.made(self.state)["validators"]):
            index, state, opening, *amounts = line.split()
            self.assertEqual((index, state, opening), (right["index"], right["status"], right["opening_balance"]))
            self.assertEqual(amounts[:9], list(right["amounts"].values()))
            self.assertEqual(line.split()[-1], right["pubkey"])

    def test_where_it_goes(self):
        for name, begins in ("a.csv", "first_epoch,"), ("a.json", '{"unit": "Gwei"'), ("a.html", "<!doctype html>"), ("a.txt", "Statement of"):
            self.assertEqual(run("--preset", "minimal", "--out", self.at / name, self.state), (0, "", ""))
            self.assertTrue(self.at.read(name).decode().startswith(begins))
            self.refused(2, f"{name} is there already; --force replaces it", "--preset", "minimal", "--out", self.at / name, self.state)
        self.assertEqual(run("--preset", "minimal", "--force", "--out", self.at / "a.csv", self.state), (0, "", ""))
        # an input is never replaced unasked
        self.refused(2, "state is there already", "--preset", "minimal", "--out", self.state, self.state)

    def test_a_page_of_too_many(self):
        state = self.put("many", network.state("minimal", "altair", 9, 2001))
        self.refused(2, "at most 2000 validators", "--preset", "minimal", "--format", "page", state)
        self.assertEqual(run("--preset", "minimal", "--format", "page", "--validators", "0-1999", state)[0], 0)

    def test_words_that_do_not_go_together(self):
        for words, said in [
            ([], "STATE.., or --node URL"),
            (["--node", "http://x"], "--node and --epoch go together"),
            (["--node", "http://x", "--epoch", "5", self.state], "STATE.., or --node URL"),
            (["--node", "ftp://x", "--epoch", "5"], "an address as"),
            (["--node", "http://127.0.0.1:9", "--preset", "minimal", "--epoch", "9-5"], "an epoch is wanted"),
            (["--exit", "x", self.state], "--exit: a number"),
            (["--exit", "1", "--format", "csv", self.state], "--exit has no place in CSV"),
            (["-", "-"], "only one STATE can be standard input"),
            (["--preset", "minimal", "--settings", "x", self.state], "exclude each other"),
        ]:
            self.refused(2, said, *words)


class Runs(Case):
    def setUp(self):
        super().setUp()
        self.first = network.state("minimal", "capella", 9, 20)
        self.closes = [closed(self.first, "minimal", "capella")]
        self.second = after(self.first, self.closes[0], "capella")
        self.closes.append(closed(self.second, "minimal", "capella"))
        self.third = after(self.second, self.closes[1], "capella", epochs=3)
        self.closes.append(closed(self.third, "minimal", "capella"))
        self.states = [self.put(f"state{k}", state) for k, state in enumerate((self.first, self.second, self.third))]

    def test_sums(self):
        made = self.made(*self.states[:2])
        self.assertEqual((made["gaps"], [epoch["epoch"] for epoch in made["epochs"]]), ([], ["9", "10"]))
        for i, line in enumerate(made["validators"]):
            amounts = [int(a) + int(b) for a, b in zip(amounts_of(self.closes[0], i), amounts_of(self.closes[1], i))]
            self.assertEqual(list(map(int, line["amounts"].values())), amounts)
            self.assertEqual(int(line["blocks"]), {0: 1000, 1: -70}.get(i, 0))
            self.assertEqual((line["opening_balance"], line["closing_balance"]), (str(self.first["balances"][i]), str(self.closes[1].registry[10 * i + 6])))
            self.balanced(line)
        self.balanced(made["totals"])

    def balanced(self, line):
        rules = sum(map(int, line["rewards"].values()))
        self.assertEqual(int(line["opening_balance"]) + rules + int(line["blocks"]) + int(line["gaps"]), int(line["closing_balance"]))
        self.assertEqual(int(line["closing_balance"]) - int(line["opening_balance"]), int(line["net_change"]))

    def test_gaps_are_named(self):
        made = self.made(*self.states)
        self.assertEqual(made["gaps"], [{"first_epoch": "11", "last_epoch": "12"}])
        for i, line in enumerate(made["validators"]):
            self.assertEqual((int(line["blocks"]), int(line["gaps"])), ({0: 1000, 1: -70}.get(i, 0),) * 2)
            self.balanced(line)
        out = run("--preset", "minimal", *self.states)[1]
        self.assertIn("no state was given of epochs 11 to 12", out)
        self.assertIn("opening balance + rewards - taken + blocks + gaps = closing balance", out)

    def test_by_epoch(self):
        """Rows carry the balance forward, and sum up to the statement."""
        rows = self.made("--by-epoch", *self.states)["validators"]
        self.assertEqual(len(rows), 60)
        sums = {line["index"]: line for line in self.made(*self.states)["validators"]}
        for i in range(20):
            own = [row for row in rows if row["index"] == str(i)]
            self.assertEqual([row["opening_balance"] for row in own[1:]], [row["closing_balance"] for row in own[:-1]])
            for name in "blocks", "gaps", "net_change":
                self.assertEqual(sum(int(row[name]) for row in own), int(sums[str(i)][name]))
            for row in own:
                self.balanced(row)

    def test_one_that_joins(self):
        entry = self.first["validators"][6]
        joined = {**self.second, "validators": [*self.second["validators"], {**entry, "pubkey": b"J" * 48}]}
        for name, value in ("balances", 32 * ETH), ("inactivity_scores", 0), ("previous_epoch_participation", 0), ("current_epoch_participation", 0):
            joined[name] = [*self.second[name], value]
        path = self.put("joined", joined)
        line = self.made("--validators", "0x" + b"J".hex() * 48, self.states[0], path)["validators"]
        self.assertEqual([(one["index"], one["first_epoch"], one["opening_balance"], one["blocks"]) for one in line], [("20", "10", "0", str(32 * ETH))])
        self.balanced(line[0])

    def test_what_does_not_follow(self):
        first, second, third = self.states
        minimal = ("--preset", "minimal")
        self.refused(1, f"{first}: epoch 9 is closed already, by {first}", *minimal, first, first)
        self.refused(1, "epoch 9 stands behind epoch 10", *minimal, second, first)
        other = self.put("other", {**self.second, "genesis_validators_root": bytes(32)})
        self.refused(1, "genesis_validators_root is not that of", *minimal, first, other)
        fewer = self.put("fewer", network.state("minimal", "capella", 10, 19))
        self.refused(1, "19 validators, and", *minimal, first, fewer)

    def test_a_closed_record_is_not_closed_again(self):
        """By each of the signs that only a close leaves, and by none of them in a state that is open."""
        opening = altair.Record.read(encoder.record(self.first, encoder.SETTINGS["minimal"]))
        self.at.write("closed", opening.close().write())
        self.refused(1, "epoch 9 is closed already: its current justified epoch is 9", self.at / "closed")
        code, out, err = run("--anyway", self.at / "closed")
        self.assertEqual((code, err), (0, ""))
        for change, said in [
            (dict(current_epoch_participation=[0] * 20), "nobody has a flag of this epoch"),
            (dict(validators=[{**v, "activation_eligibility_epoch": 10} for v in self.first["validators"]]), "an activation_eligibility_epoch is 10"),
            (dict(validators=[{**v, "activation_epoch": 14} for v in self.first["validators"]]), "an activation_epoch is 14"),
        ]:
            self.refused(1, f"epoch 9 is closed already: {said}", "--preset", "minimal", self.put("again", {**self.first, **change}))

    def test_before_the_last_slot(self):
        state = self.put("early", {**self.first, "slot": self.first["slot"] - 1})
        code, _, err = run("--preset", "minimal", state)
        self.assertEqual(code, 0)
        self.assertIn("slot 78 is not the last of its epoch, which is 79: the epoch has not ended", err)


class Waiting(Case):
    def test_an_exit(self):
        state = network.state("minimal", "altair", 99, 20)
        state["validators"][2]["activation_epoch"] = 90
        made = self.made("--exit", "0", "--exit", "3", "--exit", "2", "--exit", "5", "--exit", "7", self.put("state", state))
        exits = {line["index"]: line for line in made["exits"]}
        close = closed(state, "minimal", "altair")
        settings = altair.Settings(*encoder.SETTINGS["minimal"])
        for i in 0, 3:  # each as if it were the only one
            right = altair.initiate_validator_exit(settings, 800, i, close.queue, close.registry).registry
            self.assertEqual(exits[str(i)]["exit_epoch"], str(right[10 * i + 4]))
            self.assertEqual(exits[str(i)]["withdrawable_epoch"], str(right[10 * i + 5]))
        clock = altair.Clock(network.GENESIS, 6, 8)
        self.assertEqual(exits["0"]["exit_date"][:10], "2020-12-01")
        self.assertEqual(altair.epoch_at_time(clock, altair.first_second_of_epoch(clock, int(exits["0"]["exit_epoch"]))), int(exits["0"]["exit_epoch"]))
        self.assertEqual(exits["2"]["why"], "it has not been active for 64 epochs: an order is taken from epoch 154 on")
        self.assertEqual(exits["5"]["why"], "it is not active: an order would be refused")
        self.assertEqual(exits["7"]["why"], "it leaves already, at epoch 102")
        self.refused(1, "--exit 20: there is no such validator: the record has 20", "--preset", "minimal", "--exit", "20", self.at / "state")

    def test_the_registry_is_as_before_after_an_exit(self):
        """The exit is tried in the closed registry: the statement's own figures are those without it."""
        state = self.put("state", network.state("minimal", "altair", 99, 20))
        self.assertEqual(self.made(state)["validators"], self.made("--exit", "0", "--exit", "1", state)["validators"])

    def test_who_waits(self):
        state = network.state("minimal", "altair", 9, 20)
        for i in 5, 15:
            state["validators"][i]["activation_eligibility_epoch"] = 9
        found = {wait["index"]: wait for wait in self.made(self.put("state", state))["waiting"]}
        self.assertEqual(set(found), {"5", "6", "15", "16"})
        self.assertIn("once epoch 9 is finalized; epoch 8 is now", found["5"]["why"])
        self.assertIn("once epoch 10 is finalized", found["6"]["why"])

    def test_how_long(self):
        """k ahead, floor(k / m) + 1 closes and the epoch behind them."""
        state = network.state("minimal", "altair", 9, 80)
        found = self.made(self.put("state", state))["waiting"]
        # the close lets two of the eight in, by the churn limit: 5 and 15
        self.assertEqual([(wait["index"], wait["latest"]) for wait in found if wait.get("closes") == "0"], [("5", "14"), ("15", "14")])
        waiting = [wait for wait in found if int(wait["index"]) % 10 == 5 and wait.get("closes") != "0"]
        self.assertEqual([wait["index"] for wait in waiting], [str(i) for i in range(25, 80, 10)])
        for k, wait in enumerate(waiting):
            self.assertEqual((wait["ahead"], wait["closes"], wait["latest"]), (str(k), str(k // 2 + 1), str(9 + k // 2 + 1 + 5)))


    def test_with_the_call(self):
        """What is made of the call's numbers, with a call in its place that counts by demand 3's words: those of an earlier eligibility epoch,
        and of the same one a smaller number, are ahead."""
        def counted(settings, finalized, registry, index):
            rows = [registry[10 * i : 10 * i + 10] for i in range(len(registry) // 10)]
            queue = sorted((row[2], i) for i, row in enumerate(rows) if row[2] <= finalized and row[3] == network.FAR)
            ahead = queue.index((rows[index][2], index))
            return True, ahead, ahead // settings.min_per_epoch_churn_limit + 1

        state = network.state("minimal", "capella", 9, 80)
        state["validators"][75]["activation_eligibility_epoch"] = 2
        opened = Opening("it", "capella", record_of(self.put("state", state)), PRESETS["minimal"], altair.Clock(network.GENESIS, 6, 8))
        _, left = close(opened, lambda *_: None)
        with unittest.mock.patch.object(altair, "activation_wait", counted, create=True):
            found = {wait.index: wait for wait in waits(left, range(80))}
        # 75, the first of all, and 5 are let in by this close; six are left, two a close
        self.assertEqual([(found[i].closes, found[i].latest) for i in (75, 5)], [(0, 14), (0, 14)])
        for k, i in enumerate((15, 25, 35, 45, 55, 65)):
            self.assertEqual(found[i][:4], (i, k, k // 2 + 1, 9 + k // 2 + 1 + 5))
        second = altair.first_second_of_epoch(opened.clock, 15)
        self.assertEqual(found[15].date, dated(second))
        self.assertEqual(wait_words(found[35]), f"2 ahead, activated within 2 further closes: active from epoch 16 ({dated(second + 48)}) at the latest")


def record_of(path):
    with open(path, "rb") as file:
        return state_of(file, PRESETS["minimal"]).record(encoder.SETTINGS["minimal"])


class Streams(Case):
    """Every kind of bad input, and every stream that is shut: a line, and an exit code that is not 0."""

    def test_bad_inputs(self):
        state = self.put("state", network.state("minimal", "capella", 9, 4))
        self.at.write("empty", b"")
        self.at.write("cut", self.at.read("state")[:-1])
        self.at.write("text", b"not a state\n" * 1000)
        self.at.write("record", encoder.record(network.state("minimal", "altair", 9, 3), encoder.SETTINGS["minimal"])[:-1])
        bad = encoder.record({**network.state("minimal", "altair", 9, 3), "current_epoch_participation": [7, 300, 7]}, encoder.SETTINGS["minimal"])
        self.at.write("flags", bad)
        good = encoder.record(network.state("minimal", "altair", 9, 3), encoder.SETTINGS["minimal"])
        self.at.write("queue", good[:376] + b"\7" + good[377:])
        for name, code, said in [
            ("missing", 2, "No such file"), (".", 2, "Is a directory"), ("empty", 1, "empty: genesis_time, byte 0"), ("cut", 1, "byte"),
            ("text", 1, "text: "), ("record", 1, "refused 6: header: length: it is "),
            ("flags", 1, "refused 3: validators[1].current_epoch_participation: 0 to 255 is wanted, not 300"),
            ("queue", 1, "refused 8: exit_queue.number: it is 7, and that of the validators is 0"),
        ]:  # fmt: skip
            with self.subTest(name=name):
                self.refused(code, said, "--preset", "minimal", self.at / name)
        self.refused(1, "standard input: genesis_time", "--preset", "minimal", "-", input=b"")
        self.refused(1, "state: block_roots, byte ", state)

    def test_endless_input(self):
        with subprocess.Popen(["cat", "/dev/zero"], stdout=subprocess.PIPE) as endless:
            done = subprocess.run([str(COMMAND), "-"], stdin=endless.stdout, capture_output=True, preexec_fn=bounded)
            endless.kill()
        self.assertIn(done.returncode, (1, 2))
        self.assertEqual(done.stderr.count(b"\n"), 1, done.stderr)

    def test_streams_that_are_shut(self):
        state = self.put("state", network.state("minimal", "capella", 9, 4))
        for words, code in ("- <&-", 2), (f"{state} >&-", 2), (f"{state} >/dev/full", 2), (f"{state} 2>&- >/dev/null", 0), (f"--out /dev/full {state}", 2):
            done = subprocess.run(["sh", "-c", f"'{COMMAND}' --preset minimal {words}"], capture_output=True)
            self.assertEqual(done.returncode, code, (words, done.stderr))
            self.assertNotIn(b"Traceback", done.stderr)
            self.assertEqual(done.stderr.count(b"\n"), int(code > 0), done.stderr)
        reading, writing = os.pipe()
        os.close(reading)
        done = subprocess.run([COMMAND, "--preset", "minimal", state], stdout=writing, stderr=subprocess.PIPE)
        os.close(writing)
        self.assertEqual((done.returncode, done.stderr), (2, b"statement: standard output: Broken pipe\n"))

    def test_no_library(self):
        state = self.put("state", network.state("minimal", "capella", 9, 4))
        self.refused(2, "the shared library is missing", "--preset", "minimal", state, env={**os.environ, "ALTAIR_LIBRARY": "/nowhere"})


def bounded():
    """Half a gigabyte of disk, so that a reader without a bound would not fill the machine's."""
    import resource

    resource.setrlimit(resource.RLIMIT_FSIZE, (2**29, 2**29))


if __name__ == "__main__":
    unittest.main()

"""tests/spec_tests on a tree of the published layout that is written here, with posts worked out by hand."""
import os
import random
import re
import subprocess
import unittest

import encoder
import worked
from packing import packed
from tool import ROOT, Directory, Said


class Tree:
    def __init__(self, at):
        self.at = at.path

    def case(self, preset, fork, step, name, pre, post=None, stream=False, runner="epoch_processing", **files):
        path = self.at / "tests" / preset / fork / runner / step / "pyspec_tests" / name
        path.mkdir(parents=True)
        for file, state in ("pre", pre), ("post", post):
            if state is not None:
                data = state if isinstance(state, bytes) else packed(encoder.ssz(state), stream)
                (path / f"{file}.ssz_snappy").write_bytes(data)
        for file, data in files.items():
            (path / file.replace("_", ".")).write_bytes(data)


def spec_tests(*words, **options):
    done = subprocess.run([ROOT / "tests/spec_tests", *words], capture_output=True, **options)
    return Said(done.returncode, done.stderr.decode(), done.stdout.decode())


def rows(out):
    """(preset, fork, step) -> run, equal, different, unreadable, skipped"""
    found = re.findall(r"^(\w+) +(\w+) +(\w+) +(\d+) +(\d+) +(\d+) +(\d+) +(\d+)$", out, re.M)
    return {row[:3]: tuple(map(int, row[3:])) for row in found}


class SpecTests(unittest.TestCase):
    def setUp(self):
        self.at = Directory().__enter__()
        self.addCleanup(self.at.__exit__)
        self.tree = Tree(self.at)

    def test_equal(self):
        """Every step, at both presets and three forks, by hand."""
        kinds = ("minimal", "altair"), ("minimal", "bellatrix"), ("minimal", "capella"), ("mainnet", "altair"), ("mainnet", "bellatrix")
        for preset, fork in kinds:
            for k, (step, pre, post) in enumerate(worked.cases(preset, fork)):
                self.tree.case(preset, fork, step, "worked", pre, post, stream=preset == "minimal" and k % 2 == 1)
        said = spec_tests(self.at.path)
        self.assertEqual((said.code, said.err), (0, ""), said.out + said.err)
        self.assertEqual(set(rows(said.out).values()), {(1, 1, 0, 0, 0)})
        self.assertEqual(len(rows(said.out)), 40)
        self.assertIn("spec_tests: 40 run, 40 equal, 0 different, 0 unreadable, 0 skipped", said.out)
        # from below, too
        self.assertEqual(spec_tests(self.at / "tests").code, 0)

    def test_different(self):
        """A post that is off by one anywhere is told, with its field."""
        fields = {
            "justification_and_finalization": ("justification_bits", b"\6", "justification_bits: 0x07 here, 0x06 published"),
            "inactivity_updates": ("inactivity_scores", [1, 83, 0, 0, 88], "inactivity_scores[0]: 0 here, 1 published"),
            "rewards_and_penalties": ("balances", None, "balances[4]: "),
            "registry_updates": ("validators", None, "validators[0]: 0x"),
            "slashings": ("balances", None, "balances[4]: "),
            "effective_balance_updates": ("validators", None, "validators[0]: 0x"),
            "slashings_reset": ("slashings", None, "slashings[63]: 64 here, 65 published"),
            "participation_flag_updates": ("current_epoch_participation", [0] * 4 + [1], "current_epoch_participation[4]: 0 here"),
        }
        for step, pre, post in worked.cases("minimal", "altair"):
            name, value, _ = fields[step]
            if name == "validators":
                value = [{**post[name][0], "exit_epoch": 9}, *post[name][1:]]
            elif value is None:
                value = [*post[name][:-1], post[name][-1] + 1]
            self.tree.case("minimal", "altair", step, "wrong", pre, {**post, name: value})
            # what no step writes is compared as well
            self.tree.case("minimal", "altair", step, "wrong_elsewhere", pre, {**post, "eth1_deposit_index": 77})
            self.tree.case("minimal", "altair", step, "right", pre, post)
        said = spec_tests(self.at.path)
        self.assertEqual((said.code, said.err), (1, ""))
        self.assertEqual(set(rows(said.out).values()), {(3, 1, 2, 0, 0)})
        for step, (_, _, text) in fields.items():
            where = f"different: minimal/altair/epoch_processing/{step}/pyspec_tests"
            self.assertIn(f"{where}/wrong: {text}", said.out)
            self.assertIn(f"{where}/wrong_elsewhere: eth1_deposit_index: ", said.out)

    def test_no_post(self):
        """The step must refuse: 5 for a balance that overflows, 4 for a root that is not kept."""
        worked_ = {step: pre for step, pre, _ in worked.cases("minimal", "altair")}
        rewards = worked_["rewards_and_penalties"]
        over = {**rewards, "balances": [2**64 - 1] * 5}
        self.tree.case("minimal", "altair", "rewards_and_penalties", "overflow", over)
        self.tree.case("minimal", "altair", "rewards_and_penalties", "accepted", rewards)
        self.tree.case("minimal", "altair", "rewards_and_penalties", "refused", over, over)
        first = {**worked_["justification_and_finalization"], "slot": 24}
        self.tree.case("minimal", "altair", "justification_and_finalization", "first_slot", first)
        said = spec_tests(self.at.path)
        self.assertEqual(said.code, 1)
        self.assertEqual(rows(said.out)["minimal", "altair", "rewards_and_penalties"], (3, 1, 2, 0, 0))
        self.assertEqual(rows(said.out)["minimal", "altair", "justification_and_finalization"], (1, 1, 0, 0, 0))
        self.assertIn("accepted: not refused, and there is no post", said.out)
        self.assertIn("refused: refused 5, and there is a post", said.out)

    def test_skipped(self):
        _, pre, post = next(worked.cases("minimal", "altair"))
        self.tree.case("minimal", "altair", "justification_and_finalization", "worked", pre, post)
        for k in range(2):
            self.tree.case("minimal", "altair", "eth1_data_reset", f"case{k}", pre, pre)
        self.tree.case("minimal", "phase0", "slashings", "case", b"", b"")
        self.tree.case("minimal", "altair", "slashings", "not_looked_at", b"", b"", runner="sanity")
        said = spec_tests(self.at.path)
        self.assertEqual(said.code, 0, said.out + said.err)
        self.assertEqual(rows(said.out)["minimal", "altair", "eth1_data_reset"], (0, 0, 0, 0, 2))
        self.assertIn("skipped: minimal altair eth1_data_reset: not one of the eight steps (2)", said.out)
        self.assertIn("skipped: minimal phase0 slashings: no fork phase0 here (1)", said.out)
        self.assertIn("1 run, 1 equal, 0 different, 0 unreadable, 3 skipped", said.out)

    def test_unreadable(self):
        _, pre, post = next(worked.cases("minimal", "altair"))
        step = "justification_and_finalization"
        self.tree.case("minimal", "altair", step, "cut", packed(encoder.ssz(pre))[:-1], post)
        self.tree.case("minimal", "altair", step, "short", packed(encoder.ssz(pre)[:-1]), post)
        self.tree.case("minimal", "altair", step, "bad_post", pre, b"")
        self.tree.case("minimal", "altair", step, "no_pre", None, post)
        self.tree.case("minimal", "bellatrix", step, "other_fork", pre, post)
        self.tree.case("minimal", "altair", step, "bad_config", pre, post, config_yaml=b"X: 1\n")
        said = spec_tests(self.at.path)
        self.assertEqual((said.code, said.err), (1, ""))
        self.assertIn("0 run, 0 equal, 0 different, 6 unreadable", said.out)
        for part in (
            "cut: pre.ssz_snappy: byte ",
            "short: pre.ssz_snappy: inactivity_scores",
            "bad_post: post.ssz_snappy: byte 0",
            "no_pre: there is no pre",
            "other_fork: pre.ssz_snappy: historical_roots",
            "bad_config: config.yaml: SLOTS_PER_EPOCH, ",
        ):
            self.assertIn(part, said.out)

    def test_settings(self):
        """A case's own config.yaml, and a preset's config on the command line, in place of the built in one."""
        config = "PRESET_BASE: 'minimal'\nINACTIVITY_SCORE_BIAS: 4\nINACTIVITY_SCORE_RECOVERY_RATE: %d\n"
        config += "EJECTION_BALANCE: 16000000000\nMIN_VALIDATOR_WITHDRAWABILITY_DELAY: 256\n"
        config += "MIN_PER_EPOCH_CHURN_LIMIT: 2\nCHURN_LIMIT_QUOTIENT: 32\n"
        _, (step, pre, post), *_ = worked.cases("minimal", "altair")
        slower = worked.set_(post, inactivity_scores=[8, 98, 0, 13, 103])
        self.tree.case("minimal", "altair", step, "worked", pre, post)
        self.tree.case("minimal", "altair", step, "own_config", pre, slower, config_yaml=(config % 1).encode())
        self.assertEqual(spec_tests(self.at.path).code, 0)
        self.at.write("config.yaml", (config % 1).encode())
        said = spec_tests(self.at.path, "--settings", f"minimal={self.at / 'config.yaml'}")
        self.assertEqual(said.code, 1)
        self.assertIn("worked: inactivity_scores[0]: 8 here, 0 published", said.out)
        for bad in "minimal", "other=x", f"minimal={self.at / 'nowhere'}":
            self.assertEqual(spec_tests(self.at.path, "--settings", bad).code, 2)

    def test_nothing_to_run(self):
        self.tree.case("minimal", "altair", "eth1_data_reset", "case", b"", b"")
        for path in self.at.path, self.at / "nowhere":
            said = spec_tests(path)
            self.assertEqual((said.code, said.out), (2, ""))
            self.assertIn("no case of the eight steps", said.err)
        self.assertEqual(spec_tests().code, 2)
        self.assertEqual(spec_tests("--help").code, 0)

    def test_no_library_and_a_closed_pipe(self):
        _, pre, post = next(worked.cases("minimal", "altair"))
        self.tree.case("minimal", "altair", "justification_and_finalization", "worked", pre, post)
        said = spec_tests(self.at.path, env={**os.environ, "ALTAIR_LIBRARY": "nowhere"})
        self.assertEqual((said.code, said.out, said.err.count("\n")), (2, "", 1), said.err)
        self.assertIn("the shared library is missing", said.err)
        reading, writing = os.pipe()
        os.close(reading)
        done = subprocess.run([ROOT / "tests/spec_tests", self.at.path], stdout=writing, stderr=subprocess.PIPE)
        os.close(writing)
        self.assertEqual(done.returncode, 2)
        self.assertEqual(done.stderr, b"spec_tests: the output was closed before all of it was written\n")

    def test_no_validators(self):
        """Nobody weighs one increment, so that both epochs are justified."""
        rng = random.Random(1)
        pre = encoder.random_state(rng, "minimal", "altair", 0, 0)
        pre.update(slot=31, justification_bits=b"\0")
        for name, epoch in ("previous_justified", 0), ("current_justified", 0), ("finalized", 0):
            pre[f"{name}_checkpoint"] = {"epoch": epoch, "root": bytes(32)}
        post = {**pre, "justification_bits": b"\3", "current_justified_checkpoint": {"epoch": 3, "root": pre["block_roots"][24]}}
        self.tree.case("minimal", "altair", "justification_and_finalization", "nobody", pre, post)
        said = spec_tests(self.at.path)
        self.assertEqual(said.code, 0, said.out + said.err)


if __name__ == "__main__":
    unittest.main()

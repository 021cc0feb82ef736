"""Lists of closes: each is handed what the last accepted one left, with the slot moved on and what others changed meanwhile; and the claims of
document 03, F-3, over those lists in which others keep to the premises.

Deposits: one with k ahead of it, whose amounts with its own sum to K, is taken off the queue's front, applied or postponed, once
floor(k / p) + max(1, ceil(K / c)) Electra closes are accepted, of which each goes by p or more and a limit of c or more.
Exits: what the exits of a run give one exit epoch, and what is left of it to consume, come to the limit of the exit that opened that epoch
and what that exit had used up of earlier ones; of the epoch at which the run began, to what was then left to consume.
Activation: who waits with k ahead has its epoch after floor(k / m) + 1 accepted closes of any forks, and after one of Electra."""
from collections import Counter

from . import calls, text
from .records import FAR, SMALL, Records

MOST = 20
NAMES = {"altair": "altair_close", "bellatrix": "altair_close", "deneb": "deneb_close", "electra": "electra_close"}


def up(a, b):
    return -(-a // b)


class Followed:
    """A deposit: its place, what its bound is and how many closes it has taken."""

    def __init__(self, place, total, p, c):
        self.place, self.bound, self.closes = place, place // p + max(1, up(total, c)), 0


class Lists(Records):
    """A list at a time: `run` calls close(call) for each, which answers what the model wants of it."""

    def __init__(self, pick):
        super().__init__(pick)
        self.seen, self.wrong = Counter(), []

    # -- the list

    def begin(self):
        one = self.pick.choice
        self.kept, self.mixed = self.rare(0.7), self.rare(0.3)
        record = self.record()
        r = self.r
        if self.kept:
            r.update(min_per_epoch_churn_limit=max(1, r["min_per_epoch_churn_limit"]), slots_per_epoch=r["slots_per_epoch"] % 100 or 1,
                     max_per_epoch_activation_churn_limit=max(1, r["max_per_epoch_activation_churn_limit"]),
                     max_pending_deposits_per_epoch=one([1, 1, 2, 3, 16]))
            r["slots_per_historical_root"] = max(r["slots_per_historical_root"], 2 * r["slots_per_epoch"])
            current = max(0, self.epoch - one([1, 1, 2, 3]))
            previous = max(0, current - one([0, 1, 1, 2]))
            self.finalized = max(0, previous - one([0, 0, 1, 2]))
            for place, epoch in ((2, previous), (7, current), (12, self.finalized)):
                record["finality"][place] = epoch
            record["numbers"][1:] = [5, one([0, 5])]
            limit = self.smallest()
            self.p, self.c, self.most = r["max_pending_deposits_per_epoch"], limit, r["max_per_epoch_activation_exit_churn_limit"]
            for i in range(2, len(record["deposits"]), 5):
                record["deposits"][i] = one([0, 1, limit, limit + 1, 2 * limit, 3 * limit - 1, record["deposits"][i] % (4 * limit)])
                record["deposits"][i + 1] = one([0, 0, 0, self.pick.randrange(3)])
        self.moved(record, self.epoch)
        return record

    def smallest(self):
        """The smallest churn limit that the settings allow."""
        least, unit = self.r["min_per_epoch_churn_limit_electra"], self.r["effective_balance_increment"]
        return max(1, min(self.r["max_per_epoch_activation_exit_churn_limit"], least - least % unit))

    def moved(self, record, epoch):
        """The slot in this epoch, mostly its last, and roots for it."""
        spe = self.r["slots_per_epoch"]
        self.epoch, self.slot = epoch, min(SMALL - 1, epoch * spe + (spe - 1 if self.rare(0.9) else self.pick.randrange(spe)))
        record["finality"][0] = self.slot
        record["roots"] = b"".join(bytes([self.pick.randrange(1, 256)]) * 32 for _ in range(self.r["slots_per_historical_root"]))

    def others(self, record, keys, accepted):
        """What others do between closes. keys: of each validator its key in the deposits' numbering so far."""
        one, registry = self.pick.choice, calls.parts(record["registry"], 10)
        compounding, deposits, before = record["compounding"], calls.parts(record["deposits"], 5), len(registry)
        for ten in registry:
            ten[7:9] = [sum(1 << bit for bit in range(3) if self.rare(self.hits)) for _ in range(2)] if self.rare(0.8) else ten[7:9]
            if self.rare(0.1):
                ten[6] = self.gwei()
            if self.rare(0.1):
                ten[0] = self.near(self.r["ejection_balance"], 0.2)
            if self.rare(0.05) and ten[4] == FAR:
                ten[4] = self.epoch + one([1, 2, 5])
                ten[5] = ten[4] + one([0, 1, 3])
            if self.rare(0.02):
                ten[1] = 1
        unknown = sorted({deposit[0] for deposit in deposits if deposit[0] not in keys})
        for _ in range(one([0, 0, 0, 0, 1])):
            registry.append([self.gwei(), 0, FAR, FAR, FAR, FAR, self.gwei(), 0, 7, 0])
            compounding.append(one([0, 1]))
            keys.append(unknown.pop() if unknown and self.rare(0.5) else None)
        self.n = len(registry)
        added = [[None, one([0, 1]), one([0, self.unit, self.smallest(), self.gwei()]), one([0, 0, self.slot]), int(self.rare(0.8))]
                 for _ in range(one([0, 0, 1, 2]))]
        place = {key: i for i, key in enumerate(keys) if key is not None}
        fresh = {key: self.n + i for i, key in enumerate(unknown)}
        for deposit in deposits:
            deposit[0] = place.get(deposit[0], fresh.get(deposit[0]))
        deposits += added
        for deposit in added:
            deposit[0] = self.pick.randrange(self.n + len(deposits))
        consolidations = calls.parts(record["consolidations"], 2)
        if self.n and self.rare(0.5):
            consolidations.append([self.pick.randrange(self.n), self.pick.randrange(self.n)])
        record["slashings"] = [one([0, 0, self.unit]) for _ in record["slashings"]]
        if not self.kept:
            self.freely(record, deposits)
        record.update(registry=[n for ten in registry for n in ten], deposits=[n for deposit in deposits for n in deposit],
                      consolidations=[n for pair in consolidations for n in pair],
                      compounding=[1 - number if self.rare(0.05) else number for number in compounding])
        assert len(compounding) == self.n >= before
        self.moved(record, self.epoch + (one([1, 1, 1, 2, 3]) if accepted else one([0, 1])))

    def freely(self, record, deposits):
        """What breaks the premises of the claims."""
        if self.rare(0.3):
            record["churn"] = [self.gwei(), self.near(self.epoch + 3)]
        if self.rare(0.3):
            record["numbers"] = [self.gwei(), *self.pick.choice([[0, 1], [1, 0], [5, 5]])]
        if self.rare(0.2):
            self.pick.shuffle(deposits)
        if self.rare(0.1):
            record["finality"][self.pick.choice([2, 7, 12])] = self.near(self.epoch)

    def run(self, close):
        record = self.begin()
        self.followed, self.waiting, self.began, self.pair = [], [], record["churn"], record["churn"]
        self.given, self.opened, self.largest = Counter(), {}, 0
        for _ in range(self.pick.randint(1, MOST)):
            fork = self.pick.choice(list(NAMES)) if self.mixed else "electra"
            self.r["fork"] = int(fork == "bellatrix")
            if self.kept:
                self.r.update(max_pending_deposits_per_epoch=self.p + self.pick.choice([0, 0, 0, 1]),
                              max_per_epoch_activation_exit_churn_limit=min(SMALL - 1, self.most + self.pick.choice([0, 0, 0, 1, self.unit])))
                self.follow(record)
            lent = dict(record, queue=list(text.exit_queue(calls.decoded(dict(record, name="electra_close")).validators)))
            call = self.lend(NAMES[fork], lent)
            answer, _ = close(call)
            if answer[0] == 0:  # nothing in it may be other than the record
                call = self.lend(NAMES[fork], lent, False)
                answer, _ = close(call)
            self.seen["closes"] += 1
            self.seen["answered", answer[0]] += 1
            keys = list(range(self.n))
            if answer[0] == 0:
                state = calls.decoded(call)
                calls.CALLS[call["name"]].work(state, call)
                if self.kept:
                    self.claims(fork, record, call, state)
                keys = [validator.key for validator in state.validators]
                record = dict(record, finality=calls.finality_of(state), registry=calls.encoded(state.validators), slashings=state.slashings)
                if fork == "electra":
                    record.update(
                        compounding=[validator.compounding for validator in state.validators], deposits=[n for d in state.deposits for n in d],
                        consolidations=[n for pair in state.consolidations for n in pair],
                        churn=[state.exit_balance_to_consume, state.earliest_exit_epoch],
                        numbers=[state.deposit_balance_to_consume, *record["numbers"][1:]])
            self.others(record, keys, answer[0] == 0)
        self.seen["lists"] += 1

    # -- the claims

    def follow(self, record):
        """Each deposit whose slot, with those ahead of it, is at most the finalized slot, from the first time that this is so."""
        finalized, total, places = record["finality"][12] * self.r["slots_per_epoch"], 0, {deposit.place for deposit in self.followed}
        for place, (_, _, amount, slot, _) in enumerate(calls.parts(record["deposits"], 5)):
            if slot > finalized:
                break
            total += amount
            if place not in places:
                self.followed.append(Followed(place, total, self.p, self.c))

    def claims(self, fork, record, call, state):
        self.activation(fork, record, state)
        if fork == "electra":
            self.deposits_dealt(state)
            self.exits_made(record, call, state)

    def told(self, claim, found, bound):
        verdict = "passed" if found > bound else "met" if found == bound else "below"
        self.seen[claim, verdict] += 1
        if found > bound:
            self.wrong.append(f"{claim}: {found} where at most {bound}")

    def deposits_dealt(self, state):
        left = []
        for deposit in self.followed:
            deposit.closes += 1
            if state.taken > deposit.place:
                self.told("deposits", deposit.closes, deposit.bound)
            else:
                deposit.place -= state.taken
                left.append(deposit)
                if deposit.closes >= deposit.bound:
                    self.wrong.append(f"deposits: not dealt with after {deposit.closes} closes")
        self.followed = left

    def exits_made(self, record, call, state):
        """Works the exits out again, from the two registries."""
        opening = calls.decoded(call)
        limit, floor = text.get_activation_exit_churn_limit(opening), text.activation_exit_epoch(opening)
        earliest, left = self.pair[1], self.pair[0]
        for validator, after in zip(opening.validators, state.validators):
            if validator.exit_epoch != FAR or after.exit_epoch == FAR:
                continue
            balance, epoch = validator.effective_balance, max(earliest, floor)
            to_consume = limit if earliest < epoch else left
            further = up(balance - to_consume, limit) if balance > to_consume else 0
            used = to_consume + (further - 1) * limit if further else 0
            if epoch + further > earliest:
                self.opened[epoch + further] = (limit, used, balance)
            earliest, left = epoch + further, to_consume + further * limit - balance
            self.given[earliest] += balance
            self.largest = max(self.largest, limit)
            if after.exit_epoch != earliest:
                self.wrong.append(f"exits: {after.exit_epoch} where {earliest} was worked out")
            of, used, _ = self.opened.get(earliest, (self.began[0], 0, 0))
            if self.given[earliest] + left != of + used:
                self.wrong.append(f"exits: {self.given[earliest]} given and {left} left, where {of} and {used} were there")
            self.told("exits, the limit of the one that opened", self.given[earliest], of + used)
            if earliest in self.opened:
                self.told("exits, the largest limit", self.given[earliest], self.largest + used)
        pair = [state.exit_balance_to_consume, state.earliest_exit_epoch]
        if pair[1] < FAR and [left, earliest] != pair:
            self.wrong.append(f"exits: the pair is {[left, earliest]}")
        self.pair = pair

    def activation(self, fork, record, state):
        """Who waited at the opening, with those ahead: by the smallest limit of the list's settings."""
        m = min(self.r["min_per_epoch_churn_limit"], self.r["max_per_epoch_activation_churn_limit"])
        before = calls.parts(record["registry"], 10)
        waits = [i for i, ten in enumerate(before) if ten[2] <= record["finality"][12] and ten[3] == FAR]
        known = {i for i, _, _ in self.waiting}
        for i in waits:
            if i not in known:
                ahead = sum(1 for j in waits if (before[j][2], j) < (before[i][2], i))
                self.waiting.append([i, 0, ahead // m + 1])
        left = []
        for waiter in self.waiting:
            waiter[1] += 1
            if state.validators[waiter[0]].activation_epoch != FAR:
                self.told("activation", waiter[1], waiter[2])
            else:
                left.append(waiter)
                if waiter[1] >= waiter[2] or fork == "electra":
                    self.wrong.append(f"activation: none after {waiter[1]} closes, the last of {fork}")
        self.waiting = left

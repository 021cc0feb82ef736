"""Random calls that crowd about the rules' edges: exits and deposits that just fit or do not, balances and epochs up to 2^64 - 1, keys that come
again, slots at the finalized slot, slashed sources, sources that are their own targets; and now and then what a test refuses."""
from . import text
from .calls import CALLS, RULES, decoded, lengths

TOP, SMALL = 2**64 - 1, 2**48
FAR = TOP


class Records:
    def __init__(self, pick):
        self.pick = pick

    def rare(self, chance):
        return self.pick.random() < chance

    def near(self, number, chance=0.5):
        """The number, or one beside it."""
        return min(TOP, max(0, number + self.pick.choice([-1, 1]))) if self.rare(chance) else min(TOP, max(0, number))

    # -- rules

    def rules(self):
        one, unit = self.pick.choice, self.pick.choice([1, 2, 3, 10, 1000, 10**9])
        spe = one([1, 2, 3, 4, 8])
        r = dict(
            slots_per_epoch=spe, slots_per_historical_root=one([*[2 * spe] * 8, 2 * spe + 1, 3 * spe, 16, 2 * spe - 1, spe, 1]),
            epochs_per_slashings_vector=one([1, 2, 3, 4, 5]), effective_balance_increment=unit, max_effective_balance=one([1, 2, 4, 32]) * unit,
            hysteresis_quotient=one([1, 2, 3, 4]), hysteresis_downward_multiplier=one([0, 1, 1, 2]), hysteresis_upward_multiplier=one([0, 1, 5, 5]),
            base_reward_factor=one([0, 1, 7, 64, 64, 1000]), min_epochs_to_inactivity_penalty=one([0, 1, 2, 4]), inactivity_score_bias=one([1, 4, 4]),
            inactivity_score_recovery_rate=one([0, 1, 2, 16]), inactivity_penalty_quotient_altair=one([1, 2, 5, 100]),
            proportional_slashing_multiplier_altair=one([0, 1, 2]), max_seed_lookahead=one([0, 1, 4]),
            min_validator_withdrawability_delay=one([0, 0, 1, 256]), ejection_balance=one([0, 1, 2, 16]) * unit,
            min_per_epoch_churn_limit=one([0, 1, 1, 2, 3]), churn_limit_quotient=one([1, 1, 2, 3, 32]), fork=one([0, 1]),
            inactivity_penalty_quotient_bellatrix=one([1, 3, 7, 50]), proportional_slashing_multiplier_bellatrix=one([0, 1, 2, 3]),
            max_per_epoch_activation_churn_limit=one([0, 1, 1, 2, 3, 8]), min_activation_balance=one([0, 1, 2, 4, 32]) * unit,
            max_effective_balance_electra=one([1, 4, 8, 64]) * unit,
            min_per_epoch_churn_limit_electra=one([1, 1, 2, 4]) * unit + one([0, 0, unit - 1, unit // 2]),
            max_per_epoch_activation_exit_churn_limit=max(1, one([1, 2, 5, 8, 64]) * unit + one([0, 0, unit // 2, 1 - unit])),
            max_pending_deposits_per_epoch=one([0, 1, 2, 2, 3, 5, 16]))
        self.wild = self.rare(0.3)
        if self.wild and self.rare(0.4):
            r.update(one([
                dict(effective_balance_increment=2**47, hysteresis_quotient=1, hysteresis_downward_multiplier=one([1, 2**17, 2**17 - 1]),
                     hysteresis_upward_multiplier=one([1, 2**17, 2**17 - 1]), min_per_epoch_churn_limit_electra=2**47, base_reward_factor=0),
                dict(effective_balance_increment=2**40, base_reward_factor=one([2**24, 2**24 - 1, 2**30]), min_per_epoch_churn_limit_electra=2**40),
                dict(inactivity_score_bias=2**40, inactivity_penalty_quotient_altair=one([2**24 - 1, 2**24]),
                     inactivity_penalty_quotient_bellatrix=one([2**24 - 1, 2**24])),
                dict(slots_per_epoch=one([2**16, 2**16 + 1, 2**40, SMALL - 1])),
                dict(base_reward_factor=one([2**30, 2**40, SMALL - 1])),
                dict(proportional_slashing_multiplier_bellatrix=SMALL - 1, proportional_slashing_multiplier_altair=SMALL - 1),
                dict(max_seed_lookahead=SMALL - 1, min_validator_withdrawability_delay=SMALL - 1),
                dict(max_per_epoch_activation_exit_churn_limit=SMALL - 1, min_per_epoch_churn_limit_electra=one([SMALL - 1, 2**47])),
                {one(sorted(set(r) - {"fork", "slots_per_historical_root", "epochs_per_slashings_vector"})): one([1, SMALL - 1])}]))
        self.r, self.unit = r, r["effective_balance_increment"]

    # -- the record

    def finality(self):
        one, r = self.pick.choice, self.r
        spe, epoch = r["slots_per_epoch"], one([0, 1, 2, 2, 3, 3, 4, 5, 6, 9, 40])
        if self.wild and self.rare(0.05):
            epoch = (SMALL - 1) // spe
        self.slot = min(SMALL - 1, epoch * spe + one([*[spe - 1] * 9, 0, 1, spe // 2]) % spe)
        self.epoch = epoch = self.slot // spe
        current = max(0, epoch - one([1, 1, 1, 2, 2, 3, 0]))
        previous = max(0, current - one([0, 1, 1, 1, 2]))
        finalized = max(0, previous - one([0, 0, 1, 1, 2, 5]))
        if self.rare(0.06):
            current, previous, finalized = (max(0, epoch + one([-4, -3, -2, -1, 0, 1, 5])) for _ in range(3))
        if self.wild and self.rare(0.05) or spe >= 2**16 and self.rare(0.7):
            finalized = one([SMALL - 1, SMALL - 1, 2**24, 2**16])
        self.finalized = finalized
        roots = [[self.pick.randrange(4) for _ in range(4)] for _ in range(3)]
        return [self.slot, one([0, 1, 3, 7, 15, 15, 14, 6, 5]), previous, *roots[0], current, *roots[1], finalized, *roots[2]]

    def gwei(self):
        if self.wild and self.rare(0.15):
            return self.pick.choice([TOP, TOP - 1, 2**63, 2**63 - 1, TOP - 3 * self.unit, 2**62, 2**33 * self.unit]) % 2**64
        return self.near(self.pick.choice([0, 1, 1, 2, 3, 4, 8, 16, 31, 32, 33, 64]) * self.unit, 0.3)

    def an_epoch(self):
        e, r = self.epoch, self.r
        return self.near(self.pick.choice([0, e, e, e + 1, e + 1 + r["max_seed_lookahead"], self.finalized, FAR, FAR, FAR - 1, FAR - 256]))

    def validator(self):
        one, r, e = self.pick.choice, self.r, self.epoch
        effective = self.gwei()
        if self.rare(0.8):
            effective -= effective % self.unit
        if self.rare(0.25):
            effective = self.near(one([r["ejection_balance"], r["min_activation_balance"], r["max_effective_balance"]]), 0.4)
        eligibility, activation, leaving, withdrawable = 0, one([0, 0, max(0, e - 1), e]), FAR, FAR
        kind = one("aaaaaaaappppeeewwwr")
        if kind == "p":
            eligibility, activation = one([FAR, FAR, self.near(self.finalized), 0, self.near(e)]), FAR
        elif kind == "e":
            leaving = self.near(e + one([1, 1 + r["max_seed_lookahead"], 2 + r["max_seed_lookahead"]]))
            if self.rare(0.15):
                leaving = one([FAR - 1, FAR - 2, FAR - 256])
            withdrawable = min(TOP, leaving + r["min_validator_withdrawability_delay"])
        elif kind == "w":
            leaving, withdrawable = max(0, e - one([0, 1, 2])), self.near(e + one([0, 1, 1]))
        elif kind == "r":
            eligibility, activation, leaving, withdrawable = (self.an_epoch() for _ in range(4))
        slashed = int(self.rare(0.2))
        if slashed and self.rare(0.6):
            withdrawable = self.near(e + r["epochs_per_slashings_vector"] // 2, 0.3)
        balance = self.gwei()
        if self.rare(0.6):
            step = self.unit // r["hysteresis_quotient"]
            moved = one([0, -step * r["hysteresis_downward_multiplier"], step * r["hysteresis_upward_multiplier"]])
            balance = self.near(effective + moved)
        flags = [sum(1 << bit for bit in range(3) if self.rare(self.hits)) | (one([0, 0, 0, 248]) if self.rare(0.1) else 0) for _ in range(2)]
        score = one([0, 0, 0, 1, 2, 4, 5, 100])
        if self.wild and self.rare(0.1):
            score = one([TOP, TOP - 4, 2**60, 2**32])
        return [effective, slashed, eligibility, activation, leaving, withdrawable, balance, *flags, score]

    def registry(self):
        self.many = self.rare(0.01)  # now and then dozens of everything
        self.n = self.pick.randint(20, 60) if self.many else self.pick.choice([0, 1, 1, 2, 2, 3, 3, 4, 5, 6]) or int(self.rare(0.5))
        self.hits = self.pick.choice([0, 0.5, 0.85, 0.95, 1, 1])
        registry = [self.validator() for _ in range(self.n)]
        if self.n > 1 and self.rare(0.15):  # many leave at once, by one queue
            for ten in registry[1:]:
                ten[0], ten[3], ten[4] = self.near(self.r["ejection_balance"], 0.1), 0, FAR
        if self.n > 1 and self.rare(0.15):  # many wait
            for ten in registry:
                ten[2], ten[3] = self.pick.choice([0, self.finalized, self.near(self.finalized)]), FAR
        if self.wild and self.rare(0.3):
            self.extreme(registry)
        return registry

    def extreme(self, registry):
        """What lets one product leave 64 bits, and none before it."""
        one, e = self.pick.choice, self.epoch
        kind = one("btsc")
        if kind == "b":
            self.unit = 1
            self.r.update(base_reward_factor=one([2**46, 2**36]), effective_balance_increment=1)
            for ten in registry:
                ten[0], ten[3], ten[4], ten[7] = 2**32, 0, FAR, one([0, 7, 7])
        elif registry and kind == "t":
            registry[0][0], registry[0][3], registry[0][4], registry[0][7] = one([2**63, 2**63 - 1, TOP // 3, TOP // 3 + 1]), 0, FAR, one([0, 7])
            for ten in registry[1:]:
                ten[0] = min(ten[0], 64 * self.unit)
        elif len(registry) > 1 and kind == "c":
            self.forth = True
            for ten, balance in zip(registry, (2**63, self.pick.choice([0, 2**62]))):
                ten[:7] = [2**63, 0, 0, 0, max(0, e - 1), self.near(e, 0.2), balance]
        elif len(registry) > 1:
            registry[0][:6] = [one([TOP, 2**63]), 1, 0, 0, max(0, e - 1), e + self.r["epochs_per_slashings_vector"] // 2]
            self.slashed = 1000 * self.unit
            for ten in registry[1:]:
                ten[0] = one([1, 2]) * self.unit - 1

    def numbers_of_exits(self, registry, limit):
        one, r = self.pick.choice, self.r
        earliest = self.near(self.epoch + 1 + r["max_seed_lookahead"] + one([0, 0, 0, 1, 5]))
        if self.rare(0.1):
            earliest = one([0, TOP, TOP - 1, TOP - 256, SMALL])
        leavers = [ten[0] for ten in registry if ten[0] <= r["ejection_balance"]] or [0]
        left = one([0, limit, 2 * limit, sum(leavers), leavers[0], sum(leavers[:2]), sum(leavers) - limit])
        if self.rare(0.03):
            left = one([TOP, 2**63])
        return [self.near(max(0, left), 0.3), earliest]

    def deposits(self, available):
        one, count = self.pick.choice, self.pick.choice([0, 1, 2, 3, 4, 5])
        keys = [self.pick.randrange(max(1, self.n + count)) for _ in range(one([1, 2, 3]))] + [self.n + i for i in range(min(count, 2))]
        if self.many:
            count = self.pick.randint(20, 60)
            keys = [self.pick.randrange(self.n + count) for _ in range(one([3, count]))]
            self.r.update(max_pending_deposits_per_epoch=64)
        left, made, spe = available, [], self.r["slots_per_epoch"]
        slots = [0, 0, 0, *(min(epoch * spe, SMALL - 2) for epoch in (self.finalized, self.finalized + 1))]
        for _ in range(count):
            amount = min(TOP, one([0, self.unit, 2 * self.unit, self.near(left), self.near(left), self.near(left // 2), self.gwei()]))
            if self.wild and self.rare(0.15):
                amount = one([TOP, TOP - 1, 2**63])
            left = max(0, left - amount)
            made.append([one(keys), one([0, 1]), amount, self.near(one(slots), 0.2), int(self.rare(0.8))])
        return made

    def consolidations(self, registry):
        one = self.pick.choice
        if not self.n:
            return []
        if self.forth:  # so much back and forth that the sums leave 64 bits
            return ([[0, 1], [1, 0]] * 3)[: one([2, 3, 4, 5])]
        ready = [i for i, ten in enumerate(registry) if ten[5] <= self.epoch + 1] or [0]
        count = one([20, 60]) if self.many else one([0, 1, 2, 3, 4, 5])
        made = [[one(ready) if self.rare(0.7) else one(range(self.n)), one(range(self.n))] for _ in range(count)]
        if len(made) > 1 and self.rare(0.2):
            made[1] = list(made[0])
        if len(made) > 1 and self.rare(0.1):
            made[1] = made[0][::-1]
        return made

    def record(self):
        """Everything that some call is lent, by the arguments' names."""
        one = self.pick.choice
        self.rules()
        self.slashed, self.forth = 0, False
        finality = self.finality()
        registry, r = self.registry(), self.r
        compounding = [one([0, 1]) for _ in registry]
        slashings = [one([0, self.unit, self.gwei()]) if not self.slashed else self.slashed for _ in range(r["epochs_per_slashings_vector"])]
        roots = bytes(self.pick.randrange(1, 256) for _ in range(r["slots_per_historical_root"])) if r["slots_per_historical_root"] < 100 else b""
        roots = b"".join(bytes([byte]) * 32 for byte in roots)
        lent = dict(finality=finality, state_slot=self.slot, finalized_epoch=self.finalized, registry=[n for ten in registry for n in ten],
                    compounding=compounding, slashings=slashings, roots=roots, rules=[r[name] for name in RULES["electra"]])
        limit = self.limit(lent)
        lent["churn"] = self.numbers_of_exits(registry, limit)
        carried, bridge = one([0, 0, self.unit, self.gwei()]), one([0, 5, TOP])
        if self.wild and self.rare(0.2):
            carried = min(TOP, one([TOP, 2**63, TOP - limit, TOP - limit + 1]))
        lent["numbers"] = [carried, bridge, one([bridge, bridge, bridge, max(0, bridge - 1), min(TOP, bridge + 1)])]
        lent["deposits"] = [n for deposit in self.deposits(carried + limit) for n in deposit]
        lent["consolidations"] = [n for pair in self.consolidations(registry) for n in pair]
        lent["queue"] = list(text.exit_queue(decoded(dict(lent, name="electra_close")).validators))
        lent["index"] = one(range(self.n)) if self.n else 0
        left = lent["churn"][0]
        lent["exit_balance"] = self.near(min(TOP, one([0, limit, 2 * limit, left, left + limit, left + 2 * limit, self.gwei()])), 0.4)
        if self.wild and self.rare(0.3):
            lent["exit_balance"] = max(0, one([TOP, TOP - 1, TOP - limit, TOP - left if left < TOP else TOP]))
        return lent

    def limit(self, lent):
        try:
            return text.get_activation_exit_churn_limit(decoded(dict(lent, name="electra_get_activation_exit_churn_limit")))
        except text.Refused:
            return self.unit

    # -- the call

    def call(self, name):
        record = self.record()
        if name == "electra_close" and not self.wild and self.rare(0.15):
            self.late(record)
        return self.lend(name, record)

    def late(self, record):
        """What lets one of the last steps of Electra's close leave 64 bits, or just not: of the opening's validators, or of one that a deposit makes."""
        one, registry, rules, kind = self.pick.choice, record["registry"], self.r, self.pick.choice("nnkcct")
        left = [0, 0, 0, one([0, max(0, self.epoch - 1)]), self.near(self.epoch)]  # unslashed, and gone
        if kind == "n":  # a new key's balance at the threshold of the eighth step, by one deposit or by two
            rules["max_pending_deposits_per_epoch"] = 16
            record["numbers"] = [TOP - self.limit(record), 0, 0]
            step = rules["effective_balance_increment"] // rules["hysteresis_quotient"] * rules["hysteresis_downward_multiplier"]
            first = [[self.n + one([0, 1]), one([0, 1]), one([0, self.unit]), 0, one([0, 1])]] if self.rare(0.4) else []
            amount = self.near(TOP - step) - sum(deposit[2] for deposit in first)
            record["deposits"][:0] = [number for deposit in [*first, [self.n, one([0, 1]), amount, 0, 1]] for number in deposit]
        elif kind == "k" and self.n:  # a known key's balance in the sixth
            at, amount = 10 * self.pick.randrange(self.n), self.gwei()
            registry[at : at + 7] = [0, *left, self.near(TOP - amount)]
            record["deposits"][:0] = [at // 10, one([0, 1]), amount, 0, one([0, 1])]
        elif kind == "t":  # thresholds that leave 64 bits, and nobody but those whom deposits make
            self.n, most = 0, 2**47
            rules.update(effective_balance_increment=most, hysteresis_quotient=1, hysteresis_downward_multiplier=one([1, 2**17, 2**17 - 1]),
                         hysteresis_upward_multiplier=one([1, 2**17, 2**17 - 1]), base_reward_factor=1, min_per_epoch_churn_limit_electra=most,
                         max_per_epoch_activation_exit_churn_limit=SMALL - 1, max_pending_deposits_per_epoch=one([1, 2, 16]))
            deposits = [[self.pick.randrange(2), one([0, 1]), one([0, 1, most, most + 1, most // 2]), 0, one([0, 1])] for _ in range(one([2, 3]))]
            record.update(registry=[], compounding=[], consolidations=[], numbers=[0, 0, 0], deposits=[n for deposit in deposits for n in deposit])
        elif self.n > 1:  # a target's in the seventh
            source, target = self.pick.sample(range(self.n), 2)
            registry[10 * source : 10 * source + 7] = [2**63, *left, one([2**63, 2**63 - 1, TOP])]
            registry[10 * target : 10 * target + 7] = [0, *left, self.near(2**63 - 1)]
            record["consolidations"][:0] = [source, target]

    def lend(self, name, record, wrong=True):
        """The record as a call of this name is lent it, and now and then something wrong with it."""
        made, r, call = CALLS[name], self.r, {"name": name}
        record = dict(record, opening=record["registry"], store=[0, r["fork"], *(r[n] for n in text.SETTINGS), *(r[n] for n in text.PAIR)], count=1)
        if made.rules in RULES:
            record["rules"] = [r[n] for n in RULES[made.rules]]
        if name == "altair_process_slashings_reset":
            record["opening"] = record["slashings"]
        if name == "electra_get_max_effective_balance":
            record["compounding"] = self.pick.choice([0, 1])
        for argument in made.arguments:
            value = record.get(argument, [])
            call[argument] = list(value) if isinstance(value, list) else value
        for number in (1, 2, 3, 8):
            if wrong and self.rare(0.035):
                getattr(self, f"wrong{number}")(call)
        for buffer, long in lengths(call).items():
            if buffer.startswith("closing") or buffer in ("amounts", "places"):
                call[buffer] = [2**33 + self.pick.randrange(2**32) for _ in range(min(long, 1000))]
        if "places" in call:  # what an earlier call may have left
            call["places"] = [self.pick.randrange(self.n + len(call["places"]) + 2) for _ in call["places"]]
        if wrong and self.rare(0.02):
            self.wrong_length(call)
        return call

    def wrong_length(self, call):
        lists = [argument for argument, value in call.items() if argument not in ("rules", "finality", "queue", "churn", "numbers", "name", "store")
                 and isinstance(value, (list, bytes))]
        if lists:
            argument = self.pick.choice(lists)
            value = call[argument]
            more = value + value[:1] if value else [7] if isinstance(value, list) else b"a"
            call[argument] = value[:-1] if value and self.rare(0.5) else more

    def set_rule(self, call, name, number):
        """Writes a rule, where the call has it, in the struct or in the store's entry."""
        kind = CALLS[call["name"]].rules
        names = RULES["fork"] if kind == "store" else RULES.get(kind, [])
        if name not in names:
            return
        if kind == "store":
            call["store"][["start", "fork", *text.SETTINGS, *text.PAIR].index(name)] = number
        else:
            call["rules"][names.index(name)] = number

    def wrong1(self, call):
        one, n = self.pick.choice, self.n
        kind = one("SLfkcis")
        if kind in "SL":
            name = "slots_per_historical_root" if kind == "S" else "epochs_per_slashings_vector"
            self.set_rule(call, name, one([0, 65537, self.r[name] + 1, max(0, self.r[name] - 1), TOP]))
        elif kind == "f":
            self.set_rule(call, "fork", one([2, 3, TOP]))
        elif kind == "k" and call.get("deposits"):
            count = len(call["deposits"]) // 5
            call["deposits"][5 * self.pick.randrange(count)] = one([n + count, n + count - 1, TOP])
        elif kind == "c" and call.get("consolidations"):
            call["consolidations"][self.pick.randrange(len(call["consolidations"]))] = one([n, TOP])
        elif kind == "i" and "index" in call:
            call["index"] = one([n, TOP])
        elif kind == "s":
            self.wrong_length(call)

    def wrong2(self, call):
        one = self.pick.choice
        kind, unit = one("zzbbem"), self.unit
        if kind == "z":
            self.set_rule(call, one("""slots_per_epoch effective_balance_increment hysteresis_quotient inactivity_score_bias
            inactivity_penalty_quotient_altair churn_limit_quotient inactivity_penalty_quotient_bellatrix""".split()), 0)
        elif kind == "b":
            names = [name for name in RULES["electra"] + text.DENEB if name not in ("slots_per_historical_root", "epochs_per_slashings_vector")]
            self.set_rule(call, one(names), one([SMALL, SMALL, SMALL - 1, TOP]))
        elif kind == "e":
            self.set_rule(call, "min_per_epoch_churn_limit_electra", one([unit - 1, 0, unit]))
        else:
            self.set_rule(call, "max_per_epoch_activation_exit_churn_limit", one([0, 0, 1]))

    def wrong3(self, call):
        one = self.pick.choice
        kind = one("tzbvvkd")
        registry = call.get("registry", call.get("opening", []))
        if kind == "t" and "state_slot" in call:
            call["state_slot"] = one([SMALL, SMALL - 1, TOP])
        elif kind == "z" and "finalized_epoch" in call:
            call["finalized_epoch"] = one([SMALL, SMALL - 1, TOP])
        elif kind in "tz" and "finality" in call:
            call["finality"][one([0, 2, 7, 12])] = one([SMALL, SMALL - 1, TOP])
        elif kind == "b" and "finality" in call:
            call["finality"][1] = one([16, 15, TOP])
        elif kind == "v" and len(registry) >= 10 and call["name"] != "altair_process_slashings_reset":
            registry[10 * self.pick.randrange(len(registry) // 10) + one([1, 7, 8])] = one([2, 255, 256, TOP])
        elif kind == "k" and call.get("compounding"):
            if isinstance(call["compounding"], int):
                call["compounding"] = one([2, TOP])
            else:
                call["compounding"][self.pick.randrange(len(call["compounding"]))] = one([2, TOP])
        elif kind == "d" and call.get("deposits"):
            call["deposits"][5 * self.pick.randrange(len(call["deposits"]) // 5) + one([1, 3, 4])] = one([2, SMALL, SMALL - 1, TOP])

    def wrong8(self, call):
        if "queue" in call:
            call["queue"][self.pick.randrange(2)] = self.pick.choice([0, 1, TOP, self.epoch])

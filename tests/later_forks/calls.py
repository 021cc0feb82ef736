"""What each call answers and leaves in what it is lent, by the model: the tests in their order, then the text.

A call is a dictionary of what is lent, by the names of its arguments and in their order: numbers, lists of numbers, and the roots as bytes.
`rules` are a list of numbers in the order of their struct, `finality` the seventeen of its struct. What is wanted is a pair: the numbers of
the answer, and what the written buffers hold afterwards, by their names."""
from . import text

SMALL, MOST, LONGEST = 2**48, 2**24, 65536
RULES = {"altair": text.SETTINGS, "fork": [*text.SETTINGS, "fork", *text.PAIR], "deneb": [*text.SETTINGS, *text.PAIR, *text.DENEB],
         "electra": [*text.SETTINGS, *text.PAIR, *text.ELECTRA]}
NOT_ZERO = """slots_per_epoch effective_balance_increment hysteresis_quotient inactivity_score_bias inactivity_penalty_quotient_altair
churn_limit_quotient""".split()


def parts(numbers, width):
    return [numbers[i : i + width] for i in range(0, len(numbers) - width + 1, width)]


class Call:
    """By the name of a call: whose rules it goes by, its arguments, how many numbers the answer has, what it works out, what its answer
    holds beside a refusal, and its closing buffers, each with the opening that a refusal by 4 or 5 leaves at its front."""

    def __init__(self, rules, arguments, answer, work, kept, **closings):
        self.rules, self.arguments, self.answer, self.work, self.kept, self.closings = rules, arguments.split(), answer, work, kept, closings


def numbered(call):
    """The rules by their names."""
    kind = CALLS[call["name"]].rules
    if kind is None:
        return {}
    if kind == "store":
        numbers = call["store"]
        return dict(zip(RULES["fork"], [*numbers[2:21], numbers[1], *numbers[21:]]))
    return dict(zip(RULES[kind], call["rules"]))


def fork_of(kind, named):
    if kind in ("fork", "store"):
        return "bellatrix" if named["fork"] else "altair"
    return kind


def root_bytes(words):
    return b"".join(word.to_bytes(8, "little") for word in words)


def root_words(root):
    return [int.from_bytes(root[i : i + 8], "little") for i in range(0, 32, 8)]


def decoded(call):
    """What is lent, as a state of the text."""
    made, named = CALLS[call["name"]], numbered(call)
    rules = text.Rules(fork_of(made.rules, named), named) if named else None
    compounding = call.get("compounding", [])
    compounding = compounding if isinstance(compounding, list) else []
    registry = [] if made.work is slashings_reset else call.get("registry", call.get("opening", []))
    validators = [text.Validator(ten, compounding[i] if i < len(compounding) else 0, i) for i, ten in enumerate(parts(registry, 10))]
    slot, bits, *rest = call.get("finality", [call.get("state_slot", 0), 0, *[0] * 10, call.get("finalized_epoch", 0), *[0] * 4])
    checkpoints = [(five[0], root_bytes(five[1:])) for five in parts(rest, 5)]
    slashings = call["opening"] if made.work is slashings_reset else call.get("slashings", [])
    return text.State(rules, slot, bits, checkpoints, validators, slashings, parts(call.get("roots", b""), 32), call.get("churn", (0, 0)),
                      call.get("numbers", (0, 0, 0)), parts(call.get("deposits", []), 5), parts(call.get("consolidations", []), 2))


def encoded(validators):
    return [number for validator in validators for number in validator.numbers()]


def finality_of(state):
    checkpoints = (state.previous_justified, state.current_justified, state.finalized)
    return [state.slot, sum(bit << i for i, bit in enumerate(state.bits)), *(n for epoch, root in checkpoints for n in (epoch, *root_words(root)))]


# The tests


def lengths(call):
    """How long each lent list must be, where another one or a setting says so."""
    named, made = numbered(call), CALLS[call["name"]]
    n, d = len(call.get("registry", call.get("opening", []))) // 10, len(call.get("deposits", [])) // 5
    whole = "deposits" in call
    wanted = {
        "closing": len(call.get("opening", [])),
        "closing_registry": 10 * (n + d) if whole else len(call.get("registry", [])),
        "compounding": n,
        "closing_compounding": n + d,
        "closing_deposits": len(call.get("deposits", [])),
        "closing_consolidations": len(call.get("consolidations", [])),
        "places": d,
        "amounts": 12 * (n + d) if whole else 9 * n,
        "slashings": named.get("epochs_per_slashings_vector"),
        "closing_slashings": named.get("epochs_per_slashings_vector"),
        "roots": 32 * named.get("slots_per_historical_root", 0),
    }
    if made.work is slashings_reset:
        wanted["opening"] = named["epochs_per_slashings_vector"]
    return {name: wanted[name] for name in wanted if isinstance(call.get(name), (list, bytes))}


def shaped(call):
    """Test 1."""
    named, made = numbered(call), CALLS[call["name"]]
    registry = [] if made.work is slashings_reset else call.get("registry", call.get("opening", []))
    n, deposits, consolidations = len(registry) // 10, call.get("deposits", []), call.get("consolidations", [])
    if made.rules in ("fork", "store") and named["fork"] > 1:
        return False
    if named and not (1 <= named["slots_per_historical_root"] <= LONGEST and 1 <= named["epochs_per_slashings_vector"] <= LONGEST):
        return False
    if len(registry) % 10 or n > MOST or len(deposits) % 5 or len(deposits) // 5 > MOST or len(consolidations) % 2 or len(consolidations) // 2 > MOST:
        return False
    if any(len(call[name]) != length for name, length in lengths(call).items()):
        return False
    if any(deposit[0] >= n + len(deposits) // 5 for deposit in parts(deposits, 5)):
        return False
    if any(index >= n for index in consolidations):
        return False
    return call.get("index", -1) < n


def settings_good(call):
    """Test 2."""
    named, made = numbered(call), CALLS[call["name"]]
    if not named:
        return True
    fork = named.pop("fork", None)
    if fork == 0:
        for name in text.PAIR:
            del named[name]
    if any(number >= SMALL for number in named.values()) or any(named[name] == 0 for name in NOT_ZERO):
        return False
    if named.get("inactivity_penalty_quotient_bellatrix") == 0:
        return False
    if made.rules == "electra":
        if named["min_per_epoch_churn_limit_electra"] < named["effective_balance_increment"]:
            return False
        if named["max_per_epoch_activation_exit_churn_limit"] == 0:
            return False
    return True


def recorded(call):
    """Test 3."""
    state = decoded(call)
    if max(state.slot, state.previous_justified[0], state.current_justified[0], state.finalized[0]) >= SMALL:
        return False
    if "finality" in call and call["finality"][1] > 15:
        return False
    if any(v.slashed > 1 or v.previous_flags > 255 or v.current_flags > 255 for v in state.validators):
        return False
    compounding = call.get("compounding", [])
    if any(number > 1 for number in (compounding if isinstance(compounding, list) else [compounding])):
        return False
    return all(compounds <= 1 and valid <= 1 and slot < SMALL for _, compounds, _, slot, valid in state.deposits)


def paired(call):
    """Test 8."""
    return "queue" not in call or tuple(call["queue"]) == text.exit_queue(decoded(call).validators)


TESTS = ((1, shaped), (2, settings_good), (3, recorded), (8, paired))


# What each call works out: the numbers of its answer, and what then stands at the front of its closing buffers


def justification(state, call):
    text.process_justification_and_finalization(state)
    return [*finality_of(state), *state.raised, state.test], {}


def step(process):
    def work(state, call):
        process(state)
        return [], {"closing": encoded(state.validators)}

    return work


def registry_by_count(state, call):
    text.process_registry_updates_by_count(state)
    return [*text.exit_queue(state.validators)] if "queue" in call else [], {"closing": encoded(state.validators)}


def slashings_reset(state, call):
    text.process_slashings_reset(state)
    return [], {"closing": state.slashings}


def registry_by_balance(state, call):
    text.process_registry_updates(state)
    return [state.exit_balance_to_consume, state.earliest_exit_epoch], {"closing": encoded(state.validators)}


def pending_deposits(state, call):
    text.process_pending_deposits(state)
    return [state.deposit_balance_to_consume, len(state.validators), len(state.deposits)], {
        "closing_registry": encoded(state.validators), "closing_compounding": [validator.compounding for validator in state.validators],
        "closing_deposits": [number for deposit in state.deposits for number in deposit]}


def pending_consolidations(state, call):
    text.process_pending_consolidations(state)
    return [len(state.consolidations)], {"closing_registry": encoded(state.validators),
                                         "closing_consolidations": [index for pair in state.consolidations for index in pair]}


def balance_churn_limit(state, call):
    return [text.get_balance_churn_limit(state)], {}


def activation_exit_churn_limit(state, call):
    return [text.get_activation_exit_churn_limit(state)], {}


def max_effective_balance(state, call):
    return [text.get_max_effective_balance(state.rules, call["compounding"])], {}


def exit_epoch(state, call):
    text.compute_exit_epoch_and_update_churn(state, call["exit_balance"])
    return [state.exit_balance_to_consume, state.earliest_exit_epoch], {}


def validator_exit(state, call):
    text.initiate_validator_exit(state, state.validators[call["index"]])
    return [state.exit_balance_to_consume, state.earliest_exit_epoch], {"registry": encoded(state.validators)}


def whole(state, call):
    text.close(state)
    amounts = [number for validator in state.validators for number in validator.amounts[:9]]
    return [*finality_of(state), *text.exit_queue(state.validators), *state.raised, state.test], {
        "closing_registry": encoded(state.validators), "closing_slashings": state.slashings, "amounts": amounts}


def electra_whole(state, call):
    text.electra_close(state)
    left = [len(state.validators), len(state.deposits), len(state.consolidations)]
    queues = [state.deposit_balance_to_consume, state.exit_balance_to_consume, state.earliest_exit_epoch]
    return [*finality_of(state), *state.raised, state.test, *left, *queues], {
        "closing_registry": encoded(state.validators), "closing_compounding": [validator.compounding for validator in state.validators],
        "closing_slashings": state.slashings, "closing_deposits": [number for deposit in state.deposits for number in deposit],
        "closing_consolidations": [index for pair in state.consolidations for index in pair],
        "amounts": [number for validator in state.validators for number in validator.amounts]}


def nothing(call):
    return []


def churn_kept(call):
    return call["churn"]


def counts(call):
    return [len(call["registry"]) // 10, len(call["deposits"]) // 5]


CLOSING = {"closing": "opening"}
CALLS = {
    # Altair's and Bellatrix's
    "altair_process_justification_and_finalization": Call(
        "altair", "rules roots finality registry", 22, justification, lambda call: [*call["finality"], 0, 0, 0, 0]),
    "altair_process_inactivity_updates": Call(
        "altair", "rules state_slot finalized_epoch opening closing", 1, step(text.process_inactivity_updates), nothing, **CLOSING),
    "altair_process_rewards_and_penalties": Call(
        "fork", "rules state_slot finalized_epoch opening closing", 1, step(text.process_rewards_and_penalties), nothing, **CLOSING),
    "altair_process_registry_updates": Call(
        "altair", "rules state_slot finalized_epoch queue opening closing", 3, registry_by_count, lambda call: call["queue"], **CLOSING),
    "altair_process_slashings": Call(
        "fork", "rules state_slot slashings opening closing", 1, step(text.process_slashings_by_balance), nothing, **CLOSING),
    "altair_process_effective_balance_updates": Call(
        "altair", "rules opening closing", 1, step(text.process_effective_balance_updates_one_maximum), nothing, **CLOSING),
    "altair_process_slashings_reset": Call("altair", "rules state_slot opening closing", 1, slashings_reset, nothing, **CLOSING),
    "altair_process_participation_flag_updates": Call(
        None, "opening closing", 1, step(text.process_participation_flag_updates), nothing, **CLOSING),
    "altair_close": Call(
        "store", "store count finality queue registry slashings roots closing_registry closing_slashings amounts", 24, whole,
        lambda call: [*call["finality"], *call["queue"], 0, 0, 0, 0], closing_registry="registry", closing_slashings="slashings", amounts=None),
    # Deneb's
    "deneb_process_registry_updates": Call(
        "deneb", "rules state_slot finalized_epoch queue opening closing", 3, registry_by_count, lambda call: call["queue"], **CLOSING),
    "deneb_close": Call(
        "deneb", "rules finality queue registry slashings roots closing_registry closing_slashings amounts", 24, whole,
        lambda call: [*call["finality"], *call["queue"], 0, 0, 0, 0], closing_registry="registry", closing_slashings="slashings", amounts=None),
    # Electra's
    "electra_process_registry_updates": Call(
        "electra", "rules state_slot finalized_epoch churn opening closing", 3, registry_by_balance, churn_kept, **CLOSING),
    "electra_process_slashings": Call(
        "electra", "rules state_slot slashings opening closing", 1, step(text.process_slashings), nothing, **CLOSING),
    "electra_process_pending_deposits": Call(
        "electra", "rules state_slot finalized_epoch numbers registry compounding deposits closing_registry closing_compounding closing_deposits places",
        4, pending_deposits, lambda call: [call["numbers"][0], *counts(call)],
        closing_registry="registry", closing_compounding="compounding", closing_deposits="deposits"),
    "electra_process_pending_consolidations": Call(
        "electra", "rules state_slot registry consolidations closing_registry closing_consolidations", 2, pending_consolidations,
        lambda call: [len(call["consolidations"]) // 2], closing_registry="registry", closing_consolidations="consolidations"),
    "electra_process_effective_balance_updates": Call(
        "electra", "rules compounding opening closing", 1, step(text.process_effective_balance_updates), nothing, **CLOSING),
    "electra_get_balance_churn_limit": Call("electra", "rules state_slot registry", 2, balance_churn_limit, lambda call: [0]),
    "electra_get_activation_exit_churn_limit": Call("electra", "rules state_slot registry", 2, activation_exit_churn_limit, lambda call: [0]),
    "electra_get_max_effective_balance": Call("electra", "rules compounding", 2, max_effective_balance, lambda call: [0]),
    "electra_compute_exit_epoch_and_update_churn": Call(
        "electra", "rules state_slot churn exit_balance registry", 3, exit_epoch, churn_kept),
    "electra_initiate_validator_exit": Call(
        "electra", "rules state_slot index churn registry", 3, validator_exit, churn_kept, registry="registry"),
    "electra_close": Call(
        "electra", """rules finality churn numbers registry compounding slashings roots deposits consolidations closing_registry closing_compounding
        closing_slashings closing_deposits closing_consolidations amounts places""", 28, electra_whole,
        lambda call: [*call["finality"], 0, 0, 0, 0, *counts(call), len(call["consolidations"]) // 2, call["numbers"][0], *call["churn"]],
        closing_registry="registry", closing_compounding="compounding", closing_slashings="slashings", closing_deposits="deposits",
        closing_consolidations="consolidations", amounts=None),
}


def over(written, buffer):
    """At the front, and what stands behind it stays."""
    return [*written, *buffer[len(written) :]]


def wanted(call):
    made = CALLS[call["name"]]
    for number, passed in TESTS:
        if not passed(call):
            return [number, *made.kept(call)], {closing: call[closing] for closing in made.closings}
    try:
        answer, written = made.work(decoded(call), call)
    except text.Refused as refused:
        n = len(call.get("registry", [])) // 10
        opened = {closing: [0] * (12 if "deposits" in call else 9) * n if opening is None else call[opening]
                  for closing, opening in made.closings.items()}
        return [refused.number, *made.kept(call)], {closing: over(opened[closing], call[closing]) for closing in made.closings}
    return [0, *answer], {closing: over(written[closing], call[closing]) for closing in made.closings}


def adds_up(call, answer, written):
    """Whether the opening balances with an accepted close's amounts are the closing ones: "exact" in whole numbers, or "in 64 bits", or "no"."""
    count, width = (answer[22], 12) if "deposits" in call else (len(call["registry"]) // 10, 9)
    opening, missing = call["registry"][6::10], []
    for i, amounts in enumerate(parts(written["amounts"], width)[:count]):
        given = sum(amounts[place] for place in (0, 2, 4, 6, 9, 11) if place < width)
        taken = sum(amounts[place] for place in (1, 3, 5, 7, 8, 10) if place < width)
        missing.append((opening[i] if i < len(opening) else 0) + given - taken - written["closing_registry"][10 * i + 6])
    return "exact" if not any(missing) else "no" if any(number % 2**64 for number in missing) else "in 64 bits"

"""How often each condition of the model held and did not, each comparison was below, equal and above, each minimum and maximum took either side,
and each sum, difference and product fitted 64 bits and did not: the model's own source with counters put around them."""
import ast
import types
from collections import Counter

# What no record can meet, and why: by the function, and a piece of the source
CANNOT = {
    "the tests keep it in 64 bits": [
        ("is_eligible", "u64(previous + 1)"), ("activation_exit_epoch", "u64("), ("root_at_slot", "u64(slot"), ("root_of_epoch", "u64("),
        ("weigh_justification_and_finalization", "u64(old_"), ("process_registry_updates_by_count", "u64(current"),
        ("process_registry_updates", "u64(current"), ("process_slashings_by_balance", "u64(epoch"), ("process_slashings", "u64(epoch"),
        ("process_slashings_reset", "u64("), ("process_pending_deposits", "u64(current_epoch"), ("process_pending_consolidations", "u64("),
        ("process_pending_deposits", "u64(next_deposit")],
    "what is taken away is at most what it is taken from": [
        ("previous_epoch", "u64("), ("decrease_balance", "u64("), ("process_inactivity_updates", "u64(validator.inactivity_score - "),
        ("move_effective_balance", "u64(balance - "), ("get_balance_churn_limit", "u64("),
        ("compute_exit_epoch_and_update_churn", "u64(exit_balance - "),
        ("compute_exit_epoch_and_update_churn", "u64(balance_to_process - 1)"), ("compute_exit_epoch_and_update_churn", "u64(to_consume - "),
        ("process_pending_deposits", "u64(available - "), ("apply_pending_deposit", "u64(amount - ")],
    "the same was worked out before": [
        ("weigh_justification_and_finalization", "u64(total * 2)", 2), ("process_pending_deposits", "u64(processed + amount)", 2),
        ("apply_pending_deposit", "u64(validator.amounts[9] + ")],
    "it is at most a quotient": [("compute_exit_epoch_and_update_churn", "u64(u64(balance_to_process - 1)")],
    "it is at most the effective balance": [("process_slashings_by_balance", "u64(numerator // total")],
    "an exit epoch other than FAR is below it": [("initiate_validator_exit_by_count", "u64(exit_queue_epoch + 1)")],
    "an epoch that is justified has begun": [("root_at_slot", "slot >= state.slot")],
    "one is the larger of it and another": [("compute_exit_epoch_and_update_churn", "state.earliest_exit_epoch < earliest")],
    "it stops there, and counts by one": [("process_pending_deposits", "next_deposit >= ")],
    "it is the previous epoch or the current one": [("unslashed_participating", "epoch == ")],
    "it is the last of three": [("flag_index_deltas", "flag != HEAD")],
}
OPERATORS = {ast.Lt: "<", ast.LtE: "<=", ast.Gt: ">", ast.GtE: ">=", ast.Eq: "==", ast.NotEq: "!="}


class Counted(ast.NodeTransformer):
    """Puts a counter around what is counted; `places` says what each one is: its function, its source and the cases that it has."""

    def __init__(self, source):
        self.source, self.places, self.function = source, {}, "?"

    def place(self, node, *cases):
        number = len(self.places)
        self.places[number] = (self.function, node.lineno, ast.get_source_segment(self.source, node), cases)
        return ast.Constant(number)

    def visit_FunctionDef(self, node):
        self.function = node.name
        return node if node.name == "u64" else self.generic_visit(node)

    def called(self, name, *arguments):
        return ast.Call(ast.Name(name, ast.Load()), list(arguments), [])

    def condition(self, node, held):
        return self.called("_held", self.place(node, "true", "false"), held)

    def visit_If(self, node):
        if isinstance(node.test, (ast.Compare, ast.BoolOp)):
            return self.generic_visit(node)  # its comparisons are counted
        test = self.condition(node.test, node.test)
        self.generic_visit(node)
        node.test = test
        return node

    def visit_BoolOp(self, node):
        node.values = [self.visit(value) if isinstance(value, (ast.Compare, ast.BoolOp)) else self.condition(value, self.visit(value))
                       for value in node.values]
        return node

    def visit_Compare(self, node):
        kind = type(node.ops[0])
        if len(node.ops) > 1 or kind not in OPERATORS or isinstance(node.comparators[0], ast.Constant) and isinstance(node.comparators[0].value, str):
            number = self.place(node, "true", "false")
            return self.called("_held", number, self.generic_visit(node))
        small = isinstance(node.comparators[0], ast.Constant) and node.comparators[0].value == 0
        far = kind in (ast.Eq, ast.NotEq) and isinstance(node.comparators[0], ast.Name) and node.comparators[0].id == "FAR" or \
            isinstance(node.comparators[0], ast.Name) and node.comparators[0].id == "FAR"
        number = self.place(node, *(["below", "equal", "above"] if not small and not far else ["equal", "above"] if small else ["below", "equal"]))
        self.generic_visit(node)
        return self.called("_compared", number, ast.Constant(OPERATORS[kind]), node.left, node.comparators[0])

    def visit_Call(self, node):
        name = node.func.id if isinstance(node.func, ast.Name) else ""
        if name == "u64":
            number = self.place(node, "fits", "leaves")
            return self.called("_fits", number, self.generic_visit(node).args[0])
        if name in ("min", "max") and len(node.args) == 2:
            number = self.place(node, "first", "same", "second")
            return self.called("_either", number, ast.Constant(name), *self.generic_visit(node).args)
        return self.generic_visit(node)


class Branches:
    """The counted model, as a module, and what was counted."""

    def __init__(self, source, name):
        tree, counted = ast.parse(source), Counted(source)
        tree = ast.fix_missing_locations(counted.visit(tree))
        self.places, self.counts = counted.places, Counter()
        self.module = types.ModuleType(name)
        self.module.__dict__.update(_held=self.held, _compared=self.compared, _fits=self.fits, _either=self.either)
        exec(compile(tree, name, "exec"), self.module.__dict__)

    def report(self, everything, enough):
        """Prints what was counted, all of it or only what is out of order; answers how many cases were not met that can be, or were that cannot."""
        bad, least, cases, left = 0, None, 0, []
        turns = Counter()
        for number, (function, line, source, names) in self.places.items():
            turns[function, source] += 1
            why = [reason for reason, places in CANNOT.items() for where, piece, *turn in places
                   if where == function and source.startswith(piece) and piece.startswith("u64(") == ("fits" in names)
                   and (not turn or turn[0] == turns[function, source])]
            never = [name for name in names if not self.counts[number, name]]
            met = ", ".join(f"{name} {self.counts[number, name]}" for name in names)
            wrong = (never and not why and enough) or (why and not never)
            bad += bool(wrong)
            cases += len(names) - len(never)
            left += [reason for reason in why if never]
            for name in names:
                if name not in never and (least is None or self.counts[number, name] < least[0]):
                    least = (self.counts[number, name], f"{function}: {' '.join(source.split())}: {name}")
            if everything or wrong:
                said = f"  (never {', '.join(never)}: {why[0]})" if why else ""
                print(f"{'UNSEEN  ' if wrong else '        '} line {line}, {function}: {' '.join(source.split())}: {met}{said}")
        print(f"{'UNSEEN  ' if bad else 'ok      '} {len(self.places)} conditions, {cases} cases met, the rarest {least[0]} times ({least[1]});"
              f" {len(left)} that no record can meet")
        return bad

    def held(self, number, value):
        self.counts[number, "true" if value else "false"] += 1
        return value

    def compared(self, number, operator, a, b):
        self.counts[number, "below" if a < b else "equal" if a == b else "above"] += 1
        return {"<": a < b, "<=": a <= b, ">": a > b, ">=": a >= b, "==": a == b, "!=": a != b}[operator]

    def fits(self, number, value):
        fits = 0 <= value < 2**64
        self.counts[number, "fits" if fits else "leaves"] += 1
        return self.module.u64(value)

    def either(self, number, name, a, b):
        first = min(a, b) if name == "min" else max(a, b)
        self.counts[number, "same" if a == b else "first" if first == a else "second"] += 1
        return first


def unwrapped(source):
    """The sums, differences and products that no u64 stands around, by their lines: of numbers there may be none."""
    tree, found = ast.parse(source), []
    wrapped = {id(node.args[0]) for node in ast.walk(tree)
               if isinstance(node, ast.Call) and isinstance(node.func, ast.Name) and node.func.id == "u64"}
    for node in ast.walk(tree):
        sums = isinstance(node, ast.BinOp) and isinstance(node.op, (ast.Add, ast.Sub, ast.Mult))
        if isinstance(node, ast.AugAssign) or sums and id(node) not in wrapped:
            found.append((node.lineno, ast.get_source_segment(source, node)))
    return found

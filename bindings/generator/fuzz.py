"""rows.h, the fuzzer's table: what each function is lent, what it tests, which refusals it names, and how it is called."""
import itertools
import re

from .c import filled, is_checked, is_told
from .read import stop


def letters(interface, function):
    """The letters of the buffers, those that are written behind '>', and C's words for each argument."""
    read = [a for a in function.buffers if not a.written]
    of = {}
    for a in function.buffers:
        said = interface.roles[a.role].get("fuzz").split()
        of[a.name] = said[2 if a.changed else 1 if a.written else 0]
        if a in function.front:
            of[a.name] = "W" if a.role == "amounts" else "Y"
        if of[a.name] == "-":
            stop(f"words: {function.name}: the role {a.role} of {a.name} has no letter for the fuzzer")
    lends = "".join(of[a.name] for a in read) + (">" + "".join(of[a.name] for a in function.written) if function.written else "")
    places = {**{a.name: f"IN({i})" for i, a in enumerate(read)}, **{a.name: f"OUT({i})" for i, a in enumerate(function.written)}}
    openings = [next((i for i, r in enumerate(read) if r is function.opening_of(a)), -1) for a in function.written]
    return lends, places, openings


def lengths(interface, function, places):
    """Of each buffer, those that are read first, how long it must be, in C of what is lent."""
    at = lambda a: re.sub(r"(IN|OUT)\((\d+)\)", lambda m: f"c->{m[1].lower()}[{m[2]}]", places[a.name])
    others = {"S": "c->s.slots_per_historical_root", "L": "c->s.epochs_per_slashings_vector", "LONGEST": lambda name: f"longest(&{at(function.named(name))})"}
    for a in sorted(function.buffers, key=lambda a: a.written):
        length = interface.length(function, a)
        size = {"u8": 1}.get(a.kind, 8)
        if not length or function.entry.under("ask"):
            yield f"ANY({size})"
            continue
        said = interface.worked_out(function, length.said, lambda a, row: f"({at(a)}.length / {row})", lambda a: f"{at(a)}.length", others)
        kind = "OF_STORE" if length.by_settings and function.named("store") else "LEAST" if length.least else "EXACT"
        yield f"{kind}({size}, {said})"


def made(interface, name, kind, numbers):
    """A struct that has no role, of parts that have one and of any numbers, and the letters of its tests; '?' where a part has no model."""
    is_struct = kind in interface.structs
    entry = interface.value_of(kind) if is_struct else interface.values.get(name)
    if entry and entry.get("fuzz") and (is_struct or entry.get("within")):
        return entry.get("fuzz"), entry.get("within") or entry.get("tests")
    if is_struct:
        parts = {field: made(interface, field, inner, numbers) for field, inner in interface.structs[kind].fields}
        said = ", ".join(f".{field} = {value}" for field, (value, _) in parts.items())
        return f"(({interface.c_type(kind)}){{{said}}})", "".join(letters for _, letters in parts.values())
    count = re.fullmatch(r"\[\w+; (\d+)\]", kind)
    listed = ", ".join(f"c->any[{next(numbers) % 64}]" for _ in range(min(int(count[1]), 4) if count else 1))
    return (f"{{{re.sub('c->', '(uint8_t)c->', listed) if kind.startswith('[u8') else listed}}}" if count else listed), "?"


def handed(interface, argument, numbers):
    """What the fuzzer hands in for a number or a struct, and the letters of its tests; '?' where it has no model."""
    entry = interface.value_role(argument)
    if entry and entry.get("fuzz"):
        return entry.get("fuzz"), entry.get("tests")
    return made(interface, argument.name, argument.kind, numbers) if argument.kind in interface.structs else ("c->number", "")


def listed(words, otherwise):
    """LIST(..), in parts."""
    words = list(words) or [otherwise]
    return [("LIST(" if place == 0 else "") + word + (")" if place == len(words) - 1 else "") for place, word in enumerate(words)]


def row(interface, function, checked=False):
    lends, places, openings = letters(interface, function)
    called_for = list(lengths(interface, function, places))
    words, tests, named, numbers = [], function.entry.get("tests"), {}, itertools.count()
    for a in function.arguments:
        if a.lent:
            word, letter = places[a.name], "?" if a.role == "numbers" else ""
            named[a.name + "_length"] = re.sub(r"(IN|OUT)\((\d+)\)", lambda m: f"c->{m[1].lower()}[{m[2]}].length", word)
        else:
            word, letter = handed(interface, a, numbers)
            named[a.name] = word
        words.append(word)
        tests += letter
    answer = interface.structs.get(function.answer)
    kind = {"RunningAnswer": "RUNNING", "ReadAnswer": "READ"}.get(function.answer) or ("VALUES" if answer else "NUMBER" if function.refuses else "ITSELF")
    beside = [".refusal = 0"] if answer else []
    for name, said in interface.beside(function).items():
        beside.append(f".{name} = " + re.sub(r"\b\w+\b", lambda m: named.get(m[0], m[0]), said))
    prefix = "altair_checked_" + function.short if checked else function.name
    tests = "".join(sorted(set(tests), key=tests.index))
    refuses = " | ".join(f"1u << {n}" for n in function.refuses) or "0"
    first = [prefix, kind, interface.c_type(function.answer), f'"{lends}"', f'"{tests}"', refuses,
             *listed(map(str, openings), "-1"), *listed(called_for, "ANY(8)"), *listed(beside, "0"),
             f"altair_why_{function.short}" if is_told(function) else "nothing_wrong", *words]
    return filled("X(", first, ")")


def rows(interface):
    lines = [row(interface, f) for f in interface.functions]
    lines += [row(interface, f, True) for f in interface.functions if is_checked(f)]
    text = ["/* Written by bindings/generate from crates/exports and bindings/words. Of each function: what it answers, its buffers and tests",
            " * (the letters of calls.c), the refusals that it names, which buffer is the opening of each that is written, how long each must be, what it",
            " * answers beside a refusal, what says why, and the words of its call. */"]
    return "\n".join([*text, *lines]) + "\n"

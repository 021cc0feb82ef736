"""altair.h, and checked.h, which is the generated part of altair.c: the words of the refusals, the checked calls, and why one was refused."""
import re
import textwrap

from .read import promise

WIDTH = 118


def comment(text, width=WIDTH):
    """A comment of one paragraph a line of `text`."""
    lines = textwrap.wrap(text, width - 3) or [""]
    return "/* " + "\n * ".join(lines) + " */"


def filled(head, parts, tail, width=WIDTH):
    """head, then the parts with commas, on further lines below the first part, then the tail."""
    lines, line = [], head
    for place, part in enumerate(parts):
        part += tail if place == len(parts) - 1 else ","
        if place and len(line) + 1 + len(part) > width:
            lines.append(line)
            line = " " * len(head) + part
        else:
            line += (" " if place else "") + part
    return "\n".join([*lines, line])


def parameters(interface, function):
    for a in function.arguments:
        if a.lent:
            kind = interface.c_type(a.kind)
            yield f"{'' if a.written else 'const '}{kind} *{a.name}"
            yield f"size_t {a.name}_length"
        else:
            yield f"{interface.c_type(a.kind)} {a.name}"


def handed(function):
    return [word for a in function.arguments for word in ([a.name, a.name + "_length"] if a.lent else [a.name])]


def declared(interface, function, prefix="", answer=None, end=";"):
    name = prefix + (function.short if prefix else function.name)
    return filled(f"{answer or interface.c_type(function.answer)} {name}(", list(parameters(interface, function)) or ["void"], ")" + end)


def is_checked(function):
    return function.written and len(function.buffers) > 1


def is_told(function):
    return 1 in function.refuses


def number(text, interface):
    if text == "interface":
        return interface.version.split(".")[0]
    power = re.fullmatch(r"2\^(\d+)", text)
    return "UINT64_MAX" if text == "2^64 - 1" else f"(UINT64_C(1) << {power[1]})" if power else f"UINT64_C({text})"


def places(enum):
    """The names of an enumeration with their numbers."""
    for place, name in enumerate(enum.get("names").split()):
        name, _, said = name.partition("=")
        yield enum.get("prefix") + name, int(said) if said else place


def struct_fields(interface, enum):
    """The fields of the struct that an enumeration is the places of: of the one that it stands behind, and its own but the length."""
    other = next((e for e in interface.enums if e.title == enum.get("behind")), None)
    return [*(struct_fields(interface, other) if other else []), *[name.lower() for name, _ in places(enum)][:-1]]


def refusal_comment(interface):
    text = ["/* " + interface.preamble.lines("text")[0]]
    text += [(" * " + line).rstrip() for line in interface.preamble.lines("text")[1:]]
    for n, _, entry in interface.refusals:
        more = [line for line in entry.lines("more") if line]
        first = f" *   {n}  {entry.get('words')}" + (":" if more else "")
        text += [first + (" " + more[0] if len(more) == 1 else "")]
        text += [" *        " + line for line in more] if len(more) > 1 else []
    return "\n".join([*text, *(" * " + line for line in interface.preamble.lines("after")), " */"])


def preset_words(numbers, prefix):
    """The words of a preset: a number, or the name of a preset of a struct within it."""
    return [word if word.isdigit() else prefix + word for word in numbers.split()]


def struct(interface, s):
    rows = []
    for name, kind in s.fields:
        array = re.fullmatch(r"\[(\w+); (\d+)\]", kind)
        rows.append(f"    {interface.c_type(array[1] if array else kind)} {name}{f'[{array[2]}]' if array else ''};")
    text = [comment(s.entry.get("text")), f"typedef struct {s.c} {{", *rows, f"}} {s.c};"]
    presets = s.entry.under("preset")
    if presets:
        text += ["", comment(s.entry.get("presets") + " In braces.")]
        text += [f"#define ALTAIR_{name} {{ {', '.join(preset_words(numbers, 'ALTAIR_'))} }}" for name, numbers in presets.items()]
    for entry in interface.entries:
        if entry.kind == "c_code" and entry.title == s.name:
            text += ["", *entry.lines("code")]
    return "\n".join(text)


def header(interface):
    code = {entry.title: entry for entry in interface.entries if entry.kind == "c_code"}
    parts = [refusal_comment(interface), "#ifndef ALTAIR_H\n#define ALTAIR_H\n\n#include <stddef.h>\n#include <stdint.h>",
             '#ifdef __cplusplus\nextern "C" {\n#endif']
    for constant in interface.constants:
        line = f"#define ALTAIR_{constant.title} {number(constant.get('number'), interface) if constant.title != 'VERSION' else interface.version.split('.')[0]}"
        if constant.get("text"):
            parts.append(comment(constant.get("text")) + "\n" + line)
        else:
            parts[-1] += "\n" + line
    numbered = sorted((n, name) for n, name, _ in interface.refusals)
    parts.append("enum altair_refusal {\n    ALTAIR_ACCEPTED = 0,\n" + ",\n".join(f"    ALTAIR_{name} = {n}" for n, name in numbered) + "\n};")
    for enum in interface.enums:
        rows = [f"    ALTAIR_{name} = {place}" for name, place in places(enum)]
        parts.append(comment(enum.get("text")) + f"\nenum altair_{enum.title} {{\n" + ",\n".join(rows) + "\n};")
    parts += [struct(interface, s) for s in interface.used]
    for section, functions in interface.sections.items():
        if section:
            parts.append(f"/* -- {section.title} {'-' * (WIDTH - 10 - len(section.title))} */")
            if section.get("text"):
                parts.append(comment(section.get("text")))
        parts += [comment(promise(f)) + "\n" + declared(interface, f) for f in functions]
    parts.append(f"/* -- In C: not proved, but tested {'-' * (WIDTH - 40)} */")
    parts += ["\n".join(code["end"].lines("code"))]
    checked = [declared(interface, f, "altair_checked_") for f in interface.functions if is_checked(f)]
    parts += [comment(code["checked"].get("text")) + "\n" + checked[0], *checked[1:]]
    told = [declared(interface, f, "altair_why_", "altair_fault") for f in interface.functions if is_told(f)]
    parts += [comment(code["why"].get("text")) + "\n" + "\n".join(code["why"].lines("code")), *told]
    parts += ["#ifdef __cplusplus\n}\n#endif", "#endif"]
    return "/* Written by bindings/generate from crates/exports and bindings/words. */\n" + "\n\n".join(parts) + "\n"


# -- checked.h


def echoed(interface, function):
    """The answer of a checked call that is refused: 1, what was handed in of the same type, and zeros."""
    if function.answer == "u64":
        return "ALTAIR_BAD_SHAPE"
    values = [f".{name} = {said}" for name, said in interface.beside(function).items()]
    return f"({interface.c_type(function.answer)}){{{', '.join(['.refusal = ALTAIR_BAD_SHAPE', *values])}}}"


def checked_call(interface, function):
    lent = [f"{'WRITTEN' if a.written else 'READ'}({a.name})" for a in function.buffers]
    ended = "running.done != 9 && " if function.named("running") else ""  # a close that has ended says so before any test
    call = filled(f"    return {function.name}(", handed(function), ");")
    test = filled(f"    if ({ended}!APART(", lent, "))")
    body = f"{test}\n        return {echoed(interface, function)};\n{call}"
    return declared(interface, function, "altair_checked_", end=" {") + f"\n{body}\n}}"


def meaning(interface, function):
    """C for N, S, L and the like in a condition of the words."""
    settings = interface.settings_of(function)
    if function.named("store") and not settings:
        at = lambda place: f"store[ALTAIR_ENTRY_SETTINGS + {place}]"
        known, s, l, per = "(count > 0)", at(1), at(2), at(0)
    else:
        known, s, l = ("1" if settings else "0"), f"{settings}.slots_per_historical_root", f"{settings}.epochs_per_slashings_vector"
        per = f"{settings}.slots_per_epoch"
    counts = {letter: f"({a.name}_length / {row})" for letter, (a, row) in interface.counted(function).items()}
    return {**counts, "S": s, "L": l, "KNOWN": known, "EPOCH": f"(state_slot / {per})"}, per


def handed_faults(interface, name, kind, entry):
    """The faults of a value: of what a struct holds, and then its own."""
    for field, inner in interface.structs[kind].fields if kind in interface.structs else []:
        yield from handed_faults(interface, f"{name}.{field}", inner, interface.value_of(inner))
    yield from (fault.replace("$", name) for fault in (entry.keys.get("fault", []) if entry else []))


def conditions(interface, function):
    """What a call tests under 1: function calls that say it, or (argument, condition, number, words)."""
    own = {key[6:]: values for key, values in function.entry.keys.items() if key.startswith("fault ")}
    asked = function.entry.under("ask")
    if own.get("running"):
        yield from (("running", *fault.split("; ")) for fault in own.pop("running"))
    for a in function.arguments:
        role = interface.roles[a.role] if a.lent else None
        if a.name in asked or (role and "ask" in role.keys):
            yield (asked.get(a.name) or role.get("ask").replace("$", a.name)),
        elif not a.lent and not asked:
            yield from ((a.name, *fault.split("; ")) for fault in handed_faults(interface, a.name, a.kind, interface.value_role(a)))
        elif a.lent and not asked:
            length = interface.length(function, a)
            if not length or not a.written:
                yield from ((a.name, *fault.replace("$", a.name).split("; ")) for fault in role.keys.get("fault", []))
            if length:
                called_for = in_c(interface, function, length)
                known = "KNOWN && " if length.by_settings else ""
                yield a.name, f"{known}{a.name}_length {'<' if length.least else '!='} {called_for}", called_for, length.words
        yield from ((a.name, *fault.split("; ")) for fault in own.get(a.name, []))


def in_c(interface, function, length):
    """A length in C, but for the letters S and L."""
    others = {"S": "S", "L": "L", "LONGEST": lambda name: f"LONGEST({name})"}
    return interface.worked_out(function, length.said, lambda a, row: f"({a.name}_length / {row})", lambda a: f"{a.name}_length", others)


def why(interface, function):
    known, per = meaning(interface, function)
    rows = ["    if (running.done == 9)\n        return fine;"] if function.named("running") else []
    for fault in conditions(interface, function):
        if len(fault) == 1:
            rows.append(f"    ASK({fault[0]});")
            continue
        argument, condition, called_for, words = fault
        if known["KNOWN"] == "0" and "KNOWN" in condition:
            continue
        condition = re.sub(r"PARTED\((\w+)\)", rf"{per} != 0 && \1 != EPOCH && (\1 == UINT64_MAX || \1 + 1 != EPOCH)", condition)
        for word, means in known.items():
            condition, called_for = (re.sub(rf"\b{word}\b", means, text) for text in (condition, called_for))
        condition = re.sub("^1 && ", "", condition)
        rows.append(filled("    FAULT(", [condition, f'"{argument}"', called_for, f'"{words}"'], ");"))
    text = "\n".join(rows)
    unused = [f"(void){name};" for name in handed(function) if not re.search(rf"(?<![.\w]){name}\b", re.sub(r'"[^"]*"', "", text))]
    unused = textwrap.fill(" ".join(unused), WIDTH, initial_indent="    ", subsequent_indent="    ") + "\n" if unused else ""
    return declared(interface, function, "altair_why_", "altair_fault", end=" {") + f"\n{unused}{text}\n    return fine;\n}}"


def checked(interface):
    words = [f'    [{n}] = "{entry.get("words")}",' for n, _, entry in sorted(interface.refusals, key=lambda r: r[0])]
    longest = 1 + max(len(entry.get("words")) for _, _, entry in interface.refusals)
    parts = ["/* Written by bindings/generate, for altair.c alone: what it says of crates/exports' types and of bindings/words. */",
             f"static const char refusal_words[][{longest}] = {{\n    [0] = \"accepted\",\n" + "\n".join(words) + "\n};",
             "\n".join(f"_Static_assert(sizeof({s.c}) == {interface.size(s.name)}, \"{s.c}\");" for s in interface.used)]
    parts += [checked_call(interface, f) for f in interface.functions if is_checked(f)]
    parts += [why(interface, f) for f in interface.functions if is_told(f)]
    return "\n\n".join(parts) + "\n"

"""The Python package's generated files: _words.py (refusals, constants, named tuples) and _calls.py (the table of signatures, and the
functions with their hints)."""
import json
import re
import textwrap

from .c import filled, places, struct_fields
from .read import promise, stop

WIDTH = 132
WRITTEN = "Written by bindings/generate from crates/exports and bindings/words."


def plain(text):
    return re.sub(r"\baltair_(\w+)\b(?!\.h)", r"\1", text.replace("ALTAIR_", "")).replace("\\", "\\\\")


def docstring(text, indent="    "):
    lines = textwrap.wrap('"""' + plain(text) + '"""', WIDTH - len(indent))
    return "\n".join(indent + line for line in lines)


def fitted(head, parts, tail, indent=""):
    return filled(indent + head, parts or [""], tail, WIDTH)


def is_hand(struct):
    return struct.entry.get("python given") == "hand"


def given(struct):
    """The named tuple of what a struct holds: of an answer that is given otherwise, one of its own."""
    if not struct.answers:
        return struct.entry.get("given") or struct.name
    return re.sub("Answer$", "", struct.name) + "Values" if is_hand(struct) else struct.entry.get("given") or re.sub("^Plain|Answer$", "", struct.name)


def hint(interface, struct, name, kind):
    array = re.fullmatch(r"\[(\w+); (\d+)\]", kind)
    if array:
        return "bytes" if array[1] == "u8" else "Tuple[" + ", ".join(["int"] * int(array[2])) + "]"
    if name in struct.truths:
        return "bool"
    return given(interface.structs[kind]) if kind in interface.structs else "int"


def zero(interface, struct, name, kind):
    if kind in interface.structs:
        return f"{given(interface.structs[kind])}({', '.join('0' for _ in range(len(interface.structs[kind].fields) if not interface.structs[kind].entry.get('defaults') else 0))})"
    return "bytes(32)" if kind.startswith("[u8") else "False" if name in struct.truths else "0"


def named_tuple(interface, struct):
    defaults = struct.entry.get("defaults").split()
    rows = []
    for name, kind in struct.values:
        default = "" if not struct.answers and (name in defaults or defaults == ["all"]) else None
        rows.append(f"    {name}: {hint(interface, struct, name, kind)}" + (f" = {zero(interface, struct, name, kind)}" if default == "" else "")
                    + ("  # type: ignore[assignment]" if name in ("index", "count") else ""))  # a tuple has methods of these names
    return "\n".join([f"class {given(struct)}(NamedTuple):", docstring(struct.entry.get("text")), "", *rows])


def is_tuple(struct):
    """Whether it has a named tuple of its own."""
    return not (struct.name == "Running" or struct.name == "RunningAnswer") and (not struct.answers or len(struct.values) > 1)


def words(interface):
    numbered = sorted(interface.refusals, key=lambda r: r[0])
    parts = [f'"""What goes in and comes back by value, the constants, and the words of the refusals. {WRITTEN}"""\nfrom typing import NamedTuple, Tuple',
             "REFUSALS = {\n" + "\n".join(f'    {n}: "{entry.get("words")}",' for n, _, entry in numbered) + "\n}"]
    rows = []
    for constant in interface.constants:
        number = constant.get("number").replace("^", "**")
        rows.append(f"{constant.title} = {interface.version.split('.')[0] if number == 'interface' else number}")
    parts.append("\n".join(rows))
    for enum in interface.enums:
        text = textwrap.wrap("# " + plain(enum.get("text")), WIDTH, subsequent_indent="# ")
        parts.append("\n".join([*text, *(f"{name} = {n}" for name, n in places(enum))]))
        if enum.get("struct"):
            rows = [f"    {name}: int" for name in struct_fields(interface, enum)]
            parts.append("\n" + "\n".join([f"class _{enum.get('struct')}(NamedTuple):", docstring(enum.get("text")), "", *rows]) + "\n")
    public = ["REFUSALS", *(constant.title for constant in interface.constants), *(name for enum in interface.enums for name, _ in places(enum))]
    for s in interface.used:
        public += [given(s)] if is_tuple(s) and not is_hand(s) and s.name != "ReadAnswer" else []
        public += s.entry.under("preset")
    parts.insert(1, fitted("__all__ = [", [f'"{name}"' for name in public], "]"))
    for s in interface.used:
        if is_tuple(s):
            presets = [f"{name} = {given(s)}({', '.join(numbers.split())})" for name, numbers in s.entry.under("preset").items()]
            parts.append("\n" + named_tuple(interface, s) + ("\n\n\n" + "\n".join(["# " + s.entry.get("presets"), *presets]) if presets else ""))
    return "\n\n".join(parts) + "\n"


# -- Signatures and functions


def part(interface, struct, name, kind):
    """How a value is packed and read, where its hint does not say it."""
    array = re.fullmatch(r"\[(\w+); (\d+)\]", kind)
    if array:
        return f"Several({array[2]})" if array[1] != "u8" else "ROOT" if array[2] == "32" else f"Octets({array[2]})"
    if kind in interface.structs:
        return struct_of(interface, interface.structs[kind])
    return "TRUTH" if name in struct.truths else "SIGNED" if kind == "i64" else "NUMBER"


def struct_of(interface, struct):
    parts = {name: part(interface, struct, name, kind) for name, kind in struct.values}
    odd = [f"{name}={said}" for name, said in parts.items() if said == "SIGNED" or said.startswith("Octets") or "(" in said and "," in said]
    return f"struct_of({', '.join([given(struct), *odd])})"


def answer(interface, function):
    struct = interface.structs.get(function.answer)
    if struct is None:
        return "CODE" if function.refuses else "ITSELF"
    if function.answer == "RunningAnswer":
        return "TOLD"
    if len(struct.values) == 1:
        return f"Answer({part(interface, struct, *struct.values[0])})"
    return f"Answer({struct_of(interface, struct)})"


def buffer(interface, function, argument):
    role, row = interface.roles[argument.role], interface.row(function, argument)
    name = "Bytes" if argument.kind == "u8" else "Numbers"
    words = [f"row={row}"] if row and row != "1" else []
    if argument.changed:
        name = "Kept" if function.entry.get("python") == "hand" else "Changed"
    elif argument.written:
        held = function.entry.under("python length").get(argument.name)
        words.append(f"written=lengths.{held}" if held else f"written={in_python(interface, function, interface.length(function, argument))}")
        words += ["blank=True"] if role.get("blank") or argument in function.front else []
        words += ["scratch=True"] if argument.role == "scratch" else []
    return f"{name}({', '.join(words)})"


def in_python(interface, function, length):
    """How long a buffer is made: as long as another, or a function of those that are lent."""
    other = function.named(length.said)
    if other:
        return f'as_long_as("{other.name}")'
    counted = interface.counted(function)
    by = lambda role: next((a.name for a in function.buffers if a.role == role and not a.written), None)
    known = {**{letter: (a.name, row) for letter, (a, row) in counted.items()}, "S": (by("roots"), 32), "L": (by("slashings"), 1)}
    used = {}  # the parameters, and the buffer and row of each

    def word(letter, name, row):
        if not name:
            stop(f"words: {function.name}: Python knows no {letter} without roots or slashings")
        used[letter] = f'("{name}", {row})'
        return letter

    names = {name: word(name, *known[name]) for name in sorted(set(re.findall(r"\b[A-Z]\b", length.said)) & set(known))}
    others = {**names, "LONGEST": lambda name: word("LONGEST", name, "longest")}
    said = interface.worked_out(function, length.said.replace("/", "//"), lambda a, row: next(k for k, v in counted.items() if v == (a, row)),
                                lambda a: word(a.name, a.name, 1), others)
    return f"of(lambda {', '.join(used)}: {said}, {', '.join(used.values())})"


def kinds(interface, function):
    """The arguments of Python with their kinds: a store and its count are one."""
    for a in function.arguments:
        if a.lent and a.role == "store":
            yield a.name, "CHANGED_STORE" if a.changed else "STORE"
        elif a.lent:
            yield a.name, buffer(interface, function, a)
        elif a.name == "count" and function.named("store"):
            continue
        elif a.kind in interface.structs:
            yield a.name, struct_of(interface, interface.structs[a.kind])
        else:
            yield a.name, "FLAGS" if a.kind == "u8" else "NUMBER"


def signature(interface, function):
    said = function.entry.get("python gives")
    arguments = [f"{name}={kind}" for name, kind in kinds(interface, function)]
    words = [answer(interface, function), *([f"given={said}.given"] if said else []), *arguments]
    head = f'    "{function.short}": Signature('
    return fitted(head, words, "),") if len(head) < 50 else head + "\n" + fitted("        ", words, "),")


def result_hint(interface, function):
    if function.entry.get("python gives"):
        return function.entry.get("python gives")
    struct = interface.structs.get(function.answer)
    one = None if struct is None else hint(interface, struct, *struct.values[0]) if len(struct.values) == 1 else given(struct)
    written = ["Buffer"] * sum(a.role != "scratch" for a in function.written)
    values = [*written, one] if one else written
    return "int" if not function.refuses else values[0] if len(values) == 1 else f"Tuple[{', '.join(values)}]"


def thin(interface, function):
    """The function: what it is lent is checked, and handed on."""
    taken, handed, out = [], [], [a for a in function.written if a.role != "scratch"]
    registry = next((a.name for a in function.buffers if a.role == "registry"), None)
    for a in function.arguments:
        place = None if a not in out else "out" if len(out) == 1 else f"out[{out.index(a)}]"
        if a.name == "count" and function.named("store"):
            continue
        if a.written and not a.changed:
            handed.append(place if a in out else "None")
            continue
        if a.lent:
            kind = "StoreLike" if a.role == "store" else "BytesLike" if a.kind == "u8" else "NumbersLike"
        elif a.kind == "ExitQueue" and registry:
            kind = "Optional[ExitQueue]"
        elif a.kind == "Rules":
            kind = "Union[Rules, Settings]"
        else:
            kind = given(interface.structs[a.kind]) if a.kind in interface.structs else "int"
        taken.append(f"{a.name}: {kind}")
        handed.append(f"pair_of({a.name}, {registry})" if kind == "Optional[ExitQueue]" else f"({a.name}, {place})" if a.changed else a.name)
    if out:
        several = "Sequence[Optional[Buffer]] = (" + ", ".join(["None"] * len(out)) + ")"
        taken += ["*", f"out: {several if len(out) > 1 else 'Optional[Buffer] = None'}"]
    rows = [fitted(f"def {function.short}(", taken, f") -> {result_hint(interface, function)}:"), docstring(promise(function, lent=False))]
    if len(out) > 1:
        names = ", ".join(f'"{a.name}"' for a in out)
        rows.append(f"    out = buffers(out, {names})")
    rows.append(fitted("return call(", [f'"{function.short}"', *handed], ")", "    "))
    return "\n".join(rows)


def promise_of(function):
    """The promise in quotes, of lines that are joined."""
    lines = textwrap.wrap(plain(promise(function, lent=False)), WIDTH - 12, drop_whitespace=False)
    quoted = [json.dumps(line) for line in lines]
    return "(" + "\n        ".join(quoted) + ")" if len(quoted) > 1 else quoted[0]


def calls(interface):
    wrapped = [f for f in interface.functions if f.entry.get("python") != "hand"]
    table = []
    for section, functions in interface.sections.items():
        table += [f"    # {section.title}"] if section else []
        table += [signature(interface, f) for f in functions]
    gives = {f.entry.get("python gives") for f in interface.functions} - {""}
    tuples = sorted({given(s) for s in interface.used if is_tuple(s)} | {"Running", "Told", *gives})
    parts = [f'"""The calls: the table of their signatures, and the functions. {WRITTEN}"""\n'
             "from typing import Any, Optional, Sequence, Tuple, Union\n\nfrom . import _lengths as lengths\n"
             "from ._arguments import (CHANGED_STORE, FLAGS, NUMBER, ROOT, SIGNED, STORE, TRUTH, Bytes, Changed, Kept, Numbers, Octets,\n"
             "                         as_long_as, struct_of)\n"
             "from ._lengths import longest, of\n"
             "from ._signatures import CODE, ITSELF, PROMISES, SIGNATURES, TOLD, Answer, Signature, buffers, call, pair_of\n"
             + fitted("from ._types import (", [*tuples, "Buffer", "BytesLike", "NumbersLike", "StoreLike"], ")"),
             "SIGNATURES.update({\n" + "\n".join(table) + "\n})",
             fitted("__all__ = [", [f'"{f.short}"' for f in wrapped], "]")]
    promises = [f'    "{f.short}": {promise_of(f)},' for f in interface.functions if f not in wrapped]
    parts.append("# what the functions that are written by hand promise\nPROMISES.update({\n" + "\n".join(promises) + "\n})")
    for section, functions in interface.sections.items():
        listed = [f for f in functions if f in wrapped]
        if section and listed:
            parts.append(f"\n# {section.title}")
        parts += ["\n" + thin(interface, f) for f in listed]
    return "\n\n".join(parts) + "\n"

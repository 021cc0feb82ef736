"""The Rust crate's generated files: raw.rs (the C functions and answers), types.rs, refusal.rs and calls.rs (the safe functions)."""
import re
import textwrap

from .c import is_told, places, struct_fields
from .read import promise

WIDTH = 120
WRITTEN = "// Written by bindings/generate from crates/exports and bindings/words.\n"


def doc(text, indent="", mark="///"):
    text = re.sub(r"\baltair_(\w+)\b(?!\.h)", r"\1", text.replace("ALTAIR_", ""))
    text = re.sub(r" ([-+*]) ", "\u00a0\\1\u00a0", text)  # a line that begins with one would be an item of a list
    return "\n".join(f"{indent}{mark} {line}" for line in textwrap.wrap(text, WIDTH - len(indent) - 4)).replace("\u00a0", " ")


def kind_of(interface, kind):
    array = re.fullmatch(r"\[(\w+); (\d+)\]", kind)
    if array:
        return kind
    return {"usize": "u64"}.get(kind, kind) if kind not in interface.structs else interface.structs[kind].camel


def fitted(head, parts, tail, indent=""):
    """On one line where it fits, else a part a line, as rustfmt has it."""
    line = f"{indent}{head}{', '.join(parts)}{tail}"
    return line if len(line) <= WIDTH else "\n".join([indent + head, *(f"{indent}    {part}," for part in parts), indent + tail])


def braced(head, parts, indent, tail=""):
    """A struct's value, on one line where it fits."""
    return fitted(f"{head} {{ ", parts, f" }}{tail}", indent).replace("{ \n", "{\n").replace(f"\n{indent} }}", f"\n{indent}}}")


def used_names(head, names):
    """A `use`, as rustfmt has it."""
    line = f"{head}{', '.join(names)}}};"
    return line if len(line) <= WIDTH else head + "\n" + textwrap.fill(", ".join(names) + ",", WIDTH, initial_indent="    ", subsequent_indent="    ") + "\n};"


def is_public(struct):
    """Whether users see the struct as it is: one that is handed in, or stands within one."""
    return not struct.answers or struct.entry.get("defaults")


def fields(interface, struct, public="pub ", indent="    "):
    return [f"{indent}{public}{name}: {kind_of(interface, kind)}," for name, kind in struct.fields]


def written_struct(interface, struct):
    derived = "#[derive(Clone, Copy, Debug, Default, PartialEq, Eq)]" if struct.entry.get("defaults") == "all" else "#[derive(Clone, Copy, Debug, PartialEq, Eq)]"
    return "\n".join([doc(struct.entry.get("text")), "#[repr(C)]", derived, f"pub struct {struct.camel} {{", *fields(interface, struct), "}"])


def given_name(struct):
    return struct.entry.get("given")


def given_kind(interface, struct, name, kind):
    """The type of a value as a Rust caller gets it."""
    if name in struct.truths:
        return "bool"
    inner = interface.structs.get(kind)
    return given_name(inner) if inner and given_name(inner) else kind_of(interface, kind)


def given_value(interface, struct, name, kind):
    inner = interface.structs.get(kind)
    if name in struct.truths:
        return f"self.{name} == 1"
    return f"self.{name}.given()" if inner and given_name(inner) else f"self.{name}"


def is_hand(struct):
    """Whether what it gives is written by hand: the answer itself, or an `Answered` of its own."""
    return struct.entry.get("rust given") in ("hand", "itself")


def given_struct(interface, struct):
    derived = "#[derive(Clone, Copy, Debug, Default, PartialEq, Eq)]" if not struct.answers else "#[derive(Clone, Copy, Debug, PartialEq, Eq)]"
    rows = [f"    pub {name}: {given_kind(interface, struct, name, kind)}," for name, kind in struct.values]
    return "\n".join([doc(struct.entry.get("text")), derived, f"pub struct {given_name(struct)} {{", *rows, "}"])


def gives(interface, struct):
    """What an answer gives: its type, and the expression."""
    if is_hand(struct):
        return (struct.camel, "self") if struct.entry.get("rust given") == "itself" else (given_name(struct), None)
    if len(struct.values) == 1 and struct.answers:
        (name, kind), = struct.values
        return given_kind(interface, struct, name, kind), given_value(interface, struct, name, kind)
    if not given_name(struct):
        struct.entry.keys["given"] = [re.sub("^Plain|Answer$", "", struct.name)]
    values = [(name, given_value(interface, struct, name, kind)) for name, kind in struct.values]
    return given_name(struct), braced(given_name(struct), [f"{name}: {value}" for name, value in values], "        ").lstrip()


def as_numbers(struct):
    """A struct of numbers alone, to and from them."""
    names, count = [name for name, _ in struct.fields], len(struct.fields)
    return "\n".join([f"impl {struct.camel} {{", "    /// Its numbers, in their order.", f"    pub const fn numbers(&self) -> [u64; {count}] {{",
                      fitted("[", [f"self.{name}" for name in names], "]", "        "), "    }", "", "    /// The one that has these numbers.",
                      f"    pub const fn of(numbers: [u64; {count}]) -> {struct.camel} {{", fitted("let [", names, "] = numbers;", "        "),
                      braced(struct.camel, names, "        "), "    }", "}"])


def preset_name(struct, name):
    """MAINNET of MAINNET_DENEB: the struct stands before it."""
    return re.sub(f"_{re.sub('Rules$', '', struct.name).upper()}$", "", name)


def preset_value(interface, kind, word):
    """A number, or the preset of a struct within it."""
    inner = interface.structs.get(kind)
    return f"{inner.camel}::{preset_name(inner, word)}" if inner else f"{int(word):_}"


def types(interface):
    parts = ["//! What goes in and comes back by value.\n" + WRITTEN.rstrip()]
    for constant in interface.constants:
        number = constant.get("number")
        power = re.fullmatch(r"2\^(\d+)", number)
        value = {"interface": interface.version.split(".")[0], "2^64 - 1": "u64::MAX"}.get(number) or (f"1 << {power[1]}" if power else number)
        parts.append((doc(constant.get("text")) + "\n" if constant.get("text") else "") + f"pub const {constant.title}: u64 = {value};")
    for enum in interface.enums:
        if enum.get("rust"):
            rows = [f"    pub const {re.sub('^' + enum.title.upper() + '_', '', name)}: {'usize' if enum.get('rust') == 'validator' else 'u64'} = {n};"
                    for name, n in places(enum)]
            rows += [""] + [("    " + line).rstrip() for line in enum.lines("rust code")] if enum.lines("rust code") else []
            parts.append(doc(enum.get("text")) + f"\npub mod {enum.get('rust')} {{\n" + "\n".join(rows) + "\n}")
        else:
            parts += [f"/// How many numbers each has.\npub const {name}: usize = {n};" for name, n in places(enum) if name.endswith("LENGTH")]
        if enum.get("struct"):
            rows = [f"    pub {name}: u64," for name in struct_fields(interface, enum)]
            parts.append("\n".join([doc(enum.get("text")), "#[repr(C)]", "#[derive(Clone, Copy, Debug, Default, PartialEq, Eq)]",
                                    f"pub struct {enum.get('struct')} {{", *rows, "}"]))
    for s in interface.used:
        if is_public(s):
            parts.append(written_struct(interface, s))
            if {kind for _, kind in s.fields} == {"u64"} and not s.answers:
                parts.append(as_numbers(s))
            presets = s.entry.under("preset")
            if presets:
                rows = []
                for name, numbers in presets.items():
                    values = [f"{field}: {preset_value(interface, kind, word)}" for (field, kind), word in zip(s.fields, numbers.split())]
                    rows.append(doc(s.entry.get("presets"), "    "))
                    rows.append(braced(f"pub const {preset_name(s, name)}: {s.camel} = {s.camel}", values, "    ", ";"))
                parts.append(f"impl {s.camel} {{\n" + "\n".join(rows) + "\n}")
        if s.answers and len(s.values) > 1 or given_name(s):
            gives(interface, s)
            if not is_hand(s):
                parts.append(given_struct(interface, s))
        if given_name(s) and not s.answers:
            _, value = gives(interface, s)
            parts.append(f"impl {s.camel} {{\n    pub(crate) fn given(self) -> {given_name(s)} {{\n        {value}\n    }}\n}}")
    return "\n\n".join(parts) + "\n"


def raw(interface):
    names = sorted({s.camel for s in interface.used if is_public(s)} | {given_name(s) for s in interface.used if s.answers and given_name(s) and not is_hand(s)})
    parts = ["//! The library's functions as bindings/c/altair.h declares them: a slice is a pointer and a length in elements.\n" + WRITTEN.rstrip(),
             "use crate::fault::{Answered, RawFault};\n" + used_names("use crate::types::{", names)]
    for s in interface.used:
        if s.answers:
            given, value = gives(interface, s)
            if not is_public(s):
                parts.append("\n".join(["#[repr(C)]", "#[derive(Clone, Copy)]", f"pub struct {s.camel} {{", *fields(interface, s), "}"]))
            if value:
                parts.append("\n".join([f"impl Answered for {s.camel} {{", f"    type Given = {given};", "", "    fn refusal(&self) -> u64 {", "        self.refusal", "    }", "",
                                        f"    fn given(self) -> {given} {{", f"        {value}", "    }", "}"]))
    sizes = [f"    assert!(size_of::<{s.camel}>() == {interface.size(s.name)});" for s in interface.used]
    parts.append("// the sizes that the header has\nconst _: () = {\n" + "\n".join(sizes) + "\n};")
    rows = []
    for section, functions in interface.sections.items():
        rows.append(f"    // {section.title}" if section else None)
        for f in functions:
            rows.append(extern(interface, f, f.name, kind_of(interface, f.answer)))
    rows.append("    // why a call was refused with 1: plain C")
    rows += [extern(interface, f, "altair_why_" + f.short, "RawFault") for f in interface.functions if is_told(f)]
    parts.append('extern "C" {\n' + "\n".join(row for row in rows if row) + "\n}")
    return "\n\n".join(parts) + "\n"


def extern(interface, function, name, answer):
    words = []
    for a in function.arguments:
        if a.lent:
            words += [f"{a.name}: *{'mut' if a.written else 'const'} {a.kind}", f"{a.name}_length: usize"]
        else:
            words.append(f"{a.name}: {kind_of(interface, a.kind)}")
    return fitted(f"pub fn {name}(", words, f") -> {answer};", "    ")


# -- The safe functions


def safe(interface, function):
    """A function over slices: what its first lines make of its arguments, and the words for C."""
    taken, made, words = [], [], []
    registry = next((a.name for a in function.buffers if a.role == "registry"), None)
    is_method = function.arguments and interface.structs.get(function.arguments[0].kind) and interface.structs[function.arguments[0].kind].entry.get("rust") == "methods"
    for place, a in enumerate(function.arguments):
        if a.lent:
            taken.append(f"{a.name}: &{'mut ' if a.written else ''}[{a.kind}]")
            words += [f"{a.name}.as_{'mut_' if a.written else ''}ptr()", f"{a.name}.len()"]
        elif a.kind == "ExitQueue" and registry and function.entry.get("rust") != "hand":
            taken.append(f"{a.name}: Option<&ExitQueue>")
            made.append(f"let {a.name} = pair_of({a.name}, {registry});")
            words.append(a.name)
        elif a.kind == "Rules":
            taken.append(f"{a.name}: impl Into<Rules>")
            made.append(f"let {a.name} = {a.name}.into();")
            words.append(a.name)
        elif is_method and place == 0:
            taken.append("&self")
            words.append("*self")
        elif a.kind in interface.structs:
            taken.append(f"{a.name}: &{kind_of(interface, a.kind)}")
            words.append(f"*{a.name}")
        else:
            taken.append(f"{a.name}: {kind_of(interface, a.kind)}")
            words.append(a.name)
    answer = interface.structs.get(function.answer)
    given = gives(interface, answer)[0] if answer else "()"
    indent = "    " if is_method else ""
    rows = [] if function.entry.get("rust") == "hand" else [doc(promise(function), indent)]
    example = function.entry.lines("rust example")
    if example:
        rows += [f"{indent}///", f"{indent}/// ```", *(f"{indent}/// {line}".rstrip() for line in example), f"{indent}/// ```"]
    if len(taken) > 7:
        rows.append(f"{indent}#[allow(clippy::too_many_arguments)]")
    hand = function.entry.get("rust") == "hand"
    result = "u64" if not function.refuses else f"({kind_of(interface, function.answer)}, Fault)" if hand else f"Result<{given}, Refusal>"
    rows.append(fitted(f"pub{'(crate)' if hand else ''} fn {function.short}(", taken, f") -> {result} {{", indent))
    rows += [f"{indent}    {line}" for line in made]
    if not function.refuses:
        rows.append(f"{indent}    // altair.h: {RULE_OF_NONE}")
        rows.append(f"{indent}    unsafe {{ raw::{function.name}({', '.join(words)}) }}")
    else:
        why = f"altair_why_{function.short}" if is_told(function) else "no"
        rows.append(fitted(f"{'asked' if hand else 'call'}!(", [function.name, why, *words], ")", indent + "    "))
    rows.append(indent + "}")
    return is_method, "\n".join(rows)


RULE_OF_NONE = "no pointers go in"


def said_of(function):
    """The promise as a string of several lines."""
    return " \\\n         ".join(line.replace("/// ", "", 1) for line in doc(promise(function)).split("\n")).replace('"', '\\"')


def calls(interface):
    functions, methods, used = [], {}, set()
    for f in interface.functions:
        is_method, text = safe(interface, f)
        (methods.setdefault(f.arguments[0].kind, []) if is_method else functions).append(text)
        used |= {kind_of(interface, a.kind) for a in f.arguments if a.kind in interface.structs}
        answer = interface.structs.get(f.answer)
        if answer and f.entry.get("rust") != "hand":
            used.add(gives(interface, answer)[0])
    public = {s.camel for s in interface.used if is_public(s)} | {given_name(s) for s in interface.used if not is_hand(s)}
    answers = sorted(kind_of(interface, f.answer) for f in interface.functions if f.entry.get("rust") == "hand" and f.answer in interface.structs)
    from_raw = sorted({name for name in answers if name not in public})
    names = sorted(name for name in (used | set(answers)) & public if name)
    parts = ["//! The calls, each lent slices: what goes in stays, and what is `&mut` is written. A closing slice is as long as its opening, or as its call says.\n" + WRITTEN.rstrip(),
             "use crate::close::pair_of;\nuse crate::fault::{asked, call, Fault};\n" + fitted("use crate::raw::{", ["self", *from_raw], "};")
             + "\nuse crate::refusal::Refusal;\n" + used_names("use crate::types::{", names) + "\nuse crate::votes::Votes;"]
    hand = [f for f in interface.functions if f.entry.get("rust") == "hand"]
    said = [f'    ({f.short}) => {{\n        "{said_of(f)}"\n    }};' for f in hand]
    parts.append("/// What the calls promise whose public functions are written by hand: their documentation begins with it.\nmacro_rules! promise {\n"
                 + "\n".join(said) + "\n}\npub(crate) use promise;")
    parts += functions
    parts += [f"impl {interface.structs[kind].camel} {{\n" + "\n\n".join(texts) + "\n}" for kind, texts in methods.items()]
    return "\n\n".join(parts) + "\n"


def refusal(interface):
    numbered = sorted(interface.refusals, key=lambda r: r[0])
    case = lambda n, entry: entry.get("rust") + ("(Fault)" if n == 1 else "")
    value = lambda n, entry: "Refusal::" + entry.get("rust") + ("(Fault::UNKNOWN)" if n == 1 else "")
    said = lambda entry: entry.get("words")[0].upper() + entry.get("words")[1:] + ". " + entry.get("after")
    cases = [doc(said(entry), "    ") + f"\n    {case(n, entry)}," for n, _, entry in numbered]
    every = [f"        {value(n, entry)}," for n, _, entry in numbered]
    numbers = [f"            Refusal::{entry.get('rust')}{'(_)' if n == 1 else ''} => {n}," for n, _, entry in numbered]
    words = [f"            Refusal::{entry.get('rust')}{'(_)' if n == 1 else ''} => \"{entry.get('words')}\"," for n, _, entry in numbered]
    return "\n".join(["//! Why a call was refused.", WRITTEN.rstrip(), "use crate::fault::Fault;", "",
                      "/// The first test that failed, under the number that the library answers. Two are equal where their numbers are.",
                      "#[derive(Clone, Copy, Debug, Eq)]", "#[non_exhaustive]", "pub enum Refusal {", *cases, "}", "", "impl Refusal {",
                      f"    pub const ALL: [Refusal; {len(numbered)}] = [", *every, "    ];", "",
                      "    /// The refusal with 1 whose argument is not known: equal to each of that number.",
                      "    pub const SHAPE: Refusal = Refusal::Shape(Fault::UNKNOWN);", "", "    /// ```",
                      "    /// assert_eq!(altair_close::Refusal::Overflow.number(), 5);", "    /// ```",
                      "    pub fn number(self) -> u64 {", "        match self {", *numbers, "        }", "    }", "",
                      "    pub(crate) fn words(self) -> &'static str {", "        match self {", *words, "        }", "    }", "}"]) + "\n"

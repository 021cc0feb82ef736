"""What the generator reads: the exported functions and structs of crates/, and the table of words, bindings/words."""
import re
import sys
from pathlib import Path

ROOT = Path(__file__).resolve().parents[2]
C_TYPES = {"u64": "uint64_t", "i64": "int64_t", "u8": "uint8_t", "usize": "uint64_t"}


def stop(text):
    sys.exit(f"generate: {text}")


class Entry:
    """An entry of the words: its kind, what stands behind it, and its keys. A key that is repeated has several values."""

    def __init__(self, kind, title):
        self.kind, self.title, self.keys = kind, title, {}

    def get(self, key, otherwise=""):
        """A key's words on one line."""
        return " ".join(self.keys[key][0].split()) if key in self.keys else otherwise

    def lines(self, key):
        return self.keys[key][0].strip("\n").split("\n") if key in self.keys else []

    def under(self, word):
        """The keys `WORD NAME`, by name."""
        return {key[len(word) + 1 :]: " ".join(values[0].split()) for key, values in self.keys.items() if key.startswith(word + " ")}


def words(folder=ROOT / "bindings/words"):
    """Every entry, in the order of the files: types and roles before calls."""
    found = []
    for path in sorted(folder.glob("*.txt"), key=lambda path: (path.stem.startswith("calls"), path.stem)):
        entry = held = None
        for number, line in enumerate(path.read_text().split("\n"), 1):
            key = re.match(r"  ([A-Za-z_][\w ]*):(?: (.*))?$", line)
            if line.startswith("#") or (not line.strip() and held is None):
                continue
            if line[:1].strip():
                kind, _, title = line.partition(" ")
                entry, held = Entry(kind, title), None
                found.append(entry)
            elif key and entry:
                held = entry.keys.setdefault(key[1], [])
                held.append(key[2] or "")
            elif held is not None and (line.startswith("    ") or not line.strip()):
                held[-1] += "\n" + line[4:]
            else:
                stop(f"{path.name}, line {number}: not understood: {line}")
    for entry in found:
        entry.keys = {key: [value.strip("\n").rstrip() for value in values] for key, values in entry.keys.items()}
    return found


class Struct:
    def __init__(self, name, fields):
        self.name, self.fields, self.entry = name, fields, None

    @property
    def answers(self):
        return self.fields[0][0] == "refusal"

    @property
    def c(self):
        plain = re.fullmatch(r"Plain(\w+)", self.name)
        name = self.entry.get("c") or (plain[1] + "Answer" if plain else self.name)
        return "altair_" + re.sub(r"(?<=[a-z])(?=[A-Z])", "_", name).lower()

    @property
    def camel(self):
        """The name in Rust: an answer's ends with Answer."""
        named = self.entry.get("rust")
        if named and named != "methods":
            return named
        plain = re.sub("^Plain", "", self.name)
        return re.sub("(Answer)?$", "Answer", plain, count=1) if self.answers else self.name

    @property
    def values(self):
        """What an answer has beside its refusal."""
        return self.fields[1:] if self.answers else self.fields

    @property
    def truths(self):
        return self.entry.get("truths").split()


class Argument:
    def __init__(self, name, kind):
        self.name = name
        lent = re.fullmatch(r"&(mut )?\[(\w+)\]", kind)
        self.lent, self.written = bool(lent), bool(lent and lent[1])
        self.kind = lent[2] if lent else kind
        self.role = self.changed = None


class Length:
    """How long a buffer must be: `said` of the words, over how many elements or rows other arguments have; `least` where longer will do."""

    def __init__(self, said, words):
        self.least = said.startswith("at least ")
        self.said, self.words = re.sub("^at least ", "", said), words

    @property
    def by_settings(self):
        return bool(re.search(r"\b[SL]\b", self.said))


class Function:
    def __init__(self, name, arguments, answer, entry):
        self.name, self.arguments, self.answer, self.entry = name, arguments, answer, entry

    @property
    def short(self):
        """The name in Rust and Python: altair_ goes, another prefix stays."""
        return re.sub("^altair_", "", self.name)

    @property
    def refuses(self):
        return [int(n) for n in self.entry.get("refuses").split() if n != "nothing"]

    def named(self, name):
        return next((a for a in self.arguments if a.name == name), None)

    def opening_of(self, argument):
        """What is lent as the opening of one that is written."""
        other = self.entry.under("as").get(argument.name) or {"closing": "opening"}.get(argument.name, argument.name.replace("closing_", ""))
        found = self.named(other)
        return found if found is not argument else None

    @property
    def front(self):
        """Those of which an accepted call writes the front, and leaves what stands behind it."""
        return [self.named(name) for name in self.entry.get("front").split()]

    @property
    def buffers(self):
        return [a for a in self.arguments if a.lent]

    @property
    def written(self):
        return [a for a in self.arguments if a.written]


class Interface:
    """All of it, in the order of the words."""

    def __init__(self):
        self.entries = words()
        self.version = re.search(r"^VERSION := (.*)$", (ROOT / "Makefile").read_text(), re.M)[1]
        by = lambda kind: [entry for entry in self.entries if entry.kind == kind]
        self.preamble = by("preamble")[0]
        self.refusals = [(int(e.title.split()[0]), e.title.split()[1], e) for e in by("refusal")]
        self.constants, self.enums = by("constant"), by("enum")
        self.roles = {e.title: e for e in by("role")}
        self.values = {e.title: e for e in by("value")}
        self.role_names = {name: e.title for e in by("role") for name in e.get("names").split()}
        self.renamed = {key: entry.get(key) for entry in by("renamed") for key in entry.keys}
        self.read_structs(by("struct"))
        self.read_functions(by("function"))

    def read_structs(self, entries):
        source, self.structs = "", {}
        for path in sorted((ROOT / "crates").glob("*/src/**/*.rt")):
            source += path.read_text() + "\n"
        for name, body in re.findall(r"#\[repr\(C\)\]\s*(?:#\[[^\]]*\]\s*)*pub struct (\w+) \{(.*?)\n\}", source, re.S):
            fields = re.findall(r"^\s*(?:pub )?(\w+): ([^,]+),", body, re.M)
            if self.structs.setdefault(name, Struct(name, fields)).fields != fields:
                stop(f"two structs are named {name}")
        for entry in entries:
            if entry.title not in self.structs:
                stop(f"words: there is no #[repr(C)] struct {entry.title} in crates")
            self.structs[entry.title].entry = entry
        self.used = []

        def use(struct):  # behind those that it holds, whatever file each stands in
            if struct not in self.used:
                for _, kind in struct.fields:
                    if kind in self.structs and self.structs[kind].entry:
                        use(self.structs[kind])
                self.used.append(struct)

        for entry in entries:
            use(self.structs[entry.title])

    def read_functions(self, entries):
        source = "\n".join(path.read_text() for path in sorted((ROOT / "crates/exports/src").glob("**/*.rt")))
        types = {}
        for name, arguments, answer in re.findall(r'pub extern "C" fn (\w+)\((.*?)\) -> (\w+)', source, re.S):
            listed = [" ".join(word.split()) for word in arguments.split(",") if word.strip()]
            types[name] = [Argument(self.renamed.get(n, n), kind) for n, kind in (word.split(": ", 1) for word in listed)], answer
        self.functions, self.sections, section = [], {}, None
        for entry in self.entries:
            if entry.kind == "section":
                section = entry
            elif entry.kind == "function":
                if entry.title not in types:
                    stop(f"words: crates/exports has no function {entry.title}")
                function = Function(entry.title, *types.pop(entry.title), entry)
                for needed in ("text", "refuses"):
                    if needed not in entry.keys:
                        stop(f"words: function {entry.title} has no `{needed}`")
                self.sections.setdefault(section, []).append(function)
                self.functions.append(function)
                self.give_roles(function)
        for name in types:
            stop(f"words: {name} of crates/exports has no entry: `function {name}` with `text` and `refuses` in bindings/words/calls..txt")
        for name in sorted(set(self.reached()) - {struct.name for struct in self.used}):
            stop(f"words: struct {name} has no entry: `struct {name}` with `text` in bindings/words/types..txt")

    def give_roles(self, function):
        named, changes = function.entry.under("role"), function.entry.get("changes").split()
        for argument in function.arguments:
            argument.changed = argument.name in changes
            if argument.lent:
                argument.role = named.get(argument.name) or self.role_names.get(argument.name, "numbers")
                if argument.role not in self.roles:
                    stop(f"words: {function.name}: there is no role {argument.role}")
                if argument.written and not argument.changed and not self.length(function, argument) and not function.entry.under("python length"):
                    stop(f"words: {function.name}: `length {argument.name}: NUMBER; WORDS` says how long it is, or `as {argument.name}: OTHER`")
            else:
                argument.role = named.get(argument.name, argument.name)

    def value_role(self, argument):
        """The entry of a number or struct by value: by its role or name, where the type is that entry's, else by its type."""
        wanted = argument.kind if argument.kind in self.structs else ""
        named = self.values.get(argument.role)
        if named and named.get("of") == wanted:
            return named
        return self.value_of(wanted)

    def value_of(self, kind):
        """The entry of a type."""
        return next((entry for entry in self.values.values() if kind in self.structs and entry.get("of") == kind), None)

    def beside(self, function):
        """What a refused call answers beside the number, field by field: C of its arguments, for those that are not 0."""
        answer = self.structs.get(function.answer)
        if answer is None or function.entry.get("zeros"):
            return {}
        handed_in = {a.kind: a.name for a in function.arguments if a.kind in self.structs}
        found = {name: handed_in[kind] for name, kind in answer.values if kind in handed_in}
        found.update({**answer.entry.under("beside"), **function.entry.under("beside")})
        for letter, (argument, row) in self.counted(function).items():
            found = {name: re.sub(rf"\b{letter}\b", f"{argument.name}_length / {row}", said) for name, said in found.items()}
        return {name: found[name] for name, _ in answer.values if name in found}

    def length(self, function, argument):
        """The Length that a buffer must have, or None where it may have any, or as many as its role's faults say."""
        named = argument.name in function.entry.under("length")
        said = function.entry.under("length").get(argument.name)
        other = function.opening_of(argument) if argument.written else None
        if not said and other:
            return Length(other.name, f"as many {'bytes' if other.kind == 'u8' else 'numbers'} as {other.name} has")
        said = said or self.roles[argument.role].get("length")
        if not said:
            return None
        length, _, words = said.partition("; ")
        if not words:
            stop(f"words: {function.name if named else 'role ' + argument.role}: a length is `NUMBER; WORDS`, not {said}")
        return Length(length, words)

    def counted(self, function):
        """The letters of a length that count rows: the first buffer of each, and the elements of a row."""
        found = {}
        for a in function.buffers:
            letter = self.roles[a.role].get("count")
            if letter:
                found.setdefault(letter, (a, int(self.row(function, a))))
        return found

    def row(self, function, argument):
        return function.entry.under("row").get(argument.name) or self.roles[argument.role].get("row")

    def worked_out(self, function, said, rows, elements, others):
        """A length in a language: `rows(argument, row)` and `elements(argument)` say how many there are, `others` are its further words."""
        counted = self.counted(function)

        def word(found):
            name, inner = found[1], found[2]
            if inner:
                return others[name](inner) if name in others else stop(f"words: {function.name}: there is no {name} in a length")
            if name in counted:
                return rows(*counted[name])
            if name in others:
                return others[name]
            if not function.named(name) or not function.named(name).lent:
                stop(f"words: {function.name}: {name} of a length is no buffer that is lent")
            return elements(function.named(name))

        return re.sub(r"\b([A-Za-z_]\w*)\b(?:\((\w+)\))?", word, said)

    def settings_of(self, function):
        """C for the settings that a call is handed, by themselves or within a struct, or None."""

        def within(name, kind):
            if kind == "Settings":
                return name
            fields = self.structs[kind].fields if kind in self.structs and kind != "Running" else []
            return next(filter(None, (within(f"{name}.{field}", inner) for field, inner in fields)), None)

        return next(filter(None, (within(a.name, a.kind) for a in function.arguments if not a.lent)), None)

    def reached(self):
        """The names of every struct that a function takes or answers."""
        seen, todo = set(), [kind for f in self.functions for kind in [f.answer, *(a.kind for a in f.arguments)]]
        while todo:
            name = todo.pop()
            if name in self.structs and name not in seen:
                seen.add(name)
                todo += [re.sub(r"\[(\w+); \d+\]", r"\1", kind) for _, kind in self.structs[name].fields]
        return seen

    def c_type(self, kind):
        return C_TYPES.get(kind) or self.structs[kind].c

    def size(self, kind):
        """Bytes, with the alignment of C on x86-64: every struct is made of 64-bit numbers and roots."""
        array = re.fullmatch(r"\[(\w+); (\d+)\]", kind)
        if array:
            return int(array[2]) * self.size(array[1])
        return {"u8": 1}.get(kind, 8) if kind in C_TYPES else sum(self.size(field) for _, field in self.structs[kind].fields)


def spoken(words, last="or"):
    """1, 2 or 3."""
    words = [str(word) for word in words]
    return words[0] if len(words) == 1 else ", ".join(words[:-1]) + f" {last} " + words[-1]


def leaves(function):
    """What a refused call leaves in what it writes: by rule, or as the entry says."""
    said = function.entry.get("leaves")
    if said or not function.written or not function.refuses:
        return said
    written = [a for a in function.written if a.role != "scratch"]
    late = [n for n in function.refuses if n in (4, 5) and not any(a.changed for a in written)]
    early = [n for n in function.refuses if n not in late]
    several, amounts = len(written) > 1, any(a.role == "amounts" for a in written)
    held = f"{spoken([a.name for a in written], 'and')} {'are as they were' if several else 'is as it was'}"
    if not late:
        return f"After a refusal {held}."
    holds = "closing buffers hold" if amounts else "they hold" if several else "it holds"
    room = any(a.name in function.entry.under("length") for a in function.front)
    behind = " at their front, and behind them what they held" if room else ""
    zeros = ", and amounts zeros" if amounts else ""
    return f"After {spoken(early)} {held}, after {spoken(late)} {holds} the opening's numbers{behind}{zeros}."


NOUNS = {"registry": "the registry", "slashings": "the slashings", "file": "the file", "validator": "the ten numbers"}


def promise(function, lent=True):
    """The paragraph that every language prints of a call; where the caller lends what is written, what that holds."""
    text = function.entry.get("text")
    unsaid = [a for a in function.written if not re.search(rf"\b{a.name}\b", text)]
    holds = [f"{a.name} holds {NOUNS[a.role]}" for a in unsaid if lent and a.role in NOUNS and a not in function.front and not function.entry.get("leaves")]
    if len(holds) == 1 and f"{unsaid[0].name} holds {text[0].lower()}{text[1:]}".startswith(holds[0]):
        text, holds = f"{unsaid[0].name} holds {text[0].lower()}{text[1:]}", []
    holds = [said + "." for said in holds]
    long = function.entry.under("length")
    long = [f"{a.name} {long[a.name].split('; ')[0]}" for a in function.written if lent and a.name in long and (a in unsaid or a in function.front)]
    holds += ["Lengths: " + ", ".join(long) + "."] if long else []
    refused = f"Refused with {spoken(function.refuses)}." if function.refuses else "It refuses nothing."
    return " ".join(" ".join([text, *holds, refused, leaves(function)]).split())

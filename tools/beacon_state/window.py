"""A JSON text read value by value through a window, and handed on with some values replaced.

Only the window is in memory, so that a list of millions is read in little room. A place is a byte's offset: the text is ASCII."""
import json
import re

from .errors import Bad

CHUNK = 2**17  # larger ones cost new memory again and again
LONGEST_VALUE = 2**26
SPACE = re.compile(r"[ \t\n\r]*").match


class Number:
    """A number without quotes, as it is spelt."""

    def __init__(self, text):
        self.text = text


# objects come as tuples of pairs, so that a name given twice shows
SCAN = json.JSONDecoder(object_pairs_hook=tuple, parse_int=Number, parse_float=Number, parse_constant=Number).scan_once


class Window:
    """`read(count)` gives the next bytes; `sink`, where there is one, takes the text that has been passed.

    `field` and `index` say what is being read, for messages."""

    def __init__(self, read, sink=None):
        self.read, self.sink = read, sink
        self.text, self.base, self.at, self.begin, self.sent = "", 0, 0, 0, 0
        self.passed, self.ended, self.odd = [], False, 0  # odd: up to where bulk.py has found what is not plain
        self.field, self.index = "", None

    def bad(self, what, path="", at=None):
        index = "" if self.index is None else f"[{self.index}]"
        return Bad(what, f"{self.field}{index}{path}", self.base + (self.begin if at is None else at))

    def place(self):
        """The offset of the next character."""
        return self.base + self.at

    def more(self, keep):
        """Reads on. What lies before `keep` is handed on and dropped."""
        self.hand_on(keep)
        self.text, self.base = self.text[keep:], self.base + keep
        self.at, self.begin, self.sent = self.at - keep, self.begin - keep, max(self.sent - keep, 0)
        data = self.read(max(CHUNK, len(self.text)))
        self.ended = not data
        try:
            self.text += data.decode("ascii")
        except UnicodeDecodeError as error:
            at = self.base + len(self.text) + error.start
            raise Bad(f"the byte {data[error.start]} is not ASCII, and a state's JSON has no other", "", at) from None

    def mark(self):
        """The next character that is no space, and '' at the end."""
        while True:
            self.at = SPACE(self.text, self.at).end()
            if self.at < len(self.text) or self.ended:
                return self.text[self.at : self.at + 1]
            self.more(self.at)

    def expect(self, marks):
        """Passes one of these characters."""
        mark = self.mark()
        if not mark or mark not in marks:
            wanted = " or ".join(marks)
            raise self.bad(f"{wanted} is wanted, not {mark}" if mark else f"the text ends, and {wanted} is wanted", "", self.at)
        self.at += 1
        return mark

    def value(self):
        """The next value, whole. `begin` is where it stands."""
        if self.at > CHUNK:
            self.more(self.at)
        if self.text[self.at : self.at + 1] <= " ":
            self.mark()
        self.begin = self.at
        while True:
            try:
                value, end = SCAN(self.text, self.begin)
                if end < len(self.text) or self.ended:
                    self.at = end
                    return value
            except (ValueError, StopIteration, RecursionError) as error:
                if self.ended or len(self.text) - self.begin > LONGEST_VALUE:
                    raise self.no_value(error) from None
            self.more(self.begin)

    def no_value(self, error):
        if isinstance(error, RecursionError):
            return self.bad("lists within lists, too deep")
        if isinstance(error, json.JSONDecodeError):
            return self.bad(f"no JSON: {error.msg}", "", error.pos)
        at = error.value if isinstance(error, StopIteration) else self.begin
        return self.bad("a value is wanted" if at < len(self.text) else "the text ends within a value", "", at)

    def raw(self):
        """The text of the value that was read last."""
        return self.text[self.begin : self.at]

    def replace(self, text):
        """Hands on this text in place of the value that was read last."""
        self.passed += [self.text[self.sent : self.begin], text]
        self.sent = self.at

    def hand_on(self, end):
        if self.sink:
            self.sink("".join(self.passed) + self.text[self.sent : end])
            self.passed.clear()

    def members(self, brackets):
        """Once for each entry of a list or object that follows; the caller reads it."""
        self.expect(brackets[0])
        if self.mark() == brackets[1]:
            self.at += 1
            return
        while True:
            yield
            if self.text[self.at : self.at + 1] == ",":
                self.at += 1
            elif self.expect("," + brackets[1]) == brackets[1]:
                return

    def end(self):
        """Nothing but space may follow; what is left is handed on."""
        self.field = ""
        if self.mark():
            raise self.bad("more text behind the state", "", self.at)
        self.hand_on(len(self.text))

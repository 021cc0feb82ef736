"""Which validators a statement is of: numbers, ranges, public keys, or files of them."""
import re

from altair_close._files import read_text

from ..errors import Bad, Stopped

NUMBER = re.compile("[0-9]{1,20}").fullmatch
RANGE = re.compile("([0-9]{1,20})-([0-9]{1,20})").fullmatch
KEY = re.compile("(?:0x)?([0-9a-fA-F]{96})").fullmatch
LONGEST = 2**26  # bytes of a file of validators
MOST = 2**24


class Choice:
    """All validators where no word was given."""

    def __init__(self, words=(), named="--validators"):
        self.all, self.spans, self.keys, self.named = not words, [], {}, named
        for word in words:
            for one in filter(None, word.split(",")):
                if not self.take(one):
                    self.take_file(one)
        if not self.all and not self.spans and not self.keys:
            raise Stopped(f"{named} names none")

    def take(self, word):
        if NUMBER(word):
            first = last = int(word)
        elif found := RANGE(word):
            first, last = map(int, found.groups())
        elif found := KEY(word):
            self.keys[bytes.fromhex(found[1])] = None
            return True
        else:
            return False
        if last < first or last >= MOST:
            raise Stopped(f"{self.named} {word}: numbers from 0 to {MOST - 1} are wanted, the smaller one first")
        self.spans.append((first, last))
        return True

    def take_file(self, name):
        for k, line in enumerate(read_text(name, LONGEST).split("\n"), 1):
            for word in line.split("#")[0].replace(",", " ").split():
                if not self.take(word):
                    raise Bad(f"{word[:60]!r} is no validator's number, range of numbers or public key", f"{name}, line {k}")

    def of(self, count, keys, name):
        """The chosen validators that a record of so many has, in order; None for all of them."""
        if self.all:
            return None
        if self.keys and keys is None:
            raise Stopped(f"{name}: a record file has no public keys: name the validators by their numbers")
        missing = {key for key, index in self.keys.items() if index is None}
        if missing:
            self.keys.update(keys.find(missing))
        found = {index for index in self.keys.values() if index is not None and index < count}
        for first, last in self.spans:
            found.update(range(first, min(last + 1, count)))
        return sorted(found)

    def has(self, index, key):
        """Whether a validator, None where it is none yet, or its key is chosen."""
        return self.all or key in self.keys or index is not None and any(first <= index <= last for first, last in self.spans)

    def places(self, keys):
        """Of a list of keys, the places that are chosen, by their number or by the key that stands there."""
        for first, last in self.spans:
            if last >= len(keys):
                raise Bad(f"{self.named}: there is no deposit {max(first, len(keys))}: the queue has {len(keys)}")
        for key in self.keys:
            if key not in keys:
                raise Bad(f"{self.named}: no deposit of the queue has the public key 0x{key.hex()}")
        return {place for place, key in enumerate(keys) if not self.all and self.has(place, key)}

    def test_found(self, count, pending=()):
        """Refuses a choice of which some are in no record, the last of which has so many validators and these keys in its queue."""
        for first, last in self.spans:
            if last >= count:
                raise Bad(f"--validators: there is no validator {max(first, count)}: the record has {count}")
        for key, index in self.keys.items():
            if index is None and key not in pending:
                raise Bad(f"--validators: no validator has the public key 0x{key.hex()}")

"""The public keys of a state's validators."""


class Extended:
    """The keys of a state's validators, and behind them those of the validators that its close made."""

    def __init__(self, keys, joined):
        self.keys, self.joined, self.count = keys, list(joined), keys.count + len(joined)

    def __getitem__(self, index):
        return self.joined[index - self.keys.count] if index >= self.keys.count else self.keys[index]

    def find(self, wanted):
        found = self.keys.find(wanted)
        for place, key in enumerate(self.joined):
            if key in wanted:
                found.setdefault(key, self.keys.count + place)
        return found


class Keys:
    """`count` entries of `size` bytes, each beginning with a key of 48 bytes."""

    LENGTH = 48

    def __init__(self, data, size, count):
        self.data, self.size, self.count = data, size, count

    def __getitem__(self, index):
        at = self.size * index
        return bytes(self.data[at : at + self.LENGTH])

    def find(self, wanted):
        """key -> the first validator that has it, of those that are wanted."""
        found = {}
        if wanted:
            wanted, length = set(wanted), self.LENGTH
            for index, at in enumerate(range(0, self.size * self.count, self.size)):
                key = bytes(self.data[at : at + length])
                if key in wanted:
                    found.setdefault(key, index)
        return found

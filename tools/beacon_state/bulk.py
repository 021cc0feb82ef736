"""The long lists of a state's JSON, many entries at a time.

Only what is spelt plainly, in the order of the public text, is passed here, and only with a comma behind it: every other entry, and every
one that is wrong, is left to be read value by value, where it is told what is wrong with it. Without spaces, as nodes print it, a run of
entries is taken apart column by column; with them one by one."""
import json
import re
from array import array
from itertools import starmap
from operator import itemgetter
from struct import Struct

from .containers import Validator

SPACE = "[ \t\n\r]*"
NUMBER = "(?:0|[1-9][0-9]{0,19})"
NUMBERS = re.compile(f'(?:"{NUMBER}",{SPACE})+').match
ROOTS = re.compile(f'(?:"0x[0-9a-fA-F]{{64}}",{SPACE})+').match
SPELT = {"pubkey": '"0x([0-9a-fA-F]{96})"', "withdrawal_credentials": '"0x([0-9a-fA-F]{2})[0-9a-fA-F]{62}"', "slashed": "(true|false)"}
VALIDATOR = re.compile(
    rf"\{{{SPACE}"
    + f",{SPACE}".join(f'"{name}"{SPACE}:{SPACE}' + SPELT.get(name, f'"({NUMBER})"') + SPACE for name in Validator.fields)
    + rf"\}}{SPACE},{SPACE}"
).match
TOP = 2**64 - 1
RUN = 2**17  # characters at once: what is made of them stays near the processor
ONLY_DIGITS = re.compile("[0-9,]+").fullmatch
TRUE, FALSE = '"slashed":true', '"slashed":false'
ONE_DIGIT = bytes.maketrans(b"0123456789", bytes(range(10)))
# a validator without spaces: HEAD, 48 bytes, MIDDLE, 32 bytes, '",', its six numbers and '"}'
SIX = list(Validator.fields)[2:]
HEAD, MIDDLE = '{"pubkey":"0x', '","withdrawal_credentials":"0x'
TAIL = '"},' + HEAD
three_parts = itemgetter(slice(64), slice(64, -96), slice(-96, None))  # of what lies between two of MIDDLE
pack = Struct("=6Q").pack


def numbers(window, most, take):
    """Passes numbers in quotes of at most so much; take(numbers) gets them. How many."""

    def take_apart(run):
        values = one_digit_each(run) or listed(inner(run, run.count(","), '"', '"', ","))
        if most < TOP and max(values) > most:
            raise ValueError
        values = array("Q", values)
        take(values)
        return len(values)

    window.mark()
    count = plain_runs(window, '","', take_apart)
    found = NUMBERS(window.text, window.at)
    if not found:
        return count
    values = [int(digits) for digits in found[0].replace('"', "").split(",")[:-1]]
    if max(values) > most:
        return count
    window.at = found.end()
    take(values)
    return count + len(values)


def roots(window, take):
    """Passes roots of 32 bytes each; take(bytes) gets them. How many."""

    def take_apart(run):
        words = run.split(",")
        if set(map(len, words)) != {len('"0x"') + 64}:
            raise ValueError
        take(octets(column(words, '"0x', '"', ""), 32 * len(words)))
        return len(words)

    window.mark()
    count = plain_runs(window, '","', take_apart)
    found = ROOTS(window.text, window.at)
    if not found:
        return count
    made = bytes.fromhex(found[0].replace('"0x', "").replace('",', ""))  # it passes over spaces
    window.at = found.end()
    take(made)
    return count + len(made) // 32


def validators(window, keys, first, six):
    """Passes validators: their keys, the first byte of their credentials, and six numbers each are added to the three. How many."""

    def take_apart(run):
        credentials, behind, key = zip(*map(three_parts, between_middles(run)))
        if behind[0] != HEAD:
            raise ValueError
        count = len(behind) - 1
        key, credentials = octets("".join(key[:-1]), 48 * count), octets("".join(credentials[1:]), 32 * count)
        made = b"".join(each_once(behind[1:], sixes))
        keys.extend(key)
        first.extend(credentials[::32])
        six.frombytes(made)
        return count

    window.mark()
    count = plain_runs(window, "},{", take_apart)
    text, at = window.text, window.at
    while found := VALIDATOR(text, at):
        key, credentials, balance, slashed, *epochs = found.groups()
        values = (int(balance), int(slashed == "true"), *map(int, epochs))
        if max(values) > TOP:
            break
        keys += bytes.fromhex(key)
        first.append(int(credentials, 16))
        six.extend(values)
        at, count = found.end(), count + 1
    window.at = at
    return count


# Runs without spaces. What is not plain is a ValueError, or an OverflowError of a number above 2^64 - 1, before anything is taken.


def plain_runs(window, between, take_apart):
    """Passes runs of entries, each up to the last of these marks between two of them; take_apart(run) says how many they are. A run that is
    not plain is not tried again, or entries that are spelt otherwise would each cost a run."""
    count = 0
    while window.place() >= window.odd:
        text, begin = window.text, window.at
        stop = text.find("]", begin, begin + RUN)
        end = text.rfind(between, begin, begin + RUN if stop < 0 else stop)
        if end < 0:
            break
        try:
            count += take_apart(text[begin : end + 1])
        except (ValueError, OverflowError):
            window.odd = window.base + end + 1
            break
        window.at = end + 2
    return count


def one_digit_each(run):
    """The numbers of a run where each has one digit, or nothing."""
    count = len(run) // 4 + 1
    if run[::4] == run[2::4] == '"' * count and run[3::4] == "," * (count - 1) and run[1::4].isdecimal():
        return list(run[1::4].encode("ascii").translate(ONE_DIGIT))
    return []


def between_middles(run):
    """What lies between two of MIDDLE: from a validator's credentials to the next one's key. The first has no credentials and no numbers, and
    the last no key, but as many characters."""
    return f"{'0' * 64}{run},{HEAD}{'0' * 96}".split(MIDDLE)


def sixes(entries):
    """The six numbers of each validator, as an array has them, from what lies between its credentials and the next one's key."""
    count = len(entries)
    if [each[:2] for each in entries].count('",') != count or [each[-len(TAIL) :] for each in entries].count(TAIL) != count:
        raise ValueError
    words = ",".join([each[2 : -len(TAIL)] + '"' for each in entries]).split(",")
    if len(words) != len(SIX) * count:
        raise ValueError
    columns = []
    for place, name in enumerate(SIX):
        column_of = words[place :: len(SIX)]
        if name != "slashed":
            columns.append(listed(column(column_of, f'"{name}":"', '"', ",")))
        elif column_of.count(TRUE) + column_of.count(FALSE) == count:
            columns.append([word == TRUE for word in column_of])
        else:
            raise ValueError
    if max(map(max, columns)) > TOP:
        raise ValueError
    return list(starmap(pack, zip(*columns)))


def each_once(words, values_of):
    """The values of the words. Where each stands there often, as epochs do, it is read once."""
    spelt = list(set(words))
    if 4 * len(spelt) > len(words):
        return values_of(words)
    return map(dict(zip(spelt, values_of(spelt))).__getitem__, words)


def column(words, before, behind, glue):
    """What stands in each of the words, which have no comma, between the two, with the glue between them."""
    return inner(",".join(words), len(words) - 1, before, behind, glue)


def inner(joined, commas, before, behind, glue):
    """The same of words that stand with so many commas between them."""
    between = f"{behind},{before}"
    body = joined.replace(between, glue)
    # as many places as there are commas, so that each comma stands in one, and what is left has its two ends
    ends = len(body) >= len(before) + len(behind) and body.startswith(before) and body.endswith(behind)
    if not ends or len(joined) - len(body) != commas * (len(between) - len(glue)):
        raise ValueError
    return body[len(before) : len(body) - len(behind)]


def listed(digits):
    """The numbers of a row of digits and commas; JSON knows none with a 0 before it."""
    if not ONLY_DIGITS(digits):
        raise ValueError
    return json.loads(f"[{digits}]")


def octets(digits, count):
    """So many bytes in hexadecimal."""
    made = bytes.fromhex(digits)
    if len(made) != count:  # spaces are passed over
        raise ValueError
    return made

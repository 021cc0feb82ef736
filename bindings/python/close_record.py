#!/usr/bin/env python3
"""Closes the record file on standard input and prints the close, or `refused` and the number:

  tools/record write samples/example.json - | bindings/python/close_record.py

It exits with 0, with 1 where the record is refused, the number and its words being said on standard error, and with 2 where it could not
read, write or find the library."""
from altair_close import Record, Refused, _command


def main():
    try:
        opening = Record.open("-")
        print(*opening.listing(opening.close()), sep="\n")
    except Refused as refused:
        print("refused", refused.number)
        raise


if __name__ == "__main__":
    _command.run("close_record", main)

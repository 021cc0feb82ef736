"""record: a record file from a readable text, and back.

  {0} write [--unchecked] [--version 1] TEXT.json RECORD    the record file of a text
  {0} show RECORD TEXT.json                                 the text of a record file
  {0} check RECORD                                          whether the library reads a file, or why not

'-' is standard input or output. A file is written in version 2, which carries the exit queue's pair, unless --version 1 is asked for;
both are read. The text is JSON: `{0} show` shows one, and altair_close/text.py says what it holds. The file of a text with
Electra's queues has them behind the record, for altair-close --fork electra. What is no record is refused with the field that is at
fault; --unchecked also writes records that the library refuses.
Exit status: 0; 1 where text or file is no record that the library takes; 2 where it could not be read or written."""
import sys

from . import _command, _electra_file, _layout, text
from ._errors import Stopped
from ._files import read_electra_record, read_text, write_whole


def write(source, target, unchecked, version):
    write_whole(target, [text.write(read_text(source), unchecked=unchecked, version=version)])


def refused(file):
    """Says why the library refuses the file, if it does."""
    found = (_electra_file if _electra_file.is_electra(file) else _layout).fault(file)
    if found:
        _command.said("record", f"the library refuses this file under {found.refusal}, at byte {found.position}: {found.field}: {found.why}")
    return 1 if found else 0


def show(source, target):
    file = read_electra_record(source)
    write_whole(target, (part.encode() for part in text.show(file)))
    return refused(file)


def versioned(words):
    """The words without --version and its number, and that number; None for one that is not 1 or 2."""
    if "--version" not in words:
        return words, _layout.FILE_VERSION
    place = words.index("--version")
    known = {str(version): version for version in _layout.VERSIONS}
    return words[:place] + words[place + 2 :], known.get(" ".join(words[place + 1 : place + 2]))


def chosen(words):
    """The work that the words ask for, or None."""
    rest, version = versioned(words)
    unchecked = "--unchecked" in rest
    verb, *paths = [word for word in rest if word != "--unchecked"] or [""]
    if any(path.startswith("-") and path != "-" for path in paths) or version is None or verb != "write" and len(words) > 1 + len(paths):
        return None
    works = {
        ("write", 2): lambda: write(*paths, unchecked, version),
        ("show", 2): lambda: show(*paths),
        ("check", 1): lambda: refused(read_electra_record(*paths)),
    }
    return works.get((verb, len(paths)))


def asked(words, name):
    if "-h" in words or "--help" in words:
        print(__doc__.format(name))
        return 0
    work = chosen(words)
    if work is None:
        raise Stopped(f"these words ask for nothing that is known.\n\n{__doc__.format(name)}")
    return work()


def main(words, name="altair-record"):
    return _command.status_of("record", asked, words, name)


def run(name="altair-record"):
    _command.run("record", asked, sys.argv[1:], name)

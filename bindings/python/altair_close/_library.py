"""The shared library: found, opened at the first call, and held to the table of signatures."""
import ctypes
import os
from pathlib import Path

NAMED = "ALTAIR_LIBRARY"
HERE = Path(__file__).resolve().parent
BESIDE = HERE / "libaltair.so"  # where a wheel puts it
IN_REPOSITORY = "target/altair/libaltair.so.5"  # where make puts it, below the folder that holds bindings/python/altair_close


def places():
    """The file that ALTAIR_LIBRARY names and no other; else the one beside this package, else the one that the repository has built."""
    named = os.environ.get(NAMED)
    if named:
        return [Path(os.path.abspath(named))]  # with a folder: dlopen searches the system for a bare name
    return [BESIDE, *(root / IN_REPOSITORY for root in list(HERE.parents)[2:3] if HERE.parent.name == "python")]


def path():
    found = places()
    for place in found:
        if place.is_file():
            return place
    raise ImportError(
        f"altair_close: the shared library is missing: there is no file {' and no file '.join(map(str, found))}. "
        f"`make`, run in the repository, makes it; {NAMED}=PATH names one that stands elsewhere."
    )


def symbol(name):
    """The name in C: another prefix than altair_ is part of a function's name here too."""
    return name if name.startswith(("deneb_", "electra_")) else "altair_" + name


class Fault(ctypes.Structure):
    _fields_ = [("argument", ctypes.c_char_p), ("wanted", ctypes.c_char_p), ("number", ctypes.c_uint64)]


def opened(signatures, version):
    """Each function of the table by its name, with argtypes and restype, from a library of this interface's version; and under why_NAME what
    says why one is refused with 1, where there is such a function."""
    found = path()
    try:
        library = ctypes.CDLL(str(found))
        library.altair_version.restype = ctypes.c_uint64
        library.altair_version.argtypes = []
        answered = library.altair_version()
    except (OSError, AttributeError) as error:
        raise ImportError(f"altair_close: {found} is not the library of the close: {error}") from None
    if answered != version:
        raise ImportError(f"altair_close: {found} has version {answered} of the interface, and {version} is wanted")
    functions = {}
    for name, signature in signatures.items():
        for key, wanted, kind in ((name, symbol(name), signature.answer.kind), ("why_" + name, "altair_why_" + name, Fault)):
            try:
                function = library[wanted]
            except AttributeError:
                if key != name:
                    continue
                raise ImportError(f"altair_close: {found} has no function {wanted}") from None
            function.restype, function.argtypes = kind, signature.words
            functions[key] = function
    return functions

"""What is wrong with an input, and where."""
from altair_close import _errors
from altair_close._errors import Stopped


class Bad(_errors.Bad):
    """Input that is not what it must be: the field, the byte and what is wrong with it."""

    def __init__(self, what, field="", offset=None):
        place = [field] if field else []
        if offset is not None:
            place.append(f"byte {offset}")
        super().__init__(f"{', '.join(place)}: {what}" if place else what)


def counted(count, what):
    """5 entries, 1 entry."""
    plural = what[:-1] + "ies" if what.endswith("y") else what + "s"
    return f"{count} {what if count == 1 else plural}"

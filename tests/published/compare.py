"""One case: the step is run on the record of `pre`, put back into it, and every byte of the state compared with `post`.

A case without `post` is one in which the step must refuse."""
from beacon_state import record_file, settings as settings_of
from beacon_state.errors import Bad
from beacon_state.ssz import List, Uint, Vector
from beacon_state.state_ssz import State

from . import steps
from .snappy import unpacked

EQUAL, DIFFERENT, UNREADABLE = "equal", "different", "unreadable"
SHOWN = 3


def outcome(case, settings):
    """What came of a case, and why. The case's own config.yaml, where it has one, is read over the preset's settings."""
    try:
        own = case.path / "config.yaml"
        if own.exists():
            settings = settings_of.from_files([("config.yaml", own.read_bytes())])
        pre, post = state(case, "pre", settings), state(case, "post", settings)
        if pre is None:
            return UNREADABLE, "there is no pre.ssz_snappy"
        # the fork's pair stands in the places of Altair's two: all else is the same in both forks
        record = b"".join(record_file.pieces(pre.record(settings_of.of_record(settings, case.fork))))
    except (Bad, OSError) as error:
        return UNREADABLE, str(error)
    try:
        after = steps.after(case.step, record)
    except steps.Refused as refused:
        return (DIFFERENT, f"refused {refused.number}, and there is a post") if post else (EQUAL, "")
    if post is None:
        return DIFFERENT, "not refused, and there is no post"
    pre.put(record_file.read(after))
    if pre.data == post.data:
        return EQUAL, ""
    return DIFFERENT, "; ".join(differences(pre, post))


def state(case, name, settings):
    """The state of a file of the case; None where there is no such file."""
    path = case.path / f"{name}.ssz_snappy"
    if not path.exists():
        return None
    try:
        return State(bytearray(unpacked(path.read_bytes())), settings, case.fork)
    except Bad as bad:
        raise Bad(f"{path.name}: {bad}") from None


def differences(here, there):
    """The first entry of each field that differs, of the first few fields."""
    fields = [name for name in here.kind.fields if here.bytes_of(name) != there.bytes_of(name)]
    for name in fields[:SHOWN]:
        kind, ours, published = here.kind.fields[name], here.bytes_of(name), there.bytes_of(name)
        if isinstance(kind, (List, Vector)):
            if len(ours) != len(published):
                yield f"{name}: {len(ours) // kind.of.size} entries here, {len(published) // kind.of.size} published"
                continue
            size = kind.of.size
            i = next(i for i in range(len(ours)) if ours[i] != published[i]) // size
            name, kind = f"{name}[{i}]", kind.of
            ours, published = ours[i * size : i * size + size], published[i * size : i * size + size]
        yield f"{name}: {shown(kind, ours)} here, {shown(kind, published)} published"
    if len(fields) > SHOWN:
        yield f"and {len(fields) - SHOWN} fields more"


def shown(kind, data):
    return str(int.from_bytes(data, "little")) if isinstance(kind, Uint) else "0x" + data.hex()

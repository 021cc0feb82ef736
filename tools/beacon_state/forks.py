"""Forks by name: what is said of a state that is of another one."""
from .containers import FORKS
from .errors import Bad


def title(fork):
    return "phase0" if fork == "phase0" else fork.capitalize()


def a_state(fork, thing="state"):
    """An Altair state, a Capella state."""
    return f"{'an' if title(fork)[0] in 'AE' else 'a'} {title(fork)} {thing}"


def read_here():
    return f"states of {title(FORKS[0])} to {title(FORKS[-1])} are read"


def another(fork, first=None, fixed=(), at=None):
    """Bad: a state of a fork that is not read, or of one whose layout it has not."""
    if fork not in FORKS:
        return Bad(f"this is {a_state(fork)}; {read_here()}")
    wanted = f"its fixed part has {first} bytes, and with these settings {fixed[fork]}"
    return Bad(f"this is {a_state(fork)} by its fork version, but {wanted}. Another preset?", "historical_roots", at)


def contradicted(found, named, field, at):
    """Bad: the layout says one fork and a word of the state another."""
    if named not in FORKS:
        return Bad(f"this is {a_state(named)}; {read_here()}", field, at)
    return Bad(f"{title(named)}, and the layout is that of {title(found)}; --fork {found} takes it as such", field, at)

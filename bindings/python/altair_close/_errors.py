"""What the user of a command is told, and the exit status that goes with it."""


class Bad(Exception):
    """Input that is refused for what it holds, with the place and what is wrong there: exit status 1."""


class Stopped(Exception):
    """What cannot be done, whatever the input holds: exit status 2."""

"""What every exception of this module is: `except bus.Error` catches a refusal, the faults of a list, a file that cannot
be read, a library that is not built and a search that was ended. Wrong arguments are TypeError and ValueError."""


class Error(Exception):
    """The base of all exceptions that a call raises besides TypeError and ValueError."""

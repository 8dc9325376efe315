"""The version of the command and of the calls for a notebook."""

__version__ = "1.0.0"

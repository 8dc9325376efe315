"""C source for any controller: a table and its dispatcher, compared with the library before they are handed out.

    source       the two files as text, from the templates
    c_names      tasks by names that C takes
    comparison   what was written, compiled and compared with the library

The folder harness has the C of the comparison: states.c makes the calls, in the states that docs/CONTROLLER.md tells,
and both.c compares each with the library.
"""

from .c_names import is_prefix
from .comparison import Different, compare, compiler
from .source import Controller

__all__ = ["Controller", "Different", "compare", "compiler", "is_prefix"]

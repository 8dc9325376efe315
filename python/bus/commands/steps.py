"""Steps that several subcommands take."""

import os

from .. import answer, calls, details, files, lists, progress
from ..answer import Answer
from ..errors import Error
from ..picture import picture
from ..rows import of_request, of_table
from ..sources import given
from ..text import aligned, c_array, listing

# Arguments that say what is printed; one of them, or none.
PRINTED = {"json": "--json", "plain": "--plain", "c": "--c", "csv": "--csv"}


class WrongUse(Error):
    """Arguments that do not go together."""


def say(text):
    """Lines to the person at the screen, the later ones indented."""
    progress.tell(text.replace("\n", "\n     "))


def one_way(asked):
    """Standard output has one thing: a file that is '-', or what one of the arguments says."""
    wanted = [word for name, word in PRINTED.items() if getattr(asked, name, None)]
    wanted += ["'-'" for name in answer.OUTPUTS if getattr(asked, name, None) == "-"]
    if len(wanted) > 1:
        raise WrongUse(f"{wanted[0]} and {wanted[1]} both go to standard output: leave one of the two out")


def one_input(*paths):
    """Standard input can be one of the files that are read."""
    if paths.count("-") > 1:
        raise WrongUse("standard input cannot be two files: name the others")


def _real(paths):
    return [os.path.realpath(path) for path in paths if path != "-" and not path.startswith("/dev/")]


def look_ahead(sources, *outputs):
    """Faults of files that will be written are told before a search, which may be long."""
    outputs = [path for path in outputs if path is not None]
    real = [*set(_real(sources)), *_real(outputs)]
    if len(set(real)) < len(real):
        raise WrongUse("one file is named twice, and one of the two would be lost: name another")
    for path in outputs:
        files.probe(path)


def is_list(output):
    """Whether what is written there is a list, with names: printed, or a file that ends in .csv."""
    return output is None or output.lower().endswith(".csv")


def request_answer(request, output):
    """Writes a list or, by the ending of its name, a request file. Without a name the list is the answer's words."""
    text = lists.write(request)
    if output is not None:
        files.write(output, text.encode() if is_list(output) else bytes(request))
    return Answer(of_request(request), text if output is None else "")


def table_answer(request, table, asked):
    """Writes the table file and the picture that are asked for, and answers the table as it is to be printed."""
    if asked.svg is not None:
        files.write(asked.svg, picture(request, table, titled(asked.list, "Bus table")).encode())
    if asked.output is not None:
        files.write(asked.output, bytes(table))
    return Answer(of_table(request, table), _table_words(request, table, asked))


def _table_words(request, table, asked):
    if asked.c:
        return c_array(request, table, asked.c)
    return table_words(request, table, asked.plain)


def table_words(request, table, plain):
    """A table for people, as wide as their terminal, or as plain lines."""
    columns = os.get_terminal_size(1).columns if not plain and os.isatty(1) else None
    return listing(request, table) if plain else aligned(request, table, columns)


def titled(path, otherwise):
    """The title of a picture: the name of the list's file, or other words where it is standard input."""
    return otherwise if path == "-" else os.path.basename(path)


def tell_overload(request):
    """Transfers that ask for more than all the time are told before any search, which may be long."""
    request = given(request).request
    if request.load > 1:
        say(details.asked_for(request=request))


def planned(request, tries):
    """The table of a request, decided, or searched with so many tries if a number is given; with signs of long work."""
    tell_overload(request)
    with progress.Deciding() if tries is None else progress.Progress(tries) as signs:
        return calls.plan(request, tries, tell=signs)

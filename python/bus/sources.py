"""What a caller may give as a request or a table: a record, bytes, or the path of a file."""

import contextlib
from typing import NamedTuple, Optional, Tuple

from . import files, library, lists, request as requests, table as tables
from .accepted import PathLike, RequestLike, TableLike, is_bytes, is_path, kind_of
from .refusals import Refused
from .request import Request
from .table import Table

REQUEST = "a request is a bus.Request, its bytes, or the path of a list or a request file"
TABLE = "a table is a bus.Table, its bytes, or the path of a table file"


class Given(NamedTuple):
    """A request's bytes as the library gets them, and the request that is in them."""

    data: bytes
    request: Request


# Who is told what was noticed in a list that was read: called with what the list is called, and words.
_listeners = []


@contextlib.contextmanager
def listening(tell):
    """While the block runs, `tell` is called with what is noticed in each list that is read."""
    _listeners.append(tell)
    try:
        yield
    finally:
        _listeners.remove(tell)


def _noticed(source, notes):
    for tell in _listeners:
        for note in notes:
            tell(source, note)


def called(source, otherwise):
    """What a refusal calls a source: its path, if it has one."""
    if isinstance(source, files.Content):
        return source.name
    return files.called(source) if is_path(source) else otherwise


def bytes_of(source, what):
    if is_path(source):
        return files.read(source)
    if is_bytes(source):
        return bytes(source)
    raise TypeError(f"{what}; not {kind_of(source)}")


def content(source: TableLike) -> bytes:
    """The bytes of a table: of a record, of a file, or as they are."""
    return bytes(source) if isinstance(source, Table) else bytes_of(source, TABLE)


def judge(data):
    """Refuses the bytes of a request as the library refuses to read them."""
    number = library.unreadable(data)
    if number:
        raise Refused.of(number, data=data)


def request_in(data):
    """The request in the bytes of a request file."""
    judge(data)
    return requests.decode(data)


def table_in(data):
    """The table in the bytes; refused with 12 if the library finds none in them."""
    number = library.no_table(data)
    if number:
        raise Refused.of(number, table=data)
    return tables.decode(data)


def _listed(data, source):
    """The request in a list; what was noticed in it is told."""
    try:
        request = lists.read(data)
    except lists.ListFaults as found:
        found.source = found.source or source
        _noticed(source, found.notes)
        raise
    _noticed(source, request.notes)
    return request


def given(source: RequestLike) -> Given:
    """What a caller gave as a request, read once: what was read already is taken as it is."""
    if isinstance(source, Given):
        return source
    if isinstance(source, Request):
        return Given(bytes(source), source)
    data = bytes_of(source, REQUEST)
    if lists.is_list(data):
        request = _listed(data, called(source, ""))
        return Given(bytes(request), request)
    if library.unreadable(data) and lists.instead_of_a_list(data):
        raise lists.WrongFile(lists.instead_of_a_list(data), called(source, ""))
    return Given(data, request_in(data))


def request_of(source: RequestLike) -> Request:
    """The request, also where no bytes of it are needed, so that nothing is refused."""
    return source if isinstance(source, Request) else given(source).request


def both(request: RequestLike, table: TableLike) -> Tuple[Request, Table]:
    """A request and a table, to be shown as they are: nothing is checked."""
    return request_of(request), table if isinstance(table, Table) else table_in(content(table))


def read_request(source: RequestLike) -> Request:
    """The request in a list or in a request file."""
    return given(source).request


def read_table(source: TableLike, request: Optional[RequestLike] = None) -> Table:
    """The table in a table file. With a request it is the picture's too; nothing is checked: `check` does that."""
    table = table_in(content(source))
    return table if request is None else tables.of(table, given(request).request)


def write_list(request: RequestLike, path: PathLike) -> None:
    """Writes a request as a list (CSV), whole or not at all."""
    files.write(path, lists.write(given(request).request).encode())


def write_table(table: TableLike, path: PathLike) -> None:
    """Writes a table file, whole or not at all."""
    files.write(path, content(table))

"""What a file is, by its bytes: a list or a request, or the wrong file, named as what it is.

Whether bytes are a request or a table is the library's answer.
"""

from .. import library
from .encoding import is_text

# What may be named in place of a list, and what to do then.
WORKBOOK, PACKED, PICTURE, PDF, PAGE = "a workbook", "a packed file", "a picture", "a PDF file", "a web page or XML"
ADVICE = {
    WORKBOOK: "save it as CSV UTF-8, and name that file",
    PACKED: "unpack it, and name the list that is in it",
    PICTURE: "name the list",
    PDF: "write the list as CSV, and name that file",
    PAGE: "open it in a workbook, save it as CSV UTF-8, and name that file",
}

# How such files begin.
BEGINNINGS = (
    (b"PK\x03\x04", WORKBOOK),
    (b"PK\x05\x06", WORKBOOK),
    (b"\xd0\xcf\x11\xe0\xa1\xb1\x1a\xe1", WORKBOOK),
    (b"\x1f\x8b", PACKED),
    (b"\x89PNG", PICTURE),
    (b"\xff\xd8\xff", PICTURE),
    (b"<svg", PICTURE),
    (b"%PDF", PDF),
    (b"<?xml", PAGE),
    (b"<!doctype", PAGE),
    (b"<html", PAGE),
    (b"<table", PAGE),
)
WORKBOOKS = (b"xl/", b"opendocument.spreadsheet", b"[Content_Types].xml", b"Index/")
MOST_BYTES = 164  # of a request
MOST_TASKS = 16
TABLE_MARK = 2
BLANKS = b"\xef\xbb\xbf \t\r\n"


def is_request(data):
    """Whether the library can read the bytes as a request. It is asked only where that may be."""
    return 1 <= len(data) <= MOST_BYTES and 1 <= data[0] <= MOST_TASKS and not library.unreadable(data)


def is_table(data):
    """Whether the library can read the bytes as a table."""
    return data[:1] == bytes([TABLE_MARK]) and not library.no_table(data)


def foreign(data):
    """What a file is that is neither ours nor plain text, by how it begins; or nothing."""
    begin = data[:64].lstrip(BLANKS).lower()
    for mark, name in BEGINNINGS:
        if data.startswith(mark) or begin.startswith(mark):
            packed = mark.startswith(b"PK") and not any(part in data for part in WORKBOOKS)
            return PACKED if packed else name
    return ""


def is_list(data):
    """Whether a file is a list: text, and no request that the library can read."""
    return is_text(data) and not foreign(data) and not is_request(data)


def instead_of_a_list(data):
    """Why the bytes are neither a list nor a request, if they are something that has a name."""
    name = foreign(data)
    if name:
        return f"this is {name}: {ADVICE[name]}"
    if is_table(data):
        return "this is a table, and a list is wanted here: name the list first and the table behind it"
    return ""


def instead_of_a_table(data):
    """Why the bytes are no table, if they are something that has a name."""
    name = foreign(data)
    if name:
        return f"this is {name}: a table is what `bus plan LIST -o TABLE` writes"
    if not data:
        return "the file is empty"
    if is_request(data):
        return "this is a request, and a table is wanted here: name the list first and the table behind it"
    if is_text(data):
        return "this is a text, such as a list, and a table is wanted here: name the list first and the table behind it"
    return ""

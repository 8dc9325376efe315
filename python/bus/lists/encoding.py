"""The text in the bytes of a list: UTF-8, UTF-16 with and without its mark, or Windows-1252."""

import codecs
import re
import unicodedata

from .faults import Fault, ListFaults

SAVE = "save the list as CSV UTF-8"
LINE_END = re.compile("\r\n|\n|\r")
LINE_ENDS_AND_TABS = "\t\n\r"

# The marks that a text may begin with. That of UTF-32 begins as that of UTF-16 does, so it comes first.
UTF_32 = (codecs.BOM_UTF32_LE, codecs.BOM_UTF32_BE)
UTF_16 = (codecs.BOM_UTF16_LE, codecs.BOM_UTF16_BE)

# At most one byte in so many of a text that was damaged is a control character.
TEXT_BYTES = 20
NAMES_SHOWN = 3


def _is_text(text):
    return all(letter.isprintable() or letter in LINE_ENDS_AND_TABS or letter.isspace() for letter in text)


def _unmarked(data):
    """The encoding of a text in UTF-16 without a mark, or nothing: half of its bytes are 0, always the same half."""
    if len(data) % 2 or b"\0" not in data:
        return ""
    for name, zeros in (("utf-16-le", data[1::2]), ("utf-16-be", data[::2])):
        if 2 * zeros.count(0) >= len(zeros):
            try:
                text = data.decode(name)
            except UnicodeDecodeError:
                continue
            if _is_text(text) and LINE_END.search(text):
                return name
    return ""


def _controls(data):
    return sum(byte < 32 and byte not in b"\t\n\r" for byte in data)


def is_text(data):
    """Whether the bytes are a text, perhaps with a few control characters that do not belong there."""
    if data[:2] in UTF_16 or data[:4] in UTF_32 or _unmarked(data):
        return True
    controls = _controls(data)
    damaged = controls and data[0] >= 32 and any(end in data for end in b"\r\n")
    return controls == 0 or bool(damaged) and TEXT_BYTES * controls <= len(data)


def _windows_1252(data):
    """The text of bytes that are not UTF-8, and a note about it."""
    try:
        text = data.decode("cp1252")
    except UnicodeDecodeError as reason:
        line = len(LINE_END.findall(data[: reason.start].decode("latin-1"))) + 1
        byte = f"{data[reason.start]:02X}"
        words = f"the byte {byte} (hexadecimal) is neither UTF-8 nor Windows-1252: {SAVE}"
        raise ListFaults([Fault(line, words)]) from reason
    words = dict.fromkeys(re.findall(r"[\w\-]*[^\W\x00-\x7f][\w\-]*", text))
    some = ", ".join(list(words)[:NAMES_SHOWN])
    look = f"; look whether this is right: {some}" if some else ""
    return text, [f"read as Windows-1252, since it is not UTF-8{look}"]


def _decoded(data):
    """The text, and notes about it."""
    if data[:4] in UTF_32:
        raise ListFaults([Fault(1, f"the text is UTF-32: {SAVE}")])
    name = "utf-16" if data[:2] in UTF_16 else _unmarked(data) or "utf-8-sig"
    try:
        return data.decode(name), []
    except UnicodeDecodeError as reason:
        if name == "utf-8-sig":
            return _windows_1252(data)
        line = len(LINE_END.findall(data[: reason.start].decode(name, "replace"))) + 1
        raise ListFaults([Fault(line, f"the text is UTF-16 and was cut or damaged: {SAVE}")]) from reason


def _control_faults(lines):
    """The first control character of each line that has one."""
    for number, line in enumerate(lines, 1):
        for at, letter in enumerate(line):
            if unicodedata.category(letter) == "Cc" and letter != "\t":
                behind = f" behind {line[:at][-12:]!r}" if at else ""
                yield Fault(number, f"a control character ({ord(letter):02X} hexadecimal){behind}: take it out")
                break


def lines_in(data):
    """The lines of a list and notes on how they were read, or faults."""
    text, notes = _decoded(data)
    lines = LINE_END.split(text)
    faults = list(_control_faults(lines))
    if faults:
        raise ListFaults(faults, notes=notes)
    return lines, notes

"""Lists joined into one: the library joins the requests, and the names go along."""

from typing import Optional

from . import library, request as requests
from .accepted import RequestLike, Tell
from .lists import ListFaults
from .names import second_names
from .refusals import Refused
from .request import Request
from .sources import Given, called, given, judge
from .text import quoted

PLACES = ("first", "second", "third")


def _place(number):
    """Which of several it is, in words."""
    return PLACES[number] if number < len(PLACES) else f"{number + 1}th"


def _part(source, name):
    """A request's bytes, which the library can read, and the request in them; a refusal says whose it is."""
    try:
        part = given(source)
        judge(part.data)
    except (ListFaults, Refused) as refusal:
        refusal.source = name
        raise
    return part


def _joined(parts, second, name, tell):
    """Two parts as one, and what both are called."""
    (first_bytes, first), source = parts
    answer, written = library.join(first_bytes, second.data)
    if answer < 0:
        raise Refused.of(-answer, f"{source} and {name}", first=first, second=second.request)
    before, old = ([task.name for task in request.tasks] for request in (first, second.request))
    new = second_names(before, old)
    changed = [f"{quoted(was)} to {quoted(now)}" for was, now in zip(old, new) if was != now]
    if changed and tell is not None:
        tell(f"{name}: names changed in the joined list: {', '.join(changed)}")
    request = requests.named(requests.decode(written), before + new)
    return Given(written, request), f"{source} and {name}"


def join(first: RequestLike, second: RequestLike, *more: RequestLike, tell: Optional[Tell] = None) -> Request:
    """One request of two or more: the first's tasks and pairs, then the second's and so on, with the silent ticks that
    all have.

    Names are kept as far as they can be told apart; `tell` is called with a line about those of a later one that are
    not. A refusal's `source` is the path, or which of the requests, that it speaks of.
    """
    given_ones = (first, second, *more)
    names = [called(source, f"the {_place(number)} request") for number, source in enumerate(given_ones)]
    parts = [_part(source, name) for source, name in zip(given_ones, names)]
    joined = parts[0], names[0]
    for part, name in zip(parts[1:], names[1:]):
        joined = _joined(joined, part, name, tell)
    return joined[0].request

"""Planning in a process of its own, so that Ctrl-C, or the end of this process, ends a long search at once.

Without a limit a request is decided. With one it is searched with so many tries and no more.

A search cannot tell from inside how far it is. So one that is allowed many tries is first allowed few. Mostly that is
its end: what it comes to then, it comes to with any larger allowance too. Otherwise its speed is known, and from that
and the time about how many tries it has made.
"""

from . import child

# What the programs allow that plan a request from standard input: some hundredths of a second.
TRIES = 10_000_000

# The refusal of a search that needs more tries than are allowed.
ENDED = 23

SECONDS_BETWEEN_SIGNS = 1.0


def _in_child(name, *arguments, tell=None):
    """What the library answers to a call, and the seconds that it took."""
    with child.worker() as worker:
        return worker.call(name, *arguments, pause=SECONDS_BETWEEN_SIGNS, tell=tell)


def decide(request, tell=None):
    """The library's answer to bus_decide and the table's bytes. `tell` is called about once a second, with None."""
    answer, _ = _in_child("decide", request, tell=tell and (lambda _: tell(None)))
    return answer


def plan(request, allowance, tell=None):
    """The library's answer to bus_plan, the table's bytes and the count of tries.

    `tell` is called about once a second of a long search, with about how many tries are used, or None while that is
    not known.
    """
    few = min(allowance, TRIES)
    answer, seconds = _in_child("plan", request, few, tell=tell and (lambda _: tell(None)))
    if answer[0] == -ENDED and few < allowance:
        speed = few / max(seconds, 0.001)
        used = tell and (lambda gone: tell(min(round(speed * gone), allowance)))
        answer, _ = _in_child("plan", request, allowance, tell=used)
    return answer

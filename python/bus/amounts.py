"""Amounts in words: 1 tick, 2 ticks, 81 %."""


def counted(number: int, word: str) -> str:
    """A number of things: 1 tick, 2 ticks."""
    return f"{number} {word}" if number == 1 else f"{number} {word}s"


def percent(share: float) -> str:
    return "<1 %" if 0 < share < 0.01 else f"{100 * share:.0f} %"

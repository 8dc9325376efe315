"""The subcommands of `bus`, a module for each, in the order in which `bus --help` has them.

A module has NAME, the word behind `bus`; HELP, what it does; EXAMPLE, lines for its help; `arguments`, which adds its
arguments to a parser; and `run`, which does what the parsed arguments ask and gives an Answer, which is then printed.
"""

from . import c, check, cut, diff, fly, heater, join, list, move, new, one_off, phases, plan, room, show, spacing, timeline, timer, why

COMMANDS = (
    new, plan, show, check, why, room, fly, list, join, cut, one_off, spacing, move, diff, phases, timer, heater, timeline, c,
)

"""The command `bus`: its help, its exit status, and its words to a person. The folder commands has what it can do."""

import argparse
import os
import signal
import sys
import traceback

from . import answer as answers, files, hint, refusals, sources
from .amounts import counted
from .answer import ANSWERED, FAILED, REFUSED, UNKNOWN, Answer
from .commands import COMMANDS
from .commands.steps import one_way, say
from .errors import Error
from .lists import ListFaults, WrongFile
from .progress import put
from .version import __version__

MOST_FAULTS = 30

DESCRIPTION = """\
Plans a bus table from a team's list of periodic transfers. The proved library
decides everything; the first time, it is built.

Wherever a LIST is asked for, a CSV file or a request file will do, and '-' is
standard input. docs/FORMATS.md of the repository has the formats."""

EXAMPLE = "  bus plan examples/team.csv --svg team.svg"

COLUMNS = """\
a list, as CSV from a workbook or by hand; all times are whole ticks:
  name,length,period,deadline,phase
  star,6,40,30,10
  gyro,2,20,,                 no deadline: the period; no phase: 0
  before,camera,downlink      the first runs before the second
  silent,1                    ticks without a transfer after each one"""

STATUS = """\
exit status: 0 answered; 1 refused; 2 wrong use, or a file that cannot be read
or written; 3 not known. Why, and what to do, stands on standard error."""


class _Parser(argparse.ArgumentParser):
    def print_help(self, file=None):
        files.print_out(self.format_help())

    def error(self, message):
        self.print_usage(sys.stderr)
        say(f"{message}\n`{self.prog} --help` has an example")
        raise SystemExit(FAILED)


class _Version(argparse.Action):
    def __call__(self, *_):
        files.print_out(f"bus {__version__}\n")
        raise SystemExit(ANSWERED)


def _layout(description, example):
    return {
        "description": description,
        "epilog": f"{COLUMNS}\n\nexample:\n{example}\n\n{STATUS}",
        "formatter_class": argparse.RawDescriptionHelpFormatter,
        "allow_abbrev": False,
    }


def _parser():
    parser = _Parser(prog="bus", **_layout(DESCRIPTION, EXAMPLE))
    parser.add_argument("--version", action=_Version, nargs=0, help="print the version")
    group = parser.add_subparsers(metavar="COMMAND", required=True, parser_class=_Parser)
    for command in COMMANDS:
        subparser = group.add_parser(command.NAME, help=command.HELP, **_layout(command.HELP, command.EXAMPLE))
        subparser.set_defaults(run=command.run, subcommand=command.NAME, own_parser=subparser)
        command.arguments(subparser)
        subparser.add_argument("--json", action="store_true", help="print the answer as one record, in JSON")
    return parser


def _parsed(words):
    """The arguments; what is too much is a fault of the subcommand."""
    asked, more = _parser().parse_known_args(words)
    if more:
        asked.own_parser.error(f"unrecognized arguments: {' '.join(more)}")
    return asked


def _faults_told(found, asked):
    source, faults = found.source or files.called(asked.list), found.faults
    told = Answer({"faults": [{"file": source, **fault._asdict()} for fault in faults]}, "", REFUSED)
    if isinstance(found, WrongFile):
        say(f"{source}: refused: {faults[0]}")
        return told
    for fault in faults[:MOST_FAULTS]:
        put(f"{source}: {fault}")
    more = f", {len(faults) - MOST_FAULTS} of them not shown" if len(faults) > MOST_FAULTS else ""
    mend = "mend what the line says" if len(faults) == 1 else "mend what the lines say"
    say(f"refused: the {found.kind} has {counted(len(faults), 'fault')}{more}: {mend}; {found.more}")
    return told


def _refusal_told(refused, asked):
    """The refusal with the file that it speaks of, and a last line that names who is to blame and what tells more."""
    speaks_of = getattr(asked, refusals.row(refused.number).speaks_of, "")
    refused.source = refused.source or files.called(speaks_of)
    say("\n".join(filter(None, (str(refused), hint.last_line(refused, asked)))))
    return Answer(refused.record(), "", UNKNOWN if refused.number in refusals.NOT_KNOWN else REFUSED)


def _told(fault, asked):
    """What is told of a fault on standard error, and its answer, which has no words."""
    if isinstance(fault, ListFaults):
        return _faults_told(fault, asked)
    if isinstance(fault, refusals.Refused):
        return _refusal_told(fault, asked)
    say(str(fault))
    return Answer({"words": str(fault)}, "", FAILED)


def _answer(asked):
    """What the subcommand answers; a fault is an answer too."""
    try:
        one_way(asked)
        return asked.run(asked)
    except Error as fault:
        return _told(fault, asked)


def main(words=None):
    """Runs the command with these words and answers its exit status."""
    try:
        asked = _parsed(words)
        with sources.listening(lambda source, note: say(f"{source}: {note}")):
            answer = _answer(asked)
        answers.show(answer, asked)
        return answer.status
    except SystemExit as end:
        return end.code
    except files.FileFault as fault:
        say(str(fault))
        return FAILED
    except Exception:
        traceback.print_exc()
        say("this is a fault of the command itself: please report it with the lines above")
        return FAILED


def run():
    """The executable: Ctrl-C and a closed pipe end it as they end any other."""
    signal.signal(signal.SIGPIPE, signal.SIG_DFL)
    try:
        sys.exit(main())
    except KeyboardInterrupt:
        say("stopped")
        signal.signal(signal.SIGINT, signal.SIG_DFL)
        os.kill(os.getpid(), signal.SIGINT)

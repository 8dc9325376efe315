"""Bus tables from a team's list of periodic transfers, thin over the proved library, which decides everything.

    import bus
    request = bus.read_request("examples/team.csv")
    table = bus.plan(request)                  # or bus.Refused, with number, words and advice; a notebook draws it
    table = bus.plan(request, tries=10**6)     # no more tries than these, or bus.Refused with 23; table.tries were made
    print(bus.aligned(request, table))
    bus.rows(request, table)                   # plain records, for a data frame
    for row in table: ...                      # its rows; and the frames of a dispatcher, without an end
    flight = bus.Dispatcher(table, request)    # checks the table against the request
    flight.next_frame(), flight.report("gyro", 9), flight.counts
    both = bus.join("examples/battery-1.csv", "examples/battery-2.csv")
    pieces = bus.cut("examples/p2.csv", "camera", 4)   # 4 ticks, and then the rest
    bus.one_off(request, table, 5, begin=20)   # the earliest frame with time for 5 ticks more
    bus.spacing(request, table)                # the least and the most ticks between two starts of each task
    draft = bus.Draft(request, table)          # jobs moved by hand: lifted, put into a frame, written as a table
    draft.lift("heater.0"), draft.put("heater.0", 3), draft.write()
    found = bus.phases(request, "star")        # how many phases of a task lead to a table, and which
    bus.strip(request, found)                  # the same as a picture
    timer = bus.Timer(table, request)          # the dispatcher behind eight registers, for a controller's driver
    timer.write(0, 3), timer.event(), timer.serve(), timer.registers, timer.line
    heater = bus.Heater("examples/heater.csv", "examples/heater.table", "switch", "status")
    heater.serve("r"), heater.toggles, heater.on   # a frame in which the reply is lost
    jobs = bus.timeline(request, table)        # every job of a cycle with its window and its frame
    bus.chart(request, table, jobs)            # the same as a picture
    refusal = bus.why("examples/p5.csv")       # why there is no table: the core, and the changes that would give one
    bus.plan(refusal.changes[0].request)       # the list with the cheapest of them
    bus.crowd(refusal.core)                    # the core as a picture
    bus.room(request)                          # how much longer, earlier and more the transfers may get
    bus.diff("old.csv", "new.csv")             # what is different between two lists or two tables
    bus.write_list(request, "team.csv"), bus.write_table(table, "team.table"), bus.read_table("team.table")

Wherever a task is asked for, its name or its number will do. Every exception is a bus.Error, save TypeError and
ValueError for wrong arguments. Nothing is printed, but for the building of the library.
"""

from .build import NotBuilt
from .calls import FreeFrame, check, free_frames, one_off, plan, rewrite
from .changes import Change
from .chart import chart
from .child import SearchEnded
from .core import Core
from .crowd import crowd
from .cut import cut
from .diff import Diff, diff
from .dispatcher import Dispatcher, Frame, Served
from .draft import Draft
from .errors import Error
from .files import FileFault
from .heater import Exchange, Heater, Message
from .join import join
from .lists import ListFaults
from .phases import Phases, Run, phases
from .picture import picture
from .refusals import Refused
from .request import Job, Request, Task
from .room import Room, room
from .rows import rows
from .search import TRIES
from .sources import read_request, read_table, write_list, write_table
from .spacing import Spacing, spacing
from .strip import strip
from .table import Entry, Table
from .text import aligned, c_array, flight, listing
from .timeline import Record, timeline
from .timer import Timer
from .version import __version__
from .why import Why, why

__all__ = [
    "Change",
    "Core",
    "Diff",
    "Dispatcher",
    "Draft",
    "Entry",
    "Error",
    "Exchange",
    "FileFault",
    "Frame",
    "FreeFrame",
    "Heater",
    "Job",
    "ListFaults",
    "Message",
    "NotBuilt",
    "Phases",
    "Record",
    "Refused",
    "Request",
    "Room",
    "Run",
    "SearchEnded",
    "Served",
    "Spacing",
    "TRIES",
    "Table",
    "Task",
    "Timer",
    "Why",
    "__version__",
    "aligned",
    "c_array",
    "chart",
    "check",
    "crowd",
    "cut",
    "diff",
    "flight",
    "free_frames",
    "join",
    "listing",
    "one_off",
    "phases",
    "picture",
    "plan",
    "read_request",
    "read_table",
    "rewrite",
    "room",
    "rows",
    "spacing",
    "strip",
    "timeline",
    "why",
    "write_list",
    "write_table",
]

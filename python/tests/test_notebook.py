"""The calls for a notebook: hints, wrong arguments, one base exception, names, records, iteration, and the process that
searches."""

import inspect
import io
import itertools
import os
import signal
import subprocess
import threading
import time
import typing
from contextlib import redirect_stderr, redirect_stdout
from unittest import mock

import bus
from bus import child, drawing
from tests.helper import AT_ONCE, COMMAND, EXAMPLES, HANGS, ROOT, Case, children, pigeons, request, running

TEAM = EXAMPLES / "team.csv"
HEATER = EXAMPLES / "heater.csv", EXAMPLES / "heater.table"
ONE = request((1, 20, 20, 0))


class Hints(Case):
    def functions(self):
        """Every function that is offered, and the methods of every class that are."""
        for name in bus.__all__:
            offered = getattr(bus, name)
            if inspect.isfunction(offered):
                yield name, offered
            elif inspect.isclass(offered) and not issubclass(offered, bus.Error):
                for method, found in vars(offered).items():
                    plain = found.fget if isinstance(found, property) else found
                    if inspect.isfunction(plain) and plain.__module__.startswith("bus.") and method[0] != "_":
                        yield f"{name}.{method}", plain

    def test_every_function_has_them(self):
        """Each argument and each answer; what they name is there."""
        seen = 0
        for name, function in self.functions():
            signature = inspect.signature(function)
            for argument in signature.parameters.values():
                if argument.name != "self":
                    self.assertIsNot(argument.annotation, inspect.Parameter.empty, f"{name}: {argument.name}")
            self.assertIsNot(signature.return_annotation, inspect.Signature.empty, name)
            seen += 1
        self.assertGreater(seen, 40)
        self.assertTrue((ROOT / "python" / "bus" / "py.typed").exists())

    def test_they_are_types(self):
        """What the hints name can be found."""
        for name, function in self.functions():
            self.assertTrue(typing.get_type_hints(function), name)


class Accepted(Case):
    def test_no_request_and_no_table(self):
        """The TypeError says what would do, and what came."""
        request_words = "a request is a bus.Request, its bytes, or the path of a list or a request file; not "
        for value, kind in ((5, "int"), (None, "None"), (1.5, "float"), ([1], "list"), (bus.Task("a", 1, 2, 2), "Task")):
            for call in (bus.plan, bus.read_request, lambda value: bus.phases(value, 0), lambda value: bus.join(TEAM, value)):
                with self.assertRaisesRegex(TypeError, f"^{request_words}{kind}$"):
                    call(value)
            table_words = "a table is a bus.Table, its bytes, or the path of a table file; not "
            for call in (bus.Dispatcher, bus.read_table, lambda value: bus.check(TEAM, value)):
                with self.assertRaisesRegex(TypeError, f"^{table_words}{kind}$"):
                    call(value)

    def test_no_whole_numbers(self):
        """1e9 tries are a float: the words say how to write them."""
        table = bus.plan(TEAM)
        for call, says in (
            (lambda: bus.plan(TEAM, tries=1e9), "tries that are allowed is a whole number, not float: write 1000000000$"),
            (lambda: bus.plan(TEAM, tries="7"), "is a whole number, not str$"),
            (lambda: bus.plan(TEAM, tries=True), "is a whole number, not bool$"),
            (lambda: bus.phases(TEAM, "star", tries=0.5), "is a whole number, not float$"),
            (lambda: bus.phases(TEAM, 2.0), "a task's number is a whole number, not float: write 2$"),
            (lambda: bus.cut(TEAM, "camera", 4.0), "the first piece is a whole number, not float: write 4$"),
            (lambda: bus.one_off(TEAM, table, "5"), "a length is a whole number, not str$"),
            (lambda: bus.Draft(TEAM, table).put("gyro.0", 1.0), "a frame is a whole number, not float: write 1$"),
            (lambda: bus.Timer(table).read(0.0), "an address is a whole number, not float: write 0$"),
            (lambda: bus.Heater(*HEATER, "switch", "status").serve(1), "is one of the letters .crb, not int$"),
        ):
            with self.assertRaisesRegex(TypeError, says):
                call()
        with self.assertRaisesRegex(ValueError, "from 0 to 18446744073709551615, not -1"):
            bus.plan(TEAM, tries=-1)

    def test_numbers_of_other_libraries(self):
        """What Python takes for an index is a whole number."""

        class Number:
            def __index__(self):
                return 10**6

        self.assertEqual(bus.plan(TEAM, tries=Number()), bus.plan(TEAM))

    def test_everything_that_is_accepted(self):
        """A record, bytes of each kind and paths come to the same."""
        read = bus.read_request(TEAM)
        table = bus.plan(read)
        path = self.folder / "t.table"
        bus.write_table(table, path)
        for source in (TEAM, str(TEAM), read, bytes(read), bytearray(bytes(read)), memoryview(bytes(read))):
            self.assertEqual(bus.plan(source), table)
            for found in (table, bytes(table), bytearray(bytes(table)), path, str(path)):
                self.assertEqual(bus.check(source, found), table)
        for show in (bus.listing, bus.aligned, bus.picture, bus.rows):
            self.assertEqual(show(TEAM, path), show(read, table))


class Errors(Case):
    def test_one_base(self):
        """Each kind of exception is a bus.Error."""
        bad = self.file("bad.csv", "name,length,period,deadline,phase\na,2,20,30,\n")
        for call, kind in (
            (lambda: bus.plan(EXAMPLES / "p5.req"), bus.Refused),
            (lambda: bus.plan(bad), bus.ListFaults),
            (lambda: bus.plan(self.folder / "missing"), bus.FileFault),
        ):
            with self.assertRaises(kind) as caught:
                call()
            self.assertIsInstance(caught.exception, bus.Error)
        self.assertTrue(issubclass(bus.NotBuilt, bus.Error) and issubclass(bus.SearchEnded, bus.Error))
        self.assertFalse(issubclass(bus.Error, (TypeError, ValueError)))


class Records(Case):
    def test_files(self):
        """Lists and tables are written whole and read back."""
        read, table = bus.read_request(TEAM), bus.plan(TEAM)
        bus.write_list(read, self.folder / "t.csv")
        self.assertEqual(bus.read_request(self.folder / "t.csv"), read)
        bus.write_table(table, self.folder / "t.table")
        self.assertEqual(bus.read_table(self.folder / "t.table"), table)
        self.refused(12, bus.read_table, b"\x02")
        with self.assertRaises(bus.FileFault):
            bus.write_list(read, self.folder / "missing" / "t.csv")

    def test_rows(self):
        """Plain values alone, the same keys in each: what a data frame takes."""
        table = bus.plan(EXAMPLES / "harness.csv")
        rows = bus.rows(EXAMPLES / "harness.csv", table)
        keys = ["row", "first_tick", "busy", "silent", "unused", "transfers"]
        for number, row in enumerate(rows):
            self.assertEqual((list(row), row["row"]), (keys, number))
            self.assertEqual(row["busy"] + row["silent"] + row["unused"], table.frame)
            self.assertEqual(row["silent"], len(row["transfers"]))
            self.assertTrue(all(type(row[key]) is int for key in keys[:-1]))
        self.assertEqual(len(rows), len(table))

    def test_short(self):
        """A line each, without all rows."""
        table, read = bus.plan(TEAM), bus.read_request(TEAM)
        self.assertEqual(repr(table), "<bus.Table: frame 20, cycle 80, 4 rows, 15 jobs>")
        self.assertEqual(repr(read), "<bus.Request: 7 tasks (gyro, sun, star, magnet, …), 1 pair, 0 silent ticks>")
        flight = bus.Dispatcher(table)
        flight.next_frame()
        self.assertEqual(repr(flight), "<bus.Dispatcher: 1 frame served, row 1 next>")

    def test_iteration(self):
        """Rows of a table; frames of a dispatcher, without an end."""
        table = bus.plan(TEAM)
        self.assertEqual((tuple(table), len(table)), (table.rows, 4))
        flight, other = bus.Dispatcher(table, TEAM), bus.Dispatcher(table, TEAM)
        frames = list(itertools.islice(flight, 9))
        self.assertEqual(frames, [other.next_frame() for _ in range(9)])
        self.assertEqual([frame.number for frame in frames], list(range(9)))
        self.assertEqual(flight.next_frame().number, 9)

    def test_names(self):
        """A task by its name, by its number or by its number as text, wherever one is asked for."""
        table, read = bus.plan(TEAM), bus.read_request(TEAM)
        counts = []
        for task in ("star", 2, "2"):
            flight, timer = bus.Dispatcher(table, read), bus.Timer(table, read)
            flight.report(task, 7), timer.report(task, 7)
            counts.append((flight.counts, timer.counts))
            self.assertEqual(bus.phases(read, task, tries=0), bus.phases(read, "star", tries=0))
            self.assertEqual(bus.cut(read, task, 2), bus.cut(read, "star", 2))
            draft = bus.Draft(read, table)
            draft.lift((task, 0))
            self.assertIsNone(draft.frames()[2, 0])
        self.assertEqual(counts[0][0][2], 1)
        self.assertTrue(all(found == counts[0] for found in counts))
        refused = self.refused(16, bus.Dispatcher(table, read).report, "moon", 1)
        self.assertIn("no transfer is called moon: the names are gyro, sun, ", refused.about)

    def test_a_table_of_another_request(self):
        """A dispatcher and a timer check their table against their request, and without one they do not."""
        table = bus.plan(EXAMPLES / "p7.req")
        for kind in (bus.Dispatcher, bus.Timer):
            self.assertIn("the request's cycle is 80", self.refused(13, kind, table, TEAM).about)
            wrong = bus.Table(20, 80, bus.plan(TEAM).rows[:3] + ((),))
            self.refused(14, kind, wrong, TEAM)
            kind(table), kind(wrong)
            kind(table, EXAMPLES / "p7.req")

    def test_nothing_is_printed(self):
        out, err = io.StringIO(), io.StringIO()
        with redirect_stdout(out), redirect_stderr(err):
            bus.join(EXAMPLES / "battery-1.csv", EXAMPLES / "battery-2.csv")
            bus.cut(EXAMPLES / "p2.csv", "camera", 4)
            bus.plan(TEAM)
            told = []
            bus.cut(EXAMPLES / "p2.csv", "camera", 4, tell=told.append)
        self.assertEqual((out.getvalue(), err.getvalue(), len(told)), ("", "", 1))


class Processes(Case):
    """A search has a process of its own: started afresh, used again, ended at once."""

    def setUp(self):
        super().setUp()
        child.kept.end()
        self.addCleanup(child.kept.end)

    def test_a_fresh_process(self):
        """It runs the script of the worker: nothing of this process's memory is in it."""
        bus.plan(TEAM)
        (pid,) = children(os.getpid())
        with open(f"/proc/{pid}/cmdline", "rb") as file:
            self.assertIn(child.SCRIPT.encode(), file.read().split(b"\0"))

    def test_it_is_used_again(self):
        bus.plan(TEAM)
        before = children(os.getpid())
        for _ in range(3):
            self.refused(10, bus.plan, EXAMPLES / "p5.req")
            bus.phases(TEAM, "star", tries=0)
        self.assertLessEqual(set(before), set(children(os.getpid())))
        self.assertLessEqual(len(children(os.getpid())), 2)
        child.kept.end()
        self.assertEqual(children(os.getpid()), [])

    def test_one_that_is_gone(self):
        """Ended from outside between two searches: another takes its place."""
        bus.plan(TEAM)
        (pid,) = children(os.getpid())
        os.kill(pid, signal.SIGKILL)
        os.waitid(os.P_PID, pid, os.WEXITED | os.WNOWAIT)
        self.assertEqual(bus.plan(TEAM).frame, 20)
        self.assertNotIn(pid, children(os.getpid()))

    def test_from_many_threads(self):
        """Each has its own process, and each answer is its own."""
        sources = [EXAMPLES / name for name in ("team.csv", "p1.req", "p3.req", "p6.req", "p7.req", "p9.req")]
        wanted = {source: bus.plan(source) for source in sources}
        found, faults = {}, []

        def plan(source):
            try:
                for _ in range(5):
                    found[source] = bus.plan(source)
            except Exception as fault:
                faults.append(fault)

        threads = [threading.Thread(target=plan, args=(source,)) for source in sources]
        for thread in threads:
            thread.start()
        for thread in threads:
            thread.join(HANGS)
        self.assertEqual((faults, found), ([], wanted))

    def test_the_thread_that_started_it_ends(self):
        """A process outlives the thread that started it: another thread's call in it goes on."""
        started, leave = threading.Event(), threading.Event()

        def start():
            with child.worker() as worker:
                worker.started()
            started.set()
            leave.wait(HANGS)

        thread = threading.Thread(target=start)
        thread.start()
        self.assertTrue(started.wait(HANGS))
        with self.assertRaises(child.OutOfTime), child.worker() as worker:
            worker.ask("plan", bytes(pigeons(16)), 10**15)
            leave.set()
            thread.join()
            worker.answer(until=time.monotonic() + 0.5)

    def test_a_fork_holds_the_socket(self):
        """A process that is killed takes its worker along, in the middle of a call, though a fork of it lives on."""
        code = (
            "import os, signal\n"
            "from bus import child\n"
            "worker = child.Worker()\n"
            "worker.started()\n"
            f"worker.ask('plan', {bytes(pigeons(16))!r}, 10**15)\n"
            "fork = os.fork()\n"
            "if fork:\n"
            "    print(worker._process.pid, fork, flush=True)\n"
            "    os.kill(os.getpid(), signal.SIGKILL)\n"
            "signal.pause()\n"
        )
        environment = {**os.environ, "PYTHONPATH": str(ROOT / "python")}
        with subprocess.Popen([COMMAND[0], "-c", code], env=environment, stdout=subprocess.PIPE) as started:
            worker, fork = map(int, started.stdout.readline().split())
            self.addCleanup(os.kill, fork, signal.SIGKILL)
            self.assertEqual(started.wait(HANGS), -signal.SIGKILL)
            begin = time.monotonic()
            while running(worker):
                self.assertLess(time.monotonic() - begin, AT_ONCE)
                time.sleep(0.01)
            self.assertTrue(running(fork))

    def test_a_fork_holds_both_ends(self):
        """A fork of another thread while the process is being started: that it was ended is seen all the same."""
        popen = subprocess.Popen

        def forked(*words, **more):
            pid = os.fork()
            if pid == 0:
                signal.pause()
                os._exit(0)
            self.addCleanup(os.waitpid, pid, 0)
            self.addCleanup(os.kill, pid, signal.SIGKILL)
            return popen(*words, **more)

        with mock.patch.object(subprocess, "Popen", forked), child.worker() as worker:
            worker.started()
        with self.assertRaises(bus.SearchEnded) as caught, child.worker() as worker:
            worker.ask("plan", bytes(pigeons(16)), 10**15)
            os.kill(worker._process.pid, signal.SIGKILL)
            worker.answer(until=time.monotonic() + HANGS)
        self.assertIs(type(caught.exception), bus.SearchEnded)

    def test_a_time_limit(self):
        """A call that is not at its end is ended when its time is over, and the next one is answered."""
        with self.assertRaises(child.OutOfTime), child.worker() as worker:
            worker.call("plan", bytes(pigeons(16)), 10**15, until=time.monotonic() + 0.3)
        child.kept.end()
        self.assertEqual(children(os.getpid()), [])
        self.assertTrue(issubclass(child.OutOfTime, bus.SearchEnded))
        self.assertEqual(bus.plan(TEAM).frame, 20)

    def test_no_process_is_left(self):
        """A program that ends with a kept worker ends it too."""
        code = "import bus; from bus import child; bus.plan(%r); print(child.kept._workers[0]._process.pid)"
        environment = {**os.environ, "PYTHONPATH": str(ROOT / "python"), "PYTHONWARNINGS": "error"}
        words = [COMMAND[0], "-c", code % str(TEAM)]
        done = subprocess.run(words, env=environment, capture_output=True, text=True, timeout=HANGS)
        self.assertEqual((done.returncode, done.stderr), (0, ""))
        pid = int(done.stdout)
        self.assertFalse(os.path.exists(f"/proc/{pid}"))

    def test_after_a_fork(self):
        """A fork has no part in the other's workers."""
        bus.plan(TEAM)
        pid = os.fork()
        if pid == 0:
            status = 1
            try:
                status = 0 if bus.plan(TEAM).frame == 20 else 2
                child.kept.end()
            finally:
                os._exit(status)
        self.assertEqual(os.waitpid(pid, 0)[1], 0)
        self.assertEqual(bus.plan(TEAM).frame, 20)


class Pictures(Case):
    def test_shown(self):
        """A table that was planned, checked, rewritten or written from a draft shows itself."""
        table = bus.plan(TEAM)
        shown = table._repr_svg_()
        self.assertEqual(shown, drawing.inside(bus.picture(TEAM, table)))
        for found in (bus.check(TEAM, table), bus.rewrite(TEAM, table), bus.Draft(TEAM, table).write()):
            self.assertEqual(found._repr_svg_(), shown)

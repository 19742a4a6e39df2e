"""What a service does when its disk fails a sync, and when its client breaks off in the midst of all kinds of requests."""
import asyncio
import functools
import gc
import json
import os
import pathlib
import random
import shutil
import socket
import sqlite3
import sys
import threading
import time
import unittest
import unittest.mock

HERE = pathlib.Path(__file__).resolve().parent
sys.path.insert(0, str(HERE))

from harness import TOP, Client, Error, Forks, NoAnswer, folder, missing, served  # noqa: E402
from model import KINDS, Graph, random_edits, seeded  # noqa: E402
from power_loss import environment  # noqa: E402

MISSING = missing() or ("" if shutil.which("cc") else "cc")
VERTICES = 60


@unittest.skipIf(MISSING, f"not there: {MISSING}")
class Syncs(unittest.TestCase):
    def test_a_sync_that_fails_ends_the_service(self):
        with folder() as place:
            place, fail = pathlib.Path(os.path.realpath(place)), place / "fail"
            data, graph, chance = place / "data" / "graph", Graph(VERTICES), seeded("syncs")
            with Forks(RECORD_FAIL=str(fail), **environment(place)) as forks:
                for _ in range(5):
                    pid = forks.begin(data=str(data), vertices=VERTICES)
                    client = forks.client(forks.port()[0])
                    for _ in range(10):
                        edits = random_edits(chance, VERTICES, 20)
                        self.assertEqual(client.batch(edits)[0][1:3], graph.apply(edits))
                    before = client.status()["version"]
                    fail.touch()
                    edits = random_edits(chance, VERTICES, 20)
                    with self.assertRaises(NoAnswer):
                        client.batch(edits, key=f"key{before}")
                    self.assertEqual(forks.wait(pid), 70)
                    fail.unlink()
                    with served(forks, data=str(data), vertices=VERTICES) as client:
                        # In doubt: it is there or not, and under its id it comes once.
                        self.assertIn(client.status()["version"], (before, before + 1))
                        outcome, = client.batch(edits, key=f"key{before}")
                        self.assertEqual((outcome.version, *outcome[1:3]), (before + 1, *graph.apply(edits)))
                        _, starts, targets = client.edges()
                        self.assertEqual([(u, v) for u in range(VERTICES) for v in targets[starts[u]:starts[u + 1]]], graph.edges())

    def test_a_snapshot_whose_sync_fails(self):
        with folder() as place:
            place, fail = pathlib.Path(os.path.realpath(place)), place / "fail"
            with Forks(RECORD_FAIL=str(fail), **environment(place)) as forks, served(forks, data=str(place / "data" / "graph"), vertices=VERTICES) as client:
                client.batch([(0, 1)])
                fail.write_text("snapshot-")
                with self.assertRaises(Error) as caught:
                    client.snapshot()
                self.assertEqual(caught.exception.status, 507)
                fail.unlink()
                self.assertEqual(client.batch([(0, 2)])[0].version, 2)
                self.assertEqual(client.snapshot(), 2)


@unittest.skipIf(MISSING, f"not there: {MISSING}")
class Memory(unittest.TestCase):
    def test_a_batch_that_is_refused_memory(self):
        """Without memory for a batch the service makes room and tries once more; without any it ends, and the next start has the batch."""
        with folder() as place:
            options, graph, chance = {"data": str(place / "graph"), "vertices": VERTICES}, Graph(VERTICES), seeded("memory")
            with Forks(SERVE_MISTAKE="memory_short") as forks, served(forks, **options) as client:
                for _ in range(30):
                    edits = random_edits(chance, VERTICES, 20)
                    self.assertEqual(client.batch(edits)[0][1:3], graph.apply(edits))
                self.assertEqual(client.neighbours(3), sorted(graph.out[3]))
                version = client.snapshot()
            with Forks(SERVE_MISTAKE="memory_gone") as forks:
                pid = forks.begin(**options)
                client, ended = forks.client(forks.port()[0]), False
                while not ended:
                    edits = random_edits(chance, VERTICES, 20)
                    try:
                        client.batch(edits, key=f"after{version}")
                    except NoAnswer:
                        ended = True
                    graph.apply(edits)
                    version += 1
                self.assertEqual(forks.wait(pid), 70)
            with Forks() as forks, served(forks, **options) as client:
                again, = client.batch(edits, key=f"after{version - 1}")
                self.assertEqual((again.version, again.new), (version, False))
                self.assertEqual([client.neighbours(u) for u in range(VERTICES)], [sorted(targets) for targets in graph.out])


@unittest.skipIf(MISSING, f"not there: {MISSING}")
class Notices(unittest.TestCase):
    """What systemd is told by its socket: here a test has it."""

    def heard(self, notices, seconds):
        """All notices of some seconds."""
        found, until = [], time.monotonic() + seconds
        while (left := until - time.monotonic()) > 0:
            notices.settimeout(left)
            try:
                found.append(notices.recv(100).decode())
            except TimeoutError:
                pass
        return found

    def test_ready_the_watchdog_and_the_end(self):
        with folder() as place, socket.socket(socket.AF_UNIX, socket.SOCK_DGRAM) as notices:
            notices.bind(str(place / "notices"))
            with Forks(NOTIFY_SOCKET=str(place / "notices"), WATCHDOG_USEC="4000000") as forks:
                with served(forks, data=str(place / "graph"), vertices=VERTICES) as client:
                    client.batch([(0, 1)])
                    found = self.heard(notices, 4)
                    self.assertEqual((found[0], set(found[1:])), ("READY=1", {"WATCHDOG=1"}))
                    self.assertGreater(len(found), 2)
                    # The writer waits for another process's lock: it is not the loop alone that feeds the watchdog.
                    with sqlite3.connect(place / "graph" / "serve.db", isolation_level=None) as db:
                        db.execute("begin immediate")
                        waiting = threading.Thread(target=client.batch, args=([(0, 2)],))
                        waiting.start()
                        self.heard(notices, 3)
                        self.assertEqual(self.heard(notices, 3), [])
                        self.assertEqual(Client(client.url, tries=1).neighbours(0), [1])
                        db.execute("rollback")
                    waiting.join()
                    self.assertIn("WATCHDOG=1", self.heard(notices, 3))
                self.assertIn("STOPPING=1", self.heard(notices, 1))


LIMITS = "connections.HEAD_SECONDS=0.5,connections.UNREAD_SECONDS=1,connections.SWEEP_SECONDS=0.2,service.BODY_SECONDS=0.5"


@unittest.skipIf(MISSING, f"not there: {MISSING}")
class Connections(unittest.TestCase):
    """Limits of connections, with fewer seconds than a service has."""

    def open(self, client, data):
        host, port = client.url.removeprefix("http://").split(":")
        connection = socket.create_connection((host, int(port)), timeout=20)
        self.addCleanup(connection.close)
        connection.setsockopt(socket.SOL_SOCKET, socket.SO_RCVBUF, 4_096)
        connection.sendall(data)
        return connection

    def ends(self, connection):
        """What comes until the service closes a connection."""
        found = b""
        try:
            while data := connection.recv(65_536):
                found += data
        except ConnectionError:
            pass
        return found

    def test_slow_heads_and_bodies_and_answers_that_nobody_reads(self):
        with folder() as place, Forks(SERVE_LIMITS=LIMITS) as forks, served(forks, data=str(place / "graph"), vertices=1_000_000) as client:
            client.batch([(0, 1)])
            for head in (b"", b"GET / HT", b"GET / HTTP/1.1\r\nHost: localhost\r\n"):
                self.assertEqual(self.ends(self.open(client, head)), b"")
            slow = b"POST /batches HTTP/1.1\r\nHost: localhost\r\nContent-Type: application/json\r\nContent-Length: 20\r\n\r\n{"
            self.assertTrue(self.ends(self.open(client, slow)).startswith(b"HTTP/1.1 408"))
            # Its answer has 8 MB.
            self.open(client, b"GET /edges HTTP/1.1\r\nHost: localhost\r\n\r\n")
            time.sleep(4)
            text = client.ask("GET", "/metrics")[1].decode()
            for line in ('edgebpf_refused_total{limit="head"} 3.0', 'edgebpf_refused_total{limit="unread"} 1.0'):
                self.assertIn(line, text.splitlines())
            # A watcher without news is not one that does not read.
            client.program("target", KINDS["target"].text)
            events = client._events("/watch?program=target", None)
            next(events)
            time.sleep(2)
            client.batch([(0, 2)])
            self.assertEqual(next(events).rows, [(0, 3)])
            events.close()

    def test_errors_of_no_route(self):
        """What is no HTTP, expects what nobody does, or has no route, is answered by an error in the form of all others."""
        line = b"GET /healthz HTTP/1.1\r\nHost: localhost\r\nConnection: close\r\n"
        cases = [
            (b"GETT / HTTP/1.1\r\n\r\n", 400, "BadRequest"), (b"GET /" + b"a" * 9_000 + b" HTTP/1.1\r\n\r\n", 400, "BadRequest"),
            (line + b"Transfer-Encoding: chunked\r\n\r\nzz\r\n", 400, "BadRequest"),
            (line + b"Expect: nothing\r\n\r\n", 417, "ExpectationFailed"), (line + b"Expect: \xff\r\n\r\n", 400, "BadRequest"),
            (line.replace(b"/healthz", b"/none") + b"Expect: \xff\r\n\r\n", 400, "BadRequest"),
            (line.replace(b"/healthz", b"/none") + b"\r\n", 404, "NotFound"), (line.replace(b"GET", b"PUT") + b"\r\n", 405, "MethodNotAllowed"),
        ]
        with folder() as place, Forks() as forks, served(forks, data=str(place / "graph"), vertices=VERTICES) as client:
            for data, status, name in cases:
                with self.subTest(data=data[:200]):
                    head, _, body = self.ends(self.open(client, data)).partition(b"\r\n\r\n")
                    told = json.loads(body)
                    self.assertEqual((int(head.split()[1]), told["error"], set(told)), (status, name, {"error", "words"}))
                    self.assertIn(b"Content-Type: application/json", head)

    def test_hosts_that_are_none(self):
        """A connection whose request has such an address is closed, and not held for ever."""
        with folder() as place, Forks() as forks, served(forks, data=str(place / "graph"), vertices=VERTICES) as client:
            for line in (b"GET http://xn--a/healthz", b"GET http://[::1/healthz", b"CONNECT /a\xff"):
                with self.subTest(line=line):
                    found = self.ends(self.open(client, line + b" HTTP/1.1\r\nHost: localhost\r\n\r\n"))
                    self.assertIn(found[9:12], (b"", b"400"))

    def test_clients_that_go_at_once(self):
        """A connection that is lost before its request is looked at is no error."""
        sys.path[:0] = [str(TOP / "tools"), str(TOP / "bindings" / "python")]
        from aiohttp import web
        from edgebpf_serve.connections import Connections

        async def lost(turns):
            faults = []
            asyncio.get_running_loop().set_exception_handler(lambda _, context: faults.append(context["message"]))
            made = Connections(web.Server(lambda request: None), 10, None)()
            made.connection_made(unittest.mock.Mock(spec=asyncio.Transport))
            for _ in range(turns):
                await asyncio.sleep(0)
            made.data_received(b"GET / HTTP/1.1\r\n\r\n")
            made.connection_lost(None)
            for _ in range(3):
                await asyncio.sleep(0)
            gc.collect()
            return faults

        self.assertEqual([asyncio.run(lost(turns)) for turns in range(3)], [[], [], []])

    def test_too_many_connections(self):
        with folder() as place, Forks() as forks, served(forks, data=str(place / "graph"), vertices=VERTICES, connections=5) as client:
            client.status()
            held = [self.open(client, b"GET / HTTP/1.1\r\n") for _ in range(4)]
            self.assertTrue(self.ends(self.open(client, b"")).startswith(b"HTTP/1.1 503"))
            self.assertEqual(client.status()["version"], 0)
            held[0].close()
            time.sleep(0.3)
            with Client(client.url, tries=1) as other:
                self.assertEqual(other.status()["version"], 0)


@unittest.skipIf(MISSING, f"not there: {MISSING}")
class Ids(unittest.TestCase):
    def test_a_batch_that_comes_again_as_its_id_is_forgotten(self):
        """In one group a new batch takes the place of the oldest id, and the batch with that id comes once more. One that is twice in a group
        is applied once."""
        sys.path[:0] = [str(TOP / "tools"), str(TOP / "bindings" / "python")]
        import numpy as np
        from edgebpf_serve.disk import Disk
        from edgebpf_serve.engine import Engine
        from edgebpf_serve.limits import Options
        from edgebpf_serve.metrics import Meter

        with folder() as place:
            engine, told = Engine(Disk(place / "graph", 4, ids=1), Options(), Meter(), lambda *_, **__: None), []
            for group in (("a",), ("b", "a"), ("b", "b"), ("c", "c")):
                for key in group:
                    engine.submit(key, np.array([(0, 1), (1, 2)] if key == "a" else [(2, 3)], "<u4"), told.append)
                engine._write(engine.queue.take(0))
            self.assertEqual(told, [(1, 2, 0, True), (2, 1, 0, True), (1, 2, 0, False), (2, 1, 0, False), (2, 1, 0, False),
                                    (3, 0, 0, True), (3, 0, 0, False)])
            engine.disk.close()


class WithEngine(unittest.TestCase):
    """Tests over the writer of a new folder, without its thread."""

    def setUp(self):
        sys.path[:0] = [str(TOP / "tools"), str(TOP / "bindings" / "python")]
        from edgebpf_serve import disk, engine, limits, metrics
        self.modules, place = (disk, engine, limits, metrics), folder()
        self.data = place.__enter__() / "graph"
        self.addCleanup(place.__exit__, None, None, None)

    def begun(self, vertices=4, **options):
        disk, engine, limits, metrics = self.modules
        return engine.Engine(disk.Disk(self.data, vertices), limits.Options(**options), metrics.Meter(), lambda *_, **__: None)

    def write(self, engine, *edits):
        """Writes a group of one batch."""
        import numpy as np
        engine.submit(f"key{engine.seq}", np.array(edits, "<u4"), lambda _: None)
        engine._write(engine.queue.take(0))


@unittest.skipIf(MISSING, f"not there: {MISSING}")
class Losses(WithEngine):
    """Rows that are gone, though what they say was acknowledged: the folder is refused."""

    def refused(self, line, words):
        engine = self.begun()
        for target in range(4):
            self.write(engine, (0, target))
            if target == 2:
                engine._take_snapshot(engine.latest, [])
                engine._write(engine.queue.take(0))
        engine.disk.db.execute(line)
        engine.disk.close()
        with self.assertRaisesRegex(self.modules[0].Wrong, words):
            self.begun()

    def test_the_last_batch_is_gone(self):
        self.refused("delete from journal where seq = 4", "batches 4 to 4 were acknowledged, and are missing$")

    def test_the_sum_of_a_table_is_gone(self):
        """A table that has rows, and no sum of them, is damaged."""
        from edgebpf_serve import rows
        disk = self.modules[0].Disk(self.data, 4)
        self.assertEqual(rows.read(disk.db, "programs"), [])
        rows.put(disk.db, "programs", ("a", 16, "text", b"exit", b"", "me"))
        self.assertEqual(len(rows.read(disk.db, "programs")), 1)
        disk.db.execute("delete from meta where name = 'programs'")
        with self.assertRaisesRegex(rows.Damaged, "^a row of the table programs is missing, or is one too many$"):
            rows.read(disk.db, "programs")
        disk.close()

    def test_results_of_a_snapshot_are_gone(self):
        self.refused("delete from results where seq > 1", "the results of batches 2 to 3 are missing$")


@unittest.skipIf(MISSING, f"not there: {MISSING}")
class Orders(WithEngine):
    """What is synced before a name is taken for whole, and after it is given."""

    def recorded(self, call):
        """The names of what a call syncs and renames, in order."""
        told, sync, rename = [], os.fsync, os.rename

        def synced(file):
            told.append(("sync", os.readlink(f"/proc/self/fd/{file}")))
            sync(file)

        def renamed(old, new):
            told.append(("rename", os.path.realpath(new)))
            rename(old, new)

        with unittest.mock.patch("os.fsync", synced), unittest.mock.patch("os.rename", renamed):
            call()
        return [(what, pathlib.Path(name)) for what, name in told]

    def test_a_new_folder(self):
        """A new folder has its name on the disk before it takes a batch."""
        made = self.recorded(lambda: self.begun().disk.close())
        self.assertEqual([name for _, name in made], [self.data.resolve(), self.data.parent.resolve()])

    def test_a_backup(self):
        """All of a backup is on the disk before it has its name, and then so is the name."""
        from edgebpf_serve import backup
        engine, target = self.begun(), self.data.with_name("copy")
        self.write(engine, (0, 1))
        engine._take_snapshot(engine.latest, [])
        engine._write(engine.queue.take(0))
        made = self.recorded(lambda: backup.back_up(self.data, target))
        place = made.index(("rename", target.resolve()))
        names = {name.name for what, name in made[:place] if what == "sync" and name.parent.name.endswith(".draft")}
        self.assertEqual(names, {"serve.db", *(path.name for path in self.data.glob("snapshot-*"))})
        self.assertTrue(any(name.name.endswith(".draft") for _, name in made[:place]))
        self.assertEqual(made[place + 1:], [("sync", target.parent.resolve())])
        engine.disk.close()


@unittest.skipIf(MISSING, f"not there: {MISSING}")
class Graphs(WithEngine):
    def test_as_many_batches_as_a_log_has(self):
        """With the most batches between two rebases the log is never too full."""
        import numpy as np
        from edgebpf_serve.graph import Graph
        graph = Graph(2, self.modules[2].Options(rebase_batches=4_096))
        for number in range(4_098):
            graph.apply(np.array([(0, number % 2)], "<u4"))
        self.assertEqual((graph.rebases, graph.batches), (1, 2))

    def test_memory_that_is_refused(self):
        """Older versions are dropped first, then comes a rebase, and then the batch once more."""
        from edgebpf_serve import graph
        calls = unittest.mock.Mock()
        calls.apply.side_effect = [graph.edgebpf.NoMemory("none"), "counts"]
        self.assertEqual(graph.applied(calls, ("sources", "targets"), "marks", calls.free), "counts")
        self.assertEqual([call[0] for call in calls.mock_calls], ["apply", "free", "rebase", "apply"])


@unittest.skipIf(MISSING, f"not there: {MISSING}")
class Waiting(WithEngine):
    def test_bodies_in_parts(self):
        """What a body took of the memory for all bodies is given back whole as its request ends, also if a part was refused."""
        from aiohttp import web
        from edgebpf_serve import app, service

        class Request(dict):
            def __init__(self, *parts):
                self.content, self.protocol, self.parts = self, object(), list(parts)

            def at_eof(self):
                return not self.parts

            async def readany(self):
                return self.parts.pop(0)

        made = service.Service.__new__(service.Service)
        made.body_bytes, made.meter, made.under_way, made.paused = 0, unittest.mock.Mock(), {}, set()
        for most, most_of_all, error in ((6, 6, None), (5, 6, web.HTTPRequestEntityTooLarge), (6, 5, self.modules[1].Busy)):
            request = Request(b"abc", b"de", b"f")
            made.under_way[request.protocol] = request, 0.0
            with unittest.mock.patch.object(service, "MOST_BODY_BYTES", most_of_all):
                if error is None:
                    self.assertEqual(asyncio.run(made._collected(request, most)), b"abcdef")
                else:
                    with self.assertRaises(error):
                        asyncio.run(made._collected(request, most))
            self.assertEqual(made.body_bytes, 6 if error is None else 5)
            app.forget(made, request)
            self.assertEqual(made.body_bytes, 0)

    def test_a_reserve_of_another_size(self):
        """One that a killed service left empty, or that an earlier start made smaller, is made again."""
        disk = self.modules[0].Disk(self.data, 4, reserve=8_192)
        for left in (None, b"", bytes(4_096), bytes(9_000)):
            if left is not None:
                (self.data / "reserve").write_bytes(left)
            self.assertTrue(disk.make_reserve())
            self.assertEqual((self.data / "reserve").stat().st_size, 8_192)
        disk.close()

    def test_bytes_that_may_wait(self):
        """The bytes of all that waits have a limit, which a batch that waits alone may pass."""
        engine = self.modules[1]
        queue = engine.Queue(self.modules[2].Options(queue_bytes=10))
        queue.put("a", 6)
        with self.assertRaises(engine.Busy):
            queue.put("b", 5)
        queue.put("c", 4)
        self.assertEqual(queue.take(0), ["a", "c"])
        queue.put("d", 11)
        self.assertEqual((queue.take(0), queue.bytes), (["d"], 0))


@unittest.skipIf(MISSING, f"not there: {MISSING}")
class Batches(WithEngine):
    def test_as_many_as_a_token_may(self):
        """In each second a token has as many batches as it may, and not one more."""
        from edgebpf_serve import tokens
        disk = self.modules[0].Disk(self.data, 4)
        known, token = tokens.Tokens(disk, True), tokens.ANYBODY._replace(limits={"batches": 3})
        for second in (7.1, 7.9), (8.0, 8.5):
            with unittest.mock.patch("time.monotonic", side_effect=[second[0], *[second[1]] * 3]):
                for _ in range(3):
                    known.count_batch(token)
                with self.assertRaises(tokens.TooFast):
                    known.count_batch(token)
        known.close()
        disk.close()


    def test_watches_that_ended(self):
        """A token has so many watches at once, and as many again once these have ended."""
        from edgebpf_serve import standing, tokens
        disk = self.modules[0].Disk(self.data, 4)
        service, token = unittest.mock.Mock(standing={}, tokens=tokens.Tokens(disk, True)), tokens.ANYBODY._replace(limits={"watches": 1})
        query = unittest.mock.Mock(query="query", subscribers=0)
        for _ in range(3):
            with standing.subscribed(service, token, query):
                self.assertEqual((query.subscribers, service.standing), (1, {"query": query}))
                with self.assertRaises(tokens.TooFast), standing.subscribed(service, token, query):
                    pass
            self.assertEqual((query.subscribers, service.standing), (0, {}))
        service.tokens.close()
        disk.close()


@unittest.skipIf(MISSING, f"not there: {MISSING}")
class Counted(WithEngine):
    def test_a_group_is_counted_before_its_answers(self):
        """Whoever has the answer of a batch finds its group in the metrics, however busy the machine is."""
        import numpy as np
        engine, found = self.begun(), []
        engine.submit("a", np.array([(0, 1)], "<u4"), lambda _: found.append(engine.meter.text().decode()))
        engine._write(engine.queue.take(0))
        engine.disk.close()
        for name in ("group_batches", "sync_seconds", "apply_seconds"):
            self.assertIn(f"edgebpf_{name}_count 1.0", found[0])


@unittest.skipIf(MISSING, f"not there: {MISSING}")
class Shown(WithEngine):
    """What readers may look back on."""

    def test_sources_that_changed(self):
        """Of more groups than are kept the first are forgotten, and who asks for these has to look at all."""
        engine = self.begun()
        with unittest.mock.patch.object(self.modules[1], "MOST_GROUPS", 2):
            for target in range(4):
                self.write(engine, (target, 0))
        told = [engine.shown.since(seq)[1] for seq in range(5)]
        self.assertEqual([sources if sources is None else sources.tolist() for sources in told], [None, None, [2, 3], [3], []])
        engine.disk.close()

    def test_bytes_of_versions(self):
        """The memory of the older versions is what those after them had to copy, also after versions were dropped."""
        engine = self.begun(vertices=2_000, kept_bytes=20_000)
        for number in range(40):
            self.write(engine, *((source, number) for source in range(0, 50 * (number % 7) + 1, 50)))
            shown = engine.shown
            self.assertEqual(shown.kept_bytes, sum(cost for _, cost in list(shown.kept)[1:]))
            if number == 20:
                shown.free()
                self.assertEqual((len(shown.kept), shown.kept_bytes), (1, 0))
        self.assertIn(len(shown.kept), range(3, 19))
        engine.disk.close()


@unittest.skipIf(MISSING, f"not there: {MISSING}")
class Names(unittest.TestCase):
    """Programs and columns that come and go in one group of the writer, against dicts that are changed one after another."""

    def setUp(self):
        sys.path[:0] = [str(TOP / "tools"), str(TOP / "bindings" / "python")]
        from edgebpf_serve import disk, engine, limits, metrics, named
        self.named, place = named, folder()
        self.data = place.__enter__() / "graph"
        self.addCleanup(place.__exit__, None, None, None)
        self.disk = disk.Disk(self.data, 4)
        self.engine = engine.Engine(self.disk, limits.Options(), metrics.Meter(), lambda *_, **__: None)
        self.addCleanup(self.disk.close)
        self.programs, self.columns = named.Programs(self.disk, 5), named.Columns(self.disk, 5)

    def written(self, tasks):
        """What the tasks of one group are answered. Each is a function that is given what is to be called with the answer."""
        told = [None] * len(tasks)
        for place, task in enumerate(tasks):
            self.engine.do(task(functools.partial(told.__setitem__, place)))
        self.engine._write(self.engine.queue.take(0))
        return told

    def program(self, name, number, most=5):
        source = self.named.Source(16, "text", f"mov r0, {number}\nexit".encode(), b"")
        return functools.partial(self.programs.keep, self.named.verified(name, source, "me"), most)

    def column(self, name, number, most=5):
        import numpy as np
        return functools.partial(self.columns.keep, self.columns.draft(name, np.full(4, number, "<u8"), "me"), most)

    def test_two_that_drop_the_same(self):
        for names, put in ((self.programs, self.program), (self.columns, self.column)):
            self.written([put("a", 1)])
            drop = functools.partial(names.drop, "a")
            told = self.written([drop, drop])
            self.assertNotIsInstance(told[0], Exception)
            self.assertIsInstance(told[1], self.named.Missing)
            self.assertEqual(names.of, {})

    def test_one_more_than_a_token_keeps(self):
        for put in (self.program, self.column):
            told = self.written([put("a", 1, most=1), put("b", 1, most=1)])
            self.assertNotIsInstance(told[0], Exception)
            self.assertIsInstance(told[1], self.named.TooMany)

    def test_a_column_that_finds_no_place(self):
        """Its file is gone if the writer's queue is full or closed."""
        import numpy as np
        from edgebpf_serve.engine import Busy, Stopped
        self.engine.options.queue_batches, told = 2, []
        hand_in = functools.partial(self.columns.hand_in, self.engine)
        for name in "ab":
            hand_in(self.columns.draft(name, np.zeros(4, "<u8"), "me"), 5, told.append)
        for error in (Busy, Stopped):
            with self.assertRaises(error):
                hand_in(self.columns.draft("c", np.zeros(4, "<u8"), "me"), 5, told.append)
            self.engine._write(self.engine.queue.take(0) or [])
            self.engine.queue.close()
        self.assertEqual(([column.name for column in told], len(list(self.data.glob("column-*")))), (["a", "b"], 2))

    def test_a_column_that_comes_late(self):
        """One that was begun before another of its name, and is handed in after it, does not take its place, and its file is gone."""
        from edgebpf_serve.engine import Busy
        old, new = self.column("a", 1), self.column("a", 2)
        self.written([new])
        self.assertIsInstance(self.written([old])[0], Busy)
        self.assertEqual((self.columns.get("a").numbers.tolist(), len(list(self.data.glob("column-*")))), ([2] * 4, 1))

    def test_a_copy_whose_column_is_damaged(self):
        from edgebpf_serve import backup, disk
        self.written([self.column("a", 1)])
        copy = self.data.with_name("copy")
        backup.back_up(self.data, copy)
        self.assertEqual(backup.check(copy, lambda *_, **__: None)["columns"], 1)
        file, = copy.glob("column-*")
        file.write_bytes(bytes(32))
        with self.assertRaisesRegex(disk.Wrong, "of the column a is damaged$"):
            backup.check(copy, lambda *_, **__: None)

    def test_a_snapshot_that_is_not_entered(self):
        """Its file is gone, but for one of a version that was entered before."""
        import numpy as np
        from edgebpf_serve.engine import Busy
        files, told = lambda: [path.name for path in self.data.glob("snapshot-*")], []
        self.engine.submit(None, np.array([(0, 1)], "<u4"), lambda _: None)
        self.engine._write(self.engine.queue.take(0))
        for most, wanted in ((0, 0), (1, 1), (0, 1)):
            self.engine.options.queue_batches = most
            self.engine._take_snapshot(self.engine.latest, [told.append])
            self.engine._write(self.engine.queue.take(0))
            self.assertEqual(len(files()), wanted)
        self.assertEqual([told[1], *(type(error) for error in (told[0], told[2]))], [1, Busy, Busy])

    def test_groups_of_all_kinds(self):
        chance, programs, columns = random.Random("names"), {}, {}
        for _ in range(300):
            tasks, wanted = [], []
            for _ in range(chance.randrange(1, 7)):
                one = chance.choice(("program", "column", "drop program", "drop column"))
                name, number = chance.choice("ab"), chance.randrange(2)
                if one == "program":
                    kept = programs.setdefault(name, number)
                    tasks.append(self.program(name, number))
                    wanted.append(self.named.Conflict if kept != number else tuple)
                elif one == "column":
                    columns[name] = number
                    tasks.append(self.column(name, number))
                    wanted.append(self.named.Column)
                else:
                    of, names = (programs, self.programs) if one == "drop program" else (columns, self.columns)
                    tasks.append(functools.partial(names.drop, name))
                    wanted.append(object if of.pop(name, None) is not None else self.named.Missing)
            for answer, kind in zip(self.written(tasks), wanted):
                self.assertIsInstance(answer, kind)
                self.assertEqual(isinstance(answer, Exception), issubclass(kind, Exception))
            for found in ((self.programs, self.columns), (self.named.Programs(self.disk, 5), self.named.Columns(self.disk, 5))):
                self.assertEqual({name: kept.source.body for name, kept in found[0].of.items()},
                                 {name: f"mov r0, {number}\nexit".encode() for name, number in programs.items()})
                self.assertEqual({name: column.numbers.tolist() for name, column in found[1].of.items()},
                                 {name: [number] * 4 for name, number in columns.items()})
            self.assertEqual({path.name for path in self.data.glob("column-*")}, {column.file for column in self.columns.of.values()})


@unittest.skipIf(MISSING, f"not there: {MISSING}")
class Backups(unittest.TestCase):
    def test_two_of_one_name(self):
        """One of them is told that there is one already, the other's is whole, and drafts whose makers were killed are gone."""
        sys.path[:0] = [str(TOP / "tools"), str(TOP / "bindings" / "python")]
        from edgebpf_serve import backup, disk
        with folder() as place:
            data = disk.Disk(place / "graph", 4)
            self.addCleanup(data.close)
            (place / "copies" / ".one.x.draft").mkdir(parents=True)
            (place / "copies" / ".one.x.draft" / "lock").touch()
            both, told, copy = threading.Barrier(2), [], backup._copy

            def copied(folder, draft):
                both.wait(60)
                version = copy(folder, draft)
                both.wait(60)
                return version

            def back_up():
                try:
                    told.append(backup.back_up(place / "graph", place / "copies" / "one"))
                except Exception as error:
                    told.append(type(error))

            with unittest.mock.patch.object(backup, "_copy", copied):
                threads = [threading.Thread(target=back_up) for _ in range(2)]
                for thread in threads:
                    thread.start()
                for thread in threads:
                    thread.join()
            self.assertEqual(sorted(told, key=str), [0, FileExistsError])
            self.assertEqual([path.name for path in (place / "copies").iterdir()], ["one"])
            self.assertEqual(backup.check(place / "copies" / "one", lambda *_, **__: None)["vertices"], 4)

    def test_no_folder_of_drafts(self):
        """A service starts where its folder of copies is missing, or no folder."""
        sys.path[:0] = [str(TOP / "tools"), str(TOP / "bindings" / "python")]
        from edgebpf_serve import backup
        with folder() as place:
            backup.remove_drafts(place / "backups")
            (place / "backups").touch()
            backup.remove_drafts(place / "backups")
            self.assertEqual([path.name for path in place.iterdir()], ["backups"])

    def test_a_draft_whose_removal_is_interrupted(self):
        """It is removed nevertheless, and the interrupt is heard."""
        sys.path[:0] = [str(TOP / "tools"), str(TOP / "bindings" / "python")]
        from edgebpf_serve import backup
        remove, told = shutil.rmtree, []

        def interrupted(*words, **options):
            told.append(words)
            if len(told) == 1:
                raise KeyboardInterrupt
            remove(*words, **options)

        with folder() as place:
            with unittest.mock.patch("shutil.rmtree", interrupted), self.assertRaises(KeyboardInterrupt), backup.draft_of(place / "one") as made:
                (made / "x").touch()
            self.assertEqual(list(place.iterdir()), [])

    def test_drafts_that_come_and_go(self):
        """No draft is removed while its maker is about to lock it."""
        sys.path[:0] = [str(TOP / "tools"), str(TOP / "bindings" / "python")]
        from edgebpf_serve import backup
        with folder() as place:
            told = []

            def draft():
                for _ in range(200):
                    try:
                        with backup.draft_of(place / "one") as made:
                            (made / "x").touch()
                    except OSError as error:
                        told.append(error)

            threads = [threading.Thread(target=draft) for _ in range(4)]
            for thread in threads:
                thread.start()
            for thread in threads:
                thread.join()
            self.assertEqual((told, list(place.iterdir())), ([], []))


@unittest.skipIf(MISSING, f"not there: {MISSING}")
class Leaving(unittest.TestCase):
    def test_clients_that_leave_take_nothing_with_them(self):
        """Clients that break off use up none of what one token may have at once, and no thread."""
        with folder() as place, Forks() as forks, served(forks, data=str(place / "graph"), vertices=VERTICES, seconds=30.0) as client:
            client.batch([(u, v) for u in range(VERTICES) for v in range(VERTICES)])
            client.program("target", KINDS["target"].text)
            client.program("slow", "mov r0, 0\n" + "add r0, 1\n" * 4000 + "exit")
            for place in range(60):
                self.leave(client, place)
            time.sleep(3)
            text = client.ask("GET", "/metrics")[1].decode()
            for line in ("edgebpf_watches 0.0", "edgebpf_waiting_calls 0.0"):
                self.assertIn(line, text.splitlines())
            threads = [threading.Thread(target=Client(client.url, tries=1).run, args=("slow",)) for _ in range(16)]
            for thread in threads:
                thread.start()
            for thread in threads:
                thread.join()

    def leave(self, client, place):
        body = b'{"program": "slow", "frontier": [' + b",".join([b"1"] * 30_000) + b"]}"
        kinds = [
            b"POST /runs HTTP/1.1\r\nHost: localhost\r\nContent-Type: application/json\r\nContent-Length: %d\r\n\r\n" % len(body) + body,
            b"GET /watch?program=target HTTP/1.1\r\nHost: localhost\r\n\r\n",
            b"POST /runs?format=lines HTTP/1.1\r\nHost: localhost\r\nContent-Type: application/json\r\nContent-Length: %d\r\n\r\n" % len(body) + body,
        ]
        host, port = client.url.removeprefix("http://").split(":")
        with socket.create_connection((host, int(port))) as connection:
            connection.sendall(kinds[place % len(kinds)])
            time.sleep(0.02)


if __name__ == "__main__":
    unittest.main()

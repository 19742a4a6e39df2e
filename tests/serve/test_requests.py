"""Each request of a service: its answers against the model, its wrong forms, tokens and their limits, backups, and its end."""
import concurrent.futures
import contextlib
import http.client
import json
import os
import pathlib
import signal
import socket
import sqlite3
import struct
import subprocess
import sys
import threading
import time
import unittest
import unittest.mock

HERE = pathlib.Path(__file__).resolve().parent
sys.path.insert(0, str(HERE))

from harness import TOOLS, Client, Error, Forks, NoAnswer, events_of, folder, missing, served, token_command  # noqa: E402
from model import KINDS, Graph, random_edits, seeded, table_of  # noqa: E402
from wrong_forms import PAST_LIMITS, VERTICES, WRONG_FORMS, write_limits  # noqa: E402

MISSING = missing()
# A program that takes some 0.4 ms an edge, and one that takes as long as it may.
SLOW = "mov r0, 0\n" + "add r0, 1\n" * 4000 + "exit"
ENDLESS = "\n".join(["mov r6, 0", *["mov r1, 7\nmov r2, 0\nmov r3, r10\nadd r3, -256\nmov r4, 256\ncall 5"] * 600, "exit"])
FIRST_EVENT = b'id: 1-00000000\nevent: rows\ndata: {"version":1,"rows":[[0,1]]}\n\n'


class WithService(unittest.TestCase):
    """Tests over services that one process forks."""

    @classmethod
    def setUpClass(cls):
        if MISSING:
            raise unittest.SkipTest(f"not there: {MISSING}")
        cls.forks = Forks().__enter__()

    @classmethod
    def tearDownClass(cls):
        cls.forks.__exit__()

    def setUp(self):
        place = folder()
        self.data = place.__enter__() / "graph"
        self.addCleanup(place.__exit__, None, None, None)

    def served(self, **options):
        return served(self.forks, data=str(self.data), **{"vertices": VERTICES, **options})

    def filled(self, client, batches=20):
        """A graph of random batches, the same in the service and in the model."""
        graph, chance = Graph(VERTICES), seeded("requests", self.id())
        for _ in range(batches):
            edits = random_edits(chance, VERTICES, 60)
            outcome, = client.batch(edits)
            self.assertEqual(outcome[1:3], graph.apply(edits))
        return graph

    def refused(self, status, call, *words, **more):
        with self.assertRaises(Error) as caught:
            call(*words, **more)
        self.assertEqual(caught.exception.status, status, caught.exception)
        return caught.exception


class Answers(WithService):
    def test_runs(self):
        with self.served() as client:
            graph, column = self.filled(client), [3 * u + 1 for u in range(VERTICES)]
            client.column("risk", column)
            for kind, how in KINDS.items():
                client.program(kind, how.text, record=how.record)
                given = (9, (column,)) if kind == "column" else (9, ())
                more = {"argument": struct.pack("<Q", 9)} if kind == "argument" else {}
                more |= {"columns": ["risk"]} if kind == "column" else {}
                for reduction in ("sum", "min", "max"):
                    wanted = table_of(graph, kind, reduction, given)
                    self.assertEqual(client.run(kind, reduction, **more)["values"], wanted, kind)
                    told = client.run(kind, reduction, [5, 3, 3], **more)
                    self.assertEqual(told["values"], [wanted[5], wanted[3], wanted[3]])
                    self.assertEqual(told["edges"], sum(len(graph.out[u]) for u in (5, 3, 3)))

    def test_forms_of_runs(self):
        with self.served() as client:
            graph = self.filled(client)
            client.program("target", KINDS["target"].text)
            wanted = table_of(graph, "target", "sum")
            heads, data = client.ask("POST", "/runs?format=bytes", {"program": "target"})
            self.assertEqual(list(struct.unpack(f"<{VERTICES}Q", data)), wanted)
            self.assertEqual(int(heads["X-Total"]), sum(wanted))
            lines = [json.loads(line) for line in client.ask("POST", "/runs?format=lines", {"program": "target", "frontier": [4, 1]})[1].splitlines()]
            self.assertEqual(lines[:-1], [[4, wanted[4]], [1, wanted[1]]])
            self.assertEqual(lines[-1]["version"], 20)
            told = client.json("POST", "/runs?program=target&reduction=sum", struct.pack("<2I", 4, 1))
            self.assertEqual(told["values"], [wanted[4], wanted[1]])

    def test_numbers_and_pairs(self):
        with self.served() as client:
            graph = self.filled(client)
            for kind in ("target", "mutual", "popular"):
                client.program(kind, KINDS[kind].text)
            told = client.numbers("popular", [7, 2])
            targets = sorted(graph.out[7]) + sorted(graph.out[2])
            self.assertEqual((told["starts"], told["targets"]), ([0, len(graph.out[7]), len(targets)], targets))
            self.assertEqual(told["numbers"], [graph.degree(v) for v in targets])
            pairs = [(u, v) for u in range(0, VERTICES, 7) for v in range(0, VERTICES, 5)]
            self.assertEqual(client.pairs("mutual", pairs)["numbers"], [graph.has_edge(v, u) for u, v in pairs])
            lines = client.ask("POST", "/pairs?format=lines", {"program": "mutual", "pairs": [[1, 2]]})[1].splitlines()
            self.assertEqual(json.loads(lines[0]), [1, 2, graph.has_edge(2, 1)])
            data = client.ask("POST", "/pairs?format=bytes&program=target", struct.pack("<4I", 0, 9, 5, 8))[1]
            self.assertEqual(struct.unpack("<2Q", data), (9, 8))

    def test_lists_edges_and_steps(self):
        with self.served(mirror=True) as client:
            graph = self.filled(client)
            for u in range(VERTICES):
                self.assertEqual(client.neighbours(u), sorted(graph.out[u]))
                self.assertEqual(client.neighbours(u, "in"), [v for v in range(VERTICES) if u in graph.out[v]])
            page = client.json("GET", "/neighbours/1?limit=2")
            self.assertEqual(page["neighbours"], sorted(graph.out[1])[:2])
            later = client.json("GET", f"/neighbours/1?limit=1000&after={page['next']}")
            self.assertEqual(page["neighbours"] + later["neighbours"], sorted(graph.out[1]))
            _, starts, targets = client.edges()
            self.assertEqual([(u, v) for u in range(VERTICES) for v in targets[starts[u]:starts[u + 1]]], graph.edges())
            for steps in range(4):
                told = client.expand([3, 4], steps)
                self.assertEqual((told["vertices"], told["complete"]), (graph.reached([3, 4], steps), True))
            cut = client.expand([3, 4], 3, limit=5)
            self.assertEqual((cut["count"], cut["complete"]), (5, False))
            self.assertLessEqual(set(cut["vertices"]), set(graph.reached([3, 4], 3)))
            exact = client.expand([3, 4], 3, limit=len(graph.reached([3, 4], 3)))
            self.assertEqual((exact["vertices"], exact["complete"]), (graph.reached([3, 4], 3), True))

    def test_changes(self):
        with self.served() as client:
            chance, sent = seeded("changes"), []
            for _ in range(12):
                sent.append(random_edits(chance, VERTICES, 20))
                client.batch(sent[-1])
            for after in (0, 5, 12):
                found = client.changes(after)
                self.assertEqual([version for version, _ in found], list(range(after + 1, 13)))
                self.assertEqual([[[u, v, *(mark for mark in more if mark)] for u, v, *more in edits] for _, edits in found],
                                 [[[u, v, *(mark for mark in more if mark)] for u, v, *more in edits] for edits in sent[after:]])
            self.assertEqual(self.refused(422, client.changes, 13).error, "Unfit")

    def test_changes_that_the_journal_has_no_more(self):
        with self.served() as client:
            for number in range(9):
                client.batch([(0, number)])
                if number in (3, 6):
                    self.assertEqual(client.snapshot(), number + 1)
            # The batches up to the older snapshot are cut off soon.
            for _ in range(50):
                client.batch([(1, 1)])
                if client.json("GET", "/healthz")["version"] and self.is_gone(client):
                    break
                time.sleep(0.05)
            self.assertIn("GET /edges", self.refused(410, client.changes, 3).words)
            self.assertEqual(client.changes(4)[0], (5, [[0, 4]]))

    def is_gone(self, client):
        try:
            client.changes(3)
        except Error as error:
            return error.status == 410
        return False

    def test_versions(self):
        with self.served() as client:
            client.batch([(0, 1)])
            client.batch([(0, 2)])
            client.program("target", KINDS["target"].text)
            self.assertEqual([client.run("target", frontier=[0], version=v)["values"] for v in (0, 1, 2)], [[0], [1], [3]])
            self.assertEqual(client.neighbours(0, version=1), [1])
            self.refused(410, client.run, "target", version=9)
            self.refused(400, client.run, "target", version="x")
        with self.served(kept_bytes=0) as client:
            for number in range(5):
                client.batch([(1, number)])
            self.assertEqual(client.neighbours(1, version=6), [0, 1, 2, 3])
            self.refused(410, client.neighbours, 1, version=4)

    def test_a_batch_once(self):
        with self.served() as client:
            first, = client.batch([(0, 1), (0, 2)], key="a")
            again, = client.batch([(0, 1), (0, 2)], key="a")
            self.assertEqual((first, again), ((1, 2, 0, True), (1, 2, 0, False)))
            self.assertEqual(self.refused(422, client.batch, [(0, 1)], key="a").error, "OtherBatch")
            self.assertEqual(client.status()["version"], 1)
        with self.served() as client:
            self.assertEqual(client.batch([(0, 1), (0, 2)], key="a"), [(1, 2, 0, False)])
            # One group has the same batch twice.
            with concurrent.futures.ThreadPoolExecutor(8) as threads:
                port = client.url
                found = list(threads.map(lambda _: Client(port, tries=1).batch([(5, 5)], key="b")[0], range(8)))
            self.assertEqual({outcome[:3] for outcome in found}, {(2, 1, 0)})
            self.assertEqual(sum(outcome.new for outcome in found), 1)

    def test_programs_and_columns_come_and_go(self):
        with self.served() as client:
            told = client.program("target", KINDS["target"].text)
            self.assertEqual((told["bound"], told["asks"], told["new"]), (2, "own", True))
            self.assertFalse(client.program("target", KINDS["target"].text.split("\n"))["new"])
            self.assertEqual(self.refused(409, client.program, "target", "mov r0, 1\nexit").error, "Conflict")
            refused = self.refused(422, client.program, "bad", "ldxw r0, [r1+13]\nexit")
            self.assertEqual((refused.error, refused.told["cause"], refused.told["unit"]), ("Refused", 11, 0))
            client.program("code", code=bytes.fromhex("b7000000070000009500000000000000"), table=b"abc")
            self.assertEqual(client.json("GET", "/programs/code")["table"], b"abc".hex())
            client.column("risk", range(VERTICES))
            client.column("risk", [7] * VERTICES)
        with self.served() as client:
            self.assertEqual(client.ask("GET", "/columns/risk")[1], struct.pack("<Q", 7) * VERTICES)
            self.assertEqual([told["name"] for told in client.json("GET", "/programs")["programs"]], ["code", "target"])
            client.drop_program("code")
            client.drop_column("risk")
            self.refused(404, client.run, "code")
        with self.served() as client:
            self.assertEqual(client.json("GET", "/columns"), {"columns": []})
            self.assertEqual([told["name"] for told in client.json("GET", "/programs")["programs"]], ["target"])
        self.assertEqual(list(self.data.glob("column-*")), [])


class Watch(WithService):
    def table(self, event, before):
        """The table after an event."""
        if event.kind == "rows":
            return dict(event.rows)
        self.assertEqual(event.before, before[0])
        return {**before[1], **dict(event.rows)}

    def test_tables_of_all_kinds(self):
        for mirror in (False, True):
            options = {"vertices": VERTICES, "mirror": mirror, "scan_seconds": 0.0}
            with self.subTest(mirror=mirror), folder() as place, served(self.forks, data=str(place), **options) as client:
                self.watch_all(client)

    def watch_all(self, client):
        graph, chance, column, columns = Graph(VERTICES), seeded("watch"), [2 * u for u in range(VERTICES)], []
        client.column("risk", column)
        streams, tables = {}, {}
        for kind, how in KINDS.items():
            client.program(kind, how.text, record=how.record)
            more = {"argument": struct.pack("<Q", 9)} if kind == "argument" else {"columns": ["risk"]} if kind == "column" else {}
            streams[kind] = Client(client.url).watch(kind, "max" if kind == "place" else "sum", **more)
            event = next(streams[kind])
            tables[kind] = event.version, self.table(event, None)
        for number in range(1, 25):
            edits = random_edits(chance, VERTICES, 25)
            graph.apply(edits)
            version = client.batch(edits)[0].version
            for kind, stream in streams.items():
                while tables[kind][0] < version:
                    event = next(stream)
                    tables[kind] = event.version, self.table(event, tables[kind])
                wanted = table_of(graph, kind, "max" if kind == "place" else "sum", (9, (column,)))
                self.assertEqual([tables[kind][1].get(u, 0) for u in range(VERTICES)], wanted, kind)
            if number % 8 == 0:
                column = [chance.randrange(2**20) for _ in range(VERTICES)]
                client.column("risk", column)
                event = next(streams["column"])
                self.assertEqual(event.version, version)
                tables["column"] = version, self.table(event, tables["column"])
                self.assertEqual([tables["column"][1].get(u, 0) for u in range(VERTICES)], table_of(graph, "column", "sum", (9, (column,))))
                columns.append(event.id)
        self.assertEqual(len(set(columns)), 3)
        for stream in streams.values():
            stream.close()

    def test_only_rows_that_changed(self):
        with self.served() as client:
            client.batch([(u, u + 1) for u in range(50)])
            client.program("target", KINDS["target"].text)
            stream = Client(client.url).watch("target")
            self.assertEqual(len(next(stream).rows), 50)
            client.batch([(3, 9), (4, 5), (7, 8, 1), (7, 8)])
            event = next(stream)
            self.assertEqual((event.kind, event.before, event.version, event.rows), ("changes", 1, 2, [(3, 13)]))
            stream.close()

    def test_a_slow_client_gets_one_event_for_many_batches(self):
        with self.served() as client:
            client.program("target", KINDS["target"].text)
            stream = Client(client.url).watch("target")
            first = next(stream)
            stream.close()
            for number in range(30):
                client.batch([(number, 7)])
            later = next(Client(client.url).watch("target", after=first.id))
            self.assertEqual((later.kind, later.before, later.version, later.rows), ("changes", 0, 30, [(u, 7) for u in range(30)]))
            by_query = self.first_event(client, f"/watch?program=target&from={first.id}")
            self.assertEqual(by_query, later)
            # Of another query it begins with all rows.
            other = next(Client(client.url).watch("target", "max", after=first.id))
            self.assertEqual((other.kind, other.version), ("rows", 30))

    def test_equal_queries_share_their_runs(self):
        with self.served() as client:
            client.program("target", KINDS["target"].text)
            streams = [Client(client.url).watch("target") for _ in range(8)]
            for stream in streams:
                next(stream)
            before = self.runs_of(client)
            for number in range(5):
                client.batch([(number, 9)])
                self.assertEqual({tuple(next(stream).rows) for stream in streams}, {((number, 9),)})
            # One run of the version before and one of the version after, for each batch.
            self.assertEqual(self.runs_of(client) - before, 10)
            for stream in streams:
                stream.close()

    def runs_of(self, client):
        lines = client.ask("GET", "/metrics")[1].decode().splitlines()
        return next(float(line.split()[1]) for line in lines if line.startswith("edgebpf_runs_total"))

    def first_event(self, client, path):
        events = client._events(path, None)
        try:
            return next(events)
        finally:
            events.close()

    def test_a_query_whose_column_goes(self):
        with self.served() as client:
            client.program("column", KINDS["column"].text, record=32)
            client.column("risk", range(VERTICES))
            stream = Client(client.url, tries=1).watch("column", columns=["risk"])
            next(stream)
            client.drop_column("risk")
            with self.assertRaises(Error) as caught:
                next(stream)
            self.assertIn("risk", caught.exception.words)

    def test_a_query_whose_program_goes(self):
        """Its subscribers are told, also if another program has the name by then."""
        with self.served() as client:
            client.batch([(0, 1)])
            client.program("target", KINDS["target"].text)
            stream = Client(client.url, tries=1).watch("target")
            self.assertEqual(next(stream).rows, [(0, 1)])
            client.drop_program("target")
            client.program("target", KINDS["place"].text)
            # Without an event of its own the stream would go on by the next batch.
            begun, later = time.monotonic(), threading.Timer(10, client.batch, [[(0, 2)]])
            later.start()
            with self.assertRaises(Error) as caught:
                next(stream)
            later.cancel()
            self.assertEqual((caught.exception.error, "target" in caught.exception.words), ("Missing", True))
            self.assertLess(time.monotonic() - begun, 9)


class WrongForms(WithService):
    def test_each_is_refused_and_changes_nothing(self):
        with self.served() as client:
            client.batch([(0, 1)])
            client.program("target", KINDS["target"].text)
            client.column("kept", range(VERTICES))
            before = self.state_of(client)
            for method, path, body, heads, status, word in WRONG_FORMS:
                with self.subTest(path=path, body=body):
                    refused = self.refused(status, client.once, method, path, body, heads)
                    self.assertIn(word, refused.words)
                    self.assertEqual(self.state_of(client), before)
            self.assertEqual((client.status()["version"], client.neighbours(0)), (1, [1]))

    def test_limits_of_the_page(self):
        """docs/LIMITS.md has a status for each limit that is tried, and no other."""
        tried = {key: "; ".join(str(form[4]) for form in forms) for key, forms in PAST_LIMITS.items()}
        self.assertEqual(tried, {key: met.http for key, met in write_limits.MET.items() if met.http})

    def state_of(self, client):
        """All that a client can change: the graph, programs and columns."""
        programs = [client.json("GET", f"/programs/{told['name']}") for told in client.json("GET", "/programs")["programs"]]
        columns = [(told, client.ask("GET", f"/columns/{told['name']}")[1]) for told in client.json("GET", "/columns")["columns"]]
        version, starts, targets = client.edges()
        return version, list(starts), list(targets), programs, columns

    def test_bodies_too_large(self):
        with self.served(body=1 << 16) as client:
            self.refused(413, client.batch, b"\0" * (1 << 17))
            self.refused(413, client.once, "POST", "/runs", b"\0" * (1 << 17))
            # The rest of the body is not read, so the answer says to send nothing more by this connection.
            with contextlib.closing(http.client.HTTPConnection(client.url.removeprefix("http://"), timeout=20)) as connection:
                connection.putrequest("POST", "/batches")
                connection.putheader("Content-Type", "application/octet-stream")
                connection.putheader("Content-Length", str(1 << 20))
                connection.endheaders()
                answer = connection.getresponse()
                self.assertEqual((answer.status, answer.getheader("Connection")), (413, "close"))


class Limits(WithService):
    def test_a_run_ends_after_its_time(self):
        with self.served(seconds=0.3) as client:
            client.batch([(u, v) for u in range(VERTICES) for v in range(VERTICES)])
            client.program("endless", ENDLESS)
            begun = time.monotonic()
            refused = self.refused(503, client.run, "endless", frontier=list(range(VERTICES)) * 200)
            self.assertEqual(refused.error, "TookTooLong")
            self.assertLess(time.monotonic() - begun, 5)
        with self.served(units=10**6) as client:
            self.assertIn("units", self.refused(503, client.run, "endless", frontier=list(range(VERTICES)) * 200).words)

    def test_who_is_asked_to_come_again(self):
        """Not who sent a run that took too long: clients that heed Retry-After would have it made again and again."""
        with self.served(units=10**6) as client:
            client.batch([(u, v) for u in range(VERTICES) for v in range(VERTICES)])
            client.program("endless", ENDLESS)
            run = "/runs", {"program": "endless", "reduction": "sum", "frontier": list(range(VERTICES)) * 200}
            self.assertEqual(self.told(client, *run), (503, "TookTooLong", None))
        secret = token_command(self.data, "--name", "one", "--roles", "write", "--batches", "1")
        with self.served() as client:
            mine = Client(client.url, token=secret)
            told = {self.told(mine, "/batches", {"edits": [[0, 1]]}, {"Idempotency-Key": str(number)}) for number in range(3)}
            self.assertEqual(told, {(200, None, None), (429, "TooFast", "1")})

    def told(self, client, path, body, heads={}):
        """What a request is answered: the status, the error, and when it may come again."""
        with contextlib.closing(client._connection()) as connection:
            connection.request("POST", path, json.dumps(body), client._heads(body, heads))
            answer = connection.getresponse()
            return answer.status, json.loads(answer.read()).get("error"), answer.headers["Retry-After"]

    def test_too_many_numbers(self):
        with self.served() as client:
            client.batch([(0, v) for v in range(VERTICES)])
            client.program("target", KINDS["target"].text)
            self.assertEqual(len(client.numbers("target", [0] * 1000)["numbers"]), 1000 * VERTICES)
            self.assertIn("frontier", self.refused(422, client.numbers, "target", [0] * 100_000).words)

    def test_a_run_ends_with_its_client(self):
        with self.served(seconds=60.0) as client:
            client.batch([(u, v) for u in range(VERTICES) for v in range(VERTICES)])
            client.program("endless", ENDLESS)
            body = json.dumps({"program": "endless", "frontier": list(range(VERTICES)) * 5_000}).encode()
            host, port = client.url.removeprefix("http://").split(":")
            with socket.create_connection((host, int(port))) as connection:
                connection.sendall(b"POST /runs HTTP/1.1\r\nHost: localhost\r\nContent-Type: application/json\r\nContent-Length: %d\r\n\r\n" % len(body) + body)
                time.sleep(0.5)
            self.wait_for(client, 'edgebpf_runs_ended_total{by="client"} 1.0')

    def wait_for(self, client, line):
        for _ in range(100):
            text = client.ask("GET", "/metrics")[1].decode()
            if line in text:
                return
            time.sleep(0.1)
        self.fail(f"/metrics never says {line}: {text}")

    def test_small_runs_and_batches_beside_a_long_one(self):
        with self.served(seconds=4.0, readers=1) as client:
            client.batch([(u, v) for u in range(VERTICES) for v in range(VERTICES)])
            for name, text in (("endless", ENDLESS), ("target", KINDS["target"].text), ("slow", SLOW)):
                client.program(name, text)
            frontier, other = list(range(VERTICES)) * 5_000, Client(client.url, tries=1)
            long = threading.Thread(target=lambda: self.refused(503, other.run, "endless", frontier=frontier))
            long.start()
            time.sleep(0.3)
            taken = []
            for number in range(20):
                begun = time.monotonic()
                client.run("slow" if number % 2 else "target", frontier=[number])
                client.batch([(number, number, 1)])
                taken.append(time.monotonic() - begun)
            long.join()
            # Other processes may have the machine for some of them.
            self.assertLess(sorted(taken)[len(taken) // 2], 0.3)

    def test_a_queue_that_is_full(self):
        with self.served(queue_batches=1, group_batches=1) as client:
            def send(number):
                try:
                    return Client(client.url, tries=1).batch([(number % VERTICES, 1)])[0].version
                except Error as error:
                    return error
            with concurrent.futures.ThreadPoolExecutor(32) as threads:
                found = list(threads.map(send, range(200)))
            taken, busy = [one for one in found if isinstance(one, int)], [one for one in found if isinstance(one, Error)]
            self.assertEqual(sorted(taken), list(range(1, len(taken) + 1)))
            self.assertEqual({(error.status, error.error) for error in busy} or {(503, "Busy")}, {(503, "Busy")})
            self.assertEqual(client.status()["version"], len(taken))
            # A client that comes again has each taken once.
            self.assertEqual(Client(client.url).batch([(1, 1)])[0].version, len(taken) + 1)


class Clients(unittest.TestCase):
    """What a client does with answers that no service gives at a test's wish."""

    def setUp(self):
        self.client = Client("http://127.0.0.1:1", tries=1)

    def patched(self, name, **more):
        return unittest.mock.patch.object(self.client, name, **more)

    def test_ids_of_a_long_list(self):
        """Each batch of a list has an id of its own, which is the same if the list is sent again."""
        edits = [(number, 1) for number in range(2 * 65_536 + 1)]
        with self.patched("json", return_value={"version": 1, "added": 0, "removed": 0, "new": True}) as asked:
            self.assertEqual(len(self.client.batch(edits, key="a")), 3)
        sent = [(len(call.args[2]), call.args[3]["Idempotency-Key"]) for call in asked.call_args_list]
        self.assertEqual(sent, [(8 * 65_536, "a"), (8 * 65_536, "a-1"), (8, "a-2")])

    def test_what_is_sent_again(self):
        """What the service has no room for now comes again. A run that took too long does not: each try would take as long."""
        self.client.tries = 3
        for status, name, sent in ((503, "Busy", 3), (429, "TooFast", 3), (507, "NoRoom", 3), (503, "TookTooLong", 1), (422, "Unfit", 1)):
            with self.patched("once", side_effect=Error(status, {"error": name})) as once, unittest.mock.patch("time.sleep"):
                self.assertRaises(Error, self.client.run, "endless")
            self.assertEqual((name, once.call_count), (name, sent))

    def test_the_greatest_source(self):
        """The bit above it would take an edge out."""
        with self.patched("_batch") as sent:
            self.client.batch([(2**31 - 1, 2**32 - 1)], key="a")
            self.assertEqual(sent.call_args.args, (struct.pack("<II", 2**31 - 1, 2**32 - 1), "a"))
            for edit in ((2**31, 0), (2**31, 0, 1), (0, 2**32), (-1, 0)):
                with self.assertRaises(ValueError):
                    self.client.batch([edit])

    def test_one_name_of_a_column(self):
        """A name by itself is refused, and not taken for the names that its letters are."""
        with self.patched("json"), self.patched("_events", return_value=iter([])):
            for call in (
                    lambda: self.client.run("target", columns="risk"), lambda: self.client.numbers("target", [0], columns="risk"),
                    lambda: self.client.pairs("target", [], columns="risk"), lambda: next(self.client.watch("target", columns="risk"))):
                self.assertRaisesRegex(TypeError, "columns are a list of names", call)

    def test_pages_are_of_one_version(self):
        pages = [{"neighbours": [1, 5], "version": 7, "next": 5}, {"neighbours": [8], "version": 7}]
        with self.patched("json", side_effect=pages) as asked:
            self.assertEqual(self.client.neighbours(3), [1, 5, 8])
        self.assertEqual(asked.call_args.args[1], "/neighbours/3?direction=out&after=5&version=7")

    def test_changes_that_are_cut_off(self):
        whole = b'{"version":1,"edits":[[0,1]]}\n{"version":2,"edits":[]}\n'
        for data in (b"", whole):
            with self.patched("ask", return_value=({}, data)), self.assertRaises(NoAnswer):
                self.client.changes(0)
        with self.patched("ask", return_value=({}, whole + b'{"version":2}\n')):
            self.assertEqual(self.client.changes(0), [(1, [[0, 1]]), (2, [])])

    def test_a_watch_goes_on_where_it_was(self):
        """After a lost connection it asks for what came after the last event, by a new connection, and the old one is closed."""
        events = [FIRST_EVENT, b'id: 4-00000000\nevent: changes\ndata: {"from":1,"version":4,"rows":[]}\n\n']
        connections = []
        for data in events:
            connection = unittest.mock.Mock()
            connection.getresponse.return_value = answer = unittest.mock.MagicMock(status=200)
            answer.__iter__.side_effect = lambda data=data: iter(data.splitlines(keepends=True))
            connections.append(connection)
        with self.patched("_connection", side_effect=connections), unittest.mock.patch("time.sleep"):
            stream = self.client.watch("target")
            self.assertEqual([next(stream).version for _ in events], [1, 4])
            connections[0].close.assert_called_once()
            stream.close()
            connections[1].close.assert_called_once()
        asked = [connection.request.call_args.kwargs["headers"].get("Last-Event-ID") for connection in connections]
        self.assertEqual(asked, [None, "1-00000000"])

    def test_a_watch_of_a_service_that_never_was(self):
        """It is tried as often as any request, and ends with the same error."""
        self.client.tries, told = 3, []
        with unittest.mock.patch("time.sleep") as slept:
            with self.assertRaises(NoAnswer) as asked:
                self.client.status()
            for _ in range(2):
                with self.assertRaises(NoAnswer) as watched:
                    next(self.client.watch("target", waits=told.append))
                self.assertEqual(str(watched.exception), str(asked.exception))
        self.assertEqual((slept.call_count, [str(one) for one in told]), (2 + 4, [str(asked.exception)] * 2))
        for status, name in ((503, "Busy"), (429, "TooFast"), (422, "Unfit")):
            with self.patched("_events", side_effect=Error(status, {"error": name})) as tried, unittest.mock.patch("time.sleep"):
                self.assertRaises(Error, next, self.client.watch("target"))
            self.assertEqual(tried.call_count, 1 if status == 422 else 3)

    def test_a_watch_waits_once_it_was_connected(self):
        """However often the service is away, and each time it says so once."""
        told, answers = [], [b"", *[None] * 5, b"", None, 503, b"", None, FIRST_EVENT]

        def events(path, after, begins):
            answer = answers.pop(0)
            if answer == 503:
                raise Error(503, {"error": "Busy"})
            if answer is None:
                raise ConnectionRefusedError(111, "refused")
            begins()
            yield from events_of(answer.splitlines(keepends=True))

        with self.patched("_events", side_effect=events), unittest.mock.patch("time.sleep"):
            self.assertEqual(next(self.client.watch("target", waits=told.append)).version, 1)
        self.assertEqual([str(one) for one in told], ["ConnectionRefusedError: [Errno 111] refused"] * 3)

    def test_the_command_says_that_it_waits(self):
        """With short pauses, since it gives up after some seconds."""
        words = "import edgebpf_client as c; c.MOST_PAUSE = 0.01; c.main()"
        command = [sys.executable, "-c", words, "--url", "http://127.0.0.1:1", "watch", "target"]
        run = subprocess.run(command, capture_output=True, text=True, timeout=30, env={**os.environ, "PYTHONPATH": str(TOOLS)})
        told = "ConnectionRefusedError: [Errno 111] Connection refused"
        self.assertEqual((run.returncode, run.stdout), (1, ""))
        self.assertEqual(run.stderr.splitlines(), [f"edgebpf-client: waits for the service: {told}", f"edgebpf-client: {told}"])


class Tokens(WithService):
    def token(self, *words):
        run = subprocess.run([TOOLS / "edgebpf-serve", "token", self.data, *words], capture_output=True, text=True)
        self.assertEqual((run.returncode, run.stderr), (0, ""))
        return run.stdout.strip()

    def test_roles(self):
        with self.served() as client:
            client.program("target", KINDS["target"].text)
        secrets = {role: self.token("--name", role, "--roles", role) for role in ("read", "write", "program", "admin")}
        calls = {
            "read": lambda client: client.run("target"), "write": lambda client: client.batch([(0, 1)]), "admin": lambda client: client.snapshot(),
            "program": lambda client: client.program("target", KINDS["target"].text)}
        with self.served() as client:
            self.assertEqual(client.status()["status"], "alive")
            for role, call in calls.items():
                self.refused(401, call, client)
                self.refused(401, call, Client(client.url, token="x" * 43, tries=1))
                for other, secret in secrets.items():
                    mine = Client(client.url, token=secret, tries=1)
                    if role == other:
                        call(mine)
                    else:
                        self.assertIn(role, self.refused(403, call, mine).words)
        self.assertNotIn(secrets["read"].encode(), b"".join(path.read_bytes() for path in self.data.iterdir() if path.is_file()))

    def test_a_token_that_cannot_be_printed(self):
        """One line says so, and the token is gone again, since nobody has read it."""
        with self.served():
            pass
        for redirected, words in (("> /dev/full", "No space left on device"), (">&-", "is closed"), ("| false", "Broken pipe")):
            for unbuffered in ("", "1"):
                command = f'{TOOLS / "edgebpf-serve"} token {self.data} --name one {redirected}'
                run = subprocess.run(["sh", "-c", command], capture_output=True, text=True, env={**os.environ, "PYTHONUNBUFFERED": unbuffered})
                self.assertRegex(run.stderr, rf"\Aedgebpf-serve: standard output:? {words}\n\Z")
                self.assertEqual(self.token(), "")

    def test_tokens_change_while_it_serves(self):
        with self.served() as client:
            client.batch([(0, 1)])
            secret = self.token("--name", "one", "--roles", "read,write")
            mine = Client(client.url, token=secret, tries=1)
            self.wait_until(lambda: self.is_refused(client))
            self.assertEqual(mine.batch([(0, 2)])[0].version, 2)
            other = self.token("--name", "two")
            self.token("--drop", "one")
            self.wait_until(lambda: self.is_refused(mine))
            self.assertEqual(Client(client.url, token=other).neighbours(0), [1, 2])
            self.assertEqual(self.token().split()[:2], ["two", "read"])

    def test_without_tokens_an_address_of_others_is_closed(self):
        with self.served(listen="0.0.0.0:0") as client:
            self.assertEqual(client.status()["version"], 0)
            self.refused(401, client.batch, [(0, 1)])
        with self.served(listen="0.0.0.0:0", open=True) as client:
            self.assertEqual(client.batch([(0, 1)])[0].version, 1)
            self.assertEqual(json.loads(client.ask("GET", "/healthz", None, {"Host": "elsewhere.example"})[1])["version"], 1)

    def test_names_of_this_machine(self):
        """A service without tokens answers no other host, and one with tokens any."""
        with self.served() as client:
            for host in ("localhost", "localhost:8080", "127.0.0.1:1", "[::1]:8080"):
                self.assertEqual(client.ask("GET", "/edges", None, {"Host": host})[0]["X-Edges"], "0")
            for host in ("elsewhere.example", "localhost.elsewhere.example", "192.0.2.1:8080"):
                self.refused(403, client.once, "GET", "/edges", None, {"Host": host})
        secret = self.token("--name", "one")
        with self.served() as client:
            mine = Client(client.url, token=secret, tries=1)
            self.assertEqual(mine.ask("GET", "/edges", None, {"Host": "elsewhere.example"})[0]["X-Edges"], "0")

    def test_tokens_that_cannot_be(self):
        with self.served():
            pass
        for words in (["--name", ""], ["--name", "a b"], ["--name", "a", "--runs", "-1"], ["--name", "a", "--runs", "x"], ["--name", "a", "--roles", "all"]):
            run = subprocess.run([TOOLS / "edgebpf-serve", "token", self.data, *words], capture_output=True, text=True)
            self.assertEqual((run.returncode, run.stdout), (2, ""), words)
            self.assertIn(f"{words[-2]}", run.stderr)
        self.assertEqual(self.token(), "")

    def wait_until(self, condition):
        for _ in range(50):
            if condition():
                return
            time.sleep(0.1)
        self.fail("it does not come to be")

    def is_refused(self, client):
        try:
            client.neighbours(0)
        except Error as error:
            return error.status == 401
        return False

    def test_limits_of_tokens(self):
        with self.served() as client:
            client.batch([(u, v) for u in range(VERTICES) for v in range(VERTICES)])
        words = ["--runs", "1", "--batches", "3", "--programs", "1", "--watches", "1", "--columns", "1"]
        secret = self.token("--name", "one", "--roles", "read,write,program", *words)
        with self.served(seconds=10.0) as client:
            mine = Client(client.url, token=secret, tries=1)
            mine.program("endless", ENDLESS)
            self.assertEqual(self.refused(403, mine.program, "more", "mov r0, 1\nexit").error, "TooMany")
            mine.column("risk", range(VERTICES))
            mine.column("risk", range(VERTICES))
            self.assertEqual(self.refused(403, mine.column, "more", range(VERTICES)).error, "TooMany")
            self.assertEqual(len(list(self.data.glob("column-*"))), 1)
            found = [self.status_of(lambda: mine.batch([(0, 1)])) for _ in range(10)]
            self.assertIn(429, found)
            events = mine.watch("endless")
            threading.Thread(target=lambda: next(events, None), daemon=True).start()
            frontier, other = list(range(VERTICES)) * 3_000, Client(client.url, token=secret, tries=1)

            def run_long():
                # One that is refused met a short one below.
                while self.status_of(lambda: other.run("endless", frontier=frontier)) == 429:
                    time.sleep(0.05)

            long = threading.Thread(target=run_long)
            long.start()
            while self.status_of(lambda: mine.run("endless", frontier=[])) != 429:
                time.sleep(0.1)
            self.assertEqual(self.refused(429, mine.run, "endless", frontier=[0]).error, "TooFast")
            self.assertEqual(self.refused(429, mine.once, "GET", "/watch?program=endless").error, "TooFast")
            long.join()

    def test_limits_of_the_runs_of_tokens(self):
        """A run ends after its token's seconds or units, and never after more than the service's."""
        with self.served() as client:
            client.batch([(u, v) for u in range(VERTICES) for v in range(VERTICES)])
            client.program("endless", ENDLESS)
        words = {"short": ["--seconds", "0.3"], "few": ["--units", "1000000"], "great": ["--seconds", "3600", "--units", str(2**63)], "plain": []}
        secrets = {name: self.token("--name", name, *more) for name, more in words.items()}
        listed = {line.split()[0]: line.split()[2:] for line in self.token().splitlines()}
        for name, more in (("short", ["seconds=0.3"]), ("few", ["units=1000000"]), ("great", ["seconds=3600.0", f"units={2**63}"]), ("plain", [])):
            self.assertEqual([word for word in listed[name] if word.startswith(("seconds", "units"))], more)
        for options, told in (
                ({"seconds": 1.0}, {"short": "0.3 seconds", "few": "1000000 units", "great": "1 seconds", "plain": "1 seconds"}),
                ({"units": 2_000_000}, {"few": "1000000 units", "great": "2000000 units", "plain": "2000000 units"})):
            with self.served(**options) as client:
                for name, limit in told.items():
                    mine = Client(client.url, token=secrets[name], tries=1)
                    refused = self.refused(503, mine.run, "endless", frontier=list(range(VERTICES)) * 3_000)
                    self.assertEqual((refused.error, refused.words.split(":")[0]), ("TookTooLong", f"the run took more than {limit}"))
                    # A run that fits is made.
                    self.assertEqual(mine.run("endless", frontier=[])["edges"], 0)
                self.assertIn("seconds, units", client.json("GET", "/openapi.json")["components"]["securitySchemes"]["token"]["description"])

    def test_wrong_limits_of_tokens(self):
        with self.served():
            pass
        for word, said in (("--seconds 0", "0.01 to 3600"), ("--seconds nan", "0.01 to 3600"), ("--seconds 3601", "0.01 to 3600"), ("--seconds x", "a number"),
                           ("--units 0", "1 to 9223372036854775808"), ("--units 1.5", "a number"), ("--units -1", "1 to 9223372036854775808"), ("--runs x", "a whole number")):
            run = subprocess.run([TOOLS / "edgebpf-serve", "token", self.data, "--name", "one", *word.split()], capture_output=True, text=True)
            self.assertEqual((run.returncode, run.stdout), (2, ""), word)
            self.assertIn(said, run.stderr)
        self.assertEqual(self.token(), "")

    def status_of(self, call):
        try:
            call()
        except Error as error:
            return error.status
        return 200


class Folders(WithService):
    def tool(self, *words, **environment):
        return subprocess.run([TOOLS / "edgebpf-serve", *words], capture_output=True, text=True, timeout=60, env={**os.environ, **environment})

    def test_backup_and_restore(self):
        with self.served(snapshot_batches=5) as client:
            graph = self.filled(client)
            client.program("target", KINDS["target"].text)
            client.column("risk", range(VERTICES))
            client.batch([(1, 2)], key="kept")
            self.assertEqual(client.json("POST", "/backups", {"name": "one"}), {"name": "one", "version": 21})
            left = self.data / "backups" / ".two.x.draft"
            left.mkdir()
            (left / "lock").touch()
            self.refused(409, client.json, "POST", "/backups", {"name": "one"})
            copy, other = self.data / "backups" / "one", self.data.with_name("copy")
            run = self.tool("backup", self.data, other)
            self.assertEqual(json.loads(run.stdout), {"version": 21}, run.stderr)
            client.batch([(1, 3)])
        # What a killed service left of a copy goes with the next start.
        with self.served():
            self.assertEqual([path.name for path in left.parent.iterdir()], ["one"])
        graph.apply([(1, 2)])
        for kept in (copy, other):
            made = self.data.with_name("made")
            run = self.tool("restore", kept, made)
            self.assertEqual(json.loads(run.stdout)["version"], 21, run.stderr)
            self.assertNotEqual(self.tool("restore", kept, made).returncode, 0)
            with served(self.forks, data=str(made)) as client:
                self.assertEqual(client.run("target")["values"], table_of(graph, "target", "sum"))
                self.assertEqual(client.batch([(1, 2)], key="kept")[0].new, False)
                self.assertEqual(client.ask("GET", "/columns/risk")[1], struct.pack(f"<{VERTICES}Q", *range(VERTICES)))
            subprocess.run(["rm", "-rf", made])

    def test_backups_while_batches_come(self):
        with self.served(snapshot_batches=10) as client:
            ending, graphs = threading.Event(), {0: []}

            def write():
                mine, graph, chance = Client(client.url), Graph(VERTICES), seeded("backups")
                while not ending.is_set():
                    edits = random_edits(chance, VERTICES, 20)
                    version = mine.batch(edits)[0].version
                    graph.apply(edits)
                    graphs[version] = graph.edges()

            writer = threading.Thread(target=write)
            writer.start()
            versions = [json.loads(self.tool("backup", self.data, self.data.with_name(f"copy{number}")).stdout)["version"] for number in range(4)]
            ending.set()
            writer.join()
        for number, version in enumerate(versions):
            with served(self.forks, data=str(self.data.with_name(f"copy{number}"))) as client:
                found, starts, targets = client.edges()
                self.assertEqual(found, version)
                self.assertEqual([(u, v) for u in range(VERTICES) for v in targets[starts[u]:starts[u + 1]]], graphs[version])

    def test_names_of_folders(self):
        """A folder has any name: no other one is opened in its place, nor made."""
        place = self.data.parent
        for name in ("a#b", "50%41", "really?", "a&mode=ro"):
            with served(self.forks, data=str(place / name), vertices=VERTICES) as client:
                client.batch([(0, 1)])
                run = self.tool("token", place / name, "--name", "one", "--roles", "read")
                self.assertEqual((run.returncode, run.stderr), (0, ""), name)
                run = self.tool("backup", place / name, place / "copy of it")
                self.assertEqual((run.stdout, run.stderr), ('{"version": 1}\n', ""), name)
            self.assertEqual({path.name for path in place.iterdir()}, {name, "copy of it"})
            subprocess.run(["rm", "-rf", place / name, place / "copy of it"])

    def test_a_copy_that_is_interrupted(self):
        """It is told in a line, and nothing of it is left. Another process holds the database, so that the copy waits."""
        with self.served():
            pass
        with contextlib.closing(sqlite3.connect(self.data / "serve.db", isolation_level=None)) as db:
            db.execute("pragma journal_mode=delete")
            db.execute("begin exclusive")
            for number, said in ((signal.SIGINT, "interrupted"), (signal.SIGTERM, "terminated"), (signal.SIGHUP, "the terminal was closed")):
                self.interrupt_a_copy(number, said)
                self.assertEqual([path.name for path in self.data.parent.iterdir()], [self.data.name])

    def interrupt_a_copy(self, number, said):
        words = [TOOLS / "edgebpf-serve", "backup", self.data, self.data.with_name("copy")]
        # A shell may have started the tests to ignore the signal.
        heard = {"preexec_fn": lambda: signal.signal(number, signal.SIG_DFL)}
        with subprocess.Popen(words, stdout=subprocess.PIPE, stderr=subprocess.PIPE, text=True, **heard) as run:
            try:
                until = time.monotonic() + 60
                while not list(self.data.parent.glob(".copy.*")) and time.monotonic() < until:
                    time.sleep(0.01)
                run.send_signal(number)
                self.assertEqual((*run.communicate(timeout=60), run.returncode), ("", f"edgebpf-serve: {said}\n", 128 + number))
            finally:
                run.kill()

    def test_folders_that_cannot_be_served(self):
        with self.served():
            run = self.tool("--data", self.data, "--listen", "127.0.0.1:0")
            self.assertEqual(run.returncode, 2)
            self.assertIn("another service has this folder", run.stderr)
        run = self.tool("--data", self.data, "--vertices", "61", "--listen", "127.0.0.1:0")
        self.assertEqual((run.returncode, "60 vertices" in run.stderr), (2, True), run.stderr)
        run = self.tool("--data", self.data, "--listen", "0.0.0.0:0")
        self.assertEqual((run.returncode, "no tokens" in run.stderr), (2, True), run.stderr)
        for words, word in ((["--vertices", "0"], "--vertices"), (["--listen", "x"], "--listen"), (["--readers", "x"], "--readers"), ([], "--data")):
            run = self.tool(*(["--data", str(self.data)] if words else []), *words)
            self.assertEqual((run.returncode, word in run.stderr), (2, True), run.stderr)
        (self.data / "serve.db").write_bytes(b"no database" * 100)
        run = self.tool("check", self.data)
        self.assertEqual((run.returncode, len(run.stderr.splitlines())), (2, 1), run.stderr)

    def test_variables_that_are_no_options(self):
        near = "; there is EDGEBPF_SERVE_VERTICES"
        for name, near in (("VERTICE", near), ("vertices", near), ("", ""), ("SERVICE_HOST", "")):
            run = self.tool("--data", self.data, "--listen", "127.0.0.1:0", **{f"EDGEBPF_SERVE_{name}": "100"})
            self.assertEqual((run.returncode, run.stdout, self.data.exists()), (2, "", False), run.stderr)
            self.assertEqual(run.stderr.splitlines()[-1], f"edgebpf-serve: error: the environment variable EDGEBPF_SERVE_{name} names no option{near}")

    def test_another_format(self):
        with self.served():
            pass
        sys.path.insert(0, str(TOOLS))
        from edgebpf_serve import rows

        with contextlib.closing(sqlite3.connect(self.data / "serve.db")) as db:
            rows.set_meta(db, "format", 2)
            db.commit()
        run = self.tool("check", self.data)
        self.assertEqual((run.returncode, "format 2" in run.stderr), (2, True), run.stderr)


    def test_a_changed_token(self):
        """A token whose row is not as it was made ends the start in words, whatever of it was changed."""
        with self.served():
            pass
        self.assertEqual(self.tool("token", self.data, "--name", "one", "--roles", "read").returncode, 0)
        whole = (self.data / "serve.db").read_bytes()
        for change in ("name = 'two'", "roles = 'admin'", "limits = '{\"runs\": 1}'", "hash = zeroblob(32)", "hash = 'x'"):
            (self.data / "serve.db").write_bytes(whole)
            with contextlib.closing(sqlite3.connect(self.data / "serve.db")) as db:
                db.execute(f"update tokens set {change}")
                db.commit()
            run = self.tool("check", self.data)
            self.assertEqual((run.returncode, run.stdout, "Traceback" in run.stderr), (2, "", False), run.stderr)
            self.assertIn("tokens", run.stderr)


class Ends(WithService):
    def test_the_command_from_its_start_to_its_end(self):
        path = self.data.with_name("socket")
        words = [TOOLS / "edgebpf-serve", "--data", self.data, "--listen", f"unix:{path}"]
        default = {"preexec_fn": lambda: signal.signal(signal.SIGTERM, signal.SIG_DFL)}
        server = subprocess.Popen(words, stderr=subprocess.PIPE, text=True, env={**os.environ, "EDGEBPF_SERVE_VERTICES": "77"}, **default)
        self.addCleanup(server.kill)
        client = Client(f"unix:{path}", tries=30)
        self.assertEqual(client.batch([(0, 76)])[0].version, 1)
        client.program("target", KINDS["target"].text)
        watching, events = http_of(path), []
        watching.request("GET", "/watch?program=target")
        answer = watching.getresponse()
        reader = threading.Thread(target=lambda: events.append(answer.read()))
        reader.start()
        time.sleep(0.3)
        server.send_signal(signal.SIGTERM)
        self.assertEqual(server.wait(20), 0)
        reader.join(10)
        self.assertIn(b"event: end", events[0])
        told = [json.loads(line)["what"] for line in server.stderr.read().splitlines()]
        server.stderr.close()
        self.assertEqual(told, ["serves", "ends", "ended"])
        self.assertFalse((self.data / "serve.db-wal").exists())

    def test_pages_of_operation(self):
        with self.served() as client:
            client.batch([(0, 1)])
            self.assertEqual(client.json("GET", "/readyz")["version"], 1)
            told = client.json("GET", "/openapi.json")
            batches, pairs = told["paths"]["/batches"]["post"], told["paths"]["/pairs"]["post"]
            self.assertEqual([one["name"] for one in batches["parameters"] if one["in"] == "header"], ["Idempotency-Key"])
            self.assertEqual({one["name"] for one in pairs["parameters"]}, {"version", "format", "program", "argument", "columns"})
            for one in (batches, pairs):
                self.assertEqual(set(one["requestBody"]["content"]), {"application/json", "application/octet-stream"})
            # The statuses of a query, a body, a Host and an Origin that are wrong.
            for method, path, statuses in (("post", "/runs", {"400", "401", "403", "408", "413", "415"}), ("get", "/programs", {"400", "403"}), ("get", "/healthz", {"403"})):
                self.assertLessEqual(statuses, set(told["paths"][path][method]["responses"]))
            text = client.ask("GET", "/metrics")[1].decode()
            counted = 'edgebpf_requests_total{route="/batches",status="200"} 1.0'
            for line in ("edgebpf_version 1.0", "edgebpf_edges 1.0", "edgebpf_sync_seconds_count 1.0", counted):
                self.assertIn(line, text)
            files = [pathlib.Path(self.data) / name for name in ("serve.db", "serve.db-wal")]
            self.assertEqual(self.gauge(client, "journal_bytes"), sum(file.stat().st_size for file in files))
            self.assertEqual(self.gauge(client, "snapshot_time_seconds"), 0)
            begun = time.time()
            client.snapshot()
            self.assertTrue(begun - 1 <= self.gauge(client, "snapshot_time_seconds") <= time.time() + 1)
            self.assertIn(b"Programs on this graph", client.ask("GET", "/")[1])

    def gauge(self, client, name):
        """A number of /metrics."""
        lines = client.ask("GET", "/metrics")[1].decode().splitlines()
        return float(next(line.split()[1] for line in lines if line.startswith(f"edgebpf_{name} ")))


def http_of(path):
    connection = http.client.HTTPConnection("localhost", timeout=30)
    connection.sock = socket.socket(socket.AF_UNIX, socket.SOCK_STREAM)
    connection.sock.connect(str(path))
    return connection


if __name__ == "__main__":
    unittest.main()

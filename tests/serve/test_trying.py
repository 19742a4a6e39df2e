"""Programs that a request brings, the vertices around one, and what a token may: against the model, and states worked out by hand."""
import concurrent.futures
import pathlib
import struct
import subprocess
import sys
import unittest

HERE = pathlib.Path(__file__).resolve().parent
sys.path.insert(0, str(HERE))

from harness import TOOLS, Client, brought  # noqa: E402
from model import KINDS, table_of  # noqa: E402
from test_requests import WithService  # noqa: E402
from wrong_forms import VERTICES  # noqa: E402

# What is known before each instruction of the model's program "target", worked out by hand.
STATES = ["r1 record+0  r2 16  r10 stack[0]+0", "r0 0 to 4294967295  r1 record+0  r2 16  r10 stack[0]+0"]
MOST_TRIED = 32


class Explained(WithService):
    def test_the_states_of_a_program(self):
        with self.served() as client:
            told = client.explain(KINDS["target"].text)
            self.assertEqual((told["accepted"], told["bound"], told["frames"], told["asks"]), (True, 2, 1, "own"))
            self.assertEqual([line.strip() for line in told["explanation"].splitlines() if line.startswith("    ")], STATES)
            refused = client.explain("ldxw r0, [r1+13]\nexit".split("\n"))
            self.assertEqual((refused["accepted"], refused["cause"], refused["unit"]), (False, 11, 0))
            self.assertIn("refused at 0: ldxw r0, [r1+13]\nrule 11: ", refused["explanation"])
            code = client.explain(code=bytes.fromhex("b7000000070000009500000000000000"), table=b"abc", record=20)
            self.assertIn("r1 record+0  r2 20  r3 table+0", code["explanation"])
            # Nothing of it is kept.
            self.assertEqual(client.json("GET", "/programs"), {"programs": []})
            self.assertIn("/explain", client.json("GET", "/openapi.json")["paths"])

    def test_a_text_that_is_no_program(self):
        with self.served() as client:
            for call in (client.explain, lambda text: client.program("bad", text), lambda text: client.run(brought(text))):
                wrong = self.refused(422, call, "mov r0, 1\nreturn r0\nexit")
                self.assertEqual((wrong.error, wrong.told["line"], wrong.words), ("WrongText", 2, "line 2: no statement has this word"))


class Brought(WithService):
    def test_runs_as_a_kept_one(self):
        with self.served() as client:
            graph, column = self.filled(client), [3 * u + 1 for u in range(VERTICES)]
            client.column("risk", column)
            for kind, how in KINDS.items():
                program, given = brought(how.text, record=how.record), (9, (column,)) if kind == "column" else (9, ())
                more = {"argument": struct.pack("<Q", 9)} if kind == "argument" else {"columns": ["risk"]} if kind == "column" else {}
                wanted = table_of(graph, kind, "sum", given)
                self.assertEqual(client.run(program, **more)["values"], wanted, kind)
                self.assertEqual(client.run(program, frontier=[7, 2], **more)["values"], [wanted[7], wanted[2]], kind)
            mutual, pairs = brought(KINDS["mutual"].text), [(u, v) for u in range(0, VERTICES, 7) for v in range(0, VERTICES, 5)]
            self.assertEqual(client.pairs(mutual, pairs)["numbers"], [graph.has_edge(v, u) for u, v in pairs])
            told = client.numbers(brought(KINDS["popular"].text), [7])
            self.assertEqual(told["numbers"], [graph.degree(v) for v in sorted(graph.out[7])])
            code = brought(code=bytes.fromhex("b7000000070000009500000000000000"))
            self.assertEqual(client.run(code, "max", [1])["values"], [7 if graph.out[1] else 0])
            self.assertEqual(client.json("GET", "/programs"), {"programs": []})

    def test_more_than_stay_verified(self):
        """Each of many programs gives its own number, also one that was asked long ago, and many threads at once."""
        with self.served() as client:
            client.batch([(0, 1)])
            def number_of(number):
                return Client(client.url, tries=1).run(brought(f"mov r0, {number}\nexit"), frontier=[0])["values"]
            with concurrent.futures.ThreadPoolExecutor(8) as threads:
                for _ in range(2):
                    self.assertEqual(list(threads.map(number_of, range(2 * MOST_TRIED))), [[number] for number in range(2 * MOST_TRIED)])

    def test_what_is_refused(self):
        with self.served() as client:
            client.program("target", KINDS["target"].text)
            for path, more in (("/runs", {}), ("/numbers", {"frontier": [0]}), ("/pairs", {"pairs": [[0, 1]]})):
                refused = self.refused(422, client.json, "POST", path, {"text": "ldxw r0, [r1+13]\nexit", **more})
                self.assertEqual((refused.error, refused.told["cause"], refused.told["unit"]), ("Refused", 11, 0))
                both = self.refused(400, client.json, "POST", path, {"program": "target", "text": "exit", **more})
                self.assertIn("one of them", both.words)
                self.assertIn("text or code", self.refused(400, client.json, "POST", path, {"text": "exit", "code": "95", **more}).words)
                self.assertIn("text or code", self.refused(400, client.json, "POST", path, {"record": 16, **more}).words)
                self.assertEqual(self.refused(400, client.json, "POST", path, {"program": "target", "record": 16, **more}).status, 400)


class Around(WithService):
    def test_the_nearest_come_first(self):
        with self.served() as client:
            graph = self.filled(client)
            for vertex in range(0, VERTICES, 3):
                for steps, limit in ((0, 5), (1, 24), (1, 2), (2, 7), (3, 100), (64, 100), (2, 1)):
                    told, (wanted, complete) = client.around(vertex, steps, limit), graph.nearest(vertex, steps, limit)
                    self.assertEqual((told["vertices"], told["complete"]), (wanted, complete), (vertex, steps, limit))
                    self.assertEqual(told["degrees"], [graph.degree(u) for u in wanted])
                    self.assertEqual(told["edges"], [[u, v] for u in wanted for v in sorted(graph.out[u]) if v in wanted])
                    self.assertEqual(told["graph"], {"vertices": VERTICES, "edges": len(graph.edges())})
            self.assertEqual(client.around(0, version=0)["edges"], [])

    def test_around_a_vertex_with_many_edges(self):
        with self.served(vertices=3000) as client:
            client.batch([(5, v) for v in range(3000)])
            told = client.around(5, 2, 24)
            self.assertEqual((told["vertices"], told["complete"]), ([5, *(v for v in range(24) if v != 5)], False))
            self.assertEqual(told["degrees"], [3000] + [0] * 23)
            client.batch([(9, v) for v in range(100)])
            told = client.around(9, 1, 100)
            self.assertEqual((len(told["vertices"]), told["complete"]), (100, True))
            self.assertEqual(client.around(9, 1, 99)["complete"], False)


class WhatATokenMay(WithService):
    def token(self, *words):
        run = subprocess.run([TOOLS / "edgebpf-serve", "token", self.data, *words], capture_output=True, text=True)
        self.assertEqual((run.returncode, run.stderr), (0, ""))
        return run.stdout.strip()

    def test_names_and_roles(self):
        with self.served() as client:
            client.program("target", KINDS["target"].text)
            self.assertEqual(client.json("GET", "/token"), {"name": "", "roles": ["admin", "program", "read", "write"]})
        secrets = {roles: self.token("--name", roles.replace(",", "-"), "--roles", roles) for roles in ("read", "program", "read,program", "write")}
        with self.served() as client:
            self.refused(401, client.json, "GET", "/token")
            self.refused(401, Client(client.url, token="x" * 43, tries=1).json, "GET", "/token")
            clients = {roles: Client(client.url, token=secret, tries=1) for roles, secret in secrets.items()}
            for roles, mine in clients.items():
                told = mine.json("GET", "/token")
                self.assertEqual((told["name"], told["roles"]), (roles.replace(",", "-"), sorted(roles.split(","))))
            program = brought(KINDS["target"].text)
            # To run what nobody keeps takes both roles, and to explain it takes one.
            self.assertEqual(clients["read,program"].run(program, frontier=[0])["values"], [0])
            self.assertIn("role program", self.refused(403, clients["read"].run, program, frontier=[0]).words)
            self.assertIn("role read", self.refused(403, clients["program"].run, program, frontier=[0]).words)
            self.assertEqual(clients["read"].run("target", frontier=[0])["values"], [0])
            self.assertTrue(clients["program"].explain(KINDS["target"].text)["accepted"])
            self.assertIn("role program", self.refused(403, clients["read"].explain, KINDS["target"].text).words)
            self.assertIn("role read", self.refused(403, clients["program"].around, 0).words)


if __name__ == "__main__":
    unittest.main()

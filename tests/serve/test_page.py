"""The page of a service in headless Chromium: its numbers are the model's, its states those of the second implementation; what it says of tokens,
of wrong fields, of a service that has gone; a graph that changes meanwhile; keyboard, screen reader, telephone, light and dark."""
import json
import pathlib
import re
import subprocess
import sys
import unittest
from urllib.parse import urlencode

HERE = pathlib.Path(__file__).resolve().parent
ROOT = HERE.parent.parent
sys.path[:0] = [str(HERE), str(ROOT / "tests/playground"), str(ROOT / "tests/second_implementation")]

import assembler  # noqa: E402
import browser  # noqa: E402
from harness import TOOLS  # noqa: E402
from model import KINDS, Graph, seeded  # noqa: E402
from reach import CONTRAST, contrast, letters  # noqa: E402
from test_requests import WithService  # noqa: E402

SHOWN = "document.body.dataset.shown === 'yes'"
VERTICES, EDGES = 40, 70
PLAIN = {"program": KINDS["popular"].text, "vertex": "3", "steps": "2"}
REFUSED = "ldxw r3, [r1+4]\nmov r4, r1\nadd r4, r3\nldxb r0, [r4+16]\nexit"
EXPLAIN = ROOT / "tools/tests/second_explain.py"


def states_of(text, record=16):
    """What is known before each instruction, by the second implementation."""
    code = assembler.assemble(text)
    run = subprocess.run([sys.executable, EXPLAIN, str(record), code.hex()], stdout=subprocess.PIPE, text=True)
    return [line.strip() for line in run.stdout.splitlines() if line.startswith("    ")]


def text_of(name):
    return f"document.getElementById('{name}').textContent"


class InBrowser(WithService):
    """Tests that share a browser."""

    @classmethod
    def setUpClass(cls):
        super().setUpClass()
        if browser.found() is None:
            raise unittest.SkipTest("there is no chromium")
        cls.page = cls.enterClassContext(browser.Browser())

    def graph_of(self, client, edges=EDGES):
        """A graph of random edges, the same in the service and in the model."""
        graph, chance = Graph(VERTICES), seeded("page", self.id())
        edits = [(3, 5), (5, 3), (5, 9), (9, 9)] + [(chance.randrange(VERTICES), chance.randrange(VERTICES)) for _ in range(edges)]
        client.batch(edits)
        graph.apply(edits)
        return graph

    def open(self, client, **fields):
        self.page.faults.clear()
        self.page.size(1280, 900)
        self.page.open(f"{client.url}/#{urlencode(fields)}", SHOWN)

    def shown(self, name):
        return self.page.evaluate(text_of(name))

    def faults(self):
        """The faults of the page. The browser notes requests that were refused, too."""
        return [fault for fault in self.page.faults if fault.get("entry", {}).get("source") != "network"]

    def wait_for(self, name, words):
        self.page.wait(f"{text_of(name)}.includes({json.dumps(words)})")

    def fill(self, name, value):
        given = f"field.value = {json.dumps(value)}; field.dispatchEvent(new Event('input')); field.dispatchEvent(new Event('change'));"
        self.page.evaluate(f"(() => {{ const field = document.getElementById('{name}'); {given} }})()")

    def press(self, where):
        self.page.evaluate(f"document.querySelector({json.dumps(where)}).click()")

    def cells(self, name):
        return self.page.evaluate(f"[...document.querySelectorAll('#{name} tbody tr')].map((row) => [...row.cells].map((cell) => cell.textContent))")

    def token(self, name, roles):
        run = subprocess.run([TOOLS / "edgebpf-serve", "token", self.data, "--name", name, "--roles", roles], capture_output=True, text=True)
        self.assertEqual((run.returncode, run.stderr), (0, ""))
        return run.stdout.strip()


class Programs(InBrowser):
    def expect(self, graph, kind, vertex, steps):
        """The page has the model's numbers around a vertex."""
        vertices, _ = graph.nearest(vertex, steps, 24)
        edges = [(u, v) for u in vertices for v in sorted(graph.out[u]) if v in vertices]
        self.assertLessEqual(len(edges), 72)
        numbers = [[str(u), str(v), str(self.number(graph, kind, u, v))] for u, v in edges]
        self.assertEqual(self.cells("numbers-table"), numbers)
        drawn = self.page.evaluate("[...document.querySelectorAll('.number')].map((text) => text.firstChild.textContent)")
        self.assertEqual(drawn, [f"{u} to {v}: {number}" for u, v, number in numbers])
        self.assertEqual(self.page.evaluate("[...document.querySelectorAll('.name')].map((text) => text.textContent)"), [str(u) for u in vertices])
        rows = [[str(u), str(graph.degree(u)), str(graph.row(kind, u, "sum"))] for u in vertices if graph.out[u]]
        self.assertEqual(self.cells("rows"), rows)
        total = sum(int(row[2]) for row in rows)
        self.assertTrue(self.shown("state").endswith(f" at the vertices that are drawn; the sum of their numbers is {total}."), self.shown("state"))

    def number(self, graph, kind, source, target):
        alone = Graph(graph.vertices)
        alone.out = [set(targets) for targets in graph.out]
        return {"popular": alone.degree(target), "target": target, "mutual": alone.has_edge(target, source)}[kind]

    def test_an_accepted_program_shows_the_numbers_of_the_graph(self):
        with self.served(vertices=VERTICES) as client:
            graph = self.graph_of(client)
            for kind in ("popular", "target", "mutual"):
                with self.subTest(kind):
                    self.open(client, program=KINDS[kind].text, vertex="3", steps="2")
                    self.assertRegex(self.shown("verdict"), r"^Accepted: at most \d+ instructions for an edge, 1 frame$")
                    known = self.page.evaluate(
                        "[...document.querySelectorAll('#lines .known')].map((line) => [...line.children].map((part) => part.textContent).join('  '))")
                    self.assertEqual(known, states_of(KINDS[kind].text))
                    self.expect(graph, kind, 3, 2)
                    self.assertEqual(self.shown("about"), f"Version 1: {VERTICES} vertices and {len(graph.edges())} edges.")
                    self.assertEqual(self.faults(), [])

    def test_a_refused_program_shows_state_and_rule(self):
        with self.served(vertices=VERTICES) as client:
            self.graph_of(client)
            self.open(client, program=REFUSED, vertex="3")
            self.assertEqual(self.shown("verdict"), "Refused at line 3: add r4, r3")
            self.assertEqual(self.page.evaluate(text_of("reasons")).split(":")[0], "Rule 11")
            self.assertEqual(self.page.evaluate("document.querySelector('#lines .broken .line').textContent"), "3")
            known = self.page.evaluate("[...document.querySelectorAll('#lines .known')].map((line) => [...line.children].map((part) => part.textContent).join('  '))")
            self.assertEqual(known, ["r1 record+0  r2 16  r10 stack[0]+0", "r1 record+0  r2 16  r3 0 to 4294967295  r10 stack[0]+0",
                                     "r1 record+0  r2 16  r3 0 to 4294967295  r4 record+0  r10 stack[0]+0"])
            self.assertEqual(self.shown("state"), "No run: only an accepted program is run.")
            # What is typed then is verified at once.
            self.fill("program", "mov r0, 1\nreturn r0\nexit")
            self.wait_for("verdict", "Line 2: no statement has this word")
            self.fill("program", "mov r0, 7\nexit")
            self.wait_for("verdict", "Accepted: at most 2 instructions")
            self.wait_for("state", "the sum of their numbers is ")
            self.assertEqual(client.json("GET", "/programs"), {"programs": []})
            self.assertEqual(self.faults(), [])

    def test_every_example_and_what_the_service_keeps(self):
        with self.served(vertices=VERTICES) as client:
            self.graph_of(client)
            client.program("kept", KINDS["argument"].text, record=24)
            client.program("code", code=bytes.fromhex("b7000000070000009500000000000000"))
            self.open(client, vertex="3")
            names = self.page.evaluate("[...document.querySelectorAll('#example > option')].map((option) => option.value)")
            self.assertEqual(names[-1], "of your own")
            for name in names[:-1]:
                self.fill("example", name)
                self.page.wait(f"{text_of('verdict')} !== ''")
                refused = name.startswith("Refused") or name.startswith("A text")
                self.wait_for("state", "No run: only" if refused else "the")
                self.assertEqual(self.faults(), [])
            self.fill("example", "kept: kept")
            self.page.wait("document.getElementById('argument').value === '0000000000000000'")
            self.assertEqual(self.page.evaluate("document.getElementById('program').value"), KINDS["argument"].text)
            self.wait_for("state", "the sum of their numbers")
            self.fill("example", "kept: code")
            self.page.wait("document.getElementById('program').value.includes('kept as code')")
            self.wait_for("verdict", "There is no program yet.")

    def test_columns_arguments_and_reductions(self):
        with self.served(vertices=VERTICES) as client:
            graph, column = self.graph_of(client), [2**60 + 3 * u for u in range(VERTICES)]
            client.column("risk", column)
            self.open(client, program=KINDS["column"].text, columns="risk", vertex="3", steps="1", reduction="2")
            self.assertEqual(self.shown("columns-help"), "The service has: risk.")
            vertices, _ = graph.nearest(3, 1, 24)
            rows = [[str(u), str(graph.degree(u)), str(graph.row("column", u, "max", (0, (column,))))] for u in vertices if graph.out[u]]
            self.assertEqual(self.cells("rows"), rows)
            self.open(client, program=KINDS["argument"].text, argument="0900000000000000", vertex="3", steps="1", reduction="1")
            rows = [[str(u), str(graph.degree(u)), str(graph.row("argument", u, "min", (9, ())))] for u in vertices if graph.out[u]]
            self.assertEqual(self.cells("rows"), rows)

    def test_a_run_over_all_vertices(self):
        with self.served(vertices=VERTICES) as client:
            graph = self.graph_of(client)
            self.open(client, **PLAIN)
            self.press("#whole")
            total = sum(graph.row("popular", u, "sum") for u in range(VERTICES))
            self.wait_for("whole-state", f"Version 1: {len(graph.edges())} edges in all; the sum of their numbers is {total}.")
            rows = sorted(((u, graph.row("popular", u, "sum")) for u in range(VERTICES)), key=lambda row: (-row[1], row[0]))[:15]
            self.assertEqual(self.cells("whole-rows"), [[str(u), str(value)] for u, value in rows if value])
            # Of another program nothing was run yet.
            self.fill("program", "mov r0, 1\nexit")
            self.page.wait(f"{text_of('whole-state')} === ''")


class Graphs(InBrowser):
    def test_a_graph_that_is_edited_meanwhile(self):
        with self.served(vertices=VERTICES) as client:
            client.batch([(3, 4)])
            self.open(client, program=KINDS["target"].text, vertex="3", steps="1")
            self.assertEqual(self.cells("numbers-table"), [["3", "4", "4"]])
            client.batch([(3, 9), (3, 4, 1)])
            self.wait_for("about", "Version 2: ")
            self.page.wait(f"{text_of('state')}.endsWith(' is 9.')")
            self.assertEqual(self.cells("numbers-table"), [["3", "9", "9"]])
            # Without the box it says so, and shows it when it is asked.
            self.page.evaluate("document.getElementById('follow').click()")
            client.batch([(3, 10)])
            self.wait_for("about", "Version 2 is shown, and the last one is 3.")
            self.assertEqual(self.cells("numbers-table"), [["3", "9", "9"]])
            self.press("#refresh")
            self.wait_for("about", "Version 3: ")
            self.page.wait(f"{text_of('state')}.endsWith(' is 19.')")
            self.assertEqual(self.cells("numbers-table"), [["3", "9", "9"], ["3", "10", "10"]])
            self.assertEqual(self.faults(), [])

    def test_many_batches_while_it_shows(self):
        """No version but the last two is kept, and what is shown is of one of them, or said to be gone."""
        with self.served(vertices=VERTICES, kept_bytes=0) as client:
            client.batch([(3, 4)])
            self.open(client, program=KINDS["target"].text, vertex="3", steps="1")
            for number in range(200):
                client.batch([(3, 4 + number % 30), (3, 5)])
                if number % 10 == 0:
                    self.fill("program", KINDS["target"].text + "\n" * (number // 10))
            self.wait_for("about", "Version 201: ")
            self.page.wait(f"{text_of('state')}.includes('the sum of their numbers is {sum(range(4, 34))}.')")

    def test_edits_by_the_page(self):
        with self.served(vertices=VERTICES) as client:
            client.batch([(3, 4)])
            self.open(client, program=KINDS["target"].text, vertex="3", steps="1")
            for end, value in (("source", "3"), ("target", "7")):
                self.fill(end, value)
            for where, words, version in (("#editing button", "the edge was put in", 2), ("#editing button", "the edge was there", 3), ("#remove", "the edge was taken out", 4), ("#remove", "the edge was not there", 5)):
                self.press(where)
                self.wait_for("edited", f"Version {version}: {words}.")
                self.assertEqual(client.neighbours(3), [4, 7] if version < 4 else [4])
            self.fill("target", "40")
            self.press("#editing button")
            self.wait_for("edited", "The service refuses it: a vertex of edits is not below 40.")
            self.fill("target", "x")
            self.press("#editing button")
            self.wait_for("edited", "Each end is a whole number from 0 on.")
            self.assertEqual(client.status()["version"], 5)

    def test_a_large_graph_is_shown_in_part(self):
        with self.served(vertices=1 << 21) as client:
            client.batch([(0, v) for v in range(1, 30_000)])
            self.open(client, program="mov r0, 1\nexit", vertex="0", steps="2")
            limit = "There are more, and a drawing has 24 vertices and 72 edges at most."
            self.assertEqual(self.shown("drawn"), f"Drawn: vertex 0 and the 23 nearest that its edges lead to within 2 steps. {limit}")
            self.assertEqual(self.shown("state"), "29999 edges begin at the vertices that are drawn; the sum of their numbers is 29999.")
            # 20 vertices with all edges between them: as many are drawn as have 72 edges at most.
            client.batch([(u, v) for u in range(100, 120) for v in range(100, 120)])
            self.fill("vertex", "100")
            self.page.wait("document.querySelectorAll('.vertex').length === 8")
            self.assertEqual(self.page.evaluate("document.querySelectorAll('.edge').length"), 64)
            self.assertEqual(self.shown("drawn"), f"Drawn: vertex 100 and the 7 nearest that its edges lead to within 2 steps. {limit}")
            self.fill("vertex", "50000")
            self.wait_for("state", "No edge begins at the vertices that are drawn.")
            self.assertEqual(self.shown("drawn"), "Drawn: vertex 50000, whose edges lead to no other one.")
            # The rows of so many vertices are more than a page reads.
            self.press("#whole")
            self.wait_for("whole-state", "The graph has more than 1048576 vertices")
            self.fill("vertex", "3000000")
            self.wait_for("state", "The service refuses it: the vertex 3000000 is not below 2097152.")

    def test_what_is_wrong_is_said_at_its_field(self):
        with self.served(vertices=VERTICES) as client:
            client.batch([(3, 4)])
            cases = [
                ("vertex", "x", "A vertex is a whole number"), ("vertex", "-1", "A vertex is a whole number"), ("argument", "0", "pairs of the digits"),
                ("columns", "a b c d e f g h i", "8 columns at most"), ("columns", "a-b, 5", "5 is no name of a column")]
            for name, value, words in cases:
                with self.subTest(name, value=value):
                    self.open(client, **{**PLAIN, name: value})
                    self.assertIn(words, self.shown(f"{name}-wrong"))
                    self.assertEqual(self.page.evaluate(f"document.getElementById('{name}').getAttribute('aria-invalid')"), "true")
                    self.assertTrue(self.shown("state").startswith("No run: "), self.shown("state"))
                    self.assertEqual(self.faults(), [])
            self.open(client, **{**PLAIN, "columns": "none"})
            self.assertEqual(self.shown("state"), "The service refuses it: no column has the name none.")
            self.open(client, **{**PLAIN, "program": "end"})
            self.assertIn("a line `end` would end the program", self.shown("verdict"))
            self.open(client, **{**PLAIN, "steps": "9", "reduction": "x"})
            self.assertEqual(self.page.evaluate("[document.getElementById('steps').value, document.getElementById('reduction').value]"), ["1", "0"])
            attack = '<img src=x onerror="document.title=1"></textarea></script><script>document.title=1</script>'
            self.open(client, program=attack, argument=attack, columns=attack, vertex=attack)
            self.assertEqual(self.page.evaluate("[document.title, document.querySelectorAll('img').length]"), ["edgebpf: programs on this graph", 0])


class Tokens(InBrowser):
    def test_a_token_that_is_wrong_and_one_that_is_right(self):
        with self.served(vertices=VERTICES) as client:
            client.batch([(3, 4)])
        secret = self.token("all", "read,write,program")
        with self.served(vertices=VERTICES) as client:
            self.open(client, program=KINDS["target"].text, vertex="3")
            self.assertEqual(self.shown("verdict"), "The service wants a token: type it above.")
            self.assertTrue(self.is_seen("token-part"))
            self.assertFalse(self.is_seen("editing"))
            self.take("x" * 43)
            self.wait_for("token-wrong", "The service does not know this token.")
            self.wait_for("verdict", "The service does not know this token.")
            self.take("→")
            self.wait_for("token-wrong", "A token has letters, digits and signs of ASCII")
            self.take(secret)
            self.page.wait(f"{text_of('state')}.endsWith(' is 4.')")
            self.assertEqual((self.shown("token-wrong"), self.is_seen("editing")), ("", True))
            # It is in memory alone: neither the address has it nor what the browser keeps.
            self.fill("vertex", "4")
            self.page.wait("location.hash.includes('vertex=4')")
            kept = self.page.evaluate("[location.href, document.cookie, JSON.stringify(localStorage), JSON.stringify(sessionStorage), JSON.stringify(history.state)].join()")
            self.assertNotIn(secret, kept)
            self.assertEqual(kept.split(",")[1:], ["", "{}", "{}", "null"])
            self.page.open(f"{client.url}/#vertex=5&program=exit", SHOWN)
            self.assertEqual(self.shown("verdict"), "The service wants a token: type it above.")

    def test_what_a_token_may_not(self):
        secrets = {}
        with self.served(vertices=VERTICES) as client:
            client.batch([(3, 4)])
        for roles in ("read", "read,program", "write"):
            secrets[roles] = self.token(roles.replace(",", "-"), roles)
        with self.served(vertices=VERTICES) as client:
            self.open(client, program=KINDS["target"].text, vertex="3")
            self.take(secrets["read,program"])
            self.page.wait(f"{text_of('state')}.endsWith(' is 4.')")
            self.assertEqual((self.is_seen("editing"), self.shown("may")), (False, "This token may not edit the graph: it has not the role write."))
            self.take(secrets["read"])
            self.wait_for("verdict", "The service refuses it: this token has not the role program.")
            self.page.wait("document.querySelectorAll('.edge').length === 1")
            self.take(secrets["write"])
            self.wait_for("state", "The service refuses it: this token has not the role read.")
            self.assertTrue(self.is_seen("editing"))

    def take(self, secret):
        self.fill("token", secret)
        self.press("#token-part button")

    def is_seen(self, name):
        return self.page.evaluate(f"document.getElementById('{name}').offsetParent !== null")


class Ends(InBrowser):
    def test_a_service_that_goes_and_comes_again(self):
        with self.served(vertices=VERTICES) as client:
            client.batch([(3, 4)])
            port = client.url.rpartition(":")[2]
            self.open(client, program=KINDS["target"].text, vertex="3")
        self.wait_for("about", "The service does not answer. Version 1 is shown.")
        for end, value in (("source", "3"), ("target", "7")):
            self.fill(end, value)
        self.press("#editing button")
        self.wait_for("edited", "is in doubt: send it again, and it takes effect once")
        self.fill("program", "mov r0, 1\nexit")
        self.wait_for("verdict", "The service does not answer.")
        with self.served(vertices=VERTICES, listen=f"127.0.0.1:{port}") as client:
            self.press("#editing button")
            self.wait_for("edited", "Version 2: the edge was put in.")
            self.wait_for("about", "Version 2: ")
            self.page.wait(f"{text_of('state')}.endsWith(' is 2.')")
            self.assertEqual(client.status()["version"], 2)


class Reach(InBrowser):
    def test_it_is_one_file_with_its_policy(self):
        with self.served(vertices=VERTICES) as client:
            heads, body = client.ask("GET", "/")
            self.assertEqual(heads["Content-Security-Policy"], "default-src 'none'; script-src 'unsafe-inline'; style-src 'unsafe-inline'; connect-src 'self'; img-src data:")
            own = re.search(r'http-equiv="Content-Security-Policy" content="([^"]*)"', body.decode())[1]
            self.assertRegex(own, r"^default-src 'none'; connect-src 'self'; script-src 'sha256-[^' ]+'; style-src 'sha256-[^' ]+'; base-uri 'none'; form-action 'none'$")
            self.assertEqual(re.findall(rb'(?:src|href)="[^"]*"|url\((?!#)[^)]*\)|@import|import\(', body), [])
            self.open(client, **PLAIN)
            asked = self.page.evaluate("performance.getEntriesByType('resource').map((one) => new URL(one.name).origin)")
            self.assertEqual(set(asked), {client.url})

    def test_by_keyboard(self):
        with self.served(vertices=VERTICES) as client:
            client.batch([(3, 4)])
            self.open(client, **PLAIN)
            self.page.evaluate("document.body.focus()")
            reached = []
            for _ in range(24):
                self.page.key("Tab")
                reached.append(self.page.evaluate("(({ id, tagName, textContent }) => id || `${tagName}: ${textContent}`)(document.activeElement)"))
            wanted = ["example", "program", "vertex", "steps", "argument", "columns", "reduction", "lines", "SUMMARY: The same as text", "follow", "refresh",
                      "SUMMARY: The number of each edge, as a table", "whole", "source", "target", "BUTTON: Put this edge in", "remove"]
            self.assertEqual([name for name in dict.fromkeys(reached) if name in wanted], wanted)
            # An edge is put in by the key Enter alone.
            for end, value in (("source", "3"), ("target", "8")):
                self.page.evaluate(f"document.getElementById('{end}').focus()")
                self.page.type(value)
            self.page.key("Enter")
            self.wait_for("edited", "Version 2: the edge was put in.")

    def test_by_a_screen_reader(self):
        with self.served(vertices=VERTICES) as client:
            client.batch([(3, 4)])
            self.open(client, **PLAIN)
            nodes = self.page.call("Accessibility.getFullAXTree")["nodes"]
            named = [(node["role"]["value"], node.get("name", {}).get("value", "")) for node in nodes if not node.get("ignored") and "role" in node]
            for role in ("textbox", "combobox", "checkbox", "button", "image", "list", "region", "table", "heading"):
                names = [name for kind, name in named if kind == role]
                self.assertTrue(names, role)
                self.assertNotIn("", names, role)
            self.assertEqual(self.page.evaluate("document.documentElement.lang"), "en")

    def test_on_a_telephone(self):
        with self.served(vertices=VERTICES) as client:
            self.graph_of(client)
            for program in (PLAIN["program"], REFUSED):
                self.open(client, **{**PLAIN, "program": program})
                for width in (320, 390, 800):
                    self.page.size(width, 800, mobile=width < 800)
                    self.assertLessEqual(self.page.evaluate("document.documentElement.scrollWidth"), width, width)

    def test_letters_stand_out_in_light_and_dark(self):
        places = ["#verdict", "#reasons", ".known", ".changed", ".broken .known", ".broken .here", ".line", ".help", "#about", "#state", "header p", "footer p", "textarea",
                  "input", "td", "thead th", "button:enabled", "button:disabled", ".box"]
        seen = {}
        with self.served(vertices=VERTICES) as client:
            self.graph_of(client)
            for scheme in ("light", "dark"):
                self.page.scheme(scheme)
                for program in (PLAIN["program"], REFUSED):
                    self.open(client, **{**PLAIN, "program": program})
                    for place, ink, paper in self.page.evaluate(letters(places)):
                        self.assertGreaterEqual(contrast(ink, paper), CONTRAST, (scheme, place, ink, paper))
                        seen.setdefault(place, set()).add(paper)
        self.page.scheme("")
        self.assertEqual({place for place, papers in seen.items() if len(papers) < 2}, set())
        self.assertEqual(set(places) - set(seen), set())


if __name__ == "__main__":
    unittest.main()

#!/usr/bin/python3
"""The same stream by a service, by SQLite in process, by PostgreSQL, and by networkx in process and in Flask, with equal answers: CPU time of
each.

    tests/serve/peers.py --edges 500000 [--write]

100,000 vertices and edges half by a power law; then batches of 64 edits, each synced but networkx's. Asked are: the edges that lead back of a
batch's sources, those of all vertices, and the vertices within two steps. With --write the times go into docs/figures/peers.txt, where those of a peer
that is not here stay, and are said to be earlier.
"""
import argparse
import http.client
import importlib.metadata
import io
import json
import logging
import multiprocessing
import os
import pathlib
import random
import shutil
import sqlite3
import subprocess
import sys
import time

from figures import EDITS, VERTICES, cpu, digits, packed, pid_of, power_law, tables
from harness import Forks, folder, served
from model import KINDS

try:
    import networkx
except ImportError:
    networkx = None
try:
    import flask
    import werkzeug.serving
except ImportError:
    flask = None
try:
    import psycopg2
except ImportError:
    psycopg2 = None


# The rows of the table.
WORKS = ("load all", "a batch", "edges that lead back, of its sources", "the same of all", "within two steps of a vertex")


class Stream:
    """What all get: edges at first, and batches of edits (source, target, whether it is taken out)."""

    def __init__(self, count, batches):
        chance = random.Random(3)
        self.edges = power_law(chance, VERTICES, count)
        self.batches = [[(u, v, chance.random() < 0.3) for u, v in power_law(chance, VERTICES, EDITS)] for _ in range(batches)]
        self.asked = [sorted({u for u, _, _ in batch}) for batch in self.batches]
        self.starts = [chance.randrange(VERTICES // 2, VERTICES) for _ in range(len(self.batches))]


class Served:
    """A service, by one client. Its CPU time is that of both processes."""

    name = "edgebpf-serve, by its client"

    def __init__(self, place, forks, client):
        self.pid, self.client = pid_of(forks), client
        client.program("mutual", KINDS["mutual"].text)

    def now(self):
        return cpu(self.pid) + time.process_time()

    def load(self, edges):
        for place in range(0, len(edges), 65_536):
            self.client.batch(packed(edges[place:place + 65_536]))

    def edit(self, batch):
        self.client.batch(packed([(u | out << 31, v) for u, v, out in batch]))

    def back(self, vertices):
        return self.client.run("mutual", frontier=vertices)["total"]

    def back_of_all(self):
        # Its values come, too, which the others have not to make.
        return self.client.run("mutual")["total"]

    def near(self, vertex):
        return len(self.client.expand([vertex], 2, limit=1_000_000)["vertices"])


class Lite:
    """SQLite in this process: one table, whose key is the edge, and whose commits are synced."""

    name = "SQLite in process"

    def __init__(self, place):
        self.db = sqlite3.connect(place / "peer.db", isolation_level=None)
        for line in ("pragma journal_mode=wal", "pragma synchronous=full", "create table edges(u int, v int, primary key(u, v)) without rowid"):
            self.db.execute(line)

    def now(self):
        return time.process_time()

    def load(self, edges):
        self.db.execute("begin")
        self.db.executemany("insert or ignore into edges values(?, ?)", edges)
        self.db.execute("commit")

    def edit(self, batch):
        self.db.execute("begin")
        for u, v, out in batch:
            self.db.execute("delete from edges where u = ? and v = ?" if out else "insert or ignore into edges values(?, ?)", (u, v))
        self.db.execute("commit")

    def back(self, vertices):
        holes = ",".join("?" * len(vertices))
        return self.db.execute(f"select count(*) from edges a join edges b on b.u = a.v and b.v = a.u where a.u in ({holes})", vertices).fetchone()[0]

    def back_of_all(self):
        return self.db.execute("select count(*) from edges a join edges b on b.u = a.v and b.v = a.u").fetchone()[0]

    def near(self, vertex):
        words = "select ?1 union select v from edges where u = ?1 union select b.v from edges a join edges b on b.u = a.v where a.u = ?1"
        return self.db.execute(f"select count(*) from ({words})", (vertex,)).fetchone()[0]


class Postgres:
    """A cluster of its own in a temporary folder, by one connection. Its CPU time is that of both sides: the backend does the work."""

    name = "PostgreSQL 15"
    programs = pathlib.Path("/usr/lib/postgresql/15/bin")

    def __init__(self, place):
        self.place = place / "postgres"
        self.place.mkdir()
        os.chmod(place, 0o755)
        shutil.chown(self.place, "postgres")
        self.run("initdb", "-D", self.place, "-A", "trust")
        self.run("pg_ctl", "-D", self.place, "-w", "-o", f"-k {self.place} -h ''", "start")
        self.db = psycopg2.connect(host=str(self.place), user="postgres", dbname="postgres")
        self.at = self.db.cursor()
        self.at.execute("create table edges(u int, v int, primary key(u, v)); create index back on edges(v, u); select pg_backend_pid()")
        self.pid = self.at.fetchone()[0]
        self.db.commit()

    def run(self, name, *words):
        subprocess.run(["runuser", "-u", "postgres", "--", self.programs / name, *words], check=True, stdout=subprocess.DEVNULL)

    def end(self):
        self.db.close()
        self.run("pg_ctl", "-D", self.place, "-m", "fast", "stop")

    def now(self):
        return cpu(self.pid) + time.process_time()

    def load(self, edges):
        rows = io.StringIO("".join(f"{u}\t{v}\n" for u, v in dict.fromkeys(edges)))
        self.at.copy_from(rows, "edges")
        self.db.commit()
        self.at.execute("analyze edges")
        self.db.commit()

    def edit(self, batch):
        for u, v, out in batch:
            words = "delete from edges where u = %s and v = %s" if out else "insert into edges values(%s, %s) on conflict do nothing"
            self.at.execute(words, (u, v))
        self.db.commit()

    def asked(self, words, *given):
        self.at.execute(words, given)
        return self.at.fetchone()[0]

    def back(self, vertices):
        return self.asked("select count(*) from edges a join edges b on b.u = a.v and b.v = a.u where a.u = any(%s)", vertices)

    def back_of_all(self):
        return self.asked("select count(*) from edges a join edges b on b.u = a.v and b.v = a.u")

    def near(self, vertex):
        words = "select %s union select v from edges where u = %s union select b.v from edges a join edges b on b.u = a.v where a.u = %s"
        return self.asked(f"select count(*) from ({words}) as near", vertex, vertex, vertex)


class Networkx:
    """A graph of networkx in this process, which keeps nothing."""

    name = "networkx in process, nothing kept"

    def __init__(self, place):
        self.graph = networkx.DiGraph()
        self.graph.add_nodes_from(range(VERTICES))

    def now(self):
        return time.process_time()

    def load(self, edges):
        self.graph.add_edges_from(edges)

    def edit(self, batch):
        for u, v, out in batch:
            if not out:
                self.graph.add_edge(u, v)
            elif self.graph.has_edge(u, v):
                self.graph.remove_edge(u, v)

    def back(self, vertices):
        return sum(self.graph.has_edge(v, u) for u in vertices for v in self.graph.successors(u))

    def back_of_all(self):
        return self.back(range(VERTICES))

    def near(self, vertex):
        first = set(self.graph.successors(vertex))
        return len({vertex} | first | {w for v in first for w in self.graph.successors(v)})


def serve_networkx(told):
    """A service of one thread, by the server that Flask brings."""
    app, graph = flask.Flask("peer"), Networkx(None)
    app.add_url_rule("/load", "load", lambda: done(graph.load(flask.request.get_json())), methods=["POST"])
    app.add_url_rule("/edit", "edit", lambda: done(graph.edit(flask.request.get_json())), methods=["POST"])
    app.add_url_rule("/back", "back", lambda: done(graph.back(flask.request.get_json())), methods=["POST"])
    app.add_url_rule("/back_of_all", "back_of_all", lambda: done(graph.back_of_all()))
    app.add_url_rule("/near/<int:vertex>", "near", lambda vertex: done(graph.near(vertex)))
    logging.getLogger("werkzeug").setLevel(logging.ERROR)
    # As its default closes a connection after each answer, a client would have to connect anew.
    werkzeug.serving.WSGIRequestHandler.protocol_version = "HTTP/1.1"
    server = werkzeug.serving.make_server("127.0.0.1", 0, app)
    told.send(server.server_port)
    server.serve_forever()


def done(answer):
    return flask.jsonify(answer=answer)


class Flasked:
    """The same over HTTP: a process with networkx in Flask, by one connection. Its CPU time is that of both processes."""

    name = f"networkx in Flask {importlib.metadata.version('flask').rpartition('.')[0]}, nothing kept" if flask else ""

    def __init__(self, place):
        mine, its = multiprocessing.Pipe()
        self.process = multiprocessing.get_context("fork").Process(target=serve_networkx, args=(its,), daemon=True)
        self.process.start()
        # Else nobody would hear that the process has ended.
        its.close()
        self.connection = http.client.HTTPConnection("127.0.0.1", mine.recv())

    def now(self):
        return cpu(self.process.pid) + time.process_time()

    def ask(self, path, body=None):
        data = None if body is None else json.dumps(body)
        self.connection.request("GET" if data is None else "POST", path, data, {"Content-Type": "application/json"} if data else {})
        return json.loads(self.connection.getresponse().read())["answer"]

    def load(self, edges):
        self.ask("/load", edges)

    def edit(self, batch):
        self.ask("/edit", batch)

    def back(self, vertices):
        return self.ask("/back", vertices)

    def back_of_all(self):
        return self.ask("/back_of_all")

    def near(self, vertex):
        return self.ask(f"/near/{vertex}")

    def end(self):
        self.connection.close()
        self.process.terminate()
        self.process.join()


def measured(peer, stream):
    """CPU milliseconds of each kind of work, and the answers."""
    spent, answers, begun = dict.fromkeys(WORKS, 0.0), [], peer.now()
    load, edit, back, back_of_all, near = WORKS
    peer.load(stream.edges)
    spent[load] = peer.now() - begun
    for batch, asked, start in zip(stream.batches, stream.asked, stream.starts):
        marks = [peer.now()]
        peer.edit(batch)
        marks.append(peer.now())
        answers.append(peer.back(asked))
        marks.append(peer.now())
        answers.append(peer.near(start))
        marks.append(peer.now())
        for name, first, last in zip((edit, back, near), marks, marks[1:]):
            spent[name] += (last - first) / len(stream.batches)
    begun = peer.now()
    answers.append(peer.back_of_all())
    spent[back_of_all] = peer.now() - begun
    return {name: 1e3 * seconds for name, seconds in spent.items()}, answers


def main():
    parser = argparse.ArgumentParser(description=__doc__, formatter_class=argparse.RawDescriptionHelpFormatter)
    parser.add_argument("--edges", type=int, default=500_000)
    parser.add_argument("--batches", type=int, default=200)
    parser.add_argument("--write", action="store_true")
    options = parser.parse_args()
    stream, found, before = Stream(options.edges, options.batches), {}, os.getloadavg()[0]
    with folder() as place:
        with Forks() as forks, served(forks, data=str(place / "graph"), vertices=VERTICES) as client:
            found[Served.name] = measured(Served(place, forks, client), stream)
        kinds = [Lite] + ([Postgres] if psycopg2 and Postgres.programs.is_dir() and os.getuid() == 0 else [])
        kinds += ([Networkx] if networkx else []) + ([Flasked] if networkx and flask else [])
        for kind in kinds:
            peer = kind(place)
            found[kind.name] = measured(peer, stream)
            getattr(peer, "end", lambda: None)()
    answers = [told for _, told in found.values()]
    if any(one != answers[0] for one in answers):
        sys.exit("peers: the answers differ")
    print(f"load {before:.0f} and {os.getloadavg()[0]:.0f}; {len(answers[0])} answers of each, all equal")
    print(f"| CPU time, ms | {' | '.join(found)} |\n|---|{'---|' * len(found)}")
    rows = {work: {name: digits(spent[work]) for name, (spent, _) in found.items()} for work in WORKS}
    for work, cells in rows.items():
        print(f"| {work} | {' | '.join(cells.values())} |")
    if options.write:
        documents = tables()
        absent = [name for name in documents.read("peers")[1][1:] if name not in found]
        documents.update("peers", rows, documents.now() + (f"; earlier: {'; '.join(absent)}" if absent else ""))


if __name__ == "__main__":
    main()

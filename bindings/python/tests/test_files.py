"""Stores of files of edges: what is in them against sets, by memory and by files, and what is refused."""
import gzip
import importlib.util
import io
import os
import pathlib
import random
import subprocess
import sys
import tempfile
import threading
import unittest
import unittest.mock
import warnings

sys.path.insert(0, str(pathlib.Path(__file__).resolve().parent.parent))

MISSING = [name for name in ("numpy", "cffi") if importlib.util.find_spec(name) is None]
if not MISSING:
    import numpy as np

    import edgebpf
    from edgebpf import from_files

EDGES = {(0, 1), (0, 2), (1, 2)}


def edges_of(store):
    """The vertices of a store, and its edges as a set of pairs."""
    with store.pin() as version:
        starts, targets = version.csr()
        pairs = list(zip(np.repeat(np.arange(version.vertices), np.diff(starts)).tolist(), targets.tolist()))
        assert len(set(pairs)) == len(pairs) == version.edges and (version.epoch, version.number) == (0, 0)
        return version.vertices, set(pairs)


@unittest.skipIf(MISSING, f"not there: {', '.join(MISSING)}")
class Files(unittest.TestCase):
    def read(self, data, **given):
        return from_files.read_edges(io.BytesIO(data), **given)

    def test_formats(self):
        """What `edgebpf-import` reads is read here, too."""
        matrix = b"%%MatrixMarket matrix coordinate pattern general\n% c\n3 3 3\n1 2\n1 3\n2 3\n"
        for data, given in (
            (b"1 2\n0 2\n# c\n0 1\n0 1", {}), (b"\xef\xbb\xbffrom to\r\n0\t1\r\n0\t2\r\n1\t2\r\n", {"skip": 1}), (b"1 2\n1 3\n2 3\n", {"base": 1}),
            (matrix, {}), (gzip.compress(matrix), {}), (gzip.compress(b"0 1\n0 2\n1 2"), {"memory": 0}),
        ):
            store = self.read(data, **given)
            self.assertEqual((edges_of(store), store.ids), ((3, EDGES), None))
            # It is edited as any other.
            store.apply([2], [0])
            self.assertEqual(store.pin().edges, 4)
        self.assertEqual(edges_of(self.read(b"0 1\n1 1\n", undirected=True)), (2, {(0, 1), (1, 0), (1, 1)}))
        self.assertEqual(edges_of(self.read(b"0 1\n", vertices=9)), (9, {(0, 1)}))
        self.assertEqual(edges_of(self.read(b"3 1\n", vertices=2)), (4, {(3, 1)}))
        apart = b"%%MatrixMarket matrix coordinate pattern general\n2 3 2\n1 3\n2 1\n"
        self.assertEqual(edges_of(self.read(apart, rectangular="apart")), (5, {(0, 4), (1, 2)}))
        self.assertEqual(edges_of(self.read(apart, rectangular="same")), (3, {(0, 2), (1, 0)}))

    def test_ids(self):
        store = self.read(b"7 99999999999\n7 8\n8 99999999999\n")
        self.assertEqual((edges_of(store), store.ids.tolist()), ((3, EDGES), [7, 8, 99999999999]))
        store = self.read(b"2 4\n2 6\n4 6\n", renumber=True)
        self.assertEqual((edges_of(store), store.ids.tolist()), ((3, EDGES), [2, 4, 6]))
        store = self.read(b"ann bob\nann eve\nbob\teve\nann bob\n", names=True)
        self.assertEqual((edges_of(store), store.ids), ((3, EDGES), ["ann", "bob", "eve"]))
        store = self.read(b"268435456 3\n")
        self.assertEqual((edges_of(store), store.ids.tolist()), ((2, {(1, 0)}), [3, 268435456]))
        # The greatest vertex, of fewer: the most take 2 GB.
        self.assertEqual(from_files.MOST_VERTICES, 1 << 28)
        with unittest.mock.patch.object(from_files, "MOST_VERTICES", 3_000_000):
            store = self.read(b"2999999 2999999\n")
            self.assertEqual((edges_of(store), store.ids), ((3_000_000, {(2999999, 2999999)}), None))
            self.assertEqual(self.read(b"3000000 3\n").ids.tolist(), [3, 3000000])

    def test_random_files(self):
        """Random edges, ids, sizes of runs, and memory, of which some are files, and are gone afterwards."""
        chance = random.Random(5)
        runs, files = (importlib.import_module(f"{from_files.reader().__package__}.{name}") for name in ("edge_runs", "edge_files"))
        for trial in range(60):
            ids = [chance.randrange(1 << chance.choice((6, 27, 29, 62))) for _ in range(chance.choice((3, 60)))]
            edges = [(chance.choice(ids), chance.choice(ids)) for _ in range(chance.choice((1, 20, 900)))]
            data = "".join(f"{source} {target}\n" for source, target in edges).encode()
            undirected, names = chance.random() < 0.5, chance.random() < 0.3
            renumber = max(map(max, edges)) > 100_000 and not names
            wanted = set(edges) | ({(target, source) for source, target in edges} if undirected else set())
            known = sorted({end for edge in edges for end in edge}, key=(lambda end: str(end).encode()) if names else None)
            sizes = {"RUN_EDGES": chance.choice((1, 7, 1 << 22)), "MERGED_EDGES": chance.choice((1, 50, 1 << 22)), "LEAST_MERGED": chance.choice((1, 3))}
            few = unittest.mock.patch.object(files, "BLOCK", chance.choice((100, 1 << 22)))
            with tempfile.TemporaryDirectory() as folder, unittest.mock.patch.multiple(runs, **sizes), few:
                given = {"undirected": undirected, "names": names, "renumber": renumber, "memory": chance.choice((0, 100, 1 << 30)), "folder": folder}
                store = from_files.read_edges(io.BytesIO(gzip.compress(data) if trial % 2 else data), **given)
                self.assertEqual(os.listdir(folder), [])
            if renumber or names:
                self.assertEqual([int(one) for one in store.ids], known)
                wanted = {(known.index(source), known.index(target)) for source, target in wanted}
            else:
                self.assertIsNone(store.ids)
            self.assertEqual(edges_of(store)[1], wanted, (trial, given, sizes))

    def test_many_batches(self):
        """More than 64 batches, so with rebases between; half of the edges stand there twice."""
        count = 70 * 65_536
        lines = [b"%d %d\n" % (place % 1_000, place // 1_000) for place in range(count)]
        with self.read(b"".join(lines + lines[count // 2:])) as store, store.pin() as version:
            self.assertEqual((version.edges, version.epoch, version.number, version.vertices), (count, 0, 0, (count - 1) // 1_000 + 1))
            self.assertEqual(version.degree(0), -(-count // 1_000))
            self.assertEqual(version.neighbours(999).tolist(), list(range(count // 1_000)))

    def test_what_is_said(self):
        with warnings.catch_warnings(record=True) as said:
            warnings.simplefilter("always")
            self.assertEqual(edges_of(self.read(b"0,1,5\n0,2,\n1,2,x\n")), (3, EDGES))
        self.assertEqual([str(one.message) for one in said], [
            "the stream: columns are separated by commas", "the stream, line 1: columns after the second are not read; edges have no weights or labels"])
        self.assertEqual({one.filename for one in said}, {from_files.__file__.replace("edgebpf/from_files", "tests/test_files")})

    def test_refused(self):
        for data, given, words in (
            (b"0 1\nfrom to\n", {}, "^the stream, line 2: `from` is no id: .*, and names=True takes words as ids$"),
            (b"from to\n0 1\n", {}, "line 1: `from` is no id: .*; skip=1 leaves out a header, and names=True takes words as ids$"),
            (b"0 1\n2\n", {}, "line 2: an edge is two ids"), (b"", {}, "^the stream has no edge$"), (b"0 1\n", {"base": 1}, "id 0 is below 1, the least id of base"),
            (gzip.compress(b"0 1\n" * 999)[:-9], {}, "damaged or cut"), (b"0 1\r1 2\n", {}, "a carriage return stands within the line"),
            (b"%%MatrixMarket matrix coordinate real general\n2 3 1\n1 1 1\n", {}, 'rectangular="same", if row'),
            (b"%%MatrixMarket matrix coordinate real general\n2 2 1\n1 3 1\n", {}, "an entry lies outside the 2 rows and 2 columns"),
            (b"0 1\n", {"base": 2}, "^base is 0, 1 or None"), (b"0 1\n", {"skip": -1}, "^skip is a number of lines"), (b"0 1\n", {"memory": -1}, "^memory is"),
            (b"0 1\n", {"vertices": 0}, "^a graph has 1 to"), (b"0 1\n", {"vertices": (1 << 28) + 1}, "^a graph has 1 to"),
            (b"0 1\n", {"names": True, "renumber": True}, "^names numbers the vertices itself"), (b"0 1\n", {"rectangular": "no"}, "^rectangular is"),
            (b"0 1\n", {"memory": 0, "folder": "/nowhere"}, "^/nowhere: No such file or directory, where edges are sorted"),
        ):
            with self.assertRaisesRegex(ValueError, words):
                self.read(data, **given)
        for path, given, words in (
            (3, {}, "path is the name of a file"), (None, {}, "path is the name"), (io.StringIO("0 1\n"), {}, "path is the name of a file, or a stream of bytes"),
            (io.BytesIO(b"0 1\n"), {"skip": 1.0}, "skip is a whole number"), (io.BytesIO(b"0 1\n"), {"memory": "1"}, "memory is a whole number"),
            (io.BytesIO(b"0 1\n"), {"folder": 7}, "folder is the name of a folder"), (io.BytesIO(b"0 1\n"), {"vertices": 2.0}, "vertices is a whole"),
        ):
            with self.assertRaisesRegex(TypeError, words):
                from_files.read_edges(path, **given)
        with self.assertRaises(FileNotFoundError):
            from_files.read_edges("/nowhere/edges.txt")
        with self.assertRaises(IsADirectoryError):
            from_files.read_edges("/")
        with unittest.mock.patch.object(edgebpf.Store, "_edited", side_effect=MemoryError), self.assertRaises(edgebpf.NoMemory):
            self.read(b"0 1\n")

    def test_a_full_disk(self):
        """A file of 4 MB in which there is room for 1 MB: an error that says where, and no file is left."""
        data = "".join(f"{place} {place * 7 % 262_144}\n" for place in range(262_144)).encode()
        program = (
            "import resource, signal, sys, io, edgebpf\nsignal.signal(signal.SIGXFSZ, signal.SIG_IGN)\n"
            "resource.setrlimit(resource.RLIMIT_FSIZE, (1 << 20, 1 << 20))\ntry:\n    edgebpf.read_edges(sys.stdin.buffer, memory=0, folder=sys.argv[1])\n"
            "except ValueError as error:\n    print(error)\n"
        )
        with tempfile.TemporaryDirectory() as folder:
            path = {**os.environ, "PYTHONPATH": str(pathlib.Path(edgebpf.__file__).parent.parent)}
            run = subprocess.run([sys.executable, "-c", program, folder], input=data, capture_output=True, env=path, check=False)
            self.assertEqual((run.stderr, os.listdir(folder)), (b"", []))
            self.assertEqual(run.stdout.decode(), f"{folder}: File too large, where edges are sorted that memory does not hold\n")

    def test_streams_and_threads(self):
        """A stream stays open, and threads read at the same time."""
        with tempfile.TemporaryDirectory() as folder:
            path, found = pathlib.Path(folder, "edges"), []
            path.write_bytes(b"0 1\n0 2\n1 2\n")
            plain, stream = io.BytesIO(path.read_bytes()), open(path, "rb", 0)
            with plain, stream:
                self.assertEqual([edges_of(from_files.read_edges(one)) for one in (path, str(path), os.fsencode(path), plain, stream)], [(3, EDGES)] * 5)
                self.assertFalse(plain.closed or stream.closed)
            threads = [threading.Thread(target=lambda: found.append(edges_of(from_files.read_edges(path)))) for _ in range(4)]
            for thread in threads:
                thread.start()
            for thread in threads:
                thread.join()
            self.assertEqual(found, [(3, EDGES)] * 4)


if __name__ == "__main__":
    unittest.main()

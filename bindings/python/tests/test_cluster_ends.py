"""How an `edgebpf.Cluster` ends: batches that were withdrawn, `close` beside other threads, callbacks, forks, Ctrl-C, and losses in a steady stream."""
import asyncio
import concurrent.futures
import gc
import os
import pathlib
import signal
import sys
import threading
import time
import unittest
import unittest.mock
import warnings

sys.path.insert(0, str(pathlib.Path(__file__).resolve().parent))
import test_cluster
from test_cluster import edgebpf, no_memory, np, wild

if np is not None:
    from edgebpf import cluster_engine, cluster_router
SECONDS = 30


def until(is_so):
    """Waits until something is so."""
    ends = time.monotonic() + SECONDS
    while not is_so():
        if time.monotonic() > ends:
            raise AssertionError("it does not become so")
        time.sleep(0.001)


def outcome(call, *given):
    """What a call returns or raises, in another thread."""
    told = concurrent.futures.Future()

    def work():
        try:
            told.set_result(call(*given))
        except BaseException as error:
            told.set_exception(error)

    threading.Thread(target=work, daemon=True).start()
    return told


@unittest.skipIf(np is None, "not there: numpy")
@unittest.skipIf(np is not None and edgebpf.library.path() is None, "not there: cffi, or libedgebpf.so, which make -C dist makes")
class Ends(test_cluster.Base):
    setUp, edges, again = test_cluster.WithAFolder.setUp, test_cluster.WithAFolder.edges, test_cluster.WithAFolder.again

    def held_batch(self, cluster, engine):
        """A batch that all parts but part 1 have."""
        engine.held.append(engine.placed[1])
        counts, number = cluster.begin([0, 300], [5, 6]), cluster.pin().number + 1
        until(lambda: all(cluster._router._parts[place].done == number for place in (0, 2)))
        return counts

    def full(self, cluster):
        """A disk that has no room for another batch."""
        return unittest.mock.patch.object(cluster._router.journal._batches, "append", side_effect=OSError("No space left on device"))

    def test_withdrawn_batches_do_not_come_back(self):
        """A batch under way is refused when a later one cannot be written. It is not in effect if the last part has it after that, nor in the folder."""
        words = "^the journal cannot be written, and no batch after 1 is taken: .*No space left on device$"
        with self.again(vertices=600, parts=3) as (cluster, engine):
            cluster.apply([0, 300], [1, 2])
            counts = self.held_batch(cluster, engine)
            with self.full(cluster):
                self.raises(edgebpf.Error, words, cluster.apply, [0], [7])
            self.raises(edgebpf.Error, words, counts.result, SECONDS)
            engine.held.clear()
            until(lambda: cluster._router._parts[1].done == 2)
            self.assertEqual((cluster.pin().number, cluster.pin().edges, cluster.pin().csr()[1].tolist()), (1, 2, [1, 2]))
            # Nor does a part that begins again have it.
            for worker in engine.placed[:3]:
                worker.lost.append(True)
            self.assertEqual((cluster.pin().number, cluster.pin().csr()[1].tolist()), (1, [1, 2]))
        self.assertEqual(self.edges(), (1, [1, 2]))

    def test_a_folder_that_cannot_be_cleaned(self):
        """If batches cannot be taken out of the folder either, the words say that they may be in effect later."""
        with self.again(vertices=600, parts=3) as (cluster, engine):
            cluster.apply([0, 300], [1, 2])
            counts = self.held_batch(cluster, engine)
            with self.full(cluster), unittest.mock.patch.object(cluster._router.journal, "withdraw", side_effect=edgebpf.Error("it is full")):
                self.raises(edgebpf.Error, "they may be in effect when the cluster begins again: it is full$", cluster.apply, [0], [7])
            self.raises(edgebpf.Error, "they may be in effect when the cluster begins again: it is full$", counts.result, SECONDS)
            self.assertEqual(cluster.pin().csr()[1].tolist(), [1, 2])
        self.assertEqual(self.edges(), (2, [1, 5, 2, 6]))

    def test_synced_before_it_is_sent(self):
        """No part gets a batch that is not in the journal, of which each transaction is synced."""
        with self.again(vertices=600, parts=3) as (cluster, engine):
            batches, ask, late = cluster._router.journal._batches, engine.ask, []
            self.assertEqual([batches.db.execute(f"pragma {name}").fetchone()[0] for name in ("synchronous", "journal_mode")], [2, "wal"])

            async def asked(worker, method, *given):
                if method == "apply":
                    with batches.reader() as db:
                        there = db.execute("select max(seq) from journal").fetchone()[0] or 0
                    late.append(given[1] + len(given[2].ends) - 1 > there)
                return await ask(worker, method, *given)

            with unittest.mock.patch.object(engine, "ask", asked):
                counts = [cluster.begin([0, 300], [target, target]) for target in range(40)]
                self.assertEqual([one.result(SECONDS).added for one in counts], [2] * 40)
            self.assertEqual((len(late) >= 3, any(late)), (True, False))

    def test_no_memory_at_the_router(self):
        """A batch that the router cannot cut is refused in words, and is not in the folder."""
        with self.again(vertices=600, parts=3) as (cluster, _):
            cluster.apply([0], [1])
            with unittest.mock.patch.object(cluster_router, "cut", side_effect=MemoryError):
                self.raises(edgebpf.NoMemory, "^the router has no memory for a batch, and no batch after 1 is taken$", cluster.apply, [0], [2])
            self.raises(edgebpf.NoMemory, "^the router has no memory", cluster.begin([0], [2]).result, SECONDS)
            self.assertEqual(cluster.pin().csr()[1].tolist(), [1])
        self.assertEqual(self.edges(), (1, [1]))

    def test_close_beside_others(self):
        """Whoever waits as the cluster is closed is told so: readers, runs, batches, a checkpoint, and another `close`."""
        with self.again(vertices=600, parts=3) as (cluster, engine):
            cluster.apply([0, 300], [1, 2])
            version, program, logged = cluster.pin(), edgebpf.assemble("ldxw r0, [r1+4]\nexit"), []
            cluster._router.loop.set_exception_handler(lambda _, context: logged.append(context))
            engine.most = SECONDS
            waiting = [outcome(*one) for one in ((version.csr,), (version.run, program), (cluster.checkpoint,), (cluster.apply, [0], [4]))]
            waiting.append(cluster.begin([0], [5]))
            # All of them have begun to wait.
            until(lambda: cluster._router.next == 3 and cluster._router._checkpointing.locked())
            time.sleep(0.05)
            begun = time.monotonic()
            closed = [outcome(cluster.close) for _ in range(2)]
            for one in waiting:
                self.raises(edgebpf.Closed, "^the cluster is closed$", one.result, SECONDS)
            self.assertEqual([one.result(SECONDS) for one in closed], [None] * 2)
            self.assertLess(time.monotonic() - begun, SECONDS / 3)
            for call in (version.csr, cluster.pin, cluster.checkpoint):
                self.raises(edgebpf.Closed, "^the cluster is closed$", call)
            gc.collect()
            self.assertEqual(logged, [])
            engine.most = 0.001
        # A batch that was under way is in doubt, and the folder is free.
        self.assertIn(self.edges(), [(1, [1, 2]), (3, [1, 4, 5, 2])])

    def test_close_beside_a_write(self):
        """After `close` no thread writes into the folder, which another process may have then."""
        with self.again(vertices=600, parts=2) as (cluster, _):
            cluster.apply([0, 300], [1, 2])
            part, written = cluster._router.journal._parts[0], []
            write = part.write_snapshot

            def slow(*given):
                written.append("begun")
                time.sleep(0.3)
                written.append(write(*given)[0])

            with unittest.mock.patch.object(part, "write_snapshot", slow):
                number = outcome(cluster.checkpoint)
                until(lambda: written)
                cluster.close()
            self.assertEqual(written, ["begun", 1])
            self.raises(edgebpf.Closed, "^the cluster is closed$", number.result, SECONDS)
        self.assertEqual(self.edges(), (1, [1, 2]))

    def test_close_with_a_full_room(self):
        """Who waits for room for a batch as the cluster is closed is told so."""
        with unittest.mock.patch("edgebpf.cluster.MOST_UNDER_WAY", 2), wild() as (cluster, engine):
            engine.held.extend(engine.placed)
            counts = [cluster.begin([0], [1]), cluster.begin([0], [2])]
            third = outcome(cluster.begin, [0], [3])
            time.sleep(0.05)
            self.assertFalse(third.done())
            cluster.close()
            for one in (*counts, third):
                self.raises(edgebpf.Closed, "^the cluster is closed$", one.result, SECONDS)

    def test_callbacks(self):
        """A callback of a future, which runs in the cluster's own thread, is refused what would wait for ever; it may close the cluster."""
        with wild() as (cluster, _):
            told = []

            def callback(_):
                for call in (cluster.pin, lambda: cluster.begin([0], [1]), version.csr):
                    try:
                        call()
                    except edgebpf.Error as error:
                        told.append(str(error))
                cluster.close()

            version, counts = cluster.pin(), cluster.begin([0], [2])
            counts.add_done_callback(callback)
            self.assertEqual(counts.result(SECONDS).added, 1)
            until(lambda: not cluster._router._thread.is_alive())
            if told:
                self.assertEqual([words[:40] for words in told], ["callbacks of a cluster's futures run in "] * 3)

    def test_a_fork(self):
        """A process that was forked has no cluster, and waits for nothing."""
        with wild() as (cluster, _):
            cluster.apply([0], [1])
            with warnings.catch_warnings():
                warnings.simplefilter("ignore")
                child = os.fork()
            if child == 0:
                signal.alarm(SECONDS)
                try:
                    cluster.apply([0], [2])
                except edgebpf.Closed:
                    cluster.close()
                    os._exit(0)
                finally:
                    os._exit(1)
            until(lambda: os.waitpid(child, os.WNOHANG)[0] == child)
            self.assertEqual(cluster.apply([0], [2]).version, 2)

    def test_a_pin_that_nobody_waits_for(self):
        """A Ctrl-C while a version is pinned leaves no pin, so that parts may forget."""
        with wild() as (cluster, _):
            self.addCleanup(signal.signal, signal.SIGALRM, signal.signal(signal.SIGALRM, signal.default_int_handler))
            cluster._router.soon(time.sleep, 0.4)
            signal.setitimer(signal.ITIMER_REAL, 0.1)
            self.raises(KeyboardInterrupt, "", cluster.pin)
            cluster.apply([0], [1])
            self.assertEqual(dict(cluster._router.pins), {})

    def test_batches_that_are_cancelled(self):
        """A batch whose future is cancelled is in effect or not, and those after it are."""
        with self.again(vertices=600, parts=3) as (cluster, engine):
            engine.held.append(engine.placed[0])
            counts = [cluster.begin([0, 300], [target, target]) for target in range(20)]
            self.assertTrue(all(one.cancel() for one in counts[::3]))
            engine.held.clear()
            self.assertEqual([counts[place].result(SECONDS).added for place in range(20) if place % 3], [2] * 13)
            version = cluster.pin()
            there = version.neighbours(0).tolist()
            self.assertEqual((version.neighbours(300).tolist(), [place for place in there if place % 3]), (there, [place for place in range(20) if place % 3]))
            self.assertEqual(version.number, len(there))
        self.assertEqual(self.edges(), (len(there), there * 2))

    def test_what_a_lost_part_told(self):
        """What a part told before it was lost does not count for the one that begins again, which tells of each batch itself."""
        patches = unittest.mock.patch.multiple(cluster_router, MESSAGES=1, MESSAGE_EDITS=1)
        with patches, self.again(vertices=600, parts=3) as (cluster, engine):
            parts, ask, free = cluster._router._parts, engine.ask, []

            async def asked(worker, method, *given):
                # The one that begins again gets one batch, and then waits.
                while method == "apply" and worker is engine.placed[-1] and given[1] > 1 and not free:
                    await asyncio.sleep(0.001)
                return await ask(worker, method, *given)

            engine.held.append(engine.placed[1])
            counts = [cluster.begin([0, 300], [target, target]) for target in range(3)]
            until(lambda: parts[0].done == parts[2].done == 3)
            with unittest.mock.patch.object(engine, "ask", asked):
                engine.placed[0].lost.append("lost")
                until(lambda: len(engine.placed) == 4)
                engine.held.clear()
                until(lambda: parts[1].done == 3 and counts[0].done())
                self.assertEqual((parts[0].own, cluster.pin().number, counts[1].done()), (1, 1, False))
                free.append("free")
                self.assertEqual([one.result(SECONDS) for one in counts], [edgebpf.Counts(number, 2, 0) for number in (1, 2, 3)])

    def test_losses_in_a_steady_stream(self):
        """A part that has had what was there when it was lost may be lost again, also if it never has all, since batches go on to come."""
        patches = unittest.mock.patch.multiple(cluster_router, MOST_LOSSES=1, MESSAGES=1, MESSAGE_EDITS=1, LOOK_SECONDS=0.005)
        with patches, self.again(vertices=600, parts=2) as (cluster, engine):
            waiting, told, part = [], [], cluster._router._parts[0]

            def stream(is_so):
                """Hands batches in until something is so, of which 20 are always under way."""
                while not is_so() or len(waiting) < 20:
                    self.assertIsNone(cluster._router.failure)
                    waiting.append(cluster.begin([0], [len(told) % 600]))
                    if len(waiting) > 20:
                        told.append(waiting.pop(0).result(SECONDS).version)
                    self.assertLess(len(told), 20_000)

            for loss in range(1, 5):
                part.handle.lost.append("lost")
                stream(lambda: len(engine.placed) == 2 + loss)
                stream(lambda: not part.losses)
            told += [one.result(SECONDS).version for one in waiting]
            self.assertEqual((told, len(engine.placed)), (list(range(1, len(told) + 1)), 6))

    def test_nothing_is_logged(self):
        """Where several things fail at once, one is told, and asyncio complains of none of the others."""
        logged = []
        with self.again(vertices=600, parts=3) as (cluster, engine):
            cluster._router.loop.set_exception_handler(lambda _, context: logged.append(context))
            engine.most = 0
            for _ in range(5):
                with unittest.mock.patch.object(cluster_router, "MESSAGE_EDITS", 1):
                    counts = [cluster.begin([0, 300], [target, target]) for target in range(30)]
                    for part in cluster._router._parts:
                        if part.is_live:
                            part.handle.lost.append("lost")
                    self.assertEqual(sum(one.result(SECONDS).added for one in counts), 60 if cluster.pin().number == 30 else 0)
            with unittest.mock.patch.object(engine, "place", no_memory), unittest.mock.patch.object(cluster_router, "PATIENCE_SECONDS", 0):
                version = cluster.pin()
                for part in cluster._router._parts:
                    part.handle.lost.append("lost")
                until(lambda: all(part.is_over for part in cluster._router._parts))
                self.raises(edgebpf.PartLost, "^part . was lost", version.csr)
            gc.collect()
        self.assertEqual(logged, [])

    def test_an_answer_that_is_cancelled(self):
        """A part whose answer the engine gives up is lost, and its task does not end with it."""
        class Actor:
            @staticmethod
            async def apply():
                raise asyncio.CancelledError

        class Client:
            class loop:
                asyncio_loop = None

        async def ask():
            Client.loop.asyncio_loop = asyncio.get_running_loop()
            engine = cluster_engine.Engine.__new__(cluster_engine.Engine)
            engine._client = Client
            future = unittest.mock.Mock(status="finished")
            await engine.ask(cluster_engine.Handle(Actor, future, "here"), "apply")

        self.raises(cluster_engine.Gone, "^the client was closed$", asyncio.run, ask())

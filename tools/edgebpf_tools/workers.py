"""The worker processes of Dask's distributed scheduler, which have the parts of a graph. What Dask says meanwhile is not the user's."""
import atexit
import contextlib
import logging
import multiprocessing.util
import os
import signal
import time
import warnings

from edgebpf_tools import ends, packages
from edgebpf_tools.refusal import Refusal

# How long a scheduler has to answer, its own workers to start, and workers to stop what they do.
ANSWER_SECONDS, START_SECONDS, STOP_SECONDS = 10, 60, 5
NEEDED = "a worker needs the Python package edgebpf of release {}, with numpy and cffi: apt-get install python3-edgebpf"


@contextlib.contextmanager
def told_of_dask(what):
    """An error of Dask or of a cluster, in one line."""
    from asyncio import CancelledError

    try:
        yield
    except (Exception, CancelledError) as error:
        words = " ".join(str(error).split()) or type(error).__name__
        raise Refusal(f"{what}: {words[:300]}") from None


@contextlib.contextmanager
def silenced(log):
    """What is written to standard error by this process and those that it starts goes to a file."""
    logging.disable(logging.CRITICAL)
    warnings.simplefilter("ignore")
    kept = os.dup(2)
    with open(log, "wb") as file:
        os.dup2(file.fileno(), 2)
    try:
        yield
    finally:
        os.dup2(kept, 2)
        os.close(kept)


@contextlib.contextmanager
def client_of(options, folder):
    """A client of the scheduler that was named, or of one on this machine with as many worker processes. All of them can have a part."""
    distributed = packages.distributed()
    client = None
    try:
        if options.scheduler:
            client = client_elsewhere(distributed.Client, options.scheduler)
        else:
            # A signal waits until the workers have started, as half of them cannot be ended.
            with ends.Signals.held():
                client = client_here(distributed.Client, options, folder)
        with told_of_dask(f"the scheduler {options.scheduler} has no worker" if options.scheduler else "the workers did not start"):
            client.wait_for_workers(1 if options.scheduler else options.processes, timeout=ANSWER_SECONDS)
        refuse_other_releases(client)
        yield client
    finally:
        with ends.Signals.held():
            close(client)


def refuse_other_releases(client):
    """Refuses workers that lack the package, or have it of another release. All import it at the same time."""
    release = packages.edgebpf().__version__
    with told_of_dask("the workers do not answer"):
        # A lambda is sent as code: workers elsewhere have no module of this folder.
        found = client.run(lambda: __import__("edgebpf.cluster").__version__ if __import__("cffi") else None, on_error="return")
    for worker, answer in found.items():
        if answer != release:
            has = f"has {answer}" if isinstance(answer, str) else f"says: {' '.join(str(answer).split())[:200]}"
            raise Refusal(f"{NEEDED.format(release)}; {worker} {has}")


def client_elsewhere(client_class, address):
    dask = packages.package("dask", "Dask", "python3-distributed")
    dask.config.set({"distributed.comm.timeouts.connect": f"{ANSWER_SECONDS}s"})
    with told_of_dask(f"the scheduler {address} does not answer"):
        return client_class(address, timeout=ANSWER_SECONDS)


def client_here(client_class, options, folder):
    """A client of a scheduler of its own, if its workers start in time: Dask would wait for them without end."""

    def give_up(*_):
        raise Refusal(f"its workers did not start within {START_SECONDS} seconds")

    signal.signal(signal.SIGALRM, give_up)
    signal.alarm(START_SECONDS)
    try:
        with told_of_dask("no scheduler can be started here"):
            return client_class(
                n_workers=options.processes, threads_per_worker=1, processes=True, dashboard_address=None, direct_to_workers=True,
                local_directory=f"{folder}/workers", memory_limit=0, silence_logs=logging.CRITICAL,
            )
    finally:
        signal.alarm(0)


def close(client):
    """Ends a client, and its workers where they are its own."""
    with contextlib.suppress(Exception):
        if client:
            client.close(timeout=STOP_SECONDS)
    deadline = time.monotonic() + STOP_SECONDS
    while (processes := multiprocessing.active_children()) and time.monotonic() < deadline:
        for process in processes:
            process.kill()
            process.join(STOP_SECONDS)
    # Python would wait for workers that Dask starts again. They end by themselves, as this process does.
    atexit.unregister(multiprocessing.util._exit_function)

"""What `send_signals.py` starts: each program of this repository at some tenths of a second of work, and what it reads and writes."""
import dataclasses
import json
import os
import pathlib
import random
import subprocess
import time

HERE = pathlib.Path(__file__).resolve().parent
TOP = HERE.parent.parent
TOOLS = TOP / "tools"
PYTHON = "/usr/bin/python3"
VERTICES, EDITS, EDGES = 65_536, 65_536, 120_000
START_SECONDS = 30

FUNCTION = "#include <edgebpf.h>\nu64 score(struct edge *edge, u64 length) { return common_neighbours(edge->source, edge->target); }\n"
TARGET = "code t 16 61100400000000009500000000000000"
LONG = "mov r0, 0\n" + "add r0, 1\n" * 300 + "exit\n"
# The verifier's state before each line takes long to write.
EXPLAINED = "ldxw r0, [r1+4]\n" + "".join(f"mov r{2 + place % 4}, r0\nadd r0, {place}\n" for place in range(2_000)) + "exit\n"
RUNS = f"program t 16\nldxw r0, [r1+4]\nexit\nend\nprogram long 16\n{LONG}end\npin a\nrun t a sum -\nrun long a sum -\nrun t a max -\nrebase\npin b\nrun t b min -\n"
# What `uses_of_package.py` does.
PACKAGE_USES = ("run", "threads", "steps", "push", "live", "connect", "algorithms", "updates", "files", "compile")


@dataclasses.dataclass
class Use:
    """A program at work. `kind` is how it takes a signal: as a program without a handler, a companion, the service, or a script of Python."""

    name: str
    kind: str
    words: list
    # A file that it reads from standard input, or by a pipe.
    reads: pathlib.Path | None = None
    is_piped: bool = False
    # Files and folders that are whole or absent; and those that grow by whole commands.
    makes: tuple = ()
    grows: tuple = ()
    # A service never ends by itself, and standard output is not the same each time.
    is_service: bool = False
    says_same: bool = True
    # How long it may take to end after a signal.
    patience: float = 3.0
    # What it calls itself, if that is not its first word.
    called: str = ""

    @property
    def program(self):
        return self.called or pathlib.Path(self.words[0]).name


def write_inputs(folder):
    """The files that programs read."""
    chance = random.Random(1)
    pairs = lambda count: [(chance.randrange(VERTICES), chance.randrange(VERTICES)) for _ in range(count)]
    batches = ["batch A\n" + "".join(f"+ {source} {target}\n" for source, target in pairs(EDITS)) + "end\n" for _ in range(2)]
    edges = pairs(EDGES)
    (folder / "graph").write_text(f"graph {VERTICES}\n" + "".join(batches))
    (folder / "small").write_text("graph 4096\nbatch A\n" + "".join(f"+ {source % 4096} {target % 4096}\n" for source, target in edges[:60_000]) + "end\n")
    (folder / "script").write_text(f"graph {VERTICES}\n" + "".join(batches) + RUNS)
    (folder / "typed").write_text(f"graph {VERTICES}\n{batches[0]}" + RUNS)
    (folder / "edges").write_text("".join(f"{source} {target}\n" for source, target in edges))
    (folder / "far").write_text("".join(f"{source * 10**9} {target * 10**9}\n" for source, target in edges))
    (folder / "score.c").write_text(FUNCTION)
    (folder / "target").write_text(TARGET + "\n")
    (folder / "assembled").write_text("ldxw r0, [r1+4]\nexit\n")
    (folder / "text").write_text(EXPLAINED)
    (folder / "batch").write_text("".join(f"{source} {target}\n" for source, target in edges[:65_000]))


def programs(inputs, program):
    """The proved program, which reads a file or a pipe, with one worker and four."""
    return [
        Use(f"edgebpf, {'pipe' if is_piped else 'file'}, {workers}", "program", [program, "--workers", workers], inputs / "script", is_piped)
        for is_piped in (False, True) for workers in ("1", "4")
    ]


def companions(inputs):
    compiled = [TOOLS / "edgebpf-c", inputs / "score.c", "score", "16"]
    explained = [TOOLS / "edgebpf-explain", "16"]
    imported = [TOOLS / "edgebpf-import", "--quiet"]
    spread = [TOOLS / "edgebpf-spread", inputs / "small", inputs / "target", "--processes", "2"]
    return [
        Use("edgebpf-c", "companion", compiled),
        Use("edgebpf-c --on", "companion", [*compiled, "--on", inputs / "small"]),
        Use("edgebpf-c --html", "companion", [*compiled, "--html", "page"], makes=("page",)),
        Use("edgebpf-explain", "companion", explained, inputs / "text"),
        Use("edgebpf-explain --html", "companion", [*explained, "--html", "page"], inputs / "text", makes=("page",)),
        Use("edgebpf-import", "companion", [*imported, inputs / "edges"]),
        Use("edgebpf-import --table", "companion", [*imported, "--table", "table", inputs / "far"], makes=("table",)),
        Use("edgebpf-import --store", "companion", [*imported, "--store", inputs / "edges"]),
        Use("edgebpf-shell", "companion", [TOOLS / "edgebpf-shell", "--journal", "journal"], inputs / "typed", grows=("journal",)),
        Use("edgebpf-spread", "companion", spread, patience=10.0),
    ]


def of_service(inputs):
    """The service, what an administrator does with its folder, and clients of one that serves."""
    client, serve, folder = [TOOLS / "edgebpf-client", "--url", f"unix:{inputs}/socket"], TOOLS / "edgebpf-serve", inputs / "served"
    return [
        Use("edgebpf-serve", "service", [serve, "--data", inputs / "own", "--listen", f"unix:{inputs}/own.socket"], is_service=True, patience=5.0),
        Use("edgebpf-serve backup", "companion", [serve, "backup", folder, "copy"], makes=("copy",)),
        Use("edgebpf-serve restore", "companion", [serve, "restore", inputs / "copy", "made"], makes=("made",)),
        Use("edgebpf-serve check", "companion", [serve, "check", inputs / "copy"]),
        Use("edgebpf-client run", "companion", [*client, "run", "target"], says_same=False),
        Use("edgebpf-client batch", "companion", [*client, "batch"], inputs / "batch", says_same=False),
        Use("edgebpf-client watch", "companion", [*client, "watch", "target"], is_service=True, says_same=False),
    ]


def of_package(inputs, names=PACKAGE_USES):
    """Uses of the Python package by a script."""
    return [Use(f"python: {name}", "script", [PYTHON, HERE / "uses_of_package.py", name, inputs]) for name in names]


def all_uses(inputs, program):
    return [*programs(inputs, program), *companions(inputs), *of_service(inputs), *of_package(inputs)]


def is_up(service, socket):
    """Waits until a service answers."""
    asked = [TOOLS / "edgebpf-client", "--url", f"unix:{socket}", "status"]
    until = time.monotonic() + START_SECONDS
    while time.monotonic() < until and service.poll() is None:
        if socket.exists() and subprocess.run(asked, stdin=subprocess.DEVNULL, capture_output=True).returncode == 0:
            return
        time.sleep(0.1)
    raise SystemExit("send_signals: the service did not start")


def begin_service(inputs):
    """A service with a graph and a program, a copy of its folder, and a second folder of a service with the same graph."""
    socket, serve = inputs / "socket", TOOLS / "edgebpf-serve"
    client = [TOOLS / "edgebpf-client", "--url", f"unix:{socket}"]
    words = [serve, "--data", inputs / "served", "--vertices", str(VERTICES), "--listen", f"unix:{socket}"]
    service = subprocess.Popen(words, stdin=subprocess.DEVNULL, stderr=subprocess.DEVNULL, process_group=0)
    try:
        is_up(service, socket)
        with open(inputs / "batch") as batch:
            subprocess.run([*client, "batch"], stdin=batch, check=True, stdout=subprocess.DEVNULL)
        subprocess.run([*client, "program", "target", inputs / "assembled"], check=True, stdout=subprocess.DEVNULL)
        for copy in ("copy", "own"):
            told = subprocess.run([serve, "backup", inputs / "served", inputs / copy], check=True, capture_output=True).stdout
            assert json.loads(told)["version"] >= 1
    except BaseException:
        service.kill()
        raise
    return service


def environment(given, folder):
    """Of a trial: its own folder of temporary files, and the programs that were given."""
    package = os.pathsep.join([str(TOP / "bindings" / "python"), *filter(None, [os.environ.get("PYTHONPATH")])])
    return {
        **os.environ, "PYTHONPATH": package, "EDGEBPF": str(given.program), "EDGEBPF_EXPLAIN": str(given.explain), "TMPDIR": str(folder),
        "PYTHONDONTWRITEBYTECODE": "1",
    }

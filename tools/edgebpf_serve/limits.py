"""The limits of a service. Those that its options change are in `Options`, and the others are constants."""
import dataclasses

FORMAT = 1
MOST_VERTICES = 1 << 24
FIRST_VERTICES = 65_536
MOST_EDITS = 65_536
# A recovery applies so many edits together, of batches whose results are known.
MOST_MERGED = 1 << 22
# For so many batches their ids are known.
MOST_IDS = 100_000
EDIT_BYTES = 8
# In an edit's source this bit takes the edge out.
REMOVE = 1 << 31
MOST_BATCHES = 4_096
MOST_COLUMNS = 8
COLUMN_NUMBER_BYTES = 8
# A run of so many units at most is made in the loop, where no other thread has to be woken, if its program is short: a step may go on
# for a block of 64 edges after its budget.
SMALL_UNITS, SHORT_BOUND = 100_000, 1_500
# So many numbers of an answer are turned into text at once: others wait meanwhile.
PIECE = 8_192
# So much of a snapshot is written between two syncs.
SYNCED_BYTES = 1 << 20
# Rows of the journal that one commit deletes, when a snapshot has made them superfluous, and their bytes.
CUT_ROWS, CUT_BYTES = 500, 1 << 20
CUT_SECONDS, BEAT_SECONDS = 0.05, 1.0
# Seconds after which a snapshot or a reserve that failed is tried again.
AGAIN_SECONDS = 30.0
# How the memory of a kept version is estimated. A store keeps the lists of a range of vertices in pages, of so many vertices below so many edges a
# vertex, and copies each page with an edit; of a list of more edges than some it copies a part.
RANGE_VERTICES, RANGES_LOOKED_AT = 256, 16
PAGE_VERTICES, PAGE_EDGES, PAGE_BYTES, COPIED_EDGES = (64, 32, 16, 8, 4), (9, 40, 96, 256), 1_024, 1_024
MOST_KEPT_VERSIONS = 1_000
# What watchers can look back on: sources of edits, and groups of batches.
MOST_CHANGED, MOST_GROUPS = 4_000_000, 10_000
HEARTBEAT_SECONDS, LOOK_SECONDS = 15.0, 1.0
# Of a standing query so many last events are kept for its other subscribers, each with its version.
KEPT_EVENTS = 4
# A standing query over the whole graph rests for so many times as long as it took.
REST = 3
# Of a connection whose request takes longer nothing more is read until it is answered, so that no requests pile up in memory.
PAUSE_SECONDS = 0.05
HEAD_SECONDS, BODY_SECONDS, UNREAD_SECONDS, SWEEP_SECONDS, IDLE_SECONDS = 10.0, 60.0, 60.0, 5.0, 75.0
MOST_STEPS, MOST_REACHED = 64, 1_000_000
# Numbers of edges in one answer, and bytes of the bodies of all requests under way.
MOST_NUMBERS, MOST_BODY_BYTES = 1 << 22, 256 << 20
MOST_PAGE, PAGE = 100_000, 10_000
# Vertices around one, and how many these are if a request does not say.
MOST_AROUND, AROUND = 100, 24
# Programs that were brought with a request, and stay verified for the next one.
MOST_TRIED = 32
MOST_TEXT = 1 << 18
# Files that are open beside connections.
OTHER_FILES = 64
WRONG_FOLDER, NO_ROOM_YET, WRONG_DISK = 2, 1, 70
ROLES = ("read", "write", "program", "admin")


@dataclasses.dataclass
class Options:
    """What the options of the command say. Each is also an environment variable: EDGEBPF_SERVE_ and its name in capitals."""

    data: str = ""
    vertices: int | None = None
    listen: str = "127.0.0.1:8080"
    open: bool = False
    mirror: bool = False
    readers: int = 3
    seconds: float = 10.0
    units: int = 10**10
    body: int = 4 << 20
    connections: int = 2_000
    rebase_batches: int = 1_000
    rebase_edits: int = 1 << 22
    snapshot_bytes: int = 64 << 20
    snapshot_batches: int = 50_000
    kept_bytes: int = 128 << 20
    reserve_bytes: int = 64 << 20
    queue_batches: int = 1_024
    queue_bytes: int = 64 << 20
    group_batches: int = 256
    group_bytes: int = 4 << 20
    programs: int = 1_000
    columns: int = 100
    scan_seconds: float = 1.0


# name: least and greatest value, and what the option is for. `open` and `mirror` have no value.
HELP = {
    "data": (None, None, "the folder of the graph; it is made at the first start"),
    "vertices": (1, MOST_VERTICES, f"how many vertices the graph has, {FIRST_VERTICES} if it is new and this is not said; the folder keeps it"),
    "listen": (None, None, "ADDRESS:PORT, or unix:PATH"),
    "open": (None, None, "serve without tokens at an address that other machines reach"),
    "mirror": (None, None, "keep the edges turned round, too: for lists of in-neighbours, and for /watch of programs that ask of their edge's target"),
    "readers": (1, 64, "threads that make runs"),
    "seconds": (0.01, 3_600.0, "the most seconds of a run"),
    "units": (1, 2**63, "the most units of a run, of which an instruction is one"),
    "body": (1 << 16, 1 << 30, "the most bytes of a request, but for a column's"),
    "connections": (1, 100_000, "the most connections at once"),
    "rebase_batches": (1, MOST_BATCHES, "batches between two rebases"),
    "rebase_edits": (1, 1 << 32, "edits between two rebases"),
    "snapshot_bytes": (1, 1 << 40, "bytes of batches between two snapshots"),
    "snapshot_batches": (1, 1 << 40, "batches between two snapshots"),
    "kept_bytes": (0, 1 << 40, "about how much memory older versions may take, so that they can be asked again"),
    "reserve_bytes": (0, 1 << 40, "a file of so many bytes is given up when the disk is full, so that a snapshot can make room"),
    "queue_batches": (1, 1 << 20, "batches that may wait"),
    "queue_bytes": (1, 1 << 40, "bytes of batches that may wait"),
    "group_batches": (1, 1 << 16, "batches that one sync covers at most"),
    "group_bytes": (1, 1 << 30, "bytes of batches that one sync covers at most"),
    "programs": (1, 100_000, "programs in all; each takes 100 KB for each thread that runs it"),
    "columns": (1, 10_000, "columns in all"),
    "scan_seconds": (0.0, 3_600.0, "the least seconds between two events of /watch that read the whole graph"),
}
# Of each token, and of all clients together if there are no tokens.
TOKEN_LIMITS = {"runs": 16, "batches": 10_000, "programs": 1_000, "watches": 100, "columns": 100, "seconds": None, "units": None}
# Of these a token has no more than the service's option of the same name, and as much if it has no own.
RUN_LIMITS = ("seconds", "units")

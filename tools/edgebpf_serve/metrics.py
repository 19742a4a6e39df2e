"""What is counted, for /metrics."""
import prometheus_client as prometheus

SECONDS = (0.0005, 0.001, 0.002, 0.005, 0.01, 0.02, 0.05, 0.1, 0.2, 0.5, 1, 2, 5, 10)
SIZES = (1, 2, 4, 8, 16, 32, 64, 128, 256)


class Meter:
    """The counts of a service. A `Meter` belongs to one service, so a process may have several."""

    def __init__(self):
        self.registry = prometheus.CollectorRegistry()
        self.groups = self._histogram("group_batches", "new batches of a group, which one sync covers", SIZES)
        self.sync = self._histogram("sync_seconds", "from the first batch of a group to its sync", SECONDS)
        self.apply = self._histogram("apply_seconds", "from the sync of a group to its answers", SECONDS)
        self.snapshots = self._histogram("snapshot_seconds", "a snapshot, with its file", SECONDS)
        self.requests = self._histogram("request_seconds", "a request, without /watch", SECONDS, ["route"])
        self.statuses = self._counter("requests", "requests by their route and status", ["route", "status"])
        self.refused = self._counter("refused", "requests refused by a limit", ["limit"])
        self.ended = self._counter("runs_ended", "runs that were ended before they were done", ["by"])
        self.runs = self._counter("runs", "runs that were done")
        self.full_disk = self._counter("disk_full", "groups that a full disk refused")
        self.events = self._counter("watch_events", "events of /watch", ["kind"])

    def _histogram(self, name, words, buckets, labels=()):
        return prometheus.Histogram(f"edgebpf_{name}", words, labels, registry=self.registry, buckets=buckets)

    def _counter(self, name, words, labels=()):
        return prometheus.Counter(f"edgebpf_{name}", words, labels, registry=self.registry)

    def gauges(self, values):
        """Adds numbers that are asked for when /metrics is read: (name, words, call)."""
        for name, words, call in values:
            prometheus.Gauge(f"edgebpf_{name}", words, registry=self.registry).set_function(call)

    # What the engine calls.

    def group(self, count, synced, applied):
        self.groups.observe(count)
        self.sync.observe(synced)
        self.apply.observe(applied)

    def full(self):
        self.full_disk.inc()

    def snapshot(self, seconds):
        self.snapshots.observe(seconds)

    def text(self):
        return prometheus.generate_latest(self.registry)

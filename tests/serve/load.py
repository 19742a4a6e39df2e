"""Many clients in one thread, which send requests that were made before: what is measured is the service, and not its clients."""
import selectors
import socket
import time


class Connection:
    """One client, which sends its next request when the answer of the one before is whole."""

    def __init__(self, port, requests):
        self.socket = socket.create_connection(("127.0.0.1", port))
        self.socket.setsockopt(socket.IPPROTO_TCP, socket.TCP_NODELAY, 1)
        self.socket.setblocking(False)
        self.requests, self.left, self.buffer, self.took = iter(requests), b"", b"", []

    def send(self):
        """Sends the next request, and returns whether there was one."""
        data = next(self.requests, None)
        if data is None:
            return False
        self.begun = time.perf_counter()
        self.left = data
        self.flush()
        return True

    def flush(self):
        while self.left:
            try:
                sent = self.socket.send(self.left)
            except BlockingIOError:
                return
            self.left = self.left[sent:]

    def read(self):
        """Whether an answer is whole now."""
        data = self.socket.recv(1 << 20)
        if not data:
            raise ConnectionError("the service closed the connection")
        self.buffer += data
        end = self.buffer.find(b"\r\n\r\n")
        if end < 0:
            return False
        at = self.buffer.find(b"Content-Length: ") + 16
        length = int(self.buffer[at:self.buffer.find(b"\r\n", at)])
        if len(self.buffer) < end + 4 + length:
            return False
        if not self.buffer.startswith(b"HTTP/1.1 20"):
            raise ValueError(self.buffer[:500])
        self.took.append(time.perf_counter() - self.begun)
        self.buffer = self.buffer[end + 4 + length:]
        return True


def drive(connections, seconds):
    """Has clients send until so many seconds are over, or all have sent all."""
    chosen, until, open_ones = selectors.DefaultSelector(), time.perf_counter() + seconds, 0
    for one in connections:
        open_ones += one.send()
        chosen.register(one.socket, selectors.EVENT_READ | selectors.EVENT_WRITE if one.left else selectors.EVENT_READ, one)
    while open_ones and time.perf_counter() < until:
        for key, events in chosen.select(0.5):
            one = key.data
            if events & selectors.EVENT_WRITE:
                one.flush()
            if events & selectors.EVENT_READ and one.read() and not one.send():
                open_ones -= 1
            chosen.modify(one.socket, selectors.EVENT_READ | (selectors.EVENT_WRITE if one.left else 0), one)
    chosen.close()
    for one in connections:
        one.socket.close()
    return [took for one in connections for took in one.took]


def request(method, path, body=b"", media="application/octet-stream", heads=""):
    return f"{method} {path} HTTP/1.1\r\nHost: localhost\r\nContent-Type: {media}\r\n{heads}Content-Length: {len(body)}\r\n\r\n".encode() + body


def share(took, part):
    """The time that a part of all stayed below, in milliseconds."""
    return 1e3 * sorted(took)[min(len(took) - 1, int(part * len(took)))] if took else 0.0

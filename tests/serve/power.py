"""What a loss of power leaves of a folder, by the records of record_writes.c: all that was synced, and of the rest some pieces of 512 bytes."""
import pathlib
import struct

HEAD = struct.Struct("<8s5Q")
PIECE = 512


class File:
    """A file: what is on the disk for sure, and what was written since."""

    def __init__(self, body=b""):
        self.body, self.later = bytearray(body), []

    def sync(self):
        for change in self.later:
            self.do(*change)
        self.later = []

    def do(self, offset, data):
        """Writes data, or with None gives the file a length."""
        if data is None:
            del self.body[offset:]
            self.body.extend(bytes(max(0, offset - len(self.body))))
            return
        self.body.extend(bytes(max(0, offset - len(self.body))))
        self.body[offset:offset + len(data)] = data

    def lose(self, chance, share):
        """Some of what was written since stays."""
        for offset, data in self.later:
            if data is None:
                if chance.random() < share:
                    self.do(offset, None)
                continue
            for place in range(0, len(data), PIECE):
                if chance.random() < share:
                    self.do(offset + place, data[place:place + PIECE])
        self.later = []


class Folder:
    """The files of a folder by their inodes, its names that are on the disk for sure, and how these were changed since."""

    def __init__(self, path):
        self.path, self.files, self.names, self.later = path, {}, {}, []
        for found in path.rglob("*") if path.exists() else ():
            if found.is_file() and not found.name.endswith("-shm"):
                self.names[str(found)] = found.stat().st_ino
                self.files[found.stat().st_ino] = File(found.read_bytes())

    def follow(self, log):
        """Takes over records, of which the last one may be cut off."""
        data, place = log.read_bytes() if log.exists() else b"", 0
        while place + HEAD.size <= len(data):
            kind, inode, offset, *lengths = HEAD.unpack_from(data, place)
            ends = [place + HEAD.size]
            for length in lengths:
                ends.append(ends[-1] + length)
            if ends[-1] > len(data):
                break
            body, name, other = (data[ends[k]:ends[k + 1]] for k in range(3))
            self.take(kind[:1], (inode, offset, body), (name.decode(), other.decode()))
            place = ends[-1]

    def take(self, kind, change, names):
        inode, offset, body = change
        if kind in (b"W", b"T"):
            self.files.setdefault(inode, File()).later.append((offset, body if kind == b"W" else None))
        elif kind == b"S":
            self.files.setdefault(inode, File()).sync()
        elif kind == b"C":
            # Inodes are used again.
            self.files[inode] = File()
            self.later.append(("name", names[0], inode))
        elif kind == b"R":
            self.later.append(("rename", *names))
        elif kind == b"U":
            self.later.append(("unlink", names[0], None))
        else:
            self.name(len(self.later))

    def name(self, count):
        """The first changes of names are on the disk."""
        for what, name, other in self.later[:count]:
            if what == "name":
                self.names[name] = other
            elif what == "rename":
                self.names[other] = self.names.pop(name)
            else:
                self.names.pop(name, None)
        del self.later[:count]

    def lose_power(self, chance, target):
        """Makes the folder again as a loss of power leaves it."""
        self.name(chance.randrange(len(self.later) + 1))
        share = chance.choice([0, 0, 0.3, 0.7, 1])
        for inode in set(self.names.values()):
            self.files[inode].lose(chance, share)
        target.mkdir(parents=True)
        for name, inode in self.names.items():
            path = target / pathlib.Path(name).relative_to(self.path)
            path.parent.mkdir(parents=True, exist_ok=True)
            path.write_bytes(self.files[inode].body)

"""What a power cut leaves of files, from the records that disk.c wrote of the calls which changed them."""
import os
import struct
from pathlib import Path

HEAD = struct.Struct("<5Q")
# The disk writes a sector as a whole.
SECTOR = 512
# How much of what was not synced is on the disk: nothing, all of it, any sectors of it, all up to some byte of some write,
# or that with other bytes for the rest of that write, as far as the file had bytes there.
KINDS = ("none", "all", "some", "torn", "garbage")


class Image:
    """A file: its bytes on the disk if power is cut now, and the changes since it was synced."""

    def __init__(self, durable=None):
        self.durable, self.waiting, self.is_named = durable or b"", [], durable is not None

    def sync(self):
        for change in self.waiting:
            self.durable = changed(self.durable, *change)
        self.waiting = []

    def after(self, kind, random):
        """The bytes after a power cut."""
        content, changes = self.durable, self.waiting
        if kind == "all":
            kept = changes
        elif kind == "none" or not changes:
            kept = []
        elif kind == "some":
            kept = [part for change in changes for part in sectors(*change) if random.random() < 0.5]
        else:
            last = random.randrange(len(changes))
            offset, data = changes[last]
            kept = changes[:last]
            if data is not None:
                size = random.randrange(len(data) + 1)
                rest = min(len(data), max(size, len(self.durable) - offset)) - size
                kept = kept + [(offset, data[:size] + (random.randbytes(rest) if kind == "garbage" else b""))]
        for change in kept:
            content = changed(content, *change)
        return content


def changed(content, offset, data):
    """A content with data written at an offset, or cut or extended to it if there are none."""
    filled = content + bytes(max(0, offset - len(content)))
    return filled[:offset] if data is None else filled[:offset] + data + content[offset + len(data):]


def sectors(offset, data):
    """The parts of a change that are written as a whole."""
    if data is None:
        return [(offset, None)]
    ends = [*range(offset - offset % SECTOR + SECTOR, offset + len(data), SECTOR), offset + len(data)]
    starts = [offset, *ends[:-1]]
    return [(start, data[start - offset:end - offset]) for start, end in zip(starts, ends)]


def records(path):
    """The records of a log: kind, file, offset and data."""
    content, at = Path(path).read_bytes(), 0
    while at + HEAD.size <= len(content):
        kind, file, offset, size, _ = HEAD.unpack_from(content, at)
        at += HEAD.size
        yield chr(kind), file, offset, content[at:at + size]
        at += size


class Disk:
    """The files of a device whose power is cut at some record: first those of a folder, as they are."""

    def __init__(self, files):
        self.images, self.names, self.answers = {name: Image(content) for name, content in files.items()}, {}, 0

    def take(self, kind, file, offset, data):
        """Goes on by one record."""
        if kind == "o":
            self.names[file] = os.path.basename(data.decode())
            self.images.setdefault(self.names[file], Image())
        elif kind == "a":
            self.answers += 1
        elif kind == "f":
            for image in self.images.values():
                image.is_named = True
        elif kind == "s":
            self.images[self.names[file]].sync()
        else:
            self.images[self.names[file]].waiting.append((offset, None if kind == "t" else data))

    def after(self, kind, random):
        """The files after a power cut. If nothing is kept that was not synced, a file whose folder was not synced since
        it was made is gone."""
        return {
            name: image.after(kind, random) for name, image in self.images.items() if image.is_named or kind != "none"
        }

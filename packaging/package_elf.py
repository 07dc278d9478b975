"""What a built program needs of a system, read out of its ELF file: machine, libraries, and the version of the C library."""
import re
import struct

DYNAMIC, LOAD = 2, 1  # kinds of segments
NEEDED, STRINGS, VERSIONS, VERSIONS_COUNT = 1, 5, 0x6FFFFFFE, 0x6FFFFFFF  # tags of the dynamic segment


class Elf:
    """`libraries` are names such as libc.so.6, and `versions` those of their symbols, such as GLIBC_2.34."""

    def __init__(self, content):
        """Raises ValueError where the content is no program for Linux of 64 bits."""
        if content[:6] != b"\x7fELF\x02\x01":
            raise ValueError("it is no ELF program of 64 bits")
        self.content = content
        try:
            self.machine, = struct.unpack_from("<H", content, 18)
            self.segments = list(self.read_segments())
            self.dynamic = list(self.read_dynamic())
            self.libraries = sorted(self.string(value) for tag, value in self.dynamic if tag == NEEDED)
            self.versions = sorted(self.read_versions())
        except (struct.error, IndexError, KeyError, UnicodeDecodeError) as fault:
            raise ValueError(f"its ELF tables can't be read: {fault}") from None

    def read_segments(self):
        """Kind, place in the file, address and size of each."""
        start, = struct.unpack_from("<Q", self.content, 32)
        size, count = struct.unpack_from("<HH", self.content, 54)
        for at in range(start, start + size * count, size):
            kind, _, place, address, _, length = struct.unpack_from("<IIQQQQ", self.content, at)
            yield kind, place, address, length

    def read_dynamic(self):
        for kind, place, _, length in self.segments:
            if kind == DYNAMIC:
                yield from struct.iter_unpack("<QQ", self.content[place:place + length])

    def place(self, address):
        """Where an address of the running program is in the file."""
        return [place + address - start for kind, place, start, length in self.segments
                if kind == LOAD and start <= address < start + length][0]

    def string(self, at):
        start = self.place(dict(self.dynamic)[STRINGS]) + at
        return self.content[start:self.content.index(b"\0", start)].decode()

    def read_versions(self):
        """The versions that the symbols of each library must have."""
        tags = dict(self.dynamic)
        at = self.place(tags[VERSIONS]) if VERSIONS in tags else 0
        for _ in range(tags.get(VERSIONS_COUNT, 0)):
            _, count, _, first, step = struct.unpack_from("<HHIII", self.content, at)
            one = at + first
            for _ in range(count):
                _, _, _, name, more = struct.unpack_from("<IHHII", self.content, one)
                yield self.string(name)
                one += more
            at += step

    @property
    def glibc(self):
        """The oldest glibc that it runs with, as (2, 34); None if it needs none."""
        found = [re.fullmatch(r"GLIBC_(\d+)\.(\d+)(?:\.\d+)?", version) for version in self.versions]
        return max(((int(one[1]), int(one[2])) for one in found if one), default=None)

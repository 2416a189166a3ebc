"""What an executable or a shared library of Linux on x86-64 says of itself: its name, the libraries that it needs with the
newest version that it needs of each, and the symbols that it offers.
"""

import struct

DYNAMIC, DYNSYM, VERNEED = 6, 11, 0x6FFFFFFE
NEEDED, SONAME = 1, 14
UNDEFINED, GLOBAL = 0, 1


class Elf:
    """A file of this form, read from its bytes."""

    def __init__(self, data):
        if data[:6] != b"\x7fELF\x02\x01":
            raise ValueError("it is no ELF file of 64 bits")
        self.data = data
        at, = struct.unpack_from("<Q", data, 0x28)
        size, count = struct.unpack_from("<HH", data, 0x3A)
        # of each section: type, place, length, the section that it refers to
        self.sections = [self.section(at + size * number) for number in range(count)]

    def section(self, at):
        _, kind, _, _, place, length, link = struct.unpack_from("<IIQQQQI", self.data, at)
        return kind, place, length, link

    def rows(self, kind, form):
        """The rows of each section of a kind, each with the place of its texts."""
        for found, place, length, link in self.sections:
            if found == kind:
                for at in range(place, place + length, struct.calcsize(form)):
                    yield self.sections[link][1], struct.unpack_from(form, self.data, at)

    def text(self, at):
        return self.data[at:self.data.index(b"\0", at)].decode()

    def dynamic(self, wanted):
        return [self.text(texts + value) for texts, (tag, value) in self.rows(DYNAMIC, "<QQ") if tag == wanted]

    def needed(self):
        """The names of the libraries that are loaded with it."""
        return self.dynamic(NEEDED)

    def own_name(self):
        return next(iter(self.dynamic(SONAME)), "")

    def offered(self):
        """The symbols that others may use, without those that name a version."""
        named = (self.text(texts + row[0]) for texts, row in self.rows(DYNSYM, "<IBBHQQ")
                 if row[0] and row[1] >> 4 == GLOBAL and row[1] & 15 and row[3] != UNDEFINED)
        return sorted(named)

    def versions(self):
        """The versions that it needs of each library, by the library's name."""
        found = {}
        for kind, place, _, link in self.sections:
            at = place
            while kind == VERNEED:
                _, count, name, aux, following = struct.unpack_from("<HHIII", self.data, at)
                texts, inner = self.sections[link][1], at + aux
                for _ in range(count):
                    _, _, _, version, step = struct.unpack_from("<IHHII", self.data, inner)
                    found.setdefault(self.text(texts + name), []).append(self.text(texts + version))
                    inner += step
                if not following:
                    break
                at += following
        return found

    def least_glibc(self):
        """The least version of the C library that has all that it needs, as a pair of numbers."""
        names = [version for it in self.versions().values() for version in it if version.startswith("GLIBC_2.")]
        return max(((2, int(name.split(".")[1])) for name in names), default=(2, 0))

"""Reads programs, objects and libraries of 64-bit ELF: sections, symbols, and the versions of the C library that they need."""
import struct
from collections import namedtuple

Section = namedtuple("Section", "name kind flags offset size link entry")
Symbol = namedtuple("Symbol", "name is_defined is_global kind")
SYMTAB, DYNSYM, VERNEED, NOBITS = 2, 11, 0x6FFFFFFE, 8
FILE = 4


class NoElf(Exception):
    """The bytes are no 64-bit ELF file of little endian."""


class Elf:
    def __init__(self, data):
        if data[:6] != b"\x7fELF\x02\x01":
            raise NoElf
        self.data = data
        self.kind, self.machine = struct.unpack_from("<HH", data, 16)
        at, size, count, names = *struct.unpack_from("<Q", data, 40), *struct.unpack_from("<HHH", data, 58)
        raw = [struct.unpack_from("<IIQQQQIIQQ", data, at + number * size) for number in range(count)]
        texts = raw[names] if raw else None
        self.sections = [Section(self.text(texts, it[0]), it[1], it[2], it[4], it[5], it[6], it[9]) for it in raw]

    def text(self, table, at):
        """A text of a table of texts, which ends with a byte 0."""
        begin = (table.offset if isinstance(table, Section) else table[4]) + at
        return self.data[begin:self.data.index(b"\0", begin)].decode(errors="replace")

    def section(self, name):
        """The bytes of the first section of this name, or None."""
        found = next((it for it in self.sections if it.name == name and it.kind != NOBITS), None)
        return found and self.data[found.offset:found.offset + found.size]

    def symbols(self, kind=SYMTAB):
        """The symbols of the object, or of its interface (DYNSYM)."""
        for table in self.sections:
            if table.kind == kind:
                for at in range(table.offset, table.offset + table.size, table.entry):
                    name, info, _, where = struct.unpack_from("<IBBH", self.data, at)
                    if name and info & 15 != FILE:
                        yield Symbol(self.text(self.sections[table.link], name), where != 0, info >> 4 != 0, info & 15)

    def needed_versions(self):
        """The versions of the libraries that it is linked with, such as GLIBC_2.34."""
        found = set()
        for table in self.sections:
            if table.kind == VERNEED:
                at, more = table.offset, True
                while more:
                    _, count, _, first, after = struct.unpack_from("<HHIII", self.data, at)
                    each = at + first
                    for _ in range(count):
                        _, _, _, name, step = struct.unpack_from("<IHHII", self.data, each)
                        found.add(self.text(self.sections[table.link], name))
                        each += step
                    at, more = at + after, after != 0
        return found

    def is_dynamic(self):
        """Whether another program loads it: it names a loader."""
        return self.section(".interp") is not None

    def comment(self):
        """What compilers and linkers say of themselves."""
        return (self.section(".comment") or b"").decode(errors="replace")


def read(path):
    with open(path, "rb") as it:
        return Elf(it.read())


def members(data):
    """The files of an archive of objects: the name and the bytes of each."""
    if data[:8] != b"!<arch>\n":
        return
    at = 8
    while at + 60 <= len(data):
        name, size = data[at:at + 16].decode().rstrip(), int(data[at + 48:at + 58])
        yield name, data[at + 60:at + 60 + size]
        at += 60 + size + size % 2

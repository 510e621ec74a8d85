"""ELF32 objects, as far as records are made of them: the text, its symbols, and what refers to them.

System V ELF and the RISC-V ELF psABI name the fields.
"""
from __future__ import annotations

import struct
from dataclasses import dataclass
from typing import Iterator

SYMTAB, RELA = 2, 4
ALLOC, EXECINSTR = 2, 4
GLOBAL, WEAK = 1, 2
HIDDEN, INTERNAL = 2, 1
LABEL, FUNCTION = 0, 2

# Relocations of the psABI that jump: they take no address. Nor does the second half of a pair, which names the first.
BRANCH, JAL, CALL, CALL_PLT, PCREL_LO12_I, PCREL_LO12_S = 16, 17, 18, 19, 24, 25
JUMPING = {BRANCH, JAL, CALL, CALL_PLT, PCREL_LO12_I, PCREL_LO12_S}


@dataclass(frozen=True)
class Section:
    """A section's header, without what is not asked for, and its bytes."""

    kind: int
    flags: int
    link: int
    info: int
    content: bytes


@dataclass(frozen=True)
class Symbol:
    """A symbol: `section` is 0 where it is undefined."""

    name: bytes
    value: int
    size: int
    binding: int
    kind: int
    visibility: int
    section: int

    @property
    def exposed(self) -> bool:
        """Whether other modules may take its address: it is global or weak, and its visibility does not hide it."""
        return self.binding in (GLOBAL, WEAK) and self.visibility not in (HIDDEN, INTERNAL)


@dataclass(frozen=True)
class Relocation:
    """What refers to a symbol, in the section of number `within`."""

    within: int
    offset: int
    kind: int
    symbol: Symbol
    addend: int


class Object:
    """An object of 32 bits, the lowest byte first, that an assembler has made."""

    def __init__(self, content: bytes):
        start, = struct.unpack_from("<I", content, 32)
        count, = struct.unpack_from("<H", content, 48)
        self.sections = [section_of(content, start + 40 * number) for number in range(count)]
        table = next(it for it in self.sections if it.kind == SYMTAB)
        names = self.sections[table.link].content
        self.symbols = [symbol_of(fields, names) for fields in struct.iter_unpack("<IIIBBH", table.content)]

    def relocations(self) -> Iterator[Relocation]:
        """What refers to symbols from sections that are loaded."""
        for table in self.sections:
            if table.kind == RELA and self.sections[table.info].flags & ALLOC:
                for offset, info, addend in struct.iter_unpack("<IIi", table.content):
                    yield Relocation(table.info, offset, info & 255, self.symbols[info >> 8], addend)

    def texts(self) -> list[int]:
        """The numbers of the sections of code, of which an assembler makes one at least, be it empty."""
        return [number for number, it in enumerate(self.sections) if it.flags & EXECINSTR]


def section_of(content: bytes, at: int) -> Section:
    """The section of the header at this place; one that takes no place in the file has no bytes."""
    _, kind, flags, _, offset, size, link, info, _, _ = struct.unpack_from("<10I", content, at)
    return Section(kind, flags, link, info, b"" if kind == 8 else content[offset:offset + size])


def symbol_of(fields: tuple[int, ...], names: bytes) -> Symbol:
    """The symbol of these fields."""
    name, value, size, info, other, section = fields
    return Symbol(names[name:names.index(b"\0", name)], value, size, info >> 4, info & 15, other & 3, section)

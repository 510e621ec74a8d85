"""Objects as the companions read them: records, and what `cfi` writes of texts, data, symbols and relocations.

ELF32 is read here by hand, as `cfi` writes it and docs/FORMATS.md says, so that no library is wanted for it.
"""
from __future__ import annotations

import struct
from dataclasses import dataclass

from formats import Unfit, data_of

KINDS = ("call", "tail", "return", "switch", "import")


@dataclass(frozen=True)
class Function:
    """A record of a function: its place and its length are bytes of the text."""
    name: str
    place: int
    length: int


@dataclass(frozen=True)
class Records:
    """The records of an object: its functions, the kind of each indirect jump, and the cells of late imports."""
    functions: tuple[Function, ...]
    kinds: tuple[str, ...]
    cells: tuple[tuple[int, str], ...]  # where each begins in the data, and the name of its import

    def place_of(self, offset: int) -> str:
        """A place of the text as `function+offset`."""
        for it in self.functions:
            if it.place <= offset < it.place + it.length:
                return it.name + (f"+{offset - it.place:#x}" if offset > it.place else "")
        return f".text+{offset:#x}"


def sections_of(data: bytes) -> dict[str, bytes]:
    """The sections of an ELF32 object by their names (System V ABI, chapter 4), of equal names the first."""
    if len(data) < 52 or data[:6] != b"\x7fELF\x01\x01":
        raise Unfit("an object is wanted, and this is no ELF32 file: `cfi list FILE` tells its fault")
    table, count, names = struct.unpack_from("<I", data, 32)[0], *struct.unpack_from("<HH", data, 48)
    found = {}
    try:
        headers = [struct.unpack_from("<10I", data, table + 40 * it) for it in range(count)]
        for name, _, _, _, place, size, *_ in headers:
            start = headers[names][4] + name
            found.setdefault(data[start:data.index(0, start)].decode(), data[place:place + size])
    except (struct.error, IndexError, ValueError) as fault:
        raise Unfit("an object is damaged: `cfi list FILE` tells its fault") from fault
    return found


def read_records(name: str) -> Records:
    """The records of the object in the file of this name; none where it has none, as what a compiler makes."""
    section = sections_of(data_of(name)).get(".cfi_records")
    try:
        return records_in(section) if section is not None else Records((), (), ())
    except (struct.error, IndexError, UnicodeDecodeError) as fault:
        raise Unfit(f"{name} has damaged records: `cfi verify` tells their fault") from fault


def records_in(section: bytes) -> Records:
    """The records of their section."""
    (_, count, jumps), at = struct.unpack_from("<3I", section), 12
    functions, kinds, cells = [], [], []
    for _ in range(count):
        place, length, _, _, size = struct.unpack_from("<5I", section, at)
        functions.append(Function(section[at + 20:at + 20 + size].decode(), place, length))
        at += 20 + (size + 3) // 4 * 4
    for _ in range(jumps):
        kind, fields = struct.unpack_from("<2I", section, at)
        kinds.append(KINDS[kind])
        if KINDS[kind] == "import":
            cell, size = struct.unpack_from("<2I", section, at + 8)
            cells.append((cell, section[at + 16:at + 16 + size].decode()))
        at += 8 + 4 * fields
    return Records(tuple(functions), tuple(kinds), tuple(cells))


@dataclass(frozen=True)
class Symbol:
    """A symbol of an object that `cfi` has written: `text`, `data`, `absolute` or `undefined`, and its value there."""
    name: str
    local: bool
    place: str
    value: int


@dataclass(frozen=True)
class Reloc:
    """A relocation: its field's place, its kind (RISC-V ELF psABI), its symbol, if any, and its addend."""
    offset: int
    kind: int
    symbol: int
    addend: int


@dataclass(frozen=True)
class Parts:
    """What placing an object takes."""
    data: bytes
    symbols: tuple[Symbol, ...]
    text_relocs: tuple[Reloc, ...]
    data_relocs: tuple[Reloc, ...]


def read_parts(name: str) -> Parts:
    """The parts of an object that `cfi instrument` or `cfi link` has written, whose sections stand in their order."""
    found = sections_of(data_of(name))
    order = [it for it in found if it]
    places = {0: "undefined", 0xfff1: "absolute"}
    places.update({order.index(it) + 1: it[1:] for it in (".text", ".data") if it in order})
    names, symbols = found.get(".strtab", b""), []
    for start, value, _, info, _, section in struct.iter_unpack("<IIIBBH", found.get(".symtab", b"")):
        text = names[start:names.index(0, start)].decode()
        symbols.append(Symbol(text, info >> 4 == 0, places.get(section, "undefined"), value))
    relocs = [tuple(Reloc(offset, info & 255, info >> 8, addend) for offset, info, addend in
                    struct.iter_unpack("<IIi", found.get(it, b""))) for it in (".rela.text", ".rela.data")]
    return Parts(found.get(".data", b""), tuple(symbols), *relocs)

"""From a word of an object to the line that it was made of: of a source of `cfi asm`, or of a compiler's.

An object of `cfi asm` and of `cfi instrument` keeps the order of its source, so the source and the listing are read
side by side: a statement is one word, a short form up to two, a masked access six and a check 14. A compiler's object
says its lines in a line table, which pyelftools reads.
"""
from __future__ import annotations

import io
import re
from dataclasses import dataclass

from formats import Unfit, data_of
from places import ask

UNITS = {"load": 6, "store": 6, "check": 14}
ACCESSES = {"load": ("lb", "lh", "lw", "lbu", "lhu"), "store": ("sb", "sh", "sw"), "check": ("jalr", "jr", "ret")}
BRANCHES = ("beq", "bne", "blt", "bge", "bltu", "bgeu")
# Relocations of the RISC-V ELF psABI in line tables: how many bytes, whether what stands there counts, and the sign.
FIELDS = {1: (4, False, 1), 33: (1, True, 1), 34: (2, True, 1), 35: (4, True, 1),
          37: (1, True, -1), 38: (2, True, -1), 39: (4, True, -1)}
SHORT = {"nop": "addi", "mv": "addi", "j": "jal", "jr": "jalr", "ret": "jalr", "la": "auipc"}


@dataclass(frozen=True)
class Statement:
    """A statement of a source: its line, its mnemonic and its operands."""
    line: int
    name: str
    operands: str


def statements(text: str) -> list[Statement]:
    """The statements of a source, or of a listing, that make words of text."""
    found, in_text = [], True
    for number, line in enumerate(text.split("\n"), 1):
        row = re.sub(r"^[\w.$]+:", "", line.split("#")[0].strip()).strip()
        name, _, operands = row.partition(" ")
        if name in (".text", ".data"):
            in_text = name == ".text"
        elif name and in_text and (name == ".word" or not name.startswith(".")):
            found.append(Statement(number, name, operands.strip()))
    return found


def loads_wide(operands: str) -> bool:
    """Whether `li` is two instructions: LUI and ADDI."""
    value = int(operands.split(",")[-1].strip(), 0)
    value -= 2 ** 32 if value >= 2 ** 31 else 0
    return not -2048 <= value <= 2047 and value % 4096 != 0


def size_of(it: Statement, name: str, mark: str) -> int:
    """The words of a statement whose first one the listing shows with this name and mark; 0 where it is not of it."""
    if mark:
        return UNITS[mark] if it.name in ACCESSES[mark] else 0
    if it.name in ("call", "tail", "auipc") and name == "jal":
        return 1
    if it.name in ("call", "tail", "la"):
        return 2 if name == "auipc" else 0
    if it.name == "li":
        return 1 + loads_wide(it.operands)
    if it.name in BRANCHES and name in BRANCHES:
        return 1 + (name != it.name)
    return int(it.name == ".word" or name == SHORT.get(it.name, it.name))


def lines_of(source: str, listing: list[str], where: str) -> list[int]:
    """For each word of a listing the line of the source of which it was made; `where` is the source's name."""
    found, rest = [], iter(statements(source))
    words = [re.fullmatch(r"(\S+).* # [0-9a-f]{8} ?(\w*)", row) for row in listing[1:]]
    for it in rest:
        if len(found) >= len(words):
            found.append(0)
            break
        name, mark = words[len(found)].groups()
        size = size_of(it, name, mark)
        if size == 0:
            raise Unfit(f"{where}: line {it.line} is not what the object has there; give what the object was made of")
        if it.name == "auipc" and name == "jal":  # of a listing: a call by two words, which became one jump
            next(rest, None)
        found += [it.line] * size
    if len(found) != len(words):
        raise Unfit(f"{where} has not the length of the object; give what the object was made of")
    return found


def bases_of(elf) -> dict[int, int]:
    """Where each section of text begins when these are joined in the order of their numbers."""
    found, end = {}, 0
    for number, it in enumerate(elf.iter_sections()):
        if it["sh_flags"] & 4:  # SHF_EXECINSTR
            found[number], end = end, end + it["sh_size"]
    return found


def fill(data: bytearray, at: int, kind: int, value: int):
    """Applies a relocation of a debug section, where its kind is one of FIELDS."""
    if kind in FIELDS:
        size, keeps, sign = FIELDS[kind]
        old = int.from_bytes(data[at:at + size], "little") if keeps else 0
        data[at:at + size] = ((old + sign * value) % 2 ** (8 * size)).to_bytes(size, "little")


def patched(data: bytes):
    """A compiler's object with its debug sections relocated, which pyelftools leaves as they are for RISC-V."""
    try:
        from elftools.elf.elffile import ELFFile  # pylint: disable=import-outside-toplevel
    except ImportError as fault:
        raise Unfit("line tables are read by pyelftools: install it (Debian: python3-pyelftools)") from fault
    elf, filled = ELFFile(io.BytesIO(data)), bytearray(data)
    bases = bases_of(elf)
    for section in elf.iter_sections():
        if section.name.startswith(".rela.debug"):
            place, symbols = elf.get_section(section["sh_info"])["sh_offset"], elf.get_section(section["sh_link"])
            for it in section.iter_relocations():
                symbol = symbols.get_symbol(it["r_info_sym"])
                value = symbol["st_value"] + bases.get(symbol["st_shndx"], 0) + it["r_addend"]
                fill(filled, place + it["r_offset"], it["r_info_type"], value)
    return ELFFile(io.BytesIO(bytes(filled)))


def line_in_table(data: bytes, offset: int) -> str | None:
    """The `file:line` of a place of a compiler's object, by its line table; nothing where it has none."""
    if b".debug_line\0" not in data:
        return None
    dwarf, best = patched(data).get_dwarf_info(relocate_dwarf_sections=False), None
    for unit in dwarf.iter_CUs():
        program = dwarf.line_program_for_CU(unit)
        states = [it.state for it in program.get_entries() if it.state is not None]
        for now, after in zip(states, states[1:]):
            if now.address <= offset < after.address and not now.end_sequence:
                first = 0 if program["version"] >= 5 else 1
                best = f"{program['file_entry'][now.file - first].name.decode()}:{now.line}"
    return best


def source_line(file: str, offset: int, source: str) -> str:
    """What stands in `source`, of which the object `file` was made, for the word at this offset."""
    data, listing = data_of(source), ask("list", file)
    if offset >= 4 * (len(listing) - 1):
        return f"{source}: its end"
    if not data.startswith(b"\x7fELF"):
        text = data.decode("utf-8", "replace")
        line = lines_of(text, listing, source)[offset // 4]
        return f"{source}:{line}: {text.splitlines()[line - 1].strip()}"
    rows = ask("list", source)
    line = lines_of("\n".join(rows), listing, source)[offset // 4]
    table = line_in_table(data, 4 * (line - 2))
    return table or f"{source}: {rows[line - 1]}"

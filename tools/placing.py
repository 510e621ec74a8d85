"""Modules at the places that a report tells, ready to be run again: their instructions and their data.

Relocations are those of the RISC-V ELF psABI: S is the symbol's address, A the addend, P the field's own address. Of an
instruction its operand in the listing is replaced, so no instruction is encoded or decoded here.
"""
from __future__ import annotations

import re
from dataclasses import dataclass, field

from formats import Loaded, PlanModule, Unfit
from objects import Parts, Reloc, read_parts, read_records
from places import ask

BRANCH, JAL, PCREL_HIGH, HIGH, WORD, ADD, SUB = 16, 17, 23, 26, 1, 35, 39
PCREL_LOW, LOW = (24, 25), (27, 28)


@dataclass
class Placed:
    """A module at its place."""
    name: str
    begin: int
    data_base: int
    policy: int
    rows: list[str]  # its instructions, as listed
    marks: list[str]  # and for each `check`, `load`, `store` or nothing
    parts: Parts
    cells: tuple[tuple[int, str], ...]  # of late imports: where each begins in the data, and the name
    data: bytearray = field(default_factory=bytearray)

    def own(self, symbol) -> int | None:
        """The address of a symbol that the module defines."""
        base = {"text": self.begin, "data": self.data_base, "absolute": 0}.get(symbol.place)
        return None if base is None else (base + symbol.value) % 2 ** 32

    def function(self, name: str) -> int | None:
        """The address of its global function of a name."""
        found = [it for it in self.parts.symbols if it.name == name and not it.local and it.place == "text"]
        return self.own(found[0]) if found else None


def high(value: int) -> int:
    """The upper 20 bits that go with a signed lower part."""
    return (value + 0x800) % 2 ** 32 >> 12


def low(value: int) -> int:
    """The lower 12 bits with their sign."""
    return (value + 0x800) % 4096 - 0x800


def address_of(placed: Placed, before: list[Placed], number: int) -> int:
    """The address of a symbol by its number: the module's own, or that of the first before it that exports it."""
    if number == 0:
        return 0
    symbol = placed.parts.symbols[number]
    found = placed.own(symbol)
    for module in [placed, *before]:
        for it in module.parts.symbols:
            if found is None and it.name == symbol.name and it.name and not it.local:
                found = module.own(it)
    if found is None:
        raise Unfit(f"{placed.name} needs {symbol.name}, which no module before it has: give the files that were run")
    return found


def with_operand(row: str, value: str) -> str:
    """An instruction with this in the place of its immediate or its displacement."""
    name, operands = row.split(" ", 1)
    if "(" in operands:
        return f"{name} {re.sub(r',[^,(]*[(]', f',{value}(', operands)}"
    return f"{name} {','.join([*operands.split(',')[:-1], value])}"


def relocated(placed: Placed, before: list[Placed], it: Reloc, highs: dict[int, int]) -> str:
    """The instruction of a relocation, filled in; `highs` has the displacements of the PCREL_HI20 so far."""
    row, at = placed.rows[it.offset // 4], placed.begin + it.offset
    value = (address_of(placed, before, it.symbol) + it.addend) % 2 ** 32
    if it.kind in (BRANCH, JAL):
        return with_operand(row, f".{(value - at + 2 ** 31) % 2 ** 32 - 2 ** 31:+}")
    if it.kind in (HIGH, PCREL_HIGH):
        return with_operand(row, hex(high(value if it.kind == HIGH else value - at)))
    if it.kind in LOW + PCREL_LOW:
        return with_operand(row, str(low(value if it.kind in LOW else highs[value - it.addend])))
    raise Unfit(f"{placed.name} has a relocation of kind {it.kind} in its text: give what `cfi instrument` made")


def fill(placed: Placed, before: list[Placed]):
    """Applies the module's relocations."""
    highs = {placed.begin + it.offset: address_of(placed, before, it.symbol) + it.addend - placed.begin - it.offset
             for it in placed.parts.text_relocs if it.kind == PCREL_HIGH}
    for it in placed.parts.text_relocs:
        placed.rows[it.offset // 4] = relocated(placed, before, it, highs)
    for it in placed.parts.data_relocs:
        old = int.from_bytes(placed.data[it.offset:it.offset + 4], "little")
        value = address_of(placed, before, it.symbol) + it.addend
        new = {WORD: value, ADD: old + value, SUB: old - value}[it.kind]
        placed.data[it.offset:it.offset + 4] = (new % 2 ** 32).to_bytes(4, "little")


def place(module: PlanModule, line: Loaded, before: list[Placed]) -> Placed:
    """A module where its line in a report says that it lies."""
    listed = [re.fullmatch(r"(.*) # [0-9a-f]{8} ?(\w*)", row) for row in ask("list", module.file)[1:]]
    parts = read_parts(module.file)
    rows, marks = [it[1] for it in listed], [it[2] for it in listed]
    data = bytearray(parts.data)
    cells = read_records(module.file).cells
    placed = Placed(module.name, 4 * line.base, line.data, line.policy, rows, marks, parts, cells, data)
    fill(placed, before)
    return placed


def place_all(modules: list[PlanModule], lines: tuple[Loaded, ...]) -> list[Placed]:
    """The modules of a report, in load order."""
    found: list[Placed] = []
    for module, line in zip(modules, lines):
        found.append(place(module, line, found))
    return found
